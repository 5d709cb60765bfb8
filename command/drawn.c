/* What is drawn, in memory until it is whole: it is written in one piece, so that a screen does not flicker. */
#define _POSIX_C_SOURCE 200809L
#include "drawn.h"

bool open_sheet(struct sheet *sheet) {
    *sheet = (struct sheet){NULL, NULL, 0};
    sheet->out = open_memstream(&sheet->bytes, &sheet->length);
    return sheet->out != NULL;
}

bool close_sheet(struct sheet *sheet) {
    bool well = !ferror(sheet->out);
    return fclose(sheet->out) == 0 && well;
}
