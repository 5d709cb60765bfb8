/* The shipped x86-64 library as a program of its own, for a machine on which it runs under the kit's emulator.
 *
 * Usage: shipped FILE SIZE SIZE SIZE. The file is memory shared with the caller: three areas of these sizes, for block, notes and output.
 * Each is mapped between guards that can be neither read nor written. For each seven numbers read from standard input (0 to measure,
 * 1 to write, 2 to format; place and length in each area) the call is made and its answer written to standard output. A byte outside the areas ends the program.
 */
#include "rudignals.h"
#include <fcntl.h>
#include <stdlib.h>
#include <sys/mman.h>
#include <unistd.h>

enum { GUARD = 65536 };

static uint8_t *area(int file, size_t size, size_t from)
{
    uint8_t *all = mmap(NULL, size + 2 * GUARD, PROT_NONE, MAP_PRIVATE | MAP_ANONYMOUS | MAP_NORESERVE, -1, 0);
    if (all == MAP_FAILED)
        exit(3);
    if (mmap(all + GUARD, size, PROT_READ | PROT_WRITE, MAP_SHARED | MAP_FIXED, file, (off_t)from) == MAP_FAILED)
        exit(3);
    return all + GUARD;
}

int main(int count, char **words)
{
    uint8_t *areas[3];
    size_t from = 0;
    uint64_t asked[7];
    int file = count == 5 ? open(words[1], O_RDWR) : -1;
    if (file < 0)
        return 3;
    for (int i = 0; i < 3; i++) {
        size_t size = strtoull(words[2 + i], NULL, 10);
        areas[i] = area(file, size, from);
        from += size;
    }
    while (read(0, asked, sizeof asked) == sizeof asked) {
        const uint8_t *options = areas[0] + asked[1], *notes = areas[1] + asked[3];
        uint8_t *output = areas[2] + asked[5];
        uint64_t answer = asked[0] == 0 ? rudignals_measure(options, asked[2], notes, asked[4])
            : asked[0] == 1 ? rudignals_write(options, asked[2], notes, asked[4], output, asked[6])
            : rudignals_format(options, asked[2], notes, asked[4], output, asked[6]);
        if (write(1, &answer, sizeof answer) != sizeof answer)
            return 3;
    }
    return 0;
}
