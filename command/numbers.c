/* Numbers as a person types and reads them. */
#include "numbers.h"

bool read_number(const char *text, size_t length, uint64_t *number) {
    uint64_t value = 0, digit;
    size_t i;
    for (i = 0; i < length; i++) {
        if (text[i] < '0' || text[i] > '9')
            return false;
        digit = (uint64_t)(text[i] - '0');
        if (value > (UINT64_MAX - digit) / 10)
            return false;
        value = value * 10 + digit;
    }
    if (length > 0)
        *number = value;
    return length > 0;
}

static int hex_digit(char letter) {
    if (letter >= '0' && letter <= '9')
        return letter - '0';
    if (letter >= 'A' && letter <= 'F')
        return letter - 'A' + 10;
    return letter >= 'a' && letter <= 'f' ? letter - 'a' + 10 : -1;
}

bool read_byte(const char *text, uint8_t *byte) {
    int high = hex_digit(text[0]), low = high < 0 ? -1 : hex_digit(text[1]);
    if (low >= 0)
        *byte = (uint8_t)(high * 16 + low);
    return low >= 0;
}

char *in_thousands(uint64_t number, char room[GROUPED]) {
    char *at = room + GROUPED - 1;
    int digits = 0;
    *at = '\0';
    do {
        if (digits > 0 && digits % 3 == 0)
            *--at = ',';
        *--at = (char)('0' + number % 10);
        number /= 10;
        digits++;
    } while (number > 0);
    return at;
}
