#include "hex.h"

int hex_digit(int c)
{
    if (c >= '0' && c <= '9')
        return c - '0';
    if (c >= 'a' && c <= 'f')
        return c - 'a' + 10;
    if (c >= 'A' && c <= 'F')
        return c - 'A' + 10;
    return -1;
}

bool hex_bytes(const char *word, uint8_t *bytes)
{
    for (; word[0] != 0; word += 2) {
        int high = hex_digit(word[0]), low = high < 0 ? -1 : hex_digit(word[1]);
        if (low < 0)
            return false;
        *bytes++ = (uint8_t)(high << 4 | low);
    }
    return true;
}
