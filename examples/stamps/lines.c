#include "lines.h"

#include <string.h>

int read_line(FILE *file, char text[LINE_ROOM])
{
    size_t length = 0;
    int byte, is_text = 1;
    while ((byte = getc(file)) != EOF && byte != '\n') {
        if (length + 1 == LINE_ROOM || byte == 0) {
            is_text = 0;
        } else {
            text[length++] = (char)byte;
        }
    }
    text[length] = 0;
    if (!is_text) {
        strcpy(text, "?");
    }
    return byte != EOF || length > 0 || !is_text;
}

const char *take_number(const char *at, int most, uint32_t *number)
{
    uint64_t n = 0;
    int count = 0;
    for (; *at >= '0' && *at <= '9' && count < most; at++, count++) {
        n = 10 * n + (uint64_t)(*at - '0');
    }
    *number = (uint32_t)n;
    return count == 0 || n > UINT32_MAX ? NULL : at;
}
