// Lines of a text and numbers in them: what convert and calls share.
#ifndef LINES_H
#define LINES_H

#include <stdint.h>
#include <stdio.h>

enum { LINE_ROOM = 256 };

// Reads the next line, without its end: 1; or 0 at the end, or where the file cannot be read. A line that is too long
// for the room, or has a byte 0, becomes "?".
int read_line(FILE *file, char text[LINE_ROOM]);

// Reads a number below 2^32 of one to `most` digits: what stands behind it, or NULL.
const char *take_number(const char *at, int most, uint32_t *number);

#endif
