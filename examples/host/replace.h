// A file written whole, or left as it was.
#ifndef REPLACE_H
#define REPLACE_H

#include <stddef.h>

// Writes a new file beside the old one (the name with .new behind it), which then takes its name: where this
// fails, and after a power cut, the name has the old bytes or the new ones, each whole. When it answers 1 the
// new ones are on the disk. 0 where it failed; errno says why.
int replace_file(const char *path, const unsigned char *bytes, size_t count);

// Frees; errno stays.
void free_and_keep_reason(void *memory);

#endif
