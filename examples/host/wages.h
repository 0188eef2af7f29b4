// A toy of the wages program: a database of its own, which is one file, with what it has decided of each of
// its runs. In life it is another program, maybe on another machine; a host needs two things of it. It
// decides a run once, and it has its decision on the disk before it tells it.
#ifndef WAGES_H
#define WAGES_H

#include <stdint.h>

enum decision { UNDECIDED, YES, NO, NOT_READ };

// What stands in the database of a run; NOT_READ where the file cannot be read.
enum decision wages_decision(const char *path, uint32_t run);

// The host says that the store will commit what it has for this run. The first time it is decided, and
// written down; asked again the wages program answers the same. NOT_READ where the file cannot be read or
// written.
enum decision wages_decide(const char *path, uint32_t run);

#endif
