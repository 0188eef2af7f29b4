// Points at which a program is killed, to see what it leaves (restart.c). They are counted as they are
// passed; at the one that was chosen the program kills itself with a signal that nothing can catch.
//
// Beside those that the program names there is one at each step of writing a file: the program is linked so
// that write, fsync and rename in its own files come here first (--wrap of the linker; see the Makefile).
#ifndef POINTS_H
#define POINTS_H

// Counts from now on, and kills the program at the point of this number, the first one being 1; at 0 it does
// not.
void points_start(unsigned kill_at);

void point(void);

#endif
