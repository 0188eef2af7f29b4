// Scripts of calls with their answers, days of cards among them, played on a store.
#ifndef SCRIPTS_H
#define SCRIPTS_H

// Plays the named files and prints each line whose answer is another, then how many files, lines and
// differences there were. Where journals is not NULL, the journal of each store is written: the first to the
// file of this name with -1.jnl behind it, the next to -2.jnl, and so on; a store of which there is nothing
// to write has none. The exit status: 0, 1 where there are differences, 2 where a file cannot be read or
// written.
int play_scripts(int count, char **names, const char *journals);

#endif
