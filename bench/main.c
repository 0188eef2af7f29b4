// The benchmark: its tables, and the file that the plot is made from.
#include <stdio.h>

#include "bench.h"

static const char about_days[] =
    "What a desk's day and a planner's day cost in the store and in SQLite %s in memory: microseconds of processor\n"
    "time each, medians. A desk's day is a session of 24 writes and 24 inserts, a planner's one that locates such a\n"
    "day and reads the 24 entries found; in SQLite each is a transaction. calls: to the store. Every call to the store\n"
    "tests the whole store first, SQLite tests nothing.\n";

static const char about_work[] =
    "Single requests in the store and in SQLite: microseconds of processor time each, medians. request: in one call;\n"
    "by step: by a put and a call a step, calls being how many that makes; each with its ratio to SQLite.\n";

static const char about_calls[] =
    "Nanoseconds of processor time a call, medians. pass: one sum over the store's words, in vector code; scalar:\n"
    "the same without vectors; test: the test of the whole store alone, which every call here starts with; put and\n"
    "step: those of a read; commit: that of a session that has read.\n";

static const char about_recovers[] =
    "Recover of so many sessions, each with a write and three inserts: microseconds of processor time, medians, beside\n"
    "the test alone and beside an abort of each session. ratio: the aborts to the recover.\n";

// How far the program is, on standard error: what comes next of how many parts.
enum { PARTS = 7 };

static void next_part(const char *what)
{
    static int part;
    part++;
    fprintf(stderr, "[%d/%d] %s\n", part, PARTS, what);
}

// A table for a small store and one for the largest.
static void print_both(const char *what, void (*print)(uint32_t records))
{
    for (uint32_t records = 256; records <= MAX_RECORDS; records *= 16) {
        char part[80];
        snprintf(part, sizeof part, "%s in SQLite and in a store of %u records", what, records);
        next_part(part);
        printf("\n");
        print(records);
    }
}

int main(int argc, char **argv)
{
    must(argc == 2, "the one argument, a file for the rows of the plot");
    sqlite_start();
    print_machine();
    printf("\n");
    printf(about_days, sqlite_version());
    print_both("whole days", print_days);
    printf("\n%s", about_work);
    print_both("single requests", print_work);
    printf("\n%s\n", about_calls);
    next_part("calls on full stores of four sizes");
    print_growth(argv[1]);
    printf("\n");
    next_part("calls on other stores");
    print_mixes();
    printf("\n%s\n", about_recovers);
    next_part("recovers");
    print_recovers();
    return 0;
}
