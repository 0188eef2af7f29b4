// bench/stamps: how long a conversion takes each way, beside the C library's localtime_r and mktime under the same rule
// of summer time, for base offset 60. Times are processor time, medians of several runs, each the mean over minutes
// spread over the years of its row.
#include <stdint.h>
#include <stdio.h>
#include <stdlib.h>
#include <time.h>

#include "local_stamps.h"

enum { BASE = 60, RUNS = 21, COUNT = 20011 };

static const char rule[] = "CET-1CEST,M3.5.0/2,M10.5.0/3";

// The UTC minutes of a row, in no order of time, and the stamps of each for both sides.
static uint32_t minutes[COUNT];
static uint8_t stamps[COUNT][LOCAL_STAMP_BYTES];
static struct tm broken[COUNT];

static void must(int holds, const char *what)
{
    if (!holds) {
        fprintf(stderr, "bench/stamps: failed: %s\n", what);
        exit(1);
    }
}

static double now(void)
{
    struct timespec t;
    clock_gettime(CLOCK_PROCESS_CPUTIME_ID, &t);
    return (double)t.tv_sec * 1e9 + (double)t.tv_nsec;
}

static time_t seconds_of(uint32_t utc)
{
    return (time_t)utc * 60;
}

static int is_same(const struct tm *t, const uint8_t *s)
{
    return t->tm_year + 1900 == (int)local_stamp_year(s) && t->tm_mon + 1 == s[LOCAL_STAMP_MONTH] &&
           t->tm_mday == s[LOCAL_STAMP_DAY] && t->tm_hour == s[LOCAL_STAMP_HOUR] &&
           t->tm_min == s[LOCAL_STAMP_MINUTE] && (t->tm_isdst > 0) == (s[LOCAL_STAMP_MARK] == LOCAL_STAMP_SUMMER);
}

// Minutes spread evenly from one up to another.
static void fill(uint32_t from, uint32_t until)
{
    for (uint32_t k = 0; k < COUNT; k++) {
        uint64_t place = (uint64_t)k * 7919 % COUNT; // 7,919 shares no factor with the count
        minutes[k] = from + (uint32_t)((until - from) * place / COUNT);
        time_t seconds = seconds_of(minutes[k]);
        must(local_stamp_of_utc(BASE, minutes[k], stamps[k], LOCAL_STAMP_BYTES) == 0, "a minute is refused");
        must(localtime_r(&seconds, &broken[k]) != NULL, "localtime_r");
        must(is_same(&broken[k], stamps[k]), "the C library has another stamp");
    }
}

// ---- one pass each; all that is found goes into a sum, so that none is left out

static uint64_t sum;

static void of_utc(void)
{
    uint8_t bytes[LOCAL_STAMP_BYTES];
    for (uint32_t k = 0; k < COUNT; k++) {
        sum += local_stamp_of_utc(BASE, minutes[k], bytes, sizeof bytes) + bytes[LOCAL_STAMP_MINUTE];
    }
}

static void library_local(void)
{
    struct tm t;
    for (uint32_t k = 0; k < COUNT; k++) {
        time_t seconds = seconds_of(minutes[k]);
        sum += (uint64_t)(localtime_r(&seconds, &t) != NULL) + (uint64_t)t.tm_min;
    }
}

static void to_utc(void)
{
    for (uint32_t k = 0; k < COUNT; k++) {
        const uint8_t *s = stamps[k];
        uint32_t utc =
            local_stamp_to_utc(BASE, local_stamp_year(s), s[LOCAL_STAMP_MONTH], s[LOCAL_STAMP_DAY],
                               s[LOCAL_STAMP_HOUR], s[LOCAL_STAMP_MINUTE], s[LOCAL_STAMP_MARK]);
        must(utc == minutes[k], "a stamp does not read back");
    }
}

static void library_utc(void)
{
    for (uint32_t k = 0; k < COUNT; k++) {
        struct tm t = broken[k];
        must(mktime(&t) == seconds_of(minutes[k]), "mktime has another minute");
    }
}

// ---- the table

static int rising(const void *a, const void *b)
{
    double x = *(const double *)a, y = *(const double *)b;
    return (x > y) - (x < y);
}

static double middle(double *times)
{
    qsort(times, RUNS, sizeof *times, rising);
    return times[RUNS / 2] / COUNT;
}

// The two sides take turns, so that a busy machine is busy for both.
static void print_times(void (*own)(void), void (*library)(void))
{
    double ours[RUNS], theirs[RUNS];
    for (int k = 0; k < RUNS; k++) {
        double start = now();
        own();
        ours[k] = now() - start;
        start = now();
        library();
        theirs[k] = now() - start;
    }
    double one = middle(ours), other = middle(theirs);
    printf(" %8.0f %12.0f %6.1f", one, other, one / other);
}

static void row(const char *name, uint32_t from, uint32_t until)
{
    fill(from, until);
    printf("    %-12s", name);
    print_times(of_utc, library_local);
    print_times(to_utc, library_utc);
    printf("\n");
}

int main(void)
{
    must(setenv("TZ", rule, 1) == 0, "TZ");
    tzset();
    printf("    %-12s %8s %12s %6s %8s %12s %6s\n", "ns each", "of_utc", "localtime_r", "ratio", "to_utc", "mktime",
           "ratio");
    row("2002 to 2105", LOCAL_STAMP_FIRST_UTC, LOCAL_STAMP_END_UTC);
    row("2002", LOCAL_STAMP_FIRST_UTC, LOCAL_STAMP_FIRST_UTC + 365 * 1440);
    row("2105", LOCAL_STAMP_END_UTC - 365 * 1440, LOCAL_STAMP_END_UTC);
    return sum == 0;
}
