// bench/journals: how long check_journal takes for journals of 2,048 records, beside a plain pass over as many records.
// Usage: journals PROGRAM FOLDER. The folder is for the journals. Times are processor time of the program, start and
// end of the process among it, medians of several runs.
#include <fcntl.h>
#include <stdint.h>
#include <stdio.h>
#include <stdlib.h>
#include <string.h>
#include <sys/resource.h>
#include <sys/wait.h>
#include <unistd.h>

enum { RECORDS = 2048, WORDS = 8, RUNS = 41, LISTED = 600, LOCATES = RECORDS - 2 * LISTED - 1 };

static uint32_t words[RECORDS][WORDS];

static void put(uint32_t i, uint32_t next, uint32_t run, uint32_t code, uint32_t entry, uint32_t first, uint32_t answer, uint32_t list)
{
    const uint32_t w[WORDS] = {next, run, code, entry, first, code == 5 ? 4294967294u : 0, answer, list};
    memcpy(words[i - 1], w, sizeof w);
}

static uint32_t after(uint32_t i, uint32_t last)
{
    return i < last ? i + 1 : 0;
}

// One run that writes, and commits in the last record. The main chain is walked once for each test, and once to replay.
static double one_run(void)
{
    for (uint32_t i = 1; i <= RECORDS; i++)
        put(i, after(i, RECORDS), 1, i < RECORDS ? 2 : 255, 1, i, 0, 0);
    return 4.0 * RECORDS;
}

// A run that inserts, then locates all again and again: each locate names the same list.
static double one_list(void)
{
    const uint32_t main_last = RECORDS - LISTED;
    for (uint32_t i = 1; i <= LISTED; i++) {
        put(i, i + 1, 1, 3, 1, i, 1, 0);
        put(main_last + i, after(i, LISTED) ? main_last + i + 1 : 0, i, 1, 0, 0, 0, 0);
    }
    for (uint32_t i = LISTED + 1; i <= main_last; i++)
        put(i, after(i, main_last), 1, i < main_last ? 5 : 255, 0, 1, LISTED, main_last + 1);
    return 4.0 * main_last + 2.0 * LOCATES * LISTED;
}

// Each record is a commit of a run of its own: behind each the rest is walked, and for each the whole.
static double all_commits(void)
{
    for (uint32_t i = 1; i <= RECORDS; i++)
        put(i, after(i, RECORDS), i, 255, 0, 0, 0, 0);
    return 3.0 * RECORDS + 1.5 * RECORDS * RECORDS;
}

static void fail(const char *what)
{
    perror(what);
    exit(1);
}

static void save(const char *path)
{
    FILE *f = fopen(path, "wb");
    if (!f || fwrite(words, sizeof words, 1, f) != 1 || fclose(f) != 0)
        fail(path);
}

static double seconds(int who)
{
    struct rusage u;
    getrusage(who, &u);
    return (double)(u.ru_utime.tv_sec + u.ru_stime.tv_sec) + 1e-6 * (double)(u.ru_utime.tv_usec + u.ru_stime.tv_usec);
}

// The program on a journal, which it must accept.
static double check(const char *program, const char *path)
{
    int out[2];
    if (pipe(out) != 0)
        fail("pipe");
    double before = seconds(RUSAGE_CHILDREN);
    pid_t child = fork();
    if (child < 0)
        fail("fork");
    if (child == 0) {
        dup2(open(path, O_RDONLY), 0);
        dup2(out[1], 1);
        execl(program, program, (char *)NULL);
        _exit(127);
    }
    close(out[1]);
    char text[4] = {0};
    if (read(out[0], text, 3) != 3 || strcmp(text, "ok\n") != 0) {
        fprintf(stderr, "%s: not accepted\n", path);
        exit(1);
    }
    close(out[0]);
    waitpid(child, NULL, 0);
    return seconds(RUSAGE_CHILDREN) - before;
}

// All words of as many records, read one after another.
static double pass(double records)
{
    const volatile uint32_t *w = &words[0][0];
    double before = seconds(RUSAGE_SELF);
    for (double n = 0; n < records; n += RECORDS)
        for (size_t i = 0; i < RECORDS * WORDS; i++)
            (void)w[i];
    return seconds(RUSAGE_SELF) - before;
}

static int rising(const void *a, const void *b)
{
    double x = *(const double *)a, y = *(const double *)b;
    return (x > y) - (x < y);
}

static double middle(double *t)
{
    qsort(t, RUNS, sizeof *t, rising);
    return t[RUNS / 2];
}

static void row(const char *name, double records, const char *program, const char *path)
{
    double checks[RUNS], passes[RUNS];
    save(path);
    for (int i = 0; i < RUNS; i++) {
        checks[i] = check(program, path);
        passes[i] = pass(records);
    }
    double c = middle(checks), p = middle(passes);
    printf("    %-46s %8.0f %8.2f %8.2f", name, records / 1000, 1e3 * c, 1e3 * p);
    printf(p > 1e-4 ? " %8.1f\n" : "        -\n", c / p);
}

int main(int count, char **args)
{
    if (count != 3) {
        fprintf(stderr, "usage: journals PROGRAM FOLDER\n");
        return 2;
    }
    char path[4096];
    snprintf(path, sizeof path, "%s/bench.jnl", args[2]);
    printf("    %-46s %8s %8s %8s %8s\n", "2,048 records", "1000 r.", "check ms", "pass ms", "ratio");
    row("one run of writes", one_run(), args[1], path);
    row("847 locates with one list of 600 pairs", one_list(), args[1], path);
    row("2,048 commits", all_commits(), args[1], path);
    return 0;
}
