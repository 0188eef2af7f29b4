// Calls on full stores of four sizes, and on stores of one size filled in different ways, beside one pass over the same words.
//
// On each store all sessions take turns: each begins, puts a read of an entry, makes its one step, and commits. The pass and the test of
// soundness are run as often. Times are nanoseconds a call, the median of many rounds; a round goes over all stores of a table, so that
// all meet the same machine. The words are in the caches when they are timed.
#include <stdio.h>

#include "bench.h"

enum { ROUNDS = 201 };
enum { VECTOR, SCALAR, TEST, BEGIN, PUT, STEP, COMMIT, KINDS };

// A store that is measured: the times of all rounds, and their medians.
struct subject {
    struct host host;
    uint32_t keys;
    double rounds[KINDS][ROUNDS];
    double times[KINDS];
};

enum { SUBJECTS = 6 };
static struct subject subjects[SUBJECTS];

// What is kept of a pass, so that none is left out.
static volatile uint32_t kept;

static void pass_with_vectors(struct host *h, uint32_t party)
{
    kept = vector_pass(h->words, h->len) + party;
}

static void pass_without(struct host *h, uint32_t party)
{
    kept = scalar_pass(h->words, h->len) + party;
}

static void test(struct host *h, uint32_t party)
{
    (void)party;
    must(entry_store_fault(h->words, h->len, h->table, ENTRY_STORE_PARTIES) == ENTRY_STORE_PART_NONE, "the test of soundness");
}

typedef void (*timed)(struct host *h, uint32_t party);

static const timed runs[KINDS] = {pass_with_vectors, pass_without, test, host_begin, host_put_read, host_step_read, host_commit};

// ---- times

// Nanoseconds a call, over one call for each session.
static double time_of(timed run, struct host *h)
{
    double start = now();
    for (uint32_t party = 1; party <= ENTRY_STORE_SESSIONS; party++) {
        run(h, party);
    }
    return spent(start) / ENTRY_STORE_SESSIONS;
}

// The pass before the first time brings the words into the caches.
static void measure_round(struct subject *s, int round)
{
    must(vector_pass(s->host.words, s->host.len) == scalar_pass(s->host.words, s->host.len), "the two passes over the words differ");
    for (int kind = 0; kind < KINDS; kind++) {
        s->rounds[kind][round] = time_of(runs[kind], &s->host);
    }
}

static void measure(int count)
{
    for (int round = 0; round < ROUNDS; round++) {
        for (int k = 0; k < count; k++) {
            measure_round(&subjects[k], round);
        }
    }
    for (int k = 0; k < count; k++) {
        for (int kind = 0; kind < KINDS; kind++) {
            subjects[k].times[kind] = median(subjects[k].rounds[kind], ROUNDS);
        }
    }
}

static void print_times(const struct subject *s)
{
    const double *times = s->times;
    printf(" %5u %5u", s->keys, host_free(&s->host));
    for (int kind = 0; kind < KINDS; kind++) {
        printf(" %7.0f", times[kind]);
    }
    printf(" %9.1f %11.1f\n", times[STEP] / times[VECTOR], times[COMMIT] / times[VECTOR]);
}

#define HEAD "  keys  free    pass  scalar    test   begin     put    step  commit step/pass commit/pass"

// ---- four sizes

static const uint32_t sizes[] = {64, 256, 1024, 4096};
enum { SIZES = sizeof sizes / sizeof sizes[0] };

static const struct mix usual = {"two members a key, scattered", scattered_key, 2};

static void save_rows(const char *file)
{
    FILE *out = fopen(file, "w");
    must(out != NULL, "writing the rows of the plot");
    fprintf(out, "# words, then nanoseconds: pass scalar test begin put step commit\n");
    for (int k = 0; k < SIZES; k++) {
        fprintf(out, "%zu", subjects[k].host.len);
        for (int kind = 0; kind < KINDS; kind++) {
            fprintf(out, " %.1f", subjects[k].times[kind]);
        }
        fprintf(out, "\n");
    }
    must(fclose(out) == 0, "writing the rows of the plot");
}

// How many times the first row's numbers the last row's are.
static void print_last_by_first(const struct subject *first, const struct subject *last)
{
    printf("growth %6.1fx            ", (double)last->host.len / (double)first->host.len);
    for (int kind = 0; kind < KINDS; kind++) {
        printf(" %6.1fx", last->times[kind] / first->times[kind]);
    }
    printf("\n");
}

void print_growth(const char *file)
{
    for (int k = 0; k < SIZES; k++) {
        subjects[k].keys = fill(&subjects[k].host, sizes[k], &usual);
    }
    measure(SIZES);
    printf("Full stores: M = R / 4, %s\n    R   words %s\n", usual.name, HEAD);
    for (int k = 0; k < SIZES; k++) {
        printf("%5u %7zu", sizes[k], subjects[k].host.len);
        print_times(&subjects[k]);
    }
    print_last_by_first(&subjects[0], &subjects[SIZES - 1]);
    save_rows(file);
}

// ---- one size, filled in different ways

static const struct mix mixes[] = {
    {"keys alone, rising", rising_key, 0},
    {"keys alone, scattered", scattered_key, 0},
    {"two members a key, rising", rising_key, 2},
    {"ten members a key, scattered", scattered_key, 10},
};
enum { MIXES = sizeof mixes / sizeof mixes[0] };

void print_mixes(void)
{
    static const char *const empty[] = {"fresh", "filled, then emptied"};
    host_format(&subjects[0].host, MAX_RECORDS);
    fill_and_empty(&subjects[1].host, MAX_RECORDS, &usual);
    subjects[0].keys = subjects[1].keys = 0;
    for (int k = 0; k < MIXES; k++) {
        subjects[k + 2].keys = fill(&subjects[k + 2].host, MAX_RECORDS, &mixes[k]);
    }
    measure(MIXES + 2);
    printf("Other stores of R = %d\n%-28s%s\n", MAX_RECORDS, "", HEAD);
    for (int k = 0; k < MIXES + 2; k++) {
        printf("%-28s", k < 2 ? empty[k] : mixes[k - 2].name);
        print_times(&subjects[k]);
    }
}
