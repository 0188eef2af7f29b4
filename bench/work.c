// The same logical work in the store and in SQLite: inserts of memberships, range reads of several widths, sessions begun and committed.
//
// All do the same list of requests, one after another, and must give the same answers and the same pairs. In the store each request is one
// call; and then, on a fresh store, a put and a call a step.
#include <stdio.h>
#include <stdlib.h>
#include <string.h>

#include "bench.h"

enum { RUNS = 11, SESSION = 16, MEMBERS = 2, READS = 16, MAX_KEYS = MAX_RECORDS / 4 };

static const uint32_t widths[] = {1, 8, 64, 512};
enum { WIDTHS = sizeof widths / sizeof widths[0] };
enum { INSERT, SESSIONS, READ, KINDS = READ + WIDTHS };

// What one run gives: nanoseconds and, in the store, calls for each kind of work, and all answers as one number.
struct run {
    double time[KINDS];
    double calls[KINDS];
    uint32_t answers;
};

// The work: keys in the order in which they are inserted, and in rising order.
struct load {
    struct host *host;
    uint32_t keys;
    uint32_t inserted[MAX_KEYS];
    uint32_t rising[MAX_KEYS];
};

static int by_key(const void *a, const void *b)
{
    uint32_t x = *(const uint32_t *)a, y = *(const uint32_t *)b;
    return (x > y) - (x < y);
}

static void make_load(struct load *load, struct host *host, uint32_t records)
{
    load->host = host;
    load->keys = records / 4;
    for (uint32_t k = 0; k < load->keys; k++) {
        load->inserted[k] = load->rising[k] = scattered_key(k + 1);
    }
    qsort(load->rising, load->keys, sizeof load->rising[0], by_key);
}

// ---- the store as a side

static void begin(void *self)
{
    host_begin(self, 1);
}

static void commit(void *self)
{
    host_commit(self, 1);
}

static uint32_t insert(void *self, uint32_t key, uint32_t entry)
{
    return host_insert(self, key, entry);
}

static uint32_t locate(void *self, uint32_t first, uint32_t second, const uint32_t **pairs)
{
    struct host *h = self;
    *pairs = h->list;
    return host_locate(h, first, second);
}

static struct side store_side(struct host *h)
{
    return (struct side){h, begin, insert, locate, commit};
}

// ---- the work

static void note(struct run *run, uint32_t answer)
{
    run->answers = (run->answers ^ answer) * 16777619u;
}

// The time and the calls since a moment go to a kind of work.
struct moment {
    double time;
    uint64_t calls;
};

static struct moment here(const struct load *load)
{
    return (struct moment){now(), load->host->calls};
}

static void since(struct run *run, int kind, const struct load *load, struct moment start)
{
    run->time[kind] += spent(start.time);
    run->calls[kind] += (double)(load->host->calls - start.calls);
}

// One session: begin, some inserts, commit.
static void insert_some(const struct load *load, struct side side, struct run *run, uint32_t from)
{
    struct moment start = here(load);
    side.begin(side.self);
    since(run, SESSIONS, load, start);
    start = here(load);
    for (uint32_t k = from; k < from + SESSION; k++) {
        uint32_t number = k / MEMBERS;
        note(run, side.insert(side.self, load->inserted[number], entry_of(load->host, number, k % MEMBERS)));
    }
    since(run, INSERT, load, start);
    start = here(load);
    side.commit(side.self);
    since(run, SESSIONS, load, start);
}

// One range read, from a stored key to a stored key.
static void read_one(const struct load *load, struct side side, struct run *run, uint32_t from, uint32_t width)
{
    const uint32_t *pairs;
    note(run, side.locate(side.self, load->rising[from], load->rising[from + width - 1], &pairs));
}

static void read_some(const struct load *load, struct side side, struct run *run, int which)
{
    uint32_t width = widths[which];
    side.begin(side.self);
    struct moment start = here(load);
    for (uint32_t k = 0; k < READS; k++) {
        read_one(load, side, run, k * (load->keys - width) / READS, width);
    }
    since(run, READ + which, load, start);
    side.commit(side.self);
}

static int fits(const struct load *load, int which)
{
    return widths[which] <= load->keys;
}

static struct run do_work(const struct load *load, struct side side)
{
    struct run run = {{0}, {0}, 0};
    for (uint32_t k = 0; k < load->keys * MEMBERS; k += SESSION) {
        insert_some(load, side, &run, k);
    }
    for (int which = 0; which < WIDTHS && fits(load, which); which++) {
        read_some(load, side, &run, which);
    }
    return run;
}

// Both sides list the same pairs over all keys, and not none.
static void compare(const struct load *load, struct side one, struct side other)
{
    const uint32_t *pairs, *others;
    uint32_t first = load->rising[0], last = load->rising[load->keys - 1];
    one.begin(one.self);
    uint32_t count = one.locate(one.self, first, last, &pairs);
    one.commit(one.self);
    must(count == load->keys * MEMBERS && other.locate(other.self, first, last, &others) == count,
         "the store and SQLite count differently");
    must(memcmp(pairs, others, 2 * count * sizeof pairs[0]) == 0, "the store and SQLite list different pairs");
}

// ---- the table

// How often a run does a kind of work.
static double count_of(const struct load *load, int kind)
{
    double inserts = load->keys * MEMBERS;
    return kind == INSERT ? inserts : kind == SESSIONS ? inserts / SESSION : READS;
}

static double median_time(const struct run *runs, int kind)
{
    double times[RUNS];
    for (int k = 0; k < RUNS; k++) {
        times[k] = runs[k].time[kind];
    }
    return median(times, RUNS);
}

static void print_name(int kind)
{
    char name[64];
    if (kind == INSERT) {
        snprintf(name, sizeof name, "insert a membership");
    } else if (kind == SESSIONS) {
        snprintf(name, sizeof name, "begin and commit, %d inserts between", SESSION);
    } else {
        uint32_t width = widths[kind - READ];
        snprintf(name, sizeof name, "read a range: %u key%s, %u members", width, width == 1 ? "" : "s", width * MEMBERS);
    }
    printf("%-36s", name);
}

// Microseconds each.
static double each(const struct load *load, const struct run *runs, int kind)
{
    return median_time(runs, kind) / count_of(load, kind) / 1000;
}

// The runs of one size: in the store by both ways, and in SQLite.
struct runs {
    struct run store[2][RUNS];
    struct run sqlite[RUNS];
};

static void print_rows(const struct load *load, const struct runs *runs)
{
    for (int kind = 0; kind < KINDS && (kind < READ || fits(load, kind - READ)); kind++) {
        double request = each(load, runs->store[BY_REQUEST], kind), step = each(load, runs->store[BY_STEP], kind);
        double sqlite = each(load, runs->sqlite, kind);
        print_name(kind);
        printf(" %10.2f %10.2f %8.1f %7.1f %10.2f %8.1f\n", request, sqlite, request / sqlite,
               runs->store[BY_STEP][0].calls[kind] / count_of(load, kind), step, step / sqlite);
    }
}

// What one key more in a range takes, in nanoseconds, between two of the widths.
static double a_key(const struct load *load, const struct run *runs, int narrow, int wide)
{
    return 1000 * (each(load, runs, READ + wide) - each(load, runs, READ + narrow)) / (widths[wide] - widths[narrow]);
}

// That a range read is linear in its keys: each key takes the same, however many there are.
static void print_linear(const struct load *load, const struct run *request)
{
    int last = WIDTHS - 1;
    if (fits(load, last)) {
        printf("A key more in a request's range: %.0f ns from %u to %u keys, %.0f ns from %u to %u; %u keys take %.0f ns a key.\n",
               a_key(load, request, last - 2, last - 1), widths[last - 2], widths[last - 1], a_key(load, request, last - 1, last),
               widths[last - 1], widths[last], widths[last], 1000 * each(load, request, READ + last) / widths[last]);
    }
}

// Both ways in the store, each on a fresh one, and SQLite.
static void run_all(const struct load *load, uint32_t records, struct runs *runs, int k)
{
    struct side database = sqlite_open(records / 4), lent = store_side(load->host);
    runs->sqlite[k] = do_work(load, database);
    for (int way = BY_REQUEST; way <= BY_STEP; way++) {
        host_format(load->host, records);
        load->host->way = (enum way)way;
        runs->store[way][k] = do_work(load, lent);
        must(runs->store[way][k].answers == runs->sqlite[k].answers, "the store and SQLite answer differently");
        compare(load, lent, database);
    }
    sqlite_end(database);
}

void print_work(uint32_t records)
{
    static struct host host;
    static struct load load;
    static struct runs runs;
    host_format(&host, records);
    make_load(&load, &host, records);
    for (int k = 0; k < RUNS; k++) {
        run_all(&load, records, &runs, k);
    }
    printf("R = %-32u %10s %10s %8s %7s %10s %8s\n", records, "request", "SQLite", "ratio", "calls", "by step", "ratio");
    print_rows(&load, &runs);
    print_linear(&load, runs.store[BY_REQUEST]);
}
