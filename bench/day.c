// What a desk's day and a planner's day cost, in the store and in SQLite.
//
// A desk's day is one session: for each of 24 stretches of a driver's day the value of an entry is written, and the entry inserted at the
// stretch's first minute. A planner's day is one session too: it locates all that stands on such a day and reads the value of each entry
// found. Desks fill the store day by day, and then the planner looks at each of the days.
//
// In the store a session is made in three ways: by batches (a desk's day is one; a planner's are two, since what it reads is what it has
// found), by a call a request, and by a call a step. All must answer the same as SQLite.
#include <stdio.h>
#include <string.h>

#include "bench.h"

enum { MAX_RUNS = 101, STRETCHES = 24, DESK = 1, DAY_RECORDS = 64, MAX_DAYS = MAX_RECORDS / DAY_RECORDS };
enum { ASKS = 2 * STRETCHES + 2, MOST = ENTRY_STORE_MOST_STEPS };
enum { HOUR = 60, DAY_MINUTES = 1440, DRIVER_KEYS = 1048576 };

struct day {
    uint32_t first, last; // its keys
    uint32_t keys[STRETCHES], entries[STRETCHES], values[STRETCHES];
};

// What a planner finds.
struct found {
    uint32_t count;
    uint32_t pairs[2 * MAX_PAIRS], values[MAX_PAIRS];
};

// The work: so many days, each of another driver, and not in the order of the drivers.
struct load {
    struct host host;
    uint32_t days;
    struct day day[MAX_DAYS];
};

static void make_load(struct load *load, uint32_t records)
{
    load->days = (records - 2 * STRETCHES) / DAY_RECORDS;
    for (uint32_t n = 0; n < load->days; n++) {
        struct day *d = &load->day[n];
        d->first = (1 + 37 * n % 97) * DRIVER_KEYS + DAY_MINUTES;
        d->last = d->first + DAY_MINUTES - 1;
        for (uint32_t k = 0; k < STRETCHES; k++) {
            d->keys[k] = d->first + HOUR * k;
            d->entries[k] = 1 + (STRETCHES * n + k) % (records / 4);
            d->values[k] = 2048 * (k % 4) + HOUR + n;
        }
    }
}

// ---- by batches

static struct entry_store_ask plain_ask(enum entry_store_kind kind)
{
    return (struct entry_store_ask){kind, DESK, 0, 0, 0, 0, 0};
}

static struct entry_store_ask request_ask(enum entry_store_code code, uint32_t entry, uint32_t first, uint32_t second)
{
    return (struct entry_store_ask){ENTRY_STORE_ASK_REQUEST, DESK, code, entry, first, second, MOST};
}

static uint32_t batch_desk(void *self, const struct day *d)
{
    struct entry_store_ask asks[ASKS];
    uint64_t answers[ASKS];
    uint32_t added = 0;
    asks[0] = plain_ask(ENTRY_STORE_ASK_BEGIN);
    for (uint32_t k = 0; k < STRETCHES; k++) {
        asks[1 + 2 * k] = request_ask(ENTRY_STORE_WRITE, d->entries[k], d->values[k], 0);
        asks[2 + 2 * k] = request_ask(ENTRY_STORE_INSERT, d->entries[k], d->keys[k], 0);
    }
    asks[ASKS - 1] = plain_ask(ENTRY_STORE_ASK_COMMIT);
    host_batch(self, asks, ASKS, answers);
    for (uint32_t k = 0; k < STRETCHES; k++) {
        added += entry_store_value_of(answers[2 + 2 * k]);
    }
    return added;
}

static void batch_planner(void *self, const struct day *d, struct found *f)
{
    static struct entry_store_ask asks[MAX_PAIRS + 1];
    static uint64_t answers[MAX_PAIRS + 1];
    struct host *h = self;
    asks[0] = plain_ask(ENTRY_STORE_ASK_BEGIN);
    asks[1] = request_ask(ENTRY_STORE_LOCATE, 0, d->first, d->last);
    host_batch(h, asks, 2, answers);
    f->count = entry_store_value_of(answers[1]);
    memcpy(f->pairs, h->list, 2 * f->count * sizeof f->pairs[0]);
    for (uint32_t k = 0; k < f->count; k++) {
        asks[k] = request_ask(ENTRY_STORE_READ, f->pairs[2 * k + 1], 0, 0);
    }
    asks[f->count] = plain_ask(ENTRY_STORE_ASK_COMMIT);
    host_batch(h, asks, f->count + 1, answers);
    for (uint32_t k = 0; k < f->count; k++) {
        f->values[k] = entry_store_value_of(answers[k]);
    }
}

// ---- by a call a request, or a call a step, as the host is set

static uint32_t calls_desk(void *self, const struct day *d)
{
    uint32_t added = 0;
    host_begin(self, DESK);
    for (uint32_t k = 0; k < STRETCHES; k++) {
        host_write(self, d->entries[k], d->values[k]);
        added += host_insert(self, d->keys[k], d->entries[k]);
    }
    host_commit(self, DESK);
    return added;
}

static void calls_planner(void *self, const struct day *d, struct found *f)
{
    struct host *h = self;
    host_begin(h, DESK);
    f->count = host_locate(h, d->first, d->last);
    must(f->count != NO_PAIRS, "room for a locate");
    memcpy(f->pairs, h->list, 2 * f->count * sizeof f->pairs[0]);
    for (uint32_t k = 0; k < f->count; k++) {
        f->values[k] = host_read(h, f->pairs[2 * k + 1]);
    }
    host_commit(h, DESK);
}

// ---- in SQLite: a transaction a session

static struct side database;

static uint32_t sqlite_desk(void *self, const struct day *d)
{
    uint32_t added = 0;
    database.begin(self);
    for (uint32_t k = 0; k < STRETCHES; k++) {
        sqlite_write(self, d->entries[k], d->values[k]);
        added += database.insert(self, d->keys[k], d->entries[k]);
    }
    database.commit(self);
    return added;
}

static void sqlite_planner(void *self, const struct day *d, struct found *f)
{
    database.begin(self);
    f->count = sqlite_find(self, d->first, d->last, f->pairs, f->values);
    database.commit(self);
}

// ---- the work

enum { BATCH, REQUEST, STEP, SQLITE, WAYS };
enum { DESK_DAY, PLANNER_DAY, KINDS };

static const struct {
    uint32_t (*desk)(void *self, const struct day *d);
    void (*planner)(void *self, const struct day *d, struct found *f);
} ways[WAYS] = {{batch_desk, batch_planner}, {calls_desk, calls_planner}, {calls_desk, calls_planner}, {sqlite_desk, sqlite_planner}};

// Nanoseconds of each run, and the calls of one.
struct times {
    double time[WAYS][KINDS][MAX_RUNS];
    int runs;
    uint64_t calls[WAYS][KINDS];
};

static void *side_of(struct load *load, int way, uint32_t records)
{
    if (way == SQLITE) {
        return database.self;
    }
    host_format(&load->host, records);
    load->host.way = way == STEP ? BY_STEP : BY_REQUEST;
    return &load->host;
}

// What was found on one day is what the desk typed in; where an entry was used again later its value is the later one's.
static void check_found(const struct day *d, const struct found *f)
{
    must(f->count == STRETCHES, "a planner finds a whole day");
    for (uint32_t k = 0; k < STRETCHES; k++) {
        must(f->pairs[2 * k] == d->keys[k] && f->pairs[2 * k + 1] == d->entries[k] && f->values[k] >= d->values[k],
             "a planner finds what the desk typed in");
    }
}

static void run_way(struct load *load, int way, uint32_t records, struct times *t, int run)
{
    static struct found found;
    void *self = side_of(load, way, records);
    uint64_t calls = load->host.calls;
    double start = now();
    for (uint32_t n = 0; n < load->days; n++) {
        must(ways[way].desk(self, &load->day[n]) == STRETCHES, "a desk's stretches are new");
    }
    t->time[way][DESK_DAY][run] = spent(start);
    t->calls[way][DESK_DAY] = load->host.calls - calls;
    calls = load->host.calls;
    start = now();
    for (uint32_t n = 0; n < load->days; n++) {
        ways[way].planner(self, &load->day[n], &found);
        check_found(&load->day[n], &found);
    }
    t->time[way][PLANNER_DAY][run] = spent(start);
    t->calls[way][PLANNER_DAY] = load->host.calls - calls;
}

// ---- the table

static void print_row(const struct load *load, struct times *t, int kind, int way)
{
    static const char *const names[KINDS][SQLITE] = {
        {"a desk's day, in one batch", "a desk's day, a call a request", "a desk's day, a call a step"},
        {"a planner's day, in two batches", "a planner's day, a call a request", "a planner's day, a call a step"},
    };
    double days = load->days * 1000.0;
    double ours = median(t->time[way][kind], t->runs) / days, theirs = median(t->time[SQLITE][kind], t->runs) / days;
    printf("%-36s %7.1f %10.2f %10.2f %8.1f\n", names[kind][way], (double)t->calls[way][kind] / load->days, ours, theirs, ours / theirs);
}

void print_days(uint32_t records)
{
    static struct load load;
    static struct times times;
    make_load(&load, records);
    times.runs = records < 1024 ? MAX_RUNS : 11; // few days are soon over
    for (int run = 0; run < times.runs; run++) {
        database = sqlite_open(records / 4);
        for (int way = 0; way < WAYS; way++) {
            run_way(&load, way, records, &times, run);
        }
        sqlite_end(database);
    }
    printf("R = %-5u %2u days %18s %7s %10s %10s %8s\n", records, load.days, "", "calls", "store", "SQLite", "ratio");
    for (int kind = 0; kind < KINDS; kind++) {
        for (int way = BATCH; way < SQLITE; way++) {
            print_row(&load, &times, kind, way);
        }
    }
}
