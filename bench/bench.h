// What the parts of the benchmark share.
#ifndef BENCH_H
#define BENCH_H

#include <stddef.h>
#include <stdint.h>

#include "entry_store.h"

// ---- times: clock.c

// Nanoseconds of the processor that this program had until now: what others take of a busy machine is not in it.
double now(void);

// Nanoseconds from such a moment until now, without what the clock itself takes.
double spent(double start);

// The median of some times, which are put in order.
double median(double *times, size_t count);

// Ends the program with status 1, and says what failed, unless a condition holds. A time is never a failure.
void must(int holds, const char *what);

// ---- one pass over the words, their sum modulo 2^32: pass.c, compiled with and without vector code

uint32_t vector_pass(const uint32_t *words, size_t len);
uint32_t scalar_pass(const uint32_t *words, size_t len);

// ---- the machine: machine.c

// Its processors, and how many bits the pass in vector code works on at a time, in one line.
void print_machine(void);

// ---- the store, lent by a host that has one desk: host.c

enum { MAX_RECORDS = ENTRY_STORE_MAX_RECORDS, MAX_WORDS = ENTRY_STORE_MAX_WORDS, MAX_PAIRS = MAX_RECORDS };

// How whole requests are made: in one call each, or by a put and a call a step.
enum way { BY_REQUEST, BY_STEP };

struct host {
    enum way way;
    uint32_t entries;
    uint32_t records;
    size_t len;
    uint64_t calls;
    uint32_t words[MAX_WORDS];
    struct entry_store_session table[ENTRY_STORE_PARTIES];
    uint32_t list[2 * MAX_PAIRS];
};

// A fresh store of so many records, with an entry for every four of them: then the words grow as the records do. Requests are then
// made in one call each.
void host_format(struct host *h, uint32_t records);
void host_begin(struct host *h, uint32_t party);
void host_commit(struct host *h, uint32_t party);

// How many records are free.
uint32_t host_free(const struct host *h);

// The two calls of a read of the entry with the party's number.
void host_put_read(struct host *h, uint32_t party);
void host_step_read(struct host *h, uint32_t party);

// Whole requests of session 1. 1 or 0 as the store answers, or NO_ROOM where it has no free record.
enum { NO_ROOM = 2 };
uint32_t host_insert(struct host *h, uint32_t key, uint32_t entry);
uint32_t host_remove(struct host *h, uint32_t key, uint32_t entry);

// The number of memberships, which stand in the list, or NO_PAIRS where the store has no free record.
#define NO_PAIRS UINT32_MAX
uint32_t host_locate(struct host *h, uint32_t first, uint32_t second);

// A write, and a read's value. There is room.
void host_write(struct host *h, uint32_t entry, uint32_t value);
uint32_t host_read(struct host *h, uint32_t entry);

// Asks of one batch, all of which must be made; their answers. The pairs of a locate stand in the list.
void host_batch(struct host *h, const struct entry_store_ask *asks, size_t count, uint64_t *answers);

// The housekeeper removes every descriptor that is in no use.
void host_tidy_all(struct host *h);

// ---- stores with something in them: fill.c

// A proper key for each number from 1 on, all different: rising, or scattered over all keys.
uint32_t rising_key(uint32_t number);
uint32_t scattered_key(uint32_t number);

// An entry for each key and each of its members.
uint32_t entry_of(const struct host *h, uint32_t number, uint32_t member);

// What a store is filled with, in the order of the key's numbers.
struct mix {
    const char *name;
    uint32_t (*key)(uint32_t number);
    uint32_t members;
};

// A store filled until no request finds room; the number of its keys.
uint32_t fill(struct host *h, uint32_t records, const struct mix *mix);

// A store that was filled with keys and members, all of which were removed again.
void fill_and_empty(struct host *h, uint32_t records, const struct mix *mix);

// ---- the tables

// Calls on full stores beside a pass: growth.c. The rows of the plot go to a file.
void print_growth(const char *file);
void print_mixes(void);

// Recover, beside the test and beside aborts: recover.c.
void print_recovers(void);

// Whole sessions of a desk and of a planner in the store and in SQLite: day.c. Single requests: work.c.
void print_days(uint32_t records);
void print_work(uint32_t records);

// One side of that work. locate writes pairs of key and entry, rising by key then entry.
struct side {
    void *self;
    void (*begin)(void *self);
    uint32_t (*insert)(void *self, uint32_t key, uint32_t entry);
    uint32_t (*locate)(void *self, uint32_t first, uint32_t second, const uint32_t **pairs);
    void (*commit)(void *self);
};

// SQLite, told once that it has one thread, and then a database in memory that has so many entries of value 0 and no membership, at
// most one at a time: sqlite.c.
void sqlite_start(void);
struct side sqlite_open(uint32_t entries);
void sqlite_end(struct side side);

// Entries' values, which are in a table of their own. find is locate and, in the same query, the value of each entry found.
void sqlite_write(void *self, uint32_t entry, uint32_t value);
uint32_t sqlite_find(void *self, uint32_t first, uint32_t second, uint32_t *pairs, uint32_t *values);
const char *sqlite_version(void);

#endif
