// One recover, beside the aborts that it saves and beside the test of soundness with which each call starts.
//
// Half of a store's records are filled by one session, which commits. Then some sessions begin, each writes an entry and inserts it at
// keys of its own, and recover ends them all; on a copy of store and table they are aborted one by one, which must leave the same words
// of entries and as many free records. Times are microseconds, medians.
#include <stdio.h>
#include <string.h>

#include "bench.h"

enum { ROUNDS = 101, CHANGES = 4 };

static struct host base, one, other;

static void request(struct host *h, uint32_t party, uint32_t code, uint32_t entry, uint32_t first)
{
    uint64_t answer = entry_store_request(h->words, h->len, h->table, ENTRY_STORE_PARTIES, h->list, 2 * MAX_PAIRS, party, code, entry,
                                          first, 0, ENTRY_STORE_MOST_STEPS);
    must(entry_store_word_of(answer) == ENTRY_STORE_DONE, "a request that recover undoes");
}

// A store half filled, with so many sessions begun that have each made a write and CHANGES - 1 inserts.
static void prepare(struct host *h, uint32_t records, uint32_t sessions)
{
    host_format(h, records);
    host_begin(h, 1);
    for (uint32_t k = 1; k <= records / 8; k++) {
        must(host_insert(h, scattered_key(k), 1 + k % h->entries) == 1, "a membership");
    }
    host_commit(h, 1);
    for (uint32_t party = 1; party <= sessions; party++) {
        host_begin(h, party);
        request(h, party, ENTRY_STORE_WRITE, party, 7);
        for (uint32_t k = 1; k < CHANGES; k++) {
            request(h, party, ENTRY_STORE_INSERT, party, scattered_key(records + CHANGES * party + k));
        }
    }
}

static double time_test(struct host *h)
{
    double start = now();
    must(entry_store_fault(h->words, h->len, h->table, ENTRY_STORE_PARTIES) == ENTRY_STORE_PART_NONE, "the test of soundness");
    return spent(start);
}

static double time_recover(struct host *h)
{
    double start = now();
    uint64_t answer = entry_store_recover(h->words, h->len, h->table, ENTRY_STORE_PARTIES);
    double time = spent(start);
    must(entry_store_word_of(answer) == ENTRY_STORE_OK, "recover");
    return time;
}

static double time_aborts(struct host *h, uint32_t sessions)
{
    double start = now();
    for (uint32_t party = 1; party <= sessions; party++) {
        uint64_t answer = entry_store_abort(h->words, h->len, h->table, ENTRY_STORE_PARTIES, party);
        must(entry_store_word_of(answer) == ENTRY_STORE_OK, "abort");
    }
    return spent(start);
}

static void measure(uint32_t records, uint32_t sessions)
{
    static double tests[ROUNDS], recovers[ROUNDS], aborts[ROUNDS];
    prepare(&base, records, sessions);
    for (int k = 0; k < ROUNDS; k++) {
        one = base;
        other = base;
        tests[k] = time_test(&one);
        recovers[k] = time_recover(&one);
        (void)time_test(&other);
        aborts[k] = time_aborts(&other, sessions);
        must(memcmp(one.words + ENTRY_STORE_HEADER_WORDS, other.words + ENTRY_STORE_HEADER_WORDS,
                    (size_t)ENTRY_STORE_ENTRY_WORDS * base.entries * sizeof(uint32_t)) == 0 && host_free(&one) == host_free(&other),
             "recover and the aborts leave the same");
    }
    double test = median(tests, ROUNDS), recover = median(recovers, ROUNDS), each = median(aborts, ROUNDS);
    printf("%5u %9u %8.2f %8.2f %9.1f %12.2f", records, sessions, test / 1000, recover / 1000, recover / test, each / 1000);
    if (sessions == 0) {
        printf("%8s\n", "-");
    } else {
        printf("%8.1f\n", each / recover);
    }
}

void print_recovers(void)
{
    printf("    R  sessions     test  recover  rec./test  abort by one   ratio\n");
    for (uint32_t records = 512; records <= MAX_RECORDS; records *= 8) {
        for (uint32_t sessions = 0; sessions <= ENTRY_STORE_SESSIONS; sessions = sessions == 0 ? 1 : 4 * sessions) {
            measure(records, sessions);
        }
    }
}
