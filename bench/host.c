// The store as a host lends it: one desk, session 1, whose requests never wait, and the calls that are timed.
//
// Every answer is looked at: the program ends where it is not one that this use can get.
#include "bench.h"

enum { HOUSEKEEPER = ENTRY_STORE_HOUSEKEEPER, DESK = 1 };

static int is_word(uint64_t answer, enum entry_store_word word)
{
    return entry_store_word_of(answer) == (uint32_t)word;
}

// ---- single calls

void host_format(struct host *h, uint32_t records)
{
    h->way = BY_REQUEST;
    h->records = records;
    h->entries = records / 4;
    h->len = entry_store_words(h->entries, records);
    must(is_word(entry_store_format(h->words, h->len, h->table, ENTRY_STORE_PARTIES, h->entries), ENTRY_STORE_OK), "format");
}

void host_begin(struct host *h, uint32_t party)
{
    h->calls += 1;
    must(is_word(entry_store_begin(h->words, h->len, h->table, ENTRY_STORE_PARTIES, party), ENTRY_STORE_OK), "begin");
}

void host_commit(struct host *h, uint32_t party)
{
    h->calls += 1;
    must(is_word(entry_store_commit(h->words, h->len, h->table, ENTRY_STORE_PARTIES, party), ENTRY_STORE_OK), "commit");
}

static void put(struct host *h, uint32_t party, uint32_t code, uint32_t entry, uint32_t first, uint32_t second)
{
    h->calls += 1;
    must(is_word(entry_store_put(h->words, h->len, h->table, ENTRY_STORE_PARTIES, party, code, entry, first, second), ENTRY_STORE_OK),
         "put");
}

static uint64_t step(struct host *h, uint32_t party)
{
    h->calls += 1;
    return entry_store_step(h->words, h->len, h->table, ENTRY_STORE_PARTIES, h->list, 2 * MAX_PAIRS, party);
}

void host_put_read(struct host *h, uint32_t party)
{
    put(h, party, ENTRY_STORE_READ, party, 0, 0);
}

void host_step_read(struct host *h, uint32_t party)
{
    must(is_word(step(h, party), ENTRY_STORE_DONE), "read");
}

uint32_t host_free(const struct host *h)
{
    uint64_t answer = entry_store_free(h->words, h->len, h->table, ENTRY_STORE_PARTIES);
    must(is_word(answer, ENTRY_STORE_DONE), "free");
    return entry_store_value_of(answer);
}

// ---- whole requests

static uint64_t by_request(struct host *h, uint32_t party, uint32_t code, uint32_t entry, uint32_t first, uint32_t second)
{
    h->calls += 1;
    return entry_store_request(h->words, h->len, h->table, ENTRY_STORE_PARTIES, h->list, 2 * MAX_PAIRS, party, code, entry, first, second,
                               ENTRY_STORE_MOST_STEPS);
}

// A put, and steps until the answer is not more.
static uint64_t by_step(struct host *h, uint32_t party, uint32_t code, uint32_t entry, uint32_t first, uint32_t second)
{
    uint64_t answer;
    put(h, party, code, entry, first, second);
    do {
        answer = step(h, party);
    } while (is_word(answer, ENTRY_STORE_MORE));
    return answer;
}

// Done, or refused for want of a free record.
static uint64_t request(struct host *h, uint32_t party, uint32_t code, uint32_t entry, uint32_t first, uint32_t second)
{
    uint64_t answer = (h->way == BY_REQUEST ? by_request : by_step)(h, party, code, entry, first, second);
    must(is_word(answer, ENTRY_STORE_DONE) || entry_store_number_of(answer) == ENTRY_STORE_FULL, "a request");
    return answer;
}

static uint32_t change(struct host *h, uint32_t code, uint32_t key, uint32_t entry)
{
    uint64_t answer = request(h, DESK, code, entry, key, 0);
    return is_word(answer, ENTRY_STORE_DONE) ? entry_store_value_of(answer) : NO_ROOM;
}

uint32_t host_insert(struct host *h, uint32_t key, uint32_t entry)
{
    return change(h, ENTRY_STORE_INSERT, key, entry);
}

uint32_t host_remove(struct host *h, uint32_t key, uint32_t entry)
{
    return change(h, ENTRY_STORE_REMOVE, key, entry);
}

uint32_t host_locate(struct host *h, uint32_t first, uint32_t second)
{
    uint64_t answer = request(h, DESK, ENTRY_STORE_LOCATE, 0, first, second);
    return is_word(answer, ENTRY_STORE_DONE) ? entry_store_value_of(answer) : NO_PAIRS;
}

void host_write(struct host *h, uint32_t entry, uint32_t value)
{
    must(is_word(request(h, DESK, ENTRY_STORE_WRITE, entry, value, 0), ENTRY_STORE_DONE), "write");
}

uint32_t host_read(struct host *h, uint32_t entry)
{
    return entry_store_value_of(request(h, DESK, ENTRY_STORE_READ, entry, 0, 0));
}

void host_batch(struct host *h, const struct entry_store_ask *asks, size_t count, uint64_t *answers)
{
    h->calls += 1;
    uint64_t answer = entry_store_batch(h->words, h->len, h->table, ENTRY_STORE_PARTIES, h->list, 2 * MAX_PAIRS, (const uint32_t *)asks,
                                        ENTRY_STORE_ASK_WORDS * count, answers, count);
    must(is_word(answer, ENTRY_STORE_DONE) && entry_store_value_of(answer) == count, "batch");
    must(is_word(answers[count - 1], ENTRY_STORE_DONE) || is_word(answers[count - 1], ENTRY_STORE_OK), "the last ask of a batch");
}

void host_tidy_all(struct host *h)
{
    uint32_t key = 0;
    do {
        key = entry_store_value_of(request(h, HOUSEKEEPER, ENTRY_STORE_TIDY, 0, key, 0));
    } while (key != 0);
}
