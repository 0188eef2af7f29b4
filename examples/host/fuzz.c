// Random calls on random and damaged words, held against the plain facts of the contract.
//
// Usage: fuzz SECONDS [SEED [RUN]]. Runs are numbered from 0; each has its own numbers, drawn from SEED and
// its number, so that a run can be made again alone. With RUN only that one is made.
//
// A run lends a store, a table and a list, to a batch asks and answers too, and to the calls of a card's day
// its bytes. Each lies against a page that may not be touched, at its front or at its end, so that any access
// outside on that side ends the program; the bytes on the other side have a pattern, which must stay. Before
// each call all are copied, and after it they are compared.
//
// The facts (each is a function below, and prints its name where it fails):
//   - the bits of an answer are those that the header names: word, number, value, how many numbers there are
//   - which words each call may answer, and refusals 1 to 12 and 21 only
//   - a call is refused exactly by the first check that fails, in the order of docs/RULES.md, section 8; 11
//     and 12 only in a step; and it is refused with 2 exactly if entry_store_fault names a part
//   - a refusal but 11 and 12, and a wait, change nothing; 11 and 12 change the party's own record, and in
//     the store at most one latch and the pins of two descriptors
//   - a wait names, of the other sessions whose long locks are in the way, the one with the lowest number in
//     the order of begins; of latches that of the highest node, then of the leftmost; both read off the words
//   - done ends the request in hand, more leaves it; a read answers the entry's value; an insert or a remove
//     answers 1 exactly if the session's newest undo record is another, and has the update lock of a key that
//     nobody else locates; a locate's pairs rise, lie in its range and are as many as it says; nothing else
//     writes the list
//   - only the caller's record of the table changes, but that begin numbers all begun sessions anew, from 1
//     on and in the order that they had, the caller last; begin, put and ask leave the store
//   - an accepted ask sets the caller's mark and no other word of the table; of a session that has it, put
//   and
//     ask are refused 21, a step 7 and a begin 5, and commit and abort are accepted: tried on copies after
//     each ask and each recover
//   - recover is refused by 1 and 2 alone. It leaves, in every word, what is left when the housekeeper's
//     request and latch are taken off by hand and each begun session that is not asked is aborted on a copy,
//     one by one; the records of the others stay as they were, nobody has a request in hand, and whoever is
//     begun is asked
//   - of sound words only a begun session with no request in hand is asked, and part 13 is named only where
//     another is
//   - after every accepted call store and table are sound, M and R and the words beyond the records as before
//   - a run, a request and a batch answer and leave, in every word of store, table, list and answers, what
//     the single calls that they stand for do, made one by one on copies
//   - a call of a card's day is refused by the first of its checks, read off the bytes here; else it answers
//     and leaves, in every word of store and table, what the put or the step that it stands for does on a
//     copy, with the place that is due
//   - a day's bytes are those of its pairs and values, or it is refused and writes nothing
//   - free counts the free records, holders are those of the key's descriptor or of the gap below it; both
//     are refused as the calls are, and change nothing
//
// Prints every few seconds how far it is, then how often each call gave each answer, and then ok, or the fact
// that failed and how to see it again.
#define _DEFAULT_SOURCE
#include "entry_store.h"

#include <signal.h>
#include <stdio.h>
#include <stdlib.h>
#include <string.h>
#include <sys/mman.h>
#include <time.h>
#include <unistd.h>

// ---- random numbers

static uint64_t state;

// splitmix64
static uint64_t next_random(void)
{
    uint64_t z = state += UINT64_C(0x9e3779b97f4a7c15);
    z = (z ^ z >> 30) * UINT64_C(0xbf58476d1ce4e5b9);
    z = (z ^ z >> 27) * UINT64_C(0x94d049bb133111eb);
    return z ^ z >> 31;
}

static uint32_t any_word(void)
{
    return (uint32_t)next_random();
}

// 0 to n - 1
static uint32_t below(uint32_t n)
{
    return (uint32_t)((next_random() >> 32) * n >> 32);
}

static int one_in(uint32_t n)
{
    return below(n) == 0;
}

// Words that are likely to be on an edge.
static uint32_t odd_word(void)
{
    enum { PARTIES = ENTRY_STORE_PARTIES };
    static const uint32_t edges[] = {
        0,    1,    2,    3,    8,    PARTIES - 2, PARTIES - 1, PARTIES,    PARTIES + 1,
        1023, 1024, 1025, 4095, 4096, 4097,        0x7fffffff,  0x80000000, 0xffff,
        20,   19,   21,   7,    9,    0xfffffffd,  0xfffffffe,  0xffffffff};
    return one_in(2) ? edges[below(sizeof edges / sizeof edges[0])] : any_word();
}

// ---- lent memory between two pages that may not be touched

enum {
    MAX_STORE = ENTRY_STORE_MAX_WORDS + 64,
    MAX_TABLE = ENTRY_STORE_PARTIES + 7,
    MAX_LIST = 4096,
    MAX_ASKS = 64,
    MAX_ASK_WORDS = MAX_ASKS * ENTRY_STORE_ASK_WORDS + ENTRY_STORE_ASK_WORDS - 1,
    MAX_ANSWERS = MAX_ASKS + 4,
    MAX_BYTES = 6000,
    MAX_VALUES = 1500,
    PATTERN = 0xa5
};

struct lent {
    unsigned char *room; // between the two pages
    size_t room_bytes;
    unsigned char *at; // what is lent
    size_t bytes;
    unsigned char *copy; // as it was before the call
};

static void make_room(struct lent *l, size_t bytes)
{
    size_t page = (size_t)sysconf(_SC_PAGESIZE);
    l->room_bytes = (bytes + page - 1) / page * page;
    unsigned char *all =
        mmap(NULL, l->room_bytes + 2 * page, PROT_READ | PROT_WRITE, MAP_PRIVATE | MAP_ANONYMOUS, -1, 0);
    l->copy = malloc(l->room_bytes);
    if (all == MAP_FAILED || l->copy == NULL || mprotect(all, page, PROT_NONE) != 0 ||
        mprotect(all + page + l->room_bytes, page, PROT_NONE) != 0) {
        fprintf(stderr, "no memory\n");
        exit(2);
    }
    l->room = all + page;
    memset(l->room, PATTERN, l->room_bytes);
}

// Lends so many bytes at the front or at the end of the room.
static void lend(struct lent *l, size_t bytes)
{
    memset(l->room, PATTERN, l->room_bytes);
    l->bytes = bytes;
    l->at = one_in(2) ? l->room : l->room + l->room_bytes - bytes;
}

static void keep(struct lent *l)
{
    memcpy(l->copy, l->at, l->bytes);
}

static int unchanged(const struct lent *l)
{
    return memcmp(l->copy, l->at, l->bytes) == 0;
}

// The nearest bytes of the room on both sides have their pattern.
static int pattern_kept(const struct lent *l)
{
    enum { NEAR = 256 };
    size_t front = (size_t)(l->at - l->room), behind = l->room_bytes - front - l->bytes;
    for (size_t k = 0; k < NEAR; k++) {
        if (k < front && l->at[-1 - (ptrdiff_t)k] != PATTERN) {
            return 0;
        }
        if (k < behind && l->at[l->bytes + k] != PATTERN) {
            return 0;
        }
    }
    return 1;
}

static struct lent store_room, table_room, list_room, asks_room, answers_room, bytes_room, values_room;
static uint32_t *store, *list, *asks, *values;
static uint64_t *answers;
static uint8_t *bytes;
static struct entry_store_session *table;
static size_t store_len, table_len, list_len, asks_len, answers_len, bytes_len, values_len;

static void lend_store(size_t words)
{
    store_len = words;
    lend(&store_room, words * sizeof *store);
    store = (uint32_t *)(void *)store_room.at;
}

static void lend_table(size_t records)
{
    table_len = records;
    lend(&table_room, records * sizeof *table);
    table = (struct entry_store_session *)(void *)table_room.at;
}

static void lend_list(size_t words)
{
    list_len = words;
    lend(&list_room, words * sizeof *list);
    list = (uint32_t *)(void *)list_room.at;
}

// Asks and answers of a batch.
static void lend_asks(size_t words, size_t places)
{
    asks_len = words;
    lend(&asks_room, words * sizeof *asks);
    asks = (uint32_t *)(void *)asks_room.at;
    answers_len = places;
    lend(&answers_room, places * sizeof *answers);
    answers = (uint64_t *)(void *)answers_room.at;
}

// The bytes of a day.
static void lend_bytes(size_t length)
{
    bytes_len = length;
    lend(&bytes_room, length);
    bytes = bytes_room.at;
}

static void lend_values(size_t words)
{
    values_len = words;
    lend(&values_room, words * sizeof *values);
    values = (uint32_t *)(void *)values_room.at;
}

static void keep_all(void)
{
    keep(&store_room);
    keep(&table_room);
    keep(&list_room);
    keep(&asks_room);
    keep(&answers_room);
    keep(&bytes_room);
    keep(&values_room);
}

static int all_patterns_kept(void)
{
    return pattern_kept(&store_room) && pattern_kept(&table_room) && pattern_kept(&list_room) &&
           pattern_kept(&asks_room) && pattern_kept(&answers_room) && pattern_kept(&bytes_room) &&
           pattern_kept(&values_room);
}

// What was there before the call.
static const uint32_t *old_store(void)
{
    return (const uint32_t *)(const void *)store_room.copy;
}

static const struct entry_store_session *old_table(void)
{
    return (const struct entry_store_session *)(const void *)table_room.copy;
}

static const uint32_t *old_list(void)
{
    return (const uint32_t *)(const void *)list_room.copy;
}

// ---- one call

enum call {
    FORMAT,
    BEGIN,
    PUT,
    STEP,
    COMMIT,
    ABORT,
    ASK,
    RECOVER,
    RUN,
    REQUEST,
    BATCH,
    DAY,
    DAY_BYTES,
    CALLS,
    ASKS = CALLS, // the row of a batch's asks
    ROWS
};
enum { SINGLE = RECOVER + 1 };

static const char *const call_names[ROWS] = {"format", "begin", "put",     "step",    "commit",
                                             "abort",  "ask",   "recover", "run",     "request",
                                             "batch",  "day",   "bytes",   "its asks"};

struct asked {
    enum call call;
    uint32_t party, code, entry, first, second, most; // format: entry is M
};

// What a day call is handed beside the party and the bytes.
struct day {
    uint32_t driver, start, entry, place;
};

// What the runs have reached.
static struct {
    uint64_t done[7];  // by code
    uint64_t removed;  // by tidies
    uint32_t levels;   // of the highest tree
    uint64_t several;  // waits with several sessions in the way
    uint64_t together; // inserts and removes at a key that another session updates
    uint64_t undone, tidies, latches,
        spared; // by recovers: sessions, tidies, those at a node; asked sessions
    uint64_t damaged, still_sound;
    uint32_t steps, asks; // the most of a run, and of a batch
    uint64_t days;        // read to their ends
    uint32_t stretches;   // the most of these
} reached;

static struct asked now;
static struct day day;
static uint64_t seed, run_number, call_number;

// What a call is lent, with the lengths of what is lent now.
struct loan {
    uint32_t *store;
    struct entry_store_session *table;
    uint32_t *list;
    size_t list_len;
    uint64_t *answers;
};

static struct loan lent_now(void)
{
    struct loan l = {store, table, list, list_len, answers};
    return l;
}

static uint64_t make_call(const struct asked *a, struct loan l)
{
    switch (a->call) {
    case FORMAT:
        return entry_store_format(l.store, store_len, l.table, table_len, a->entry);
    case BEGIN:
        return entry_store_begin(l.store, store_len, l.table, table_len, a->party);
    case PUT:
        return entry_store_put(l.store, store_len, l.table, table_len, a->party, a->code, a->entry, a->first,
                               a->second);
    case STEP:
        return entry_store_step(l.store, store_len, l.table, table_len, l.list, l.list_len, a->party);
    case COMMIT:
        return entry_store_commit(l.store, store_len, l.table, table_len, a->party);
    case ABORT:
        return entry_store_abort(l.store, store_len, l.table, table_len, a->party);
    case ASK:
        return entry_store_ask(l.store, store_len, l.table, table_len, a->party);
    case RECOVER:
        return entry_store_recover(l.store, store_len, l.table, table_len);
    case RUN:
        return entry_store_run(l.store, store_len, l.table, table_len, l.list, l.list_len, a->party, a->most);
    case REQUEST:
        return entry_store_request(l.store, store_len, l.table, table_len, l.list, l.list_len, a->party,
                                   a->code, a->entry, a->first, a->second, a->most);
    case DAY:
        return entry_store_day(l.store, store_len, l.table, table_len, bytes, bytes_len, a->party, day.driver,
                               day.start, day.entry, day.place);
    default:
        return entry_store_batch(l.store, store_len, l.table, table_len, l.list, l.list_len, asks, asks_len,
                                 l.answers, answers_len);
    }
}

static void print_place(void)
{
    printf("seed %llu, run %llu, call %llu: %s party %u code %u entry %u first %u second %u most %u; "
           "lengths %zu %zu %zu, asks %zu, answers %zu\n",
           (unsigned long long)seed, (unsigned long long)run_number, (unsigned long long)call_number,
           call_names[now.call], now.party, now.code, now.entry, now.first, now.second, now.most, store_len,
           table_len, list_len, asks_len, answers_len);
    for (size_t k = 0; now.call == BATCH && k < asks_len; k++) {
        int first = k % ENTRY_STORE_ASK_WORDS == 0,
            last = k % ENTRY_STORE_ASK_WORDS == ENTRY_STORE_ASK_WORDS - 1;
        printf("%s%u%s", first ? "  ask " : " ", asks[k], last || k == asks_len - 1 ? "\n" : "");
    }
    if (now.call == DAY || now.call == DAY_BYTES) {
        printf("  driver %u start %u entry %u place %u, values %zu, bytes %zu:", day.driver, day.start,
               day.entry, day.place, values_len, bytes_len);
        for (size_t k = 0; k < bytes_len; k++) {
            printf("%s%02x", k % 2 == 0 ? " " : "", bytes_room.copy[k]);
        }
        printf("\n");
    }
    printf("again: fuzz 0 %llu %llu\n", (unsigned long long)seed, (unsigned long long)run_number);
}

// A fact does not hold.
static void fails(const char *fact)
{
    printf("NOT SO: %s\n", fact);
    print_place();
    exit(1);
}

static void fact(int holds, const char *text)
{
    if (!holds) {
        fails(text);
    }
}

// An access outside what was lent, or another fault of the machine.
static void on_signal(int number)
{
    printf("NOT SO: a call touches only what it is lent, and returns (signal %d)\n", number);
    print_place();
    fflush(stdout);
    _exit(1);
}

// ---- the refusal that docs/RULES.md, section 8, gives, from arguments, table and lengths

static uint32_t format_refusal(uint32_t m)
{
    int fits = m >= ENTRY_STORE_MIN_ENTRIES && m <= ENTRY_STORE_MAX_ENTRIES &&
               store_len >= entry_store_words(m, ENTRY_STORE_MIN_RECORDS);
    return fits ? 0 : ENTRY_STORE_SIZES;
}

static int infinite(uint32_t key)
{
    return key == 0 || key == UINT32_MAX;
}

static uint32_t request_refusal(const struct asked *a)
{
    uint32_t code = a->code;
    if (code < 1 || code > 6 || (code == 6) != (a->party == 0)) {
        return ENTRY_STORE_CODE;
    }
    if (code <= 4 && (a->entry < 1 || a->entry > old_store()[0])) {
        return ENTRY_STORE_ENTRY;
    }
    if ((code == 3 || code == 4 || code == 5) && infinite(a->first)) {
        return ENTRY_STORE_KEY;
    }
    if (code == 5 && infinite(a->second)) {
        return ENTRY_STORE_KEY;
    }
    return code == 5 && a->first > a->second ? ENTRY_STORE_RANGE : 0;
}

// The checks 4, 5, 21 and 7 of a party.
static uint32_t party_refusal(const struct asked *a)
{
    if (a->party > ENTRY_STORE_SESSIONS || (a->party == 0 && a->call != PUT && a->call != STEP)) {
        return ENTRY_STORE_PARTY;
    }
    const struct entry_store_session *s = &old_table()[a->party];
    int begun = a->party == 0 || s->begun != 0, in_hand = s->stage != 0;
    if (begun == (a->call == BEGIN)) {
        return ENTRY_STORE_BEGUN;
    }
    if ((a->call == PUT || a->call == ASK) && s->asked != 0) {
        return ENTRY_STORE_ASKED;
    }
    if (((a->call == PUT || a->call == COMMIT || a->call == ASK) && in_hand) ||
        (a->call == STEP && !in_hand)) {
        return ENTRY_STORE_HAND;
    }
    return 0;
}

// fault is that of store and table before the call.
static uint32_t expected_refusal(const struct asked *a, uint32_t fault)
{
    if (table_len != ENTRY_STORE_PARTIES) {
        return ENTRY_STORE_TABLE;
    }
    if (a->call == FORMAT) {
        return format_refusal(a->entry);
    }
    if (fault != 0) {
        return ENTRY_STORE_UNSOUND;
    }
    uint32_t refusal = a->call == RECOVER ? 0 : party_refusal(a);
    return refusal == 0 && a->call == PUT ? request_refusal(a) : refusal;
}

// ---- facts about an answer alone

static void facts_of_bits(uint64_t bits, struct entry_store_answer a)
{
    uint32_t count = entry_store_count_of(bits);
    fact(bits >> 50 == 0, "bits 50 to 63 are 0 in the answer of a single call");
    fact(a.word <= ENTRY_STORE_REFUSED, "the word is one of five");
    switch (a.word) {
    case ENTRY_STORE_WAIT:
        fact(count == 1 && a.number == 0, "wait has one number");
        break;
    case ENTRY_STORE_DONE:
        fact(count == 1 || count == 2, "done has one number or two");
        fact(count == 2 || a.number == 0, "done without a second number has 0 in its place");
        break;
    case ENTRY_STORE_REFUSED:
        fact(count == 2, "refused has two numbers");
        fact((a.number >= 1 && a.number <= 12) || a.number == ENTRY_STORE_ASKED,
             "a refusal is 1 to 12 or 21");
        fact(a.value == 0 || a.number == ENTRY_STORE_LIST, "0 stands beside a refusal but 12");
        break;
    default:
        fact(count == 0 && a.number == 0 && a.value == 0, "ok and more have no number");
    }
}

static void facts_of_word(struct entry_store_answer a)
{
    int stepped = now.call == STEP;
    int moves = a.word == ENTRY_STORE_MORE || a.word == ENTRY_STORE_WAIT || a.word == ENTRY_STORE_DONE;
    fact(!moves || stepped, "only a step answers more, wait or done");
    fact(a.word != ENTRY_STORE_OK || !stepped, "a step never answers ok");
}

static void facts_of_refusal(struct entry_store_answer a, uint32_t fault)
{
    uint32_t expected = expected_refusal(&now, fault);
    uint32_t number = a.word == ENTRY_STORE_REFUSED ? a.number : 0;
    if (number == ENTRY_STORE_FULL || number == ENTRY_STORE_LIST) {
        fact(now.call == STEP, "11 and 12 arise in a step");
        number = 0;
    }
    fact(number == expected, "a call is refused by the first check that fails, and by no other");
}

// ---- facts about what was changed

static void nothing_changed(void)
{
    fact(unchanged(&store_room), "the store is not changed");
    fact(unchanged(&table_room), "the table is not changed");
    fact(unchanged(&list_room), "the list is not changed");
    fact(unchanged(&asks_room) && unchanged(&answers_room) && unchanged(&bytes_room),
         "what is not lent is not changed");
}

// What a record has after the call: a begin gives other begun sessions a number.
static struct entry_store_session record_due(size_t p)
{
    struct entry_store_session due = old_table()[p];
    if (now.call != BEGIN || p == 0 || due.begun == 0) {
        return due;
    }
    due.order = 1;
    for (size_t q = 1; q < ENTRY_STORE_PARTIES; q++) {
        due.order += old_table()[q].begun != 0 && old_table()[q].order < old_table()[p].order;
    }
    return due;
}

// Only the caller's record, and the other records as before.
static void only_own_record(void)
{
    for (size_t p = 0; p < table_len; p++) {
        struct entry_store_session due = record_due(p);
        fact(p == now.party || memcmp(&table[p], &due, sizeof due) == 0,
             "only the caller's record of the table changes, and at a begin the numbers of begun sessions");
    }
}

// A begun session's number after its begin: it is the last.
static uint32_t last_number(void)
{
    uint32_t count = 0;
    for (size_t q = 1; q < ENTRY_STORE_PARTIES; q++) {
        count += table[q].begun != 0;
    }
    return count;
}

static size_t words_in_use(void)
{
    return entry_store_words(store[0], store[1]);
}

static void words_beyond_kept(void)
{
    size_t used = words_in_use();
    fact(used <= store_len, "M and R fit the length");
    fact(memcmp(store + used, old_store() + used, (store_len - used) * sizeof *store) == 0,
         "the words beyond the records are not changed");
}

// Whether 11 and 12 may change word k of the store: the latch of the request's node, the pins of its
// descriptors.
static int ends_with_request(size_t k)
{
    const struct entry_store_session *r = &old_table()[now.party];
    size_t records = entry_store_words(store[0], 0);
    if (k < records) {
        return 0;
    }
    size_t i = (k - records) / ENTRY_STORE_RECORD_WORDS + 1, at = (k - records) % ENTRY_STORE_RECORD_WORDS;
    return (r->stage == 3 && i == r->at && at == 0) || ((i == r->low || i == r->high) && at == 5);
}

// 11 and 12 end the request, its latch and its pins.
static void only_request_ended(void)
{
    for (size_t k = 0; k < store_len; k++) {
        fact(store[k] == old_store()[k] || ends_with_request(k),
             "11 and 12 change no word but the request's latch and pins");
    }
    fact(table[now.party].stage == 0, "11 and 12 end the request");
    fact(unchanged(&list_room), "11 and 12 leave the list");
}

// ---- facts of each answer

static const uint32_t *record(uint32_t i)
{
    return store + entry_store_words(store[0], i - 1);
}

// The descriptor that a locate takes next: the lowest key from first on, or above the last one taken.
static uint32_t next_taken(const struct entry_store_session *r)
{
    uint32_t i = store[4], from = r->last < r->first ? r->first : r->last + 1;
    while (record(i)[1] < from) {
        i = record(i)[0];
    }
    return i;
}

// The holders that conflict with what the party asks for, by a long lock; its own among them. In the way of
// an insert or remove are those that locate the key, in the way of a locate those that update it.
static uint32_t conflicting(const struct entry_store_session *r)
{
    if (r->stage == 1) {
        const uint32_t *entry = store + entry_store_words(r->entry - 1, 0);
        return entry[2] | (r->code == ENTRY_STORE_READ ? 0 : entry[1]);
    }
    if (r->stage == 4) {
        return record(r->low)[2];
    }
    return record(next_taken(r))[3];
}

static uint32_t began_first(uint32_t sessions)
{
    uint32_t first = 0;
    for (uint32_t p = 1; p < ENTRY_STORE_PARTIES; p++) {
        if ((sessions >> (p - 1) & 1) != 0 && (first == 0 || table[p].order < table[first].order)) {
            first = p;
        }
    }
    return first;
}

static int latched(uint32_t node)
{
    return record(node)[0] != 0 && record(node)[0] != now.party + 1;
}

// The first of two nodes that another party has latched.
static uint32_t latched_first(uint32_t one, uint32_t two)
{
    fact(latched(one) || latched(two), "wait needs a latch of another party");
    return record(latched(one) ? one : two)[0] - 1;
}

// Whose latch is in the way of a step from node `at` to its son on the way to the target.
static uint32_t son_latch(const struct entry_store_session *r)
{
    const uint32_t *node = record(r->at);
    uint32_t k = 0;
    while (k + 1 < node[1] && node[2 + k] < r->target) {
        k += 1;
    }
    if (now.party != 0 || record(node[9 + k])[1] != 3) {
        return latched_first(node[9 + k], node[9 + k]);
    }
    uint32_t left = k == 0 ? 0 : k - 1;
    return latched_first(node[9 + left], node[9 + left + 1]);
}

static uint32_t root_latch(void)
{
    uint32_t root = store[2];
    int lone = store[3] > 1 && record(root)[1] == 1;
    return latched_first(root, lone ? record(root)[9] : root);
}

// Whom a wait has to name.
static uint32_t named(void)
{
    const struct entry_store_session *r = &table[now.party];
    if (r->stage == 2) {
        return root_latch();
    }
    if (r->stage == 3) {
        return son_latch(r);
    }
    uint32_t sessions = conflicting(r) & ~(UINT32_C(1) << (now.party - 1));
    fact(sessions != 0, "wait needs a long lock of another session");
    reached.several += (sessions & (sessions - 1)) != 0;
    return began_first(sessions);
}

static void facts_of_wait(struct entry_store_answer a)
{
    nothing_changed();
    fact(a.value == named(), "wait names the one that began first, or the highest and leftmost latch");
}

// The pairs of a locate that is done.
static void facts_of_pairs(uint32_t count, const struct entry_store_session *r)
{
    fact(2 * (uint64_t)count <= list_len, "a locate's pairs fit the list");
    for (uint32_t k = 0; k < count; k++) {
        uint32_t key = list[2 * k], entry = list[2 * k + 1];
        fact(key >= r->first && key <= r->second, "a locate's keys lie in its range");
        fact(entry >= 1 && entry <= store[0], "a locate's entries are 1 to M");
        fact(k == 0 || key > list[2 * k - 2] || (key == list[2 * k - 2] && entry > list[2 * k - 1]),
             "a locate's pairs rise by key, then entry");
    }
    fact(memcmp(list + 2 * count, old_list() + 2 * count, (list_len - 2 * count) * sizeof *list) == 0,
         "later words of the list stay");
}

static void facts_of_done(struct entry_store_answer a, uint32_t count)
{
    const struct entry_store_session *r = &old_table()[now.party];
    const uint32_t *entry = store + entry_store_words(r->code <= 4 ? r->entry - 1 : 0, 0);
    uint32_t own = now.party == 0 ? 0 : UINT32_C(1) << (now.party - 1);
    fact(r->stage != 0, "done needs a request in hand");
    fact(table[now.party].stage == 0, "done ends the request");
    fact((count == 2) == (r->code == 6), "a tidy's done has two numbers, any other one");
    switch (r->code) {
    case 1:
        fact(a.value == entry[0] && (entry[1] >> (now.party - 1) & 1) == 1,
             "a read answers the value, and shares it");
        break;
    case 2:
        fact(a.value == 0 && entry[0] == r->first && (entry[2] >> (now.party - 1) & 1) == 1,
             "a write answers 0, writes, and has the entry for itself");
        break;
    case 5:
        facts_of_pairs(a.value, r);
        break;
    case 6:
        fact(a.number <= 1 && (a.value != 0 || a.number == 0), "a tidy removes one descriptor, or none");
        fact(a.value == 0 || a.value > r->first, "a tidy's key lies above its first");
        break;
    default:
        fact(a.value <= 1, "insert and remove answer 0 or 1");
        fact(a.value == (table[now.party].undo != r->undo), "they answer 1 exactly with a new undo record");
        fact((record(r->low)[3] >> (now.party - 1) & 1) == 1, "they have the update lock in the end");
        fact((record(r->low)[2] & ~own) == 0, "nobody else locates the key then");
        reached.together += (record(r->low)[3] & ~own) != 0;
    }
    fact(r->code == 5 || unchanged(&list_room), "only a locate writes the list");
}

static void facts_of_step(struct entry_store_answer a, uint32_t count)
{
    if (a.word == ENTRY_STORE_DONE) {
        facts_of_done(a, count);
    } else if (a.word == ENTRY_STORE_MORE) {
        fact(table[now.party].stage != 0, "more leaves the request in hand");
        fact(unchanged(&list_room), "more leaves the list");
    } else {
        only_request_ended();
        fact(a.number != ENTRY_STORE_LIST || old_table()[now.party].code == 5, "12 comes of a locate");
        fact(a.number != ENTRY_STORE_LIST || 2 * (uint64_t)a.value > list_len,
             "12 comes of a list that is too short");
    }
}

// The caller's record has the mark, and nothing else is another.
static void facts_of_ask(void)
{
    struct entry_store_session due = old_table()[now.party];
    fact(unchanged(&store_room), "ask leaves the store");
    fact(table[now.party].asked != 0, "ask asks");
    due.asked = table[now.party].asked;
    fact(memcmp(&table[now.party], &due, sizeof due) == 0, "ask changes the mark alone");
}

// Nobody has a request in hand, whoever is begun is asked, and the records of sessions that were asked, or
// not begun, are as they were.
static void facts_of_recover(void)
{
    fact(unchanged(&list_room), "recover leaves the list");
    fact(table[0].stage == 0, "recover ends the housekeeper's request");
    for (size_t p = 1; p < ENTRY_STORE_PARTIES; p++) {
        const struct entry_store_session *was = &old_table()[p], *is = &table[p];
        int ends = was->begun != 0 && was->asked == 0;
        fact(is->stage == 0, "after recover nobody has a request in hand");
        fact((is->begun != 0) == (is->asked != 0), "after recover whoever is begun is asked");
        fact(!ends || (is->begun == 0 && is->undo == 0 && is->order == 0), "recover ends who is not asked");
        fact(ends || memcmp(is, was, sizeof *is) == 0, "recover leaves all other records");
        reached.undone += ends;
        reached.spared += was->asked != 0;
    }
    reached.tidies += old_table()[0].stage != 0;
    reached.latches += old_table()[0].stage == 3;
}

static void facts_of_ok(void)
{
    const struct entry_store_session *s = &table[now.party];
    fact(unchanged(&list_room), "only a step writes the list");
    if (now.call == BEGIN || now.call == PUT) {
        fact(unchanged(&store_room), "begin and put leave the store");
        fact(now.call == BEGIN ? s->begun != 0 : s->stage != 0, "begin begins, put leaves a request in hand");
        fact(now.call != BEGIN || s->order == last_number(), "whoever begins is the last");
        fact(s->asked == 0, "whoever begins or puts is not asked");
    } else if (now.call == ASK) {
        facts_of_ask();
    } else {
        fact(s->begun == 0 && s->stage == 0 && s->order == 0 && s->asked == 0,
             "commit and abort end the session and its request");
    }
}

static void facts_of_format(void)
{
    fact(unchanged(&list_room), "format leaves the list");
    fact(store[0] == now.entry, "format sets M");
    for (size_t p = 0; p < ENTRY_STORE_PARTIES; p++) {
        fact((p == 0 || table[p].begun == 0) && table[p].stage == 0 && table[p].order == 0 &&
                 table[p].asked == 0,
             "format clears the table");
    }
}

// An accepted call, 11 and 12 among them.
static void facts_of_accepted(struct entry_store_answer a, uint32_t count)
{
    if (now.call == FORMAT) {
        facts_of_format();
    } else if (now.call == RECOVER) {
        fact(store[0] == old_store()[0] && store[1] == old_store()[1], "M and R stay");
        facts_of_recover();
    } else {
        only_own_record();
        fact(store[0] == old_store()[0] && store[1] == old_store()[1], "M and R stay");
        if (now.call == STEP) {
            facts_of_step(a, count);
        } else {
            facts_of_ok();
        }
    }
    words_beyond_kept();
    fact(entry_store_fault(store, store_len, table, table_len) == 0,
         "store and table are sound after the call");
}

static int ends_request(struct entry_store_answer a)
{
    return a.number == ENTRY_STORE_FULL || a.number == ENTRY_STORE_LIST;
}

// By the word, and by the refusal.
static const uint32_t refusals[] = {1, 2, 3, 4, 5, 6, 7, 8, 9, 10, 11, 12, 13, 14, 21, 101, 102, 103};
enum { REFUSALS = sizeof refusals / sizeof refusals[0], COLUMNS = ENTRY_STORE_REFUSED + REFUSALS };
static uint64_t counts[ROWS][COLUMNS];
static int waits[ENTRY_STORE_PARTIES]; // the party's last call answered wait

static uint32_t column(struct entry_store_answer a)
{
    uint32_t k = 0;
    if (a.word != ENTRY_STORE_REFUSED) {
        return a.word;
    }
    while (k + 1 < REFUSALS && refusals[k] != a.number) {
        k += 1;
    }
    return ENTRY_STORE_REFUSED + k;
}

static void count(struct entry_store_answer a)
{
    counts[now.call][column(a)] += 1;
    if (now.party <= ENTRY_STORE_SESSIONS) {
        waits[now.party] = a.word == ENTRY_STORE_WAIT;
    }
    if (a.word == ENTRY_STORE_DONE) {
        reached.done[old_table()[now.party].code] += 1;
        reached.removed += a.number;
        reached.levels = store[3] > reached.levels ? store[3] : reached.levels;
    }
}

// Whether only begun sessions with no request in hand are asked.
static int marks_are_sound(void)
{
    for (size_t p = 0; p < ENTRY_STORE_PARTIES; p++) {
        if (table[p].asked != 0 && (p == 0 || table[p].begun == 0 || table[p].stage != 0)) {
            return 0;
        }
    }
    return 1;
}

static void facts_of_fault(uint32_t fault)
{
    fact(fault <= ENTRY_STORE_PART_ASKED &&
             (fault == ENTRY_STORE_PART_TABLE) == (table_len != ENTRY_STORE_PARTIES),
         "a part of soundness is 1 to 13, 11 for a wrong table");
    fact(fault != ENTRY_STORE_PART_NONE || marks_are_sound(), "sound marks are those of begun sessions");
    fact(fault != ENTRY_STORE_PART_ASKED || !marks_are_sound(), "part 13 is named where a mark is not sound");
}

static struct entry_store_answer call(struct asked asked)
{
    now = asked;
    call_number += 1;
    keep_all();
    uint32_t fault = entry_store_fault(store, store_len, table, table_len);
    nothing_changed();
    facts_of_fault(fault);
    uint64_t bits = make_call(&now, lent_now());
    struct entry_store_answer a = entry_store_unpack(bits);
    facts_of_bits(bits, a);
    facts_of_word(a);
    facts_of_refusal(a, fault);
    if (a.word == ENTRY_STORE_WAIT) {
        facts_of_wait(a);
    } else if (a.word == ENTRY_STORE_REFUSED && !ends_request(a)) {
        nothing_changed();
    } else {
        facts_of_accepted(a, entry_store_count_of(bits));
    }
    fact(all_patterns_kept(), "bytes beside what is lent are not written");
    count(a);
    return a;
}

// ---- several calls in one, held against single calls on copies

static uint32_t twin_store[MAX_STORE], twin_list[MAX_LIST];
static struct entry_store_session twin_table[MAX_TABLE];
static uint64_t twin_answers[MAX_ANSWERS];

static struct loan copy_all(void)
{
    struct loan l = {twin_store, twin_table, twin_list, list_len, twin_answers};
    memcpy(twin_store, store, store_room.bytes);
    memcpy(twin_table, table, table_room.bytes);
    memcpy(twin_list, list, list_room.bytes);
    memcpy(twin_answers, answers, answers_room.bytes);
    return l;
}

static int same_all(void)
{
    return memcmp(twin_store, store, store_room.bytes) == 0 &&
           memcmp(twin_table, table, table_room.bytes) == 0 &&
           memcmp(twin_list, list, list_room.bytes) == 0 &&
           memcmp(twin_answers, answers, answers_room.bytes) == 0;
}

static int is_word(uint64_t answer, uint32_t word)
{
    return entry_store_word_of(answer) == word;
}

static uint64_t answered(uint32_t word, uint32_t numbers, uint32_t number, uint32_t value)
{
    return value | (uint64_t)number << 32 | (uint64_t)word << 40 | (uint64_t)numbers << 48;
}

static uint64_t refusal(uint32_t number)
{
    return answered(ENTRY_STORE_REFUSED, 2, number, 0);
}

static uint64_t done(uint32_t value)
{
    return answered(ENTRY_STORE_DONE, 1, 0, value);
}

// A step of a table that is wrong is none.
static uint64_t steps_one_by_one(struct asked a, struct loan l)
{
    uint64_t answer, steps = 0;
    a.call = STEP;
    do {
        answer = make_call(&a, l);
        steps += 1;
    } while (is_word(answer, ENTRY_STORE_MORE) && steps < a.most && steps < ENTRY_STORE_MOST_STEPS);
    return table_len == ENTRY_STORE_PARTIES ? answer | steps << 50 : answer;
}

static uint64_t one_by_one(struct asked a, struct loan l)
{
    if (a.call == RUN) {
        return steps_one_by_one(a, l);
    }
    if (a.call == STEP) {
        return make_call(&a, l) | UINT64_C(1) << 50;
    }
    if (a.call != REQUEST) {
        return make_call(&a, l);
    }
    a.call = PUT;
    uint64_t answer = make_call(&a, l);
    return is_word(answer, ENTRY_STORE_OK) ? steps_one_by_one(a, l) : answer;
}

// Ask k of the lent asks; CALLS for its call where it is none.
static struct asked ask_at(size_t k)
{
    static const enum call kinds[] = {CALLS, BEGIN, PUT, STEP, COMMIT, ABORT, RUN, REQUEST, ASK};
    const uint32_t *w = asks + ENTRY_STORE_ASK_WORDS * k;
    struct asked a = {CALLS, 0, 0, 0, 0, 0, 0};
    if (asks_len - ENTRY_STORE_ASK_WORDS * k >= ENTRY_STORE_ASK_WORDS && w[0] <= ENTRY_STORE_ASK_ASK) {
        struct asked whole = {kinds[w[0]], w[1], w[2], w[3], w[4], w[5], w[6]};
        a = whole;
    }
    return a;
}

// Whether an ask moves a locate: then its pairs are behind those of the locates before it.
static int moves_locate(const struct asked *a, const struct loan *l)
{
    return a->call == REQUEST ? a->code == ENTRY_STORE_LOCATE
                              : (a->call == STEP || a->call == RUN) && a->party <= ENTRY_STORE_SESSIONS &&
                                    l->table[a->party].code == ENTRY_STORE_LOCATE;
}

static int ends_batch(const struct asked *a, uint64_t answer)
{
    return is_word(answer, ENTRY_STORE_WAIT) || is_word(answer, ENTRY_STORE_REFUSED) ||
           (is_word(answer, ENTRY_STORE_MORE) && a->call != STEP);
}

static uint64_t asks_one_by_one(struct loan l)
{
    size_t count = (asks_len + ENTRY_STORE_ASK_WORDS - 1) / ENTRY_STORE_ASK_WORDS, made = 0;
    for (int ended = 0; made < count && !ended; made++) {
        struct asked a = ask_at(made);
        int locates = moves_locate(&a, &l);
        uint64_t answer = a.call == CALLS ? refusal(ENTRY_STORE_NO_ASK) : one_by_one(a, l);
        l.answers[made] = answer;
        counts[ASKS][column(entry_store_unpack(answer))] += 1;
        ended = ends_batch(&a, answer);
        if (locates && is_word(answer, ENTRY_STORE_DONE)) {
            l.list += 2 * entry_store_value_of(answer);
            l.list_len -= 2 * entry_store_value_of(answer);
        }
    }
    reached.asks = made > reached.asks ? (uint32_t)made : reached.asks;
    return done((uint32_t)made);
}

static uint64_t batch_one_by_one(struct loan l)
{
    if (table_len != ENTRY_STORE_PARTIES) {
        return refusal(ENTRY_STORE_TABLE);
    }
    if (entry_store_fault(l.store, store_len, l.table, table_len) != 0) {
        return refusal(ENTRY_STORE_UNSOUND);
    }
    int short_answers = ENTRY_STORE_ASK_WORDS * answers_len < asks_len;
    return short_answers ? refusal(ENTRY_STORE_ANSWERS) : asks_one_by_one(l);
}

// The most asks that a batch may have, and one more. All are of no kind, so at most the first is answered.
static void many_asks(void)
{
    enum { MANY = ENTRY_STORE_MOST_ASKS + 1 };
    static uint32_t no_asks[ENTRY_STORE_ASK_WORDS * MANY];
    static uint64_t places[MANY];
    const size_t most = ENTRY_STORE_ASK_WORDS * (MANY - 1);
    uint32_t fault = entry_store_fault(store, store_len, table, table_len);
    uint64_t wrong =
        fault == 0 ? 0 : refusal(table_len == ENTRY_STORE_PARTIES ? ENTRY_STORE_UNSOUND : ENTRY_STORE_TABLE);
    keep_all();
    places[0] = 0;
    uint64_t above = entry_store_batch(store, store_len, table, table_len, list, list_len, no_asks, most + 1,
                                       places, MANY);
    fact(above == (wrong != 0 ? wrong : refusal(ENTRY_STORE_ANSWERS)) && places[0] == 0,
         "too many asks are refused");
    uint64_t all = entry_store_batch(store, store_len, table, table_len, list, list_len, no_asks, most,
                                     places, MANY - 1);
    fact(all == (wrong != 0 ? wrong : done(1)) && places[0] == (wrong != 0 ? 0 : refusal(ENTRY_STORE_NO_ASK)),
         "the most asks are not too many");
    nothing_changed();
}

// A run, a request or a batch.
static void call_several(struct asked asked)
{
    now = asked;
    call_number += 1;
    keep_all();
    struct loan twin = copy_all();
    uint64_t bits = make_call(&now, lent_now());
    uint64_t expected = now.call == BATCH ? batch_one_by_one(twin) : one_by_one(now, twin);
    fact(bits == expected, "several calls in one answer what the single calls do");
    fact(same_all(), "several calls in one leave what the single calls do");
    fact(unchanged(&asks_room), "a batch leaves its asks");
    fact(now.call == BATCH || unchanged(&answers_room), "only a batch writes the answers");
    fact(all_patterns_kept(), "bytes beside what is lent are not written");
    struct entry_store_answer a = entry_store_unpack(bits);
    uint32_t steps = entry_store_steps_of(bits);
    counts[now.call][column(a)] += 1;
    reached.steps = steps > reached.steps ? steps : reached.steps;
    if (now.call != BATCH && now.party <= ENTRY_STORE_SESSIONS) {
        waits[now.party] = a.word == ENTRY_STORE_WAIT;
    }
}

// ---- ask and recover, held against single calls on copies

static uint64_t single_on_copy(enum call c, uint32_t party)
{
    struct asked a = {c, party, ENTRY_STORE_READ, 1, 0, 0, 0};
    return make_call(&a, copy_all());
}

// Only commit and abort remain to an asked session.
static void only_end_remains(uint32_t party)
{
    fact(single_on_copy(PUT, party) == refusal(ENTRY_STORE_ASKED) && same_all(),
         "a put of who is asked is 21");
    fact(single_on_copy(ASK, party) == refusal(ENTRY_STORE_ASKED) && same_all(),
         "an ask of who is asked is 21");
    fact(single_on_copy(STEP, party) == refusal(ENTRY_STORE_HAND) && same_all(),
         "a step of who is asked is 7");
    fact(single_on_copy(BEGIN, party) == refusal(ENTRY_STORE_BEGUN) && same_all(),
         "a begin of who is asked is 5");
    fact(single_on_copy(COMMIT, party) == 0, "a commit of who is asked is accepted");
    fact(single_on_copy(ABORT, party) == 0, "an abort of who is asked is accepted");
}

// The housekeeper's request and its latch, taken off by hand: a tidy has no pins.
static void end_tidy(struct loan l)
{
    const struct entry_store_session *s = &l.table[0];
    if (s->stage == 3) {
        l.store[entry_store_words(l.store[0], s->at - 1)] = 0;
    }
    l.table[0].stage = 0;
}

static void recover_one_by_one(struct loan l)
{
    end_tidy(l);
    for (uint32_t p = 1; p < ENTRY_STORE_PARTIES; p++) {
        struct asked abort_it = {ABORT, p, 0, 0, 0, 0, 0};
        if (l.table[p].begun != 0 && l.table[p].asked == 0) {
            fact(make_call(&abort_it, l) == 0, "a begun session aborts");
        }
    }
}

static void call_ask(struct asked ask)
{
    if (call(ask).word == ENTRY_STORE_OK) {
        only_end_remains(ask.party);
    }
}

static void call_recover(struct asked recover)
{
    static uint32_t due_store[MAX_STORE];
    static struct entry_store_session due_table[MAX_TABLE];
    if (entry_store_fault(store, store_len, table, table_len) == 0) {
        struct loan twin = copy_all();
        recover_one_by_one(twin);
        memcpy(due_store, twin_store, store_room.bytes);
        memcpy(due_table, twin_table, table_room.bytes);
    }
    if (call(recover).word != ENTRY_STORE_OK) {
        return;
    }
    fact(memcmp(due_store, store, store_room.bytes) == 0 && memcmp(due_table, table, table_room.bytes) == 0,
         "recover leaves what the aborts of all who are not asked leave");
    memset(waits, 0, sizeof waits);
    for (uint32_t p = 1; p < ENTRY_STORE_PARTIES; p++) {
        if (table[p].asked != 0) {
            only_end_remains(p);
        }
    }
}

// ---- a card's day, read by hand and held against a put or a step on copies

struct stretch {
    uint32_t minute, value;
};

static struct stretch stretches[1440];
static uint32_t stretch_count;

static uint32_t card_word(size_t k)
{
    return 256 * (uint32_t)bytes[2 * k] + bytes[2 * k + 1];
}

static uint32_t card_minute(size_t k)
{
    return card_word(k) % 2048;
}

// Whether the lent bytes, an even number of them, are a day.
static int is_day(void)
{
    size_t count = bytes_len / 2;
    for (size_t k = 0; k < count; k++) {
        if (card_minute(k) > 1439 || (k > 0 && card_minute(k) < card_minute(k - 1))) {
            return 0;
        }
    }
    return count > 0 && card_minute(0) == 0;
}

// The stretches of a day: a word of the minute of the one before it takes its place; then each gets its
// length.
static void read_stretches(void)
{
    uint32_t count = 0;
    for (size_t k = 0; k < bytes_len / 2; k++) {
        struct stretch s = {card_minute(k), card_word(k) - card_minute(k)};
        if (count > 0 && stretches[count - 1].minute == s.minute) {
            count -= 1;
        }
        stretches[count++] = s;
    }
    for (uint32_t k = 0; k < count; k++) {
        uint32_t end = k + 1 < count ? stretches[k + 1].minute : 1440;
        stretches[k].value += end - stretches[k].minute;
    }
    stretch_count = count;
}

// Arguments of a request of a day; they need not be words.
struct day_request {
    uint32_t code;
    uint64_t entry, first;
};

// The one that the place names, which does not lie past the day.
static struct day_request named_request(void)
{
    struct stretch s = stretches[day.place / 2];
    uint64_t entry = (uint64_t)day.entry + day.place / 2;
    struct day_request write = {ENTRY_STORE_WRITE, entry, s.value};
    struct day_request insert = {ENTRY_STORE_INSERT, entry,
                                 (uint64_t)day.driver * 1048576 + day.start + s.minute};
    return day.place % 2 == 0 ? write : insert;
}

static int is_in_hand(const struct entry_store_session *s, struct day_request r)
{
    return s->code == r.code && s->entry == r.entry && s->first == r.first;
}

// The checks 13, 14, 8 and 9 of a session's day; the stretches are there where it is one.
static uint32_t bytes_refusal(const struct entry_store_session *s, uint32_t m)
{
    if (bytes_len % 2 != 0) {
        return ENTRY_STORE_ODD;
    }
    if (!is_day()) {
        return ENTRY_STORE_DAY;
    }
    read_stretches();
    if (day.place >= 2 * stretch_count || (s->stage != 0 && !is_in_hand(s, named_request()))) {
        return ENTRY_STORE_DAY;
    }
    if (day.entry == 0 || (uint64_t)day.entry + stretch_count - 1 > m) {
        return ENTRY_STORE_ENTRY;
    }
    return day.driver < 1 || day.driver > 4094 || day.start > 1047136 ? ENTRY_STORE_KEY : 0;
}

static uint32_t day_refusal(uint32_t party, const struct loan *l)
{
    if (table_len != ENTRY_STORE_PARTIES) {
        return ENTRY_STORE_TABLE;
    }
    if (entry_store_fault(l->store, store_len, l->table, table_len) != 0) {
        return ENTRY_STORE_UNSOUND;
    }
    if (party > ENTRY_STORE_SESSIONS) {
        return ENTRY_STORE_PARTY;
    }
    if (party != 0 && l->table[party].begun == 0) {
        return ENTRY_STORE_BEGUN;
    }
    if (l->table[party].asked != 0) {
        return ENTRY_STORE_ASKED;
    }
    return party == 0 ? ENTRY_STORE_CODE : bytes_refusal(&l->table[party], l->store[0]);
}

// An answer without how many numbers it has, and with a place.
static uint64_t placed(uint64_t answer, uint32_t place)
{
    return (answer & UINT64_C(0xffffffffffff)) | (uint64_t)place << 48;
}

static uint64_t day_by_hand(uint32_t party, struct loan l)
{
    uint32_t number = day_refusal(party, &l), next = day.place + 1;
    if (number != 0) {
        return placed(refusal(number), 0);
    }
    struct day_request r = named_request();
    enum call single = l.table[party].stage == 0 ? PUT : STEP;
    struct asked one = {single, party, r.code, (uint32_t)r.entry, (uint32_t)r.first, 0, 0};
    l.list_len = 0;
    uint64_t answer = make_call(&one, l);
    if (is_word(answer, ENTRY_STORE_REFUSED)) {
        return placed(answer, 0);
    }
    if (!is_word(answer, ENTRY_STORE_DONE)) {
        return placed(answer, day.place);
    }
    uint64_t more = answered(ENTRY_STORE_MORE, 0, 0, 0);
    return placed(next == 2 * stretch_count ? done(stretch_count) : more, next);
}

static void count_day(struct entry_store_answer a)
{
    counts[now.call][column(a)] += 1;
    if (now.party <= ENTRY_STORE_SESSIONS) {
        waits[now.party] = a.word == ENTRY_STORE_WAIT;
    }
    if (a.word == ENTRY_STORE_DONE) {
        reached.days += 1;
        reached.stretches = a.value > reached.stretches ? a.value : reached.stretches;
    }
}

// One call of a day.
static uint64_t call_day(struct asked asked)
{
    now = asked;
    call_number += 1;
    keep_all();
    struct loan twin = copy_all();
    uint64_t bits = make_call(&now, lent_now());
    uint64_t expected = day_by_hand(now.party, twin);
    fact(bits == expected, "a day call answers what its put or step does, or the first refusal that applies");
    fact(same_all(), "a day call leaves what its put or step does");
    fact(unchanged(&bytes_room) && unchanged(&asks_room), "a day call leaves its bytes");
    fact(all_patterns_kept(), "bytes beside what is lent are not written");
    struct entry_store_answer a = entry_store_unpack(bits);
    fact(a.word == ENTRY_STORE_REFUSED || a.word == ENTRY_STORE_DONE || entry_store_place_of(bits) < 2880,
         "a place is one of a day's");
    count_day(a);
    return bits;
}

// Whether the lent pairs and values are those of a day that starts at this key.
static int can_be_written(uint64_t key)
{
    if (values_len > 1440 || list_len < 2 * values_len || bytes_len < 2 * values_len) {
        return 0;
    }
    for (size_t k = 0; k < values_len; k++) {
        if (list[2 * k] < key || list[2 * k] > key + 1439 || values[k] > 65535) {
            return 0;
        }
    }
    return 1;
}

static void call_day_bytes(void)
{
    uint64_t key = (uint64_t)day.driver * 1048576 + day.start;
    int can = can_be_written(key);
    now.call = DAY_BYTES;
    call_number += 1;
    keep_all();
    uint64_t bits =
        entry_store_day_bytes(list, list_len, values, values_len, day.driver, day.start, bytes, bytes_len);
    fact(bits == (can ? done(2 * (uint32_t)values_len) : refusal(ENTRY_STORE_NO_DAY)),
         "a day is written out, or refused where it is none");
    size_t written = can ? 2 * values_len : 0;
    for (size_t k = 0; k < written / 2; k++) {
        uint32_t minute = list[2 * k] - (uint32_t)key;
        fact(card_word(k) == values[k] - values[k] % 2048 + minute, "a word is the value with the minute");
    }
    fact(memcmp(bytes + written, bytes_room.copy + written, bytes_len - written) == 0, "later bytes stay");
    fact(unchanged(&list_room) && unchanged(&values_room), "pairs and values stay");
    fact(all_patterns_kept(), "bytes beside what is lent are not written");
    counts[DAY_BYTES][column(entry_store_unpack(bits))] += 1;
}

// ---- free records and holders

static uint64_t count_free(void)
{
    uint32_t count = 0;
    for (uint32_t i = store[5]; i != 0; i = record(i)[0]) {
        count += 1;
    }
    return done(count);
}

// The last descriptor up to the key is its own, or has the gap.
static uint64_t find_holders(uint32_t key)
{
    if (infinite(key)) {
        return refusal(ENTRY_STORE_KEY);
    }
    const uint32_t *d = record(store[4]);
    while (d[0] != 0 && record(d[0])[1] <= key) {
        d = record(d[0]);
    }
    return done(d[1] == key ? d[2] | d[3] << 16 : d[4]);
}

static void look(uint32_t key)
{
    uint64_t wrong = 0;
    keep_all();
    uint64_t free_records = entry_store_free(store, store_len, table, table_len);
    uint64_t holders = entry_store_holders(store, store_len, table, table_len, key);
    nothing_changed();
    if (table_len != ENTRY_STORE_PARTIES) {
        wrong = refusal(ENTRY_STORE_TABLE);
    } else if (entry_store_fault(store, store_len, table, table_len) != 0) {
        wrong = refusal(ENTRY_STORE_UNSOUND);
    }
    fact(free_records == (wrong != 0 ? wrong : count_free()), "free is the number of free records");
    fact(holders == (wrong != 0 ? wrong : find_holders(key)), "holders are those of the key or its gap");
}

// ---- random calls

// How the arguments of a run are drawn.
static uint32_t key_from, key_span, party_span, wild;

static uint32_t random_key(void)
{
    if (one_in(wild)) {
        return odd_word();
    }
    return key_from + below(key_span);
}

static uint32_t random_party(void)
{
    return one_in(wild) ? odd_word() : one_in(8) ? 0 : 1 + below(party_span);
}

static uint32_t random_entry(void)
{
    uint32_t m = store_len > 0 && store[0] >= 1 && store[0] <= 1024 ? store[0] : 4;
    return one_in(wild) ? odd_word() : 1 + below(m);
}

static struct asked random_put(uint32_t party)
{
    static const uint32_t likely[] = {1, 2, 3, 3, 3, 3, 4, 5, 5};
    struct asked a = {PUT, party, 6, random_entry(), random_key(), random_key(), 0};
    if (party != 0 || one_in(wild)) {
        a.code = one_in(wild) ? odd_word() : likely[below(sizeof likely / sizeof likely[0])];
    }
    if (a.code == 5 && a.first > a.second && !one_in(wild)) {
        uint32_t first = a.first;
        a.first = a.second;
        a.second = first;
    }
    if (party == 0 && one_in(2)) {
        a.first = 0;
    }
    return a;
}

static struct asked plain(enum call c, uint32_t party)
{
    struct asked a = {c, party, 0, 0, 0, 0, 0};
    return a;
}

// A call that makes sense for the party, if its record can be read.
static struct asked sensible_call(uint32_t party)
{
    const struct entry_store_session *s = &table[party];
    if (party != 0 && s->begun == 0) {
        return plain(BEGIN, party);
    }
    if (s->stage != 0) {
        return plain(party != 0 && one_in(waits[party] ? 6 : 60) ? ABORT : STEP, party);
    }
    if (s->asked != 0 && !one_in(3)) {
        return one_in(2) ? random_put(party) : plain(one_in(2) ? ASK : STEP, party);
    }
    if (party != 0 && (s->asked != 0 || one_in(20))) {
        return plain(s->asked == 0 ? ASK : one_in(3) ? ABORT : COMMIT, party);
    }
    if (party != 0 && one_in(8)) {
        return plain(one_in(4) ? ABORT : COMMIT, party);
    }
    return random_put(party);
}

static struct asked random_call(void)
{
    uint32_t party = random_party();
    if (party < table_len && party <= ENTRY_STORE_SESSIONS && !one_in(wild)) {
        return sensible_call(party);
    }
    struct asked a = random_put(party);
    a.call = BEGIN + (enum call)below(SINGLE - 1);
    if (a.call == RECOVER && !one_in(20)) {
        a.call = STEP; // a recover ends nearly everything, so it is rare
    }
    return a;
}

// How many steps at most.
static uint32_t random_most(void)
{
    return one_in(8) ? odd_word() : one_in(3) ? below(6) : below(1001);
}

// What a session is thought to be like when an ask of it is made.
struct guess {
    int begun, in_hand, asked;
};

// An ask that makes sense, for a batch.
static struct asked sensible_ask(uint32_t party, struct guess *g)
{
    struct asked a = random_put(party);
    a.most = one_in(4) ? random_most() : 1000;
    if (party != 0 && !g->begun) {
        a.call = BEGIN;
        g->begun = 1;
    } else if (g->in_hand) {
        a.call = one_in(4) ? STEP : party != 0 && one_in(12) ? ABORT : RUN;
        g->in_hand = a.call == STEP;
        g->begun = a.call != ABORT;
    } else if (party != 0 && (g->asked ? !one_in(10) : one_in(10))) {
        a.call = g->asked || one_in(2) ? (one_in(4) ? ABORT : COMMIT) : ASK;
        g->asked = a.call == ASK;
        g->begun = g->asked;
    } else {
        a.call = one_in(8) ? PUT : REQUEST;
        g->in_hand = a.call == PUT;
    }
    return a;
}

static void write_ask(uint32_t *w, const struct asked *a)
{
    static const uint32_t kinds[CALLS] = {0,
                                          ENTRY_STORE_ASK_BEGIN,
                                          ENTRY_STORE_ASK_PUT,
                                          ENTRY_STORE_ASK_STEP,
                                          ENTRY_STORE_ASK_COMMIT,
                                          ENTRY_STORE_ASK_ABORT,
                                          ENTRY_STORE_ASK_ASK,
                                          ENTRY_STORE_ASK_ASK + 1,
                                          ENTRY_STORE_ASK_RUN,
                                          ENTRY_STORE_ASK_REQUEST,
                                          ENTRY_STORE_ASK_ASK + 1,
                                          0,
                                          0};
    uint32_t words[ENTRY_STORE_ASK_WORDS] = {kinds[a->call], a->party,  a->code, a->entry,
                                             a->first,       a->second, a->most};
    memcpy(w, words, sizeof words);
}

// Asks of one party, or of some; a few are none, and the last may be too short.
static void random_asks(uint32_t count, size_t rest)
{
    struct guess guesses[ENTRY_STORE_PARTIES];
    uint32_t one = random_party(), mixed = one_in(3), strange = one_in(4) ? 10 : 400;
    for (size_t p = 0; p < ENTRY_STORE_PARTIES; p++) {
        guesses[p].begun = p < table_len && table[p].begun != 0;
        guesses[p].in_hand = p < table_len && table[p].stage != 0;
        guesses[p].asked = p < table_len && table[p].asked != 0;
    }
    for (uint32_t k = 0; k < count; k++) {
        uint32_t party = mixed ? random_party() : one, *w = asks + ENTRY_STORE_ASK_WORDS * k;
        struct guess none = {one_in(2), one_in(2), one_in(2)};
        struct asked a = sensible_ask(party, party <= ENTRY_STORE_SESSIONS ? &guesses[party] : &none);
        write_ask(w, &a);
        if (one_in(strange)) {
            w[0] = one_in(2) ? odd_word() : below(12);
        }
    }
    for (size_t k = 0; k < rest; k++) {
        asks[ENTRY_STORE_ASK_WORDS * count + k] = odd_word();
    }
}

static struct asked random_batch(void)
{
    uint32_t count = one_in(4) ? below(4) : below(MAX_ASKS);
    size_t rest = one_in(8) ? below(ENTRY_STORE_ASK_WORDS) : 0, places = count + (rest > 0);
    lend_asks(ENTRY_STORE_ASK_WORDS * count + rest, one_in(10) ? below(count + 2) : places + below(4));
    for (size_t k = 0; k < answers_len; k++) {
        answers[k] = next_random();
    }
    random_asks(count, rest);
    return plain(BATCH, 0);
}

// A run of what is in hand, a request where nothing is, or a batch.
static struct asked random_several(void)
{
    uint32_t party = random_party();
    if (one_in(3)) {
        return random_batch();
    }
    struct asked a = random_put(party);
    int in_hand = party < table_len && table[party].stage != 0;
    a.call = in_hand != one_in(16) ? RUN : REQUEST;
    a.most = random_most();
    return a;
}

static void fill(struct lent *l, int small)
{
    for (size_t k = 0; k < l->bytes; k += sizeof(uint32_t)) {
        uint32_t word = small ? below(40) : odd_word();
        size_t rest = l->bytes - k;
        memcpy(l->at + k, &word, rest < sizeof word ? rest : sizeof word);
    }
}

// ---- random days

// The day that a session reads, and how far it is.
struct reading {
    uint8_t bytes[MAX_BYTES];
    size_t length; // 0: it reads none
    struct day day;
};

static struct reading readings[ENTRY_STORE_PARTIES];

// Words of minutes that rise, some of them equal.
static size_t random_words(uint8_t *to, size_t count)
{
    uint32_t minute = 0, gap = one_in(3) ? 3 : 1439 / (uint32_t)count + 1;
    for (size_t k = 0; k < count; k++) {
        uint32_t word = minute + 2048 * below(32);
        to[2 * k] = (uint8_t)(word / 256);
        to[2 * k + 1] = (uint8_t)(word % 256);
        minute += one_in(5) ? 0 : 1 + below(gap);
        minute = minute > 1439 ? 1439 : minute;
    }
    return 2 * count;
}

static struct day random_day(uint32_t entry)
{
    static const uint32_t drivers[] = {1, 2, 2, 2, 4094}, starts[] = {0, 0, 1440, 1440, 700, 1047136};
    struct day d = {drivers[below(5)], starts[below(6)], entry, 0};
    if (one_in(wild)) {
        d.driver = one_in(2) ? 4093 + below(4) : odd_word();
    }
    if (one_in(wild)) {
        d.start = one_in(2) ? 1047135 + below(3) : odd_word();
    }
    return d;
}

// A new day, whose entries mostly are there.
static void begin_reading(struct reading *r)
{
    uint32_t m = store_len > 0 && store[0] >= 1 && store[0] <= 1024 ? store[0] : 4;
    uint32_t count = 1 + below(one_in(100) ? 2000 : one_in(8) ? 60 : 6);
    if (count > m && !one_in(6)) {
        count = m;
    }
    r->length = random_words(r->bytes, count);
    r->day = random_day(one_in(wild) ? odd_word() : 1 + below(count < m ? m - count + 1 : 1));
}

// What is handed in is another than what the day has: one argument, or one byte.
static void spoil_day(void)
{
    switch (below(7)) {
    case 0:
        day.place = one_in(2) ? below(8) : odd_word();
        break;
    case 1:
        day.entry = one_in(2) ? day.entry + 1 : odd_word();
        break;
    case 2:
        day = random_day(day.entry);
        break;
    case 3:
        day.place += one_in(2) ? 1 : UINT32_MAX;
        break;
    case 4:
        day.driver += 4096; // the same keys in 32 bits
        break;
    default:
        if (bytes_len > 0) {
            bytes[below((uint32_t)bytes_len)] ^= (uint8_t)(1 << below(8));
        }
    }
}

// One call of the day that the party reads; the word of its answer.
static uint32_t read_on(uint32_t party, struct reading *r)
{
    size_t length = r->length;
    if (one_in(wild)) {
        length = below((uint32_t)length + 1);
    }
    lend_bytes(length);
    memcpy(bytes, r->bytes, length);
    day = r->day;
    if (one_in(2 * wild)) {
        spoil_day();
    }
    uint64_t bits = call_day(plain(DAY, party));
    uint32_t word = entry_store_word_of(bits);
    if (word != ENTRY_STORE_REFUSED) {
        r->day.place = entry_store_place_of(bits);
    }
    if (word == ENTRY_STORE_DONE && !one_in(8)) {
        r->length = 0;
    }
    return word;
}

// Some calls of a party's day in a row. What the party has in hand may be another request: it is run first.
static void read_days(void)
{
    uint32_t party = random_party(), calls = one_in(2) ? 1 : 1 + below(60), word = ENTRY_STORE_OK;
    int known = party <= ENTRY_STORE_SESSIONS && party < table_len;
    struct reading *r = &readings[known ? party : 0];
    if (r->length == 0 || one_in(20)) {
        begin_reading(r);
    }
    if (known && party != 0 && table[party].begun == 0 && !one_in(8)) {
        call(plain(BEGIN, party));
    }
    for (uint32_t k = 0; k < calls && (word == ENTRY_STORE_OK || word == ENTRY_STORE_MORE); k++) {
        if (r->length == 0) {
            begin_reading(r);
        }
        word = read_on(party, r);
        if (k == 0 && word == ENTRY_STORE_REFUSED && known && table[party].stage != 0 && !one_in(4)) {
            struct asked run = {RUN, party, 0, 0, 0, 0, 1000};
            call_several(run);
            word = ENTRY_STORE_OK;
        }
    }
}

// Pairs and values that mostly are a day's.
static void write_day(void)
{
    uint32_t count = one_in(20) ? 1439 + below(3) : below(12), strange = one_in(3) ? 8 : 4000;
    day = random_day(0);
    lend_values(count);
    lend_list(2 * count + below(3) - (count > 0 && one_in(12)));
    lend_bytes(2 * count + below(3) - (count > 0 && one_in(12)));
    for (size_t k = 0; k < count; k++) {
        values[k] = one_in(strange) ? 65535 + below(3) : below(65536);
    }
    for (size_t k = 0; k < list_len; k++) {
        uint32_t key = day.driver * 1048576 + day.start;
        list[k] = one_in(strange) ? key + 1439 + below(2) : key + below(1440);
        list[k] = one_in(8 * strange) ? key - below(2) : list[k];
    }
    fill(&bytes_room, 1);
    call_day_bytes();
    lend_list(below(200));
    fill(&list_room, 0);
    lend_values(0);
}

// Some words of the list are lent to the next calls.
static void change_list(void)
{
    if (one_in(16)) {
        lend_list(one_in(4) ? below(6) : below(200));
        for (size_t k = 0; k < list_len; k++) {
            list[k] = any_word();
        }
    }
}

// Whether a session before p has begun with its number.
static int is_taken(uint32_t p)
{
    for (uint32_t q = 1; q < p; q++) {
        if (table[q].begun != 0 && table[q].order == table[p].order) {
            return 1;
        }
    }
    return 0;
}

// Other numbers in the order of begins, of a sound table. They only have to differ, and those of parties that
// have not begun are free, and so is the begun mark of the housekeeper. Any word but 0 says that a session is
// asked.
static void change_orders(void)
{
    if (!one_in(30) || entry_store_fault(store, store_len, table, table_len) != 0) {
        return;
    }
    table[0].begun = odd_word();
    for (uint32_t p = 0; p < ENTRY_STORE_PARTIES; p++) {
        do {
            table[p].order = odd_word();
        } while (is_taken(p));
        table[p].asked = table[p].asked == 0 ? 0 : 1 + odd_word() % UINT32_MAX;
    }
}

static void call_single(struct asked a)
{
    if (a.call == ASK) {
        call_ask(a);
    } else if (a.call == RECOVER) {
        call_recover(a);
    } else {
        call(a);
    }
}

static void random_calls(uint32_t count)
{
    for (uint32_t k = 0; k < count; k++) {
        change_list();
        change_orders();
        if (one_in(6)) {
            call_several(random_several());
        } else if (one_in(5)) {
            read_days();
        } else {
            call_single(one_in(300) ? plain(RECOVER, 0) : random_call());
        }
        if (one_in(6)) {
            look(one_in(16) ? odd_word() : random_key());
        }
        if (one_in(60)) {
            write_day();
        }
        if (one_in(1000)) {
            many_asks();
        }
    }
}

// ---- runs

static void choose_arguments(void)
{
    static const uint32_t spans[] = {3, 12, 40, 300, 4294967293u};
    key_span = spans[below(5)];
    key_from = key_span <= 300 && one_in(2) ? 2 * 1048576 + 1440 * below(2) : 1;
    party_span = 1 + below(one_in(3) ? ENTRY_STORE_SESSIONS : 4);
    wild = one_in(4) ? 6 : one_in(2) ? 60 : 1000;
}

// A store of m entries and r records, with words beyond them, over whatever words were there.
static void fresh_store(uint32_t m, uint32_t r, uint32_t beyond)
{
    lend_store(entry_store_words(m, r) + beyond);
    lend_table(ENTRY_STORE_PARTIES);
    fill(&store_room, one_in(2));
    fill(&table_room, one_in(2));
    struct asked format = {FORMAT, 0, 0, m, 0, 0, 0};
    fact(call(format).word == ENTRY_STORE_OK, "format accepts these sizes");
    fact(store[1] == r, "format sets R");
}

static void fresh_run(void)
{
    uint32_t m = one_in(20) ? 1 + below(1024) : 1 + below(10);
    if (one_in(500)) {
        uint32_t r = one_in(2) ? 4096 : 4000 + below(96);
        fresh_store(m, r, below(r == 4096 ? 60 : 20));
    } else {
        fresh_store(m, 8 + below(one_in(4) ? 200 : 50), one_in(2) ? below(20) : 0);
    }
}

// Session 1 inserts at so many keys, alone, with a commit now and then: a tree of some levels.
static void grow_tree(uint32_t inserts)
{
    call(plain(BEGIN, 1));
    for (uint32_t k = 0; k < inserts; k++) {
        uint32_t entry = 1 + below(store[0]), key = key_from + below(key_span);
        struct asked insert = {PUT, 1, ENTRY_STORE_INSERT, entry, key, 0, 0};
        call(insert);
        while (call(plain(STEP, 1)).word == ENTRY_STORE_MORE) {
        }
        if (one_in(8)) {
            call(plain(COMMIT, 1));
            call(plain(BEGIN, 1));
        }
    }
    call(plain(COMMIT, 1));
}

// A high tree, and then mostly walks through it: splits, and joins and moves by the housekeeper.
static void tall_run(void)
{
    key_span = one_in(2) ? 2000 : 4294967293u;
    key_from = key_span == 2000 && one_in(2) ? 2 * 1048576 : 1;
    wild = 1000;
    fresh_store(1 + below(40), 500 + below(500), below(20));
    grow_tree(150 + below(150));
    random_calls(300);
    for (uint32_t k = 0; k < 200; k++) {
        call(sensible_call(0));
    }
    random_calls(100);
}

// Mostly days of cards, by few sessions, with room for many stretches.
static void days_run(void)
{
    wild = 1000;
    party_span = 1 + below(3);
    fresh_store(60 + below(965), 300 + below(900), 0);
    for (uint32_t k = 0; k < 60; k++) {
        read_days();
        if (one_in(4)) {
            random_calls(1);
        }
    }
}

// How many calls a run on this store is worth.
static uint32_t run_length(void)
{
    return store_len > 20000 ? 60 : 40 + below(600);
}

// A place in the store that is likely to be in use.
static size_t used_place(void)
{
    size_t records = entry_store_words(store[0], 0);
    switch (below(6)) {
    case 0:
        return below(6);
    case 1:
        return ENTRY_STORE_HEADER_WORDS + below((uint32_t)records - ENTRY_STORE_HEADER_WORDS);
    case 2:
        return below((uint32_t)store_len);
    default:
        return entry_store_words(store[0], below(store[1])) + (one_in(4) ? 9 + below(4) : below(7));
    }
}

// A word of the table: any, or one that says whether a party is asked.
static uint32_t *table_place(void)
{
    uint32_t words = ENTRY_STORE_PARTIES * ENTRY_STORE_SESSION_WORDS;
    return one_in(4) ? &table[below(ENTRY_STORE_PARTIES)].asked : (uint32_t *)(void *)table + below(words);
}

static uint32_t damaged_word(uint32_t w)
{
    switch (below(4)) {
    case 0:
        return odd_word();
    case 1:
        return w ^ UINT32_C(1) << below(32);
    case 2:
        return w + (one_in(2) ? 1 : UINT32_MAX);
    default:
        return below(60);
    }
}

// One word of store or table changed. Mostly all calls are refused then; where the store is still sound they
// go on.
static void damaged_calls(void)
{
    uint32_t *word = one_in(4) ? table_place() : store + used_place();
    uint32_t kept = *word;
    *word = damaged_word(kept);
    if (*word == kept) {
        return;
    }
    reached.damaged += 1;
    if (entry_store_fault(store, store_len, table, table_len) == 0) {
        reached.still_sound += 1;
        random_calls(6);
        return;
    }
    random_calls(3);
    *word = kept;
}

static void damaged_run(void)
{
    fresh_run();
    for (uint32_t k = 2 + below(12); k > 0; k--) {
        random_calls(below(store_len > 20000 ? 5 : 40));
        for (uint32_t j = store_len > 20000 ? 2 : 12; j > 0; j--) {
            damaged_calls();
        }
    }
}

// Any words, any lengths, any table. Format is among the calls.
static void garbage_run(void)
{
    lend_store(one_in(8) ? below(20) : below(400));
    lend_table(one_in(2) ? ENTRY_STORE_PARTIES : below(MAX_TABLE));
    fill(&store_room, one_in(2));
    fill(&table_room, one_in(2));
    for (uint32_t k = 0; k < 12; k++) {
        random_calls(2);
        if (one_in(3)) {
            struct asked format = {FORMAT, 0, 0, one_in(2) ? 1 + below(12) : odd_word(), 0, 0, 0};
            call(format);
        }
    }
}

// A good store with a table that is too short or too long.
static void wrong_table_run(void)
{
    fresh_run();
    lend_table((ENTRY_STORE_PARTIES + 1 + below(MAX_TABLE - 2)) % (MAX_TABLE - 1));
    fill(&table_room, 1);
    random_calls(10);
    struct asked format = {FORMAT, 0, 0, 1 + below(12), 0, 0, 0};
    call(format);
}

static void lock_counts(void)
{
    uint32_t holders = odd_word(), ones = 0;
    for (uint32_t k = 0; k < 32; k++) {
        ones += holders >> k & 1;
    }
    fact(entry_store_lock_count(holders) == ones, "the lock count is the number of ones");
}

// The numbers of a run are its own; nothing is left of the run before.
static void begin_run(uint64_t number)
{
    run_number = number;
    call_number = 0;
    state = seed * UINT64_C(0x2545f4914f6cdd1d) + number * UINT64_C(0x9fb21c651e98df25);
    memset(waits, 0, sizeof waits);
    for (size_t p = 0; p < ENTRY_STORE_PARTIES; p++) {
        readings[p].length = 0;
    }
    choose_arguments();
    lend_list(below(200));
    lend_asks(0, 0);
    lend_bytes(0);
    lend_values(0);
    lock_counts();
}

static void run(uint64_t number)
{
    begin_run(number);
    if (one_in(40)) {
        tall_run();
        return;
    }
    if (one_in(40)) {
        days_run();
        return;
    }
    switch (below(10)) {
    case 0:
    case 1:
    case 2:
    case 3:
    case 4:
        fresh_run();
        random_calls(run_length());
        break;
    case 5:
    case 6:
    case 7:
        damaged_run();
        break;
    case 8:
        garbage_run();
        break;
    default:
        wrong_table_run();
    }
}

// ---- the whole

static void print_counts(uint64_t runs)
{
    static const char *const words[] = {"ok", "more", "wait", "done"};
    printf("%-8s", "");
    for (int k = 0; k < 4; k++) {
        printf("%9s", words[k]);
    }
    for (int k = 0; k < REFUSALS; k++) {
        printf("%9u", refusals[k]);
    }
    printf("\n");
    for (int c = 0; c < ROWS; c++) {
        printf("%-8s", call_names[c]);
        for (int k = 0; k < COLUMNS; k++) {
            printf("%9llu", (unsigned long long)counts[c][k]);
        }
        printf("\n");
    }
    printf("done:");
    for (int k = 1; k <= 6; k++) {
        static const char *const codes[] = {"", "read", "write", "insert", "remove", "locate", "tidy"};
        printf(" %s %llu,", codes[k], (unsigned long long)reached.done[k]);
    }
    printf(" of these removed a descriptor %llu; the highest tree had %u levels\n",
           (unsigned long long)reached.removed, reached.levels);
    printf("%llu waits had several sessions in the way\n", (unsigned long long)reached.several);
    printf("%llu inserts and removes were done at a key that another session updates\n",
           (unsigned long long)reached.together);
    printf("recovers ended %llu sessions and %llu tidies, %llu of these at a node, and left %llu asked "
           "sessions\n",
           (unsigned long long)reached.undone, (unsigned long long)reached.tidies,
           (unsigned long long)reached.latches, (unsigned long long)reached.spared);
    printf(
        "the longest run had %u steps, the longest batch %u asks; %llu days were read to their ends, of at "
        "most %u stretches\n",
        reached.steps, reached.asks, (unsigned long long)reached.days, reached.stretches);
    printf("%llu runs; words damaged %llu times, and still sound %llu times\n", (unsigned long long)runs,
           (unsigned long long)reached.damaged, (unsigned long long)reached.still_sound);
}

static double seconds(void)
{
    struct timespec t;
    clock_gettime(CLOCK_MONOTONIC, &t);
    return (double)t.tv_sec + (double)t.tv_nsec / 1e9;
}

static void print_progress(double passed, double duration, uint64_t runs)
{
    printf("%.0f of %.0f s: %llu runs, words damaged %llu times\n", passed, duration,
           (unsigned long long)runs, (unsigned long long)reached.damaged);
    fflush(stdout);
}

// Seconds between two lines of progress.
enum { PROGRESS = 5 };

static uint64_t run_for(double duration)
{
    double begin = seconds(), passed = 0, next_line = PROGRESS;
    uint64_t number = 0;
    while (passed < duration) {
        run(number);
        number += 1;
        passed = seconds() - begin;
        if (passed >= next_line) {
            print_progress(passed, duration, number);
            next_line = passed + PROGRESS;
        }
    }
    return number;
}

static const char usage[] = "usage: fuzz SECONDS [SEED [RUN]]\n"
                            "Makes random calls on random and damaged words and holds every answer against "
                            "the contract's plain facts.\n"
                            "  SECONDS  for how long\n"
                            "  SEED     which random numbers (1)\n"
                            "  RUN      makes only the run of this number\n"
                            "  --help   prints this\n"
                            "The last line is ok, or how to see again what failed. The exit status is 0, or "
                            "1 where a fact failed, or\n"
                            "2 for wrong arguments.\n";

static int wrong_arguments(const char *fault, const char *word)
{
    fprintf(stderr, "fuzz: %s%s\n%s", fault, word, usage);
    return 2;
}

static int is_number(const char *text, const char *digits)
{
    return text[0] != 0 && text[strspn(text, digits)] == 0;
}

// 0 where the arguments are good, and else the exit status.
static int check_arguments(int argc, char **argv)
{
    for (int k = 1; k < argc; k++) {
        if (argv[k][0] == '-') {
            return wrong_arguments("no such option: ", argv[k]);
        }
        if (!is_number(argv[k], k == 1 ? "0123456789." : "0123456789")) {
            return wrong_arguments("no number: ", argv[k]);
        }
    }
    if (argc < 2) {
        return wrong_arguments("SECONDS is missing", "");
    }
    return argc > 4 ? wrong_arguments("too many arguments: ", argv[4]) : 0;
}

int main(int argc, char **argv)
{
    if (argc > 1 && strcmp(argv[1], "--help") == 0) {
        fputs(usage, stdout);
        return 0;
    }
    int status = check_arguments(argc, argv);
    if (status != 0) {
        return status;
    }
    signal(SIGSEGV, on_signal);
    signal(SIGBUS, on_signal);
    signal(SIGILL, on_signal);
    make_room(&store_room, MAX_STORE * sizeof *store);
    make_room(&table_room, MAX_TABLE * sizeof *table);
    make_room(&list_room, MAX_LIST * sizeof *list);
    make_room(&asks_room, MAX_ASK_WORDS * sizeof *asks);
    make_room(&answers_room, MAX_ANSWERS * sizeof *answers);
    make_room(&bytes_room, MAX_BYTES);
    make_room(&values_room, MAX_VALUES * sizeof *values);
    seed = argc > 2 ? strtoull(argv[2], NULL, 10) : 1;
    uint64_t runs = 1;
    if (argc > 3) {
        run(strtoull(argv[3], NULL, 10));
    } else {
        runs = run_for(strtod(argv[1], NULL));
    }
    print_counts(runs);
    printf("ok\n");
    return 0;
}
