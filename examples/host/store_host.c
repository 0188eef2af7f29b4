#include "store_host.h"

#include <stdlib.h>
#include <string.h>

uint32_t records_wanted(uint32_t stretches, uint32_t unfinished, uint32_t empty_groups)
{
    uint32_t descriptors = 1 + stretches + empty_groups;
    uint32_t nodes = descriptors / 2 + 1;
    return descriptors + stretches + nodes + 2 * unfinished;
}

int host_open(struct store_host *h, uint32_t entries, uint32_t records)
{
    h->length = entry_store_words(entries, records);
    h->words = calloc(h->length, sizeof *h->words);
    if (h->words == NULL) {
        return 0;
    }
    memset(h->notes, 0, sizeof h->notes);
    struct entry_store_answer a =
        entry_store_unpack(entry_store_format(h->words, h->length, h->table, ENTRY_STORE_PARTIES, entries));
    if (a.word != ENTRY_STORE_OK) {
        host_close(h);
        return 0;
    }
    return 1;
}

void host_close(struct store_host *h)
{
    free(h->words);
    h->words = NULL;
    h->length = 0;
}

// ---- the calls

struct entry_store_answer host_begin(struct store_host *h, uint32_t party)
{
    return entry_store_unpack(entry_store_begin(h->words, h->length, h->table, ENTRY_STORE_PARTIES, party));
}

struct entry_store_answer host_put(struct store_host *h, uint32_t party, struct request r)
{
    return entry_store_unpack(entry_store_put(h->words, h->length, h->table, ENTRY_STORE_PARTIES, party,
                                              r.code, r.entry, r.first, r.second));
}

// What is lent for a list. A pointer to somewhere is asked for, also beside a length of 0.
static struct pair_list lent(const struct pair_list *list)
{
    static uint32_t nothing[1];
    struct pair_list none = {nothing, 0};
    return list == NULL || list->words == NULL ? none : *list;
}

struct entry_store_answer host_step(struct store_host *h, uint32_t party, struct pair_list *list)
{
    struct pair_list l = lent(list);
    return entry_store_unpack(
        entry_store_step(h->words, h->length, h->table, ENTRY_STORE_PARTIES, l.words, l.length, party));
}

struct entry_store_answer host_commit(struct store_host *h, uint32_t party)
{
    return entry_store_unpack(entry_store_commit(h->words, h->length, h->table, ENTRY_STORE_PARTIES, party));
}

struct entry_store_answer host_abort(struct store_host *h, uint32_t party)
{
    return entry_store_unpack(entry_store_abort(h->words, h->length, h->table, ENTRY_STORE_PARTIES, party));
}

struct entry_store_answer host_ask(struct store_host *h, uint32_t party)
{
    return entry_store_unpack(entry_store_ask(h->words, h->length, h->table, ENTRY_STORE_PARTIES, party));
}

struct entry_store_answer host_recover(struct store_host *h)
{
    return entry_store_unpack(entry_store_recover(h->words, h->length, h->table, ENTRY_STORE_PARTIES));
}

// ---- several calls in one

struct entry_store_answer host_steps(struct store_host *h, uint32_t party, struct pair_list *list)
{
    struct pair_list l = lent(list);
    return entry_store_unpack(entry_store_run(h->words, h->length, h->table, ENTRY_STORE_PARTIES, l.words,
                                              l.length, party, ENTRY_STORE_MOST_STEPS));
}

struct entry_store_answer host_request(struct store_host *h, uint32_t party, struct request r,
                                       struct pair_list *list)
{
    struct pair_list l = lent(list);
    return entry_store_unpack(entry_store_request(h->words, h->length, h->table, ENTRY_STORE_PARTIES, l.words,
                                                  l.length, party, r.code, r.entry, r.first, r.second,
                                                  ENTRY_STORE_MOST_STEPS));
}

struct entry_store_answer host_batch(struct store_host *h, const struct entry_store_ask *asks, size_t count,
                                     uint64_t *answers, struct pair_list *list)
{
    struct pair_list l = lent(list);
    return entry_store_unpack(entry_store_batch(h->words, h->length, h->table, ENTRY_STORE_PARTIES, l.words,
                                                l.length, (const uint32_t *)asks,
                                                ENTRY_STORE_ASK_WORDS * count, answers, count));
}

struct entry_store_ask ask_call(uint32_t kind, uint32_t party)
{
    struct entry_store_ask a = {kind, party, 0, 0, 0, 0, ENTRY_STORE_MOST_STEPS};
    return a;
}

struct entry_store_ask ask_request(uint32_t party, struct request r)
{
    struct entry_store_ask a = {ENTRY_STORE_ASK_REQUEST, party, r.code, r.entry, r.first, r.second,
                                ENTRY_STORE_MOST_STEPS};
    return a;
}

// ---- looking

uint32_t host_line(const struct store_host *h, uint32_t sessions[ENTRY_STORE_SESSIONS])
{
    uint32_t count = 0;
    for (uint32_t p = 1; p <= ENTRY_STORE_SESSIONS; p++) {
        if (h->table[p].begun != 0) {
            uint32_t k = count++;
            for (; k > 0 && h->table[sessions[k - 1]].order > h->table[p].order; k--) {
                sessions[k] = sessions[k - 1];
            }
            sessions[k] = p;
        }
    }
    return count;
}

uint32_t host_free(const struct store_host *h)
{
    return entry_store_value_of(entry_store_free(h->words, h->length, h->table, ENTRY_STORE_PARTIES));
}

uint32_t host_holders(const struct store_host *h, uint32_t key)
{
    return entry_store_value_of(entry_store_holders(h->words, h->length, h->table, ENTRY_STORE_PARTIES, key));
}

uint32_t host_fault(const struct store_host *h)
{
    return entry_store_fault(h->words, h->length, h->table, ENTRY_STORE_PARTIES);
}

int is_refused(struct entry_store_answer a, uint32_t number)
{
    return a.word == ENTRY_STORE_REFUSED && a.number == number;
}

struct request request_in_hand(const struct entry_store_session *s)
{
    struct request r = {s->code, s->entry, s->first, s->second};
    return r;
}

int is_short_wait(const struct store_host *h, uint32_t party)
{
    uint32_t stage = h->table[party].stage;
    return stage == ENTERING || stage == AT_NODE;
}

// ---- lists

int list_grow(struct pair_list *list, uint32_t pairs)
{
    size_t length = 2 * (size_t)pairs;
    if (length <= list->length) {
        return 1;
    }
    uint32_t *words = realloc(list->words, length * sizeof *words);
    if (words == NULL) {
        return 0;
    }
    list->words = words;
    list->length = length;
    return 1;
}

void list_free(struct pair_list *list)
{
    free(list->words);
    list->words = NULL;
    list->length = 0;
}

// ---- a request and a session, each to its end

// Whether a request in hand is to be run on: its bound was used up, or it waits and the handler says so.
static int goes_on(struct entry_store_answer a, uint32_t party, wait_handler on_wait, void *context)
{
    return a.word == ENTRY_STORE_MORE || (a.word == ENTRY_STORE_WAIT && on_wait(context, party, a.value));
}

struct entry_store_answer host_run(struct store_host *h, uint32_t party, struct request r,
                                   struct pair_list *list, wait_handler on_wait, void *context)
{
    for (;;) {
        struct entry_store_answer a = host_request(h, party, r, list);
        while (goes_on(a, party, on_wait, context)) {
            a = host_steps(h, party, list);
        }
        if (!is_refused(a, ENTRY_STORE_LIST) || !list_grow(list, a.value)) {
            return a;
        }
    }
}

struct entry_store_answer host_session(struct store_host *h, struct entry_store_ask *asks, size_t count,
                                       uint64_t *answers, size_t *made, wait_handler on_wait, void *context)
{
    struct entry_store_ask *last = asks;
    for (*made = 0;;) {
        size_t at = (size_t)(last - asks);
        struct entry_store_answer a = host_batch(h, last, count - at, answers + at, NULL);
        if (a.word != ENTRY_STORE_DONE || a.value == 0) {
            return a;
        }
        *made = at + a.value;
        last = &asks[*made - 1];
        a = entry_store_unpack(answers[*made - 1]);
        if (a.word == ENTRY_STORE_WAIT || a.word == ENTRY_STORE_MORE) {
            last->kind = ENTRY_STORE_ASK_RUN;
        }
        if (!goes_on(a, last->party, on_wait, context)) {
            return a;
        }
    }
}

// ---- a card's day

struct entry_store_answer host_day_call(struct store_host *h, uint32_t party, const struct card_day *d,
                                        uint32_t *place)
{
    uint64_t answer = entry_store_day(h->words, h->length, h->table, ENTRY_STORE_PARTIES, d->bytes, d->length,
                                      party, d->driver, d->start, d->entry, *place);
    if (entry_store_word_of(answer) != ENTRY_STORE_REFUSED) {
        *place = entry_store_place_of(answer);
    }
    return entry_store_unpack(answer);
}

struct entry_store_answer host_day(struct store_host *h, uint32_t party, const struct card_day *d,
                                   uint32_t *place, wait_handler on_wait, void *context)
{
    struct entry_store_answer a;
    do {
        a = host_day_call(h, party, d, place);
    } while (a.word == ENTRY_STORE_OK || goes_on(a, party, on_wait, context));
    return a;
}

// One value more than a day has minutes is too many already, so no more are read.
struct entry_store_answer host_day_bytes(struct store_host *h, uint32_t party, uint32_t driver,
                                         uint32_t start, struct pair_list *list, uint8_t *bytes,
                                         size_t length, wait_handler on_wait, void *context)
{
    uint32_t values[DAY_MINUTES + 1], key = key_of(driver, start), count = 0;
    struct request locate = {ENTRY_STORE_LOCATE, 0, key, key + DAY_MINUTES - 1};
    struct entry_store_answer found = host_run(h, party, locate, list, on_wait, context);
    if (found.word != ENTRY_STORE_DONE) {
        return found;
    }
    for (; count < found.value && count <= DAY_MINUTES; count++) {
        struct request read = {ENTRY_STORE_READ, list->words[2 * count + 1], 0, 0};
        struct entry_store_answer a = host_run(h, party, read, NULL, on_wait, context);
        if (a.word != ENTRY_STORE_DONE) {
            return a;
        }
        values[count] = a.value;
    }
    struct pair_list l = lent(list);
    return entry_store_unpack(
        entry_store_day_bytes(l.words, l.length, values, count, driver, start, bytes, length));
}

// ---- texts

static const char *const parts[] = {
    "all of it",
    "the header's M and R are those format gives for this length",
    "entries: only begun sessions hold; no two holders conflict",
    "key 0 is stored and has no member",
    "all leaves are descriptors at one depth, keys rising and chained in that "
    "order; boundaries separate sons, and at a lowest node each is the key of "
    "the descriptor before it; a node has 3 to 8 sons, the root 1 to 8 and "
    "never a descriptor; no record is reached twice",
    "seize counts, short locks and walks match the requests in hand, with each "
    "short lock on the path to its key; each request in hand passes the checks "
    "that put makes, and stands where its own steps can bring it",
    "each node's short lock is that of a request in hand",
    "each take-back chain can be undone under locks that its session holds; no "
    "record is reached twice",
    "groups: no group lists an entry twice, or one outside 1 to M; only begun "
    "sessions hold; no two holders conflict; seize counts match the requests "
    "in hand; a locate holds every key it has passed; each take-back chain can "
    "be undone newest first; no record is reached twice",
    "the free chain goes only to records that nothing else reaches",
    "every record is reached",
    "the table has " ENTRY_STORE_TEXT(ENTRY_STORE_PARTIES) " records",
    "no two begun sessions share a number in the order of begins",
    "only a begun session with no request in hand is asked",
};

const char *part_in_full(uint32_t part)
{
    size_t count = sizeof parts / sizeof parts[0];
    return part < count ? parts[part] : "no such part";
}

uint32_t key_of(uint32_t driver, uint32_t minute)
{
    return driver * KEYS_A_DRIVER + minute;
}
