// What a host program wants around the calls of the entry store: the lent
// words and the session table kept together, a request, a session and a card's
// day run to their ends, lists that grow.
//
// The store has no threads and no lock of its own: make one call at a time
// (docs/HOST.md). Nothing here keeps state but what a caller hands in.
#ifndef STORE_HOST_H
#define STORE_HOST_H

#include "entry_store.h"

// The stages of a request in hand (docs/STORE.md).
enum { NO_REQUEST, AT_START, ENTERING, AT_NODE, CHANGING, TAKING };

struct store_host {
    uint32_t *words;
    size_t length;
    struct entry_store_session table[ENTRY_STORE_PARTIES];
    uint32_t notes[ENTRY_STORE_PARTIES]; // a word of the host's own for each party, which images keep
};

struct request {
    uint32_t code, entry, first, second;
};

// A list for locates: pairs of a key and an entry.
struct pair_list {
    uint32_t *words;
    size_t length;
};

// How many records are enough (docs/HOST.md): so many stretches stored, each with a key of its own; so many
// of them in sessions that have not ended; so many empty groups between two rounds of the housekeeper.
uint32_t records_wanted(uint32_t stretches, uint32_t unfinished, uint32_t empty_groups);

// Takes memory for a store and formats it. 0 where there is no memory or the
// sizes are refused.
int host_open(struct store_host *h, uint32_t entries, uint32_t records);
void host_close(struct store_host *h);

// The calls. The list of a step may be NULL where the request is no locate.
struct entry_store_answer host_begin(struct store_host *h, uint32_t party);
struct entry_store_answer host_put(struct store_host *h, uint32_t party, struct request r);
struct entry_store_answer host_step(struct store_host *h, uint32_t party, struct pair_list *list);
struct entry_store_answer host_commit(struct store_host *h, uint32_t party);
struct entry_store_answer host_abort(struct store_host *h, uint32_t party);

// The call ask, after which only commit and abort remain to the session; and recover, after which only asked
// sessions are begun (docs/HOST.md, "Ask, then commit").
struct entry_store_answer host_ask(struct store_host *h, uint32_t party);
struct entry_store_answer host_recover(struct store_host *h);

// Several calls in one: the steps of the request in hand until one is not answered more; a put and these
// steps; asks of any kinds, whose answers go to answers, which has room for count.
struct entry_store_answer host_steps(struct store_host *h, uint32_t party, struct pair_list *list);
struct entry_store_answer host_request(struct store_host *h, uint32_t party, struct request r,
                                       struct pair_list *list);
struct entry_store_answer host_batch(struct store_host *h, const struct entry_store_ask *asks, size_t count,
                                     uint64_t *answers, struct pair_list *list);

// Asks for a batch: a call that takes the party alone (begin, commit, abort, ask), and a whole request.
struct entry_store_ask ask_call(uint32_t kind, uint32_t party);
struct entry_store_ask ask_request(uint32_t party, struct request r);

// The begun sessions, the one that began first in front; how many they are. sessions has room for them all.
uint32_t host_line(const struct store_host *h, uint32_t sessions[ENTRY_STORE_SESSIONS]);

// How many records are free, and who holds a key: session s in locate mode is bit s - 1, in update mode bit
// 16 + s - 1. The store is sound.
uint32_t host_free(const struct store_host *h);
uint32_t host_holders(const struct store_host *h, uint32_t key);

// The first part of soundness that fails, 0 for none.
uint32_t host_fault(const struct store_host *h);

int is_refused(struct entry_store_answer a, uint32_t number);

// The request that a record of the table has in hand, as it was put.
struct request request_in_hand(const struct entry_store_session *s);

// Whether a party that waits does so on its way down the tree. Such a wait is
// short: whoever is in the way has only to be stepped. Any other wait lasts
// until a session commits or aborts.
int is_short_wait(const struct store_host *h, uint32_t party);

// Makes the list long enough for so many pairs. 0 where there is no memory.
int list_grow(struct pair_list *list, uint32_t pairs);
void list_free(struct pair_list *list);

// Called at each wait with the party that it names (docs/HOST.md, "Whom to
// phone"): lets others move, and answers whether to try again.
typedef int (*wait_handler)(void *context, uint32_t party, uint32_t holder);

// Runs a request to its end and gives its last answer: done, a refusal, or a
// wait that the handler gave up. After that wait the request is still in hand.
// A list that is too short is made longer and the locate put again.
struct entry_store_answer host_run(struct store_host *h, uint32_t party, struct request r,
                                   struct pair_list *list, wait_handler on_wait, void *context);

// Makes the asks of a session in as few calls as its waits allow, and gives the last answer: that of the last
// ask, a refusal, or a wait that the handler gave up. How many asks have their answers goes to made; one that
// was waiting or refused is the last of them. The asks are used up: one that waits becomes a run of what is
// in hand, so that the rest can be made later, from asks + made - 1 on. No ask is a locate: its pairs would
// be written over.
struct entry_store_answer host_session(struct store_host *h, struct entry_store_ask *asks, size_t count,
                                       uint64_t *answers, size_t *made, wait_handler on_wait, void *context);

// A day of a driver's card: its bytes, its driver, the minute in which it starts (a driver's minutes count
// on from day to day), and the entry that its first stretch gets.
struct card_day {
    const uint8_t *bytes;
    size_t length;
    uint32_t driver, start, entry;
};

// One call of a day. The place is 0 when the day begins; it is set to the one that the call answers, and a
// refusal leaves it.
struct entry_store_answer host_day_call(struct store_host *h, uint32_t party, const struct card_day *d,
                                        uint32_t *place);

// Calls of a day from the place on, until one is answered neither ok nor more, and gives this last answer:
// done with the number of stretches, a refusal, or a wait that the handler gave up. After a wait, and after a
// refusal that could be helped, the same call goes on from the place.
struct entry_store_answer host_day(struct store_host *h, uint32_t party, const struct card_day *d,
                                   uint32_t *place, wait_handler on_wait, void *context);

// Writes out what a session finds of a driver's day: it locates the day, reads each entry found, and has the
// bytes written. Done with how many they are; or the answer that stopped it, as host_run gives it; or the
// refusal 103, where what stands there is no card's day or there is too little room.
struct entry_store_answer host_day_bytes(struct store_host *h, uint32_t party, uint32_t driver,
                                         uint32_t start, struct pair_list *list, uint8_t *bytes,
                                         size_t length, wait_handler on_wait, void *context);

// What a sound store has, for each part of soundness (enum entry_store_part; docs/RULES.md, section 4). A
// seize count is a descriptor's pins, a short lock a latch, a walk a descent, a take-back an undo record.
const char *part_in_full(uint32_t part);

// The planner's keys: driver x 1,048,576 + minute. Only the calls of a card's day care.
enum { KEYS_A_DRIVER = ENTRY_STORE_DRIVER_KEYS, DAY_MINUTES = ENTRY_STORE_DAY_MINUTES };

uint32_t key_of(uint32_t driver, uint32_t minute);

#endif
