/*
 * entry_store.h: the entry store for C. Link libentry_store.a (x86-64).
 *
 * A store holds entries 1 to M, each with a value of one word (0: no value), and groups of entries by key. Up to 16
 * sessions (parties 1 to 16) read and change it under long locks, and a housekeeper (party 0) tidies it. A session
 * begins, puts one request after another, makes steps until each is done, and commits or aborts. A whole request may be
 * one call (entry_store_request), and so may a whole session (entry_store_batch). A session that shall commit only if
 * another program does is asked first (entry_store_ask), and is then there still after a restart (entry_store_recover).
 * A day of a driver's card can be read from its bytes (entry_store_day) and written out again. No call blocks,
 * allocates or keeps a pointer: all memory is the caller's.
 *
 * The rules are in docs/RULES.md; "Rules, section 5" below is a section of it. docs/HOST.md is for whoever writes the
 * program around the store, docs/STORE.md has the store's words, and examples/hello.c is a whole program.
 *
 * What the functions promise is proved of their source (crates/entry_store) for any words at all in what they are lent,
 * and any numbers; the compiler's back end is trusted. They take as given what no test can tell, and the caller
 * answers for it at every call (Rules, section 12):
 *   - a pointer is not null and is aligned for its type, also where the length beside it is 0;
 *   - a length counts elements: words of a store or list, records of a table, bytes of a day; so many are there;
 *   - what one call is lent (store, table, list, asks, answers, bytes) does not overlap, and no other thread touches it
 *     during the call.
 * A call takes some 60 KiB of stack: leave it 128.
 *
 * One store and one table belong together. Copies of both, made between calls, may be kept and put back together.
 * Threads take turns by a lock of the caller's.
 */
#ifndef ENTRY_STORE_H
#define ENTRY_STORE_H

#include <stddef.h>
#include <stdint.h>

#ifdef __cplusplus
extern "C" {
#endif

/* ---- version */

/* Of this header and the archive beside it. */
#define ENTRY_STORE_VERSION_MAJOR 0
#define ENTRY_STORE_VERSION_MINOR 6
#define ENTRY_STORE_VERSION_PATCH 0
#define ENTRY_STORE_VERSION "0.6.0"

/* ---- sizes: Rules, section 3 */

/* Records of a session table: the housekeeper's, and one for each of the sessions from 1 on. */
#define ENTRY_STORE_PARTIES 17
#define ENTRY_STORE_SESSIONS (ENTRY_STORE_PARTIES - 1)
#define ENTRY_STORE_HOUSEKEEPER 0

/* Words of a store's header, of an entry, of a record, and of a record of the session table. */
#define ENTRY_STORE_HEADER_WORDS 16
#define ENTRY_STORE_ENTRY_WORDS 3
#define ENTRY_STORE_RECORD_WORDS 20
#define ENTRY_STORE_SESSION_WORDS 15

/* What format accepts: M entries and at least so many records. Above 4,096 records the words beyond are never
 * touched. */
#define ENTRY_STORE_MIN_ENTRIES 1
#define ENTRY_STORE_MAX_ENTRIES 1024
#define ENTRY_STORE_MIN_RECORDS 8
#define ENTRY_STORE_MAX_RECORDS 4096

/* The words of a store of m entries and r records: for an array, and for numbers. */
#define ENTRY_STORE_WORDS(m, r)                                                                                        \
    (ENTRY_STORE_HEADER_WORDS + ENTRY_STORE_ENTRY_WORDS * (m) + ENTRY_STORE_RECORD_WORDS * (r))

static inline size_t entry_store_words(uint32_t m, uint32_t r)
{
    return ENTRY_STORE_WORDS((size_t)m, (size_t)r);
}

/* The words of the largest store. */
#define ENTRY_STORE_MAX_WORDS ENTRY_STORE_WORDS(ENTRY_STORE_MAX_ENTRIES, ENTRY_STORE_MAX_RECORDS)

/* The words of an ask of a batch, the most asks of one batch, and the most steps of one run. */
#define ENTRY_STORE_ASK_WORDS 7
#define ENTRY_STORE_MOST_ASKS 65535
#define ENTRY_STORE_MOST_STEPS 16383

/* Keys that name a group (Rules, section 1). 0 and 4,294,967,295 are the two infinities. */
#define ENTRY_STORE_MIN_KEY UINT32_C(1)
#define ENTRY_STORE_MAX_KEY UINT32_C(4294967294)

/* Of a card's day: the minutes of a day, which are the most stretches too; the keys of a driver, the last driver and
 * the last minute in which a day may start (the first ones are 1 and 0). */
#define ENTRY_STORE_DAY_MINUTES 1440
#define ENTRY_STORE_DRIVER_KEYS 1048576
#define ENTRY_STORE_MAX_DRIVER 4094
#define ENTRY_STORE_MAX_DAY_START (ENTRY_STORE_DRIVER_KEYS - ENTRY_STORE_DAY_MINUTES)

/* ---- the session table: Rules, section 3 */

/* Party p's record is table[p]. A caller reads it at will, and lends it back as it was left: a table that is not sound
 * beside its store is refused (2). A field that is not in use for the request and stage in hand may have any value. */
struct entry_store_session {
    uint32_t begun;  /* not 0: the session is begun; unused for party 0 */
    uint32_t code;   /* the request in hand, 1 to 6; in use where stage is not 0, as all below up to last */
    uint32_t entry;  /* its arguments, as they were put */
    uint32_t first;
    uint32_t second;
    uint32_t stage;  /* 0 no request in hand, 1 start, 2 enter the root, 3 at a node, 4 change, 5 take */
    uint32_t target; /* stages 2 and 3: the key that the descent goes to; tidy's choice */
    uint32_t at;     /* stage 3: the record of the latched node */
    uint32_t level;  /* stage 3: its level from below, 1 where its sons are descriptors */
    uint32_t low;    /* stages 4 and 5, and a locate's second descent: the record of the pinned descriptor of first */
    uint32_t high;   /* stage 5, where second is not first: the record of the pinned descriptor of second */
    uint32_t last;   /* stage 5: the last key that a locate took, 0 for none */
    uint32_t undo;   /* the newest undo record, 0 for none; unused for party 0 */
    uint32_t order;  /* the place in the order of begins: of two begun sessions the one with the lower number began
                        first; unused where the session is not begun, and for party 0 */
    uint32_t asked;  /* not 0: the session is asked, so that only commit and abort remain to it; 0 for party 0 */
};

/* The archive has these words one after the other, with nothing between them: elsewhere this does not compile. */
typedef char entry_store_session_has_its_words
    [sizeof(struct entry_store_session) == ENTRY_STORE_SESSION_WORDS * sizeof(uint32_t) ? 1 : -1];

/* ---- answers: Rules, sections 6 (a step's words) and 12 (the bits) */

/*
 * Each call answers one uint64_t:
 *   bits  0 to 31   value
 *   bits 32 to 39   number
 *   bits 40 to 47   word
 *   bits 48 and 49  how many numbers the answer has: 0, 1 (value) or 2 (value and number); it tells a tidy's done
 *                   from the others'
 *   bits 50 to 63   run, request, and each answer that a batch writes: how many steps were made for it; 0 in all
 *                   other answers
 * but that entry_store_day has its place in bits 48 to 63, and neither of these two.
 *
 *   word       value                                   number
 *   ok         0                                       0
 *   more       0                                       0
 *   wait       the party that is named (below)         0
 *   done       the request's answer                    0
 *   done       a tidy's key, 0 for none                1 if its descriptor was removed, else 0
 *   done       batch: how many asks were made; free,   0
 *              holders: what is asked for; day: how
 *              many stretches; day_bytes: how many bytes
 *   refused    the count at 12, else 0                 the refusal's number
 *
 * Whom wait names. Of long locks in the way: of the sessions that hold them the one that began first (field order of
 * struct entry_store_session), whenever each took its lock. Of latches in the way: whoever has the highest node's, and
 * of two nodes side by side the left one's; this may be party 0. No step waits for both. Rules, section 6.
 *
 * Which long locks are in the way. A read waits for others that hold the entry exclusive; a write, and the first step
 * of an insert or remove, for others that hold it at all; the last step of an insert or remove for others that have
 * located the key; a locate for others that have inserted or removed at the next key. So sessions that insert or remove
 * different entries at one key do not wait for each other. Rules, section 5.
 */
enum entry_store_word {
    ENTRY_STORE_OK = 0,     /* format, begin, put, commit, abort, ask, recover: accepted; day: the call was an accepted
                               put */
    ENTRY_STORE_MORE = 1,   /* step: the request moved, and another step is due; day: another call is due */
    ENTRY_STORE_WAIT = 2,   /* step, day: the named party's lock is in the way; nothing changed; step or call again once
                               that party has moved on or ended */
    ENTRY_STORE_DONE = 3,   /* step: the request is finished and no longer in hand; day: all of the day is; batch, free,
                               holders, day_bytes: the answer */
    ENTRY_STORE_REFUSED = 4 /* any call: see enum entry_store_refusal */
};

struct entry_store_answer {
    uint32_t word;   /* enum entry_store_word */
    uint32_t number; /* refused: enum entry_store_refusal; a tidy's done: 1 if removed; else 0 */
    uint32_t value;
};

static inline uint32_t entry_store_value_of(uint64_t answer)
{
    return (uint32_t)(answer & UINT64_C(0xffffffff));
}

static inline uint32_t entry_store_number_of(uint64_t answer)
{
    return (uint32_t)(answer >> 32 & UINT64_C(0xff));
}

static inline uint32_t entry_store_word_of(uint64_t answer)
{
    return (uint32_t)(answer >> 40 & UINT64_C(0xff));
}

/* How many numbers the answer has: 0, 1 or 2. Not of a day's answer. */
static inline uint32_t entry_store_count_of(uint64_t answer)
{
    return (uint32_t)(answer >> 48 & UINT64_C(0x3));
}

/* How many steps a run, a request or an ask of a batch made, 0 to ENTRY_STORE_MOST_STEPS. Not of a day's answer. */
static inline uint32_t entry_store_steps_of(uint64_t answer)
{
    return (uint32_t)(answer >> 50);
}

/* Of a day's answer alone: the place that the next call of this day is handed, 0 at a refusal, which has none. */
static inline uint32_t entry_store_place_of(uint64_t answer)
{
    return (uint32_t)(answer >> 48);
}

static inline struct entry_store_answer entry_store_unpack(uint64_t answer)
{
    struct entry_store_answer a;
    a.word = entry_store_word_of(answer);
    a.number = entry_store_number_of(answer);
    a.value = entry_store_value_of(answer);
    return a;
}

/* ---- refusals: Rules, section 8 */

/*
 * A refusal changes no word of store, table or list, but that 11 and 12 also end the request in hand, its latch and its
 * pins; long locks of earlier steps stay. Where more than one applies the first in the order 1, 3 or 2, 4, 5, 21, 7, 6,
 * 8, 9, 10 is answered; of a day 1, 2, 4, 5, 21, 6, 13, 14, 8, 9; of a batch as a whole 1, 2, 102. What a run, a
 * request, a batch or the calls of a day made before stays.
 */
enum entry_store_refusal {
    /* The host program causes these: a fault of the caller's code or of its memory. */
    ENTRY_STORE_TABLE = 1,   /* the table is not of ENTRY_STORE_PARTIES records: pass so many */
    ENTRY_STORE_UNSOUND = 2, /* all calls but format: store and table are not as format and the calls leave them, or
                                belong to different stores; entry_store_fault says which part; put back a kept copy of
                                both, or format anew */
    ENTRY_STORE_SIZES = 3,   /* format: M outside 1 to 1,024, or room for fewer than 8 records; lend
                                entry_store_words(m, r) words, r at least 8 */

    /* The session's user causes these: answer them to that user. */
    ENTRY_STORE_PARTY = 4,   /* party above ENTRY_STORE_SESSIONS; or 0 in begin, commit, abort or ask */
    ENTRY_STORE_BEGUN = 5,   /* begin of a begun session: commit or abort it first; put, step, day, commit, abort or ask
                                of one not begun: begin it first */
    ENTRY_STORE_CODE = 6,    /* put: code outside 1 to 6, 6 from a session, or 1 to 5 from party 0; day: party 0 */
    ENTRY_STORE_HAND = 7,    /* put, commit or ask with a request in hand: make its steps, or abort; step with none in
                                hand: put first */
    ENTRY_STORE_ENTRY = 8,   /* put, codes 1 to 4: entry outside 1 to M; day: the entry of any of its stretches is */
    ENTRY_STORE_KEY = 9,     /* put, codes 3 to 5, and holders: a key 0 or 4,294,967,295; day: driver outside 1 to
                                ENTRY_STORE_MAX_DRIVER, or a start above ENTRY_STORE_MAX_DAY_START */
    ENTRY_STORE_RANGE = 10,  /* put, code 5: first above second */
    ENTRY_STORE_LIST = 12,   /* a locate's last step: the list has fewer than twice value words; lend more, and put the
                                locate again */
    ENTRY_STORE_ODD = 13,    /* day: the length is odd; a word has two bytes: read the card again */
    ENTRY_STORE_DAY = 14,    /* day: the bytes are no day: none, the first minute is not 0, a minute is above 1,439, or
                                minutes fall; or the place lies past the day, or names another request than the one that
                                the session has in hand */
    ENTRY_STORE_ASKED = 21,  /* put, day or ask of an asked session: commit or abort it */

    /* The sessions together cause this. */
    ENTRY_STORE_FULL = 11,   /* step: fewer free records than it needs; put the request again once a session has
                                committed or aborted, or a tidy removed a descriptor; where that never helps, the store
                                is too small; day: the same, and the same place puts the request again */

    /* The host program causes these too; the numbers are the archive's own. */
    ENTRY_STORE_NO_ASK = 101,  /* among a batch's answers: the ask is of no kind, or the words end within it; nothing
                                  of it was made */
    ENTRY_STORE_ANSWERS = 102, /* batch: room for fewer answers than there are asks, or more than ENTRY_STORE_MOST_ASKS
                                  asks; none was made */
    ENTRY_STORE_NO_DAY = 103   /* day_bytes: these pairs and values are no day's, or the bytes have too little room;
                                  nothing was written */
};

/* ---- requests: Rules, section 2 */

enum entry_store_code {
    ENTRY_STORE_READ = 1,   /* the entry's value: done value */
    ENTRY_STORE_WRITE = 2,  /* first as the entry's value: done 0 */
    ENTRY_STORE_INSERT = 3, /* the entry into group first: done 1 if added, 0 if it is a member already */
    ENTRY_STORE_REMOVE = 4, /* the entry out of group first: done 1 if taken out, 0 if it is no member */
    ENTRY_STORE_LOCATE = 5, /* the members of the groups first to second, both included: done with their count, and as
                               many pairs of words (key, entry), rising by key and then entry, at the start of the list;
                               later words of the list stay */
    ENTRY_STORE_TIDY = 6    /* party 0 only: the lowest stored descriptor above first (any word): done with its key, 0
                               where there is none, and 1 beside it if it was removed */
};

/* ---- the calls */

/* An empty store of so many entries, and a table with no session begun. All that was there before is lost. Answers ok;
 * refuses 1 or 3. Rules, section 7. */
uint64_t entry_store_format(uint32_t *store, size_t store_words, struct entry_store_session *table,
                            size_t table_records, uint32_t entries);

/* A session, 1 to ENTRY_STORE_SESSIONS, begins. Answers ok; refuses 1, 2, 4 or 5. The store is not changed. The begun
 * sessions are numbered anew (field order), from 1 up in the order in which they began, this one last; nothing else of
 * other records changes, and a refusal renumbers nothing. Rules, section 7. */
uint64_t entry_store_begin(uint32_t *store, size_t store_words, struct entry_store_session *table,
                           size_t table_records, uint32_t party);

/* A party's request: it is in hand until a step answers done, 11 or 12, or until an abort or a recover. Arguments that
 * the code does not use are ignored. Answers ok; refuses 1, 2, 4, 5, 21, 7, 6, 8, 9 or 10. The store is not changed.
 * Rules, section 2. */
uint64_t entry_store_put(uint32_t *store, size_t store_words, struct entry_store_session *table, size_t table_records,
                         uint32_t party, uint32_t code, uint32_t entry, uint32_t first, uint32_t second);

/* One step of the request that the party has in hand. Only a locate's last step, where it answers done, writes the
 * list; a list of 0 words will do for all others. Answers more, wait or done; refuses 1, 2, 4, 5, 7, 11 or 12. Rules,
 * section 6; which long locks a step asks for: section 5. */
uint64_t entry_store_step(uint32_t *store, size_t store_words, struct entry_store_session *table, size_t table_records,
                          uint32_t *list, size_t list_words, uint32_t party);

/* A session ends, and what it did stays. Its locks end. Answers ok; refuses 1, 2, 4, 5 or 7, but of an asked session
 * nothing beside 1 and 2. A commit without ask is fine. Rules, section 7. */
uint64_t entry_store_commit(uint32_t *store, size_t store_words, struct entry_store_session *table,
                            size_t table_records, uint32_t party);

/* A session ends, and what it did is undone; a request in hand ends too. Its locks end. Answers ok; refuses 1, 2, 4 or
 * 5. Rules, section 7. */
uint64_t entry_store_abort(uint32_t *store, size_t store_words, struct entry_store_session *table,
                           size_t table_records, uint32_t party);

/* ---- ask, then commit: docs/HOST.md, "Ask, then commit" */

/* A session is asked whether it will commit, and is fixed by it: from an accepted ask on put, day and ask of it are
 * refused 21, a step 7 and a begin 5, and only commit and abort remain, which are accepted. Proved: from then on,
 * whatever others do and over any number of recovers, a commit of the session is accepted until its commit or abort (or
 * a format), on store and table as the calls leave them. It keeps its locks all the while. The ask lasts as long as
 * these words do: save store and table after it, and before another program is told that the store will commit. Answers
 * ok; refuses 1, 2, 4, 5, 21 or 7. The store is not changed, and of the table only this record's field asked. Rules,
 * section 7.
 *
 * (struct entry_store_ask, below, is another thing: one ask of a batch, of any kind. C and C++ keep the two apart; the
 * call ask among a batch's asks is kind ENTRY_STORE_ASK_ASK.) */
uint64_t entry_store_ask(uint32_t *store, size_t store_words, struct entry_store_session *table, size_t table_records,
                         uint32_t party);

/* After a restart, or at any other time: the housekeeper's request in hand ends with its latch, and what it has done
 * stays; every begun session that is not asked is aborted, as entry_store_abort does it; the asked ones keep their
 * locks, their undo records and their places in the order of begins. Then nobody has a request in hand, and the begun
 * sessions are the asked ones. Answers ok, also where there is nothing to do; refuses 1 or 2. Rules, section 7. */
uint64_t entry_store_recover(uint32_t *store, size_t store_words, struct entry_store_session *table,
                             size_t table_records);

/* ---- several calls in one */

/* Each of these makes some of the calls above for one test of store and table, and is proved to do exactly what they
 * would do one after another: the same words, the same answers. They take the time of one call and a little for each
 * step. Nobody else has a turn in between. Rules, section 12. */

/* Steps of the request that the party has in hand, until one is not answered more: at least one, at most `most` of them
 * (0 counts as 1), and never more than ENTRY_STORE_MOST_STEPS. Answers what the last step answers, with how many were
 * made (entry_store_steps_of; 0 only at refusal 1): wait, done or a refusal of step's; or more, where the bound is used
 * up. wait and more leave the request in hand: run again. Each step is lent this list. */
uint64_t entry_store_run(uint32_t *store, size_t store_words, struct entry_store_session *table, size_t table_records,
                         uint32_t *list, size_t list_words, uint32_t party, uint32_t most);

/* A put and, if that is accepted, a run. Answers what the run answers, with how many steps were made; or the put's
 * refusal and 0 steps. wait and more leave the request in hand: go on with entry_store_run. */
uint64_t entry_store_request(uint32_t *store, size_t store_words, struct entry_store_session *table,
                             size_t table_records, uint32_t *list, size_t list_words, uint32_t party, uint32_t code,
                             uint32_t entry, uint32_t first, uint32_t second, uint32_t most);

/* What an ask of a batch asks for, and which of its fields count. */
enum entry_store_kind {
    ENTRY_STORE_ASK_BEGIN = 1,   /* party */
    ENTRY_STORE_ASK_PUT = 2,     /* party, code, entry, first, second */
    ENTRY_STORE_ASK_STEP = 3,    /* party */
    ENTRY_STORE_ASK_COMMIT = 4,  /* party */
    ENTRY_STORE_ASK_ABORT = 5,   /* party */
    ENTRY_STORE_ASK_RUN = 6,     /* party, most */
    ENTRY_STORE_ASK_REQUEST = 7, /* party, code, entry, first, second, most */
    ENTRY_STORE_ASK_ASK = 8      /* party: the call ask, so that a whole session up to its ask is one call */
};

/* An ask of a batch. */
struct entry_store_ask {
    uint32_t kind;  /* enum entry_store_kind */
    uint32_t party; /* the rest as in the call of this kind; what the kind does not use is ignored */
    uint32_t code;
    uint32_t entry;
    uint32_t first;
    uint32_t second;
    uint32_t most;
};

/* A list of asks is lent as words, so these stand one after the other too. */
typedef char entry_store_ask_has_its_words
    [sizeof(struct entry_store_ask) == ENTRY_STORE_ASK_WORDS * sizeof(uint32_t) ? 1 : -1];

/* Asks of any parties, one after another, until one is answered wait, is refused, or, being a run or a request, is
 * answered more; the asks behind that one are not made. Answers done with the number of asks that were made, the last
 * one among them: answers[0] and so on are theirs, each as its own call answers it (a step's with 1 step), and later
 * answers stay. asks has ask_words words, ENTRY_STORE_ASK_WORDS an ask; words that are no ask, by their kind or because
 * they are too few, are answered refused 101, which ends the batch.
 *
 * Refuses 1, 2 or 102: answer_count is less than the number of asks, a short one at the end counting as one, or there
 * are more asks than ENTRY_STORE_MOST_ASKS. Then no ask is made and answers is not written.
 *
 * The list is shared out in turn: the first locate that is done writes its pairs at the start of the list, the next one
 * right behind them, and so on, by the counts in the answers. Each is lent what is left, and refused 12 where that is
 * too short. */
uint64_t entry_store_batch(uint32_t *store, size_t store_words, struct entry_store_session *table,
                           size_t table_records, uint32_t *list, size_t list_words, const uint32_t *asks,
                           size_t ask_words, uint64_t *answers, size_t answer_count);

/* ---- a card's day */

/*
 * A driver's card has a day as words of 16 bits, high byte first (ActivityChangeInfo): from the top 1 bit slot, 1 bit
 * driving status, 1 bit card status, 2 bits activity (0 rest, 1 availability, 2 work, 3 driving) and 11 bits minute.
 * Bytes are a day if there are some, two a word; the first minute is 0, none is above 1,439, and minutes do not fall.
 * Each word is a stretch, but that of words of one minute only the last counts. A stretch runs to the minute of the
 * next one, the last to 1,440. Its value is the word with the length in place of the minute, its key is
 * driver x ENTRY_STORE_DRIVER_KEYS + day_start + minute. The first stretch gets the given entry, the next the one above
 * it, and so on.
 *
 * To store a day is two requests for each stretch, in the order of their minutes: a write of its value and an insert at
 * its key. The place is the number of such a request: 2 k for the write of stretch k, counted from 0, and 2 k + 1 for
 * its insert. The requests before it are taken as done.
 */

/* One call of a session that reads a day: the put of the request that the place names where the session has none in
 * hand, and else a step of the one in hand, which must be the one named (put by this function or by entry_store_put).
 * It is proved to be that put or that step in every word of store and table, so other calls, of this session too, may
 * stand between any two calls of a day.
 *
 * A day starts with place 0; each further call is handed the same arguments and the place that the one before answered
 * (entry_store_place_of), until one answers done:
 *   ok       the request was put: call again
 *   more     a step was made, or a request other than the last was finished: call again
 *   wait     as a step's: value has the party that it names; nothing changed; call again later
 *   done     the last request is finished: value has the number of stretches; the place lies past the day
 *   refused  no place (its bits are 0); the place that was handed in is the place still: mend what is wrong and hand in
 *            the same again. 11 ended the request in hand, and the same place puts it again
 * What was stored before a refusal stays until the session commits or aborts. An insert that finds its member there
 * already goes on as any other, and counts.
 *
 * Refuses 1, 2, 4, 5, 21, 6 (party 0), 13, 14, 8, 9, in this order, checked at every call; then a step's wait or 11.
 * docs/HOST.md, "Reading a card". */
uint64_t entry_store_day(uint32_t *store, size_t store_words, struct entry_store_session *table, size_t table_records,
                         const uint8_t *bytes, size_t length, uint32_t party, uint32_t driver, uint32_t day_start,
                         uint32_t entry, uint32_t place);

/* Writes a day's bytes from what a session finds and reads: pairs is the list of its locate of the day's
 * ENTRY_STORE_DAY_MINUTES keys, and values[k] what a read of the entry of pair k answered. Byte 2 k and the one behind
 * it are the word of pair k: the value with the minute of the pair's key in place of the length. Answers done with the
 * number of bytes, 2 x count; later bytes stay. Proved: for a day that was stored by entry_store_day, with no two words
 * of one minute, in minutes that had no entry, and that nothing has changed since, these are its bytes.
 *
 * Refuses 103, and writes nothing, where pair_words or length is less than 2 x count, count is above
 * ENTRY_STORE_DAY_MINUTES, a key is none of the day's, or a value is above 65,535. No store is asked. */
uint64_t entry_store_day_bytes(const uint32_t *pairs, size_t pair_words, const uint32_t *values, size_t count,
                               uint32_t driver, uint32_t day_start, uint8_t *bytes, size_t length);

/* ---- reading */

/* How many records are free: done with their number; refuses 1 or 2. It changes nothing. Rules, section 3. */
uint64_t entry_store_free(const uint32_t *store, size_t store_words, const struct entry_store_session *table,
                          size_t table_records);

/* Who holds a key, stored or empty: done with a word whose bit s - 1 says that session s holds it in locate mode, and
 * whose bit 16 + s - 1 that it does in update mode; refuses 1, 2 or 9. It changes nothing. Rules, section 5. */
uint64_t entry_store_holders(const uint32_t *store, size_t store_words, const struct entry_store_session *table,
                             size_t table_records, uint32_t key);

/* How many sessions a holders word has: the number of its ones; session s is bit s - 1. Entry e's words stand from
 * store[entry_store_words(e - 1, 0)] on: its value, its share holders, its exclusive holders. Rules, sections 3 and
 * 5. */
uint32_t entry_store_lock_count(uint32_t holders);

/* The first part of soundness that store and table break (enum entry_store_part), 0 for none: the test that every call
 * but format makes. It changes nothing. Proved: it is 0 exactly if store and table are sound, and any other number
 * names a part that is broken. Rules, section 4. */
uint32_t entry_store_fault(const uint32_t *store, size_t store_words, const struct entry_store_session *table,
                           size_t table_records);

/* The parts of soundness, in the order in which they are tested, but that 11 comes before them all. Rules, section
 * 4. */
enum entry_store_part {
    ENTRY_STORE_PART_NONE = 0,
    ENTRY_STORE_PART_SIZES = 1,      /* the header's M and R are those that format gives for this length */
    ENTRY_STORE_PART_ENTRIES = 2,    /* entries: only begun sessions hold, and no two holders conflict */
    ENTRY_STORE_PART_KEY_ZERO = 3,   /* key 0 is stored and has no member */
    ENTRY_STORE_PART_TREE = 4,       /* nodes and descriptors form a tree as the Rules have it, keys rising; no record
                                        is reached twice */
    ENTRY_STORE_PART_REQUESTS = 5,   /* each request in hand passes put's checks and stands where its own steps can
                                        bring it */
    ENTRY_STORE_PART_LATCHES = 6,    /* each latch belongs to a request in hand */
    ENTRY_STORE_PART_UNDOS = 7,      /* each chain of undo records can be undone under locks that its session holds */
    ENTRY_STORE_PART_GROUPS = 8,     /* groups: members, holders, pins; a locate holds every key it has passed */
    ENTRY_STORE_PART_FREE_CHAIN = 9, /* the free chain goes only to records that nothing else reaches */
    ENTRY_STORE_PART_UNREACHED = 10, /* every record is reached */
    ENTRY_STORE_PART_TABLE = 11,     /* the table is of ENTRY_STORE_PARTIES records */
    ENTRY_STORE_PART_ORDERS = 12,    /* no two begun sessions share a number in the order of begins */
    ENTRY_STORE_PART_ASKED = 13      /* only a begun session with no request in hand is asked */
};

/* ---- names */

/* A number that a macro names, as a text. The texts are those that the examples print: a short lock is a latch, a
 * take-back an undo record (docs/RULES.md, Glossary). */
#define ENTRY_STORE_TEXT(number) ENTRY_STORE_TEXT_OF(number)
#define ENTRY_STORE_TEXT_OF(text) #text

static inline const char *entry_store_word_text(uint32_t word)
{
    switch (word) {
    case ENTRY_STORE_OK: return "ok";
    case ENTRY_STORE_MORE: return "more";
    case ENTRY_STORE_WAIT: return "wait";
    case ENTRY_STORE_DONE: return "done";
    case ENTRY_STORE_REFUSED: return "refused";
    default: return "no such word";
    }
}

static inline const char *entry_store_refusal_text(uint32_t refusal)
{
    switch (refusal) {
    case ENTRY_STORE_TABLE: return "the table is not of " ENTRY_STORE_TEXT(ENTRY_STORE_PARTIES) " records";
    case ENTRY_STORE_UNSOUND: return "store or table is not sound";
    case ENTRY_STORE_SIZES: return "format sizes are out of bounds";
    case ENTRY_STORE_PARTY: return "no such party, or the housekeeper in begin, commit, abort or ask";
    case ENTRY_STORE_BEGUN: return "the session is begun already, or is not begun";
    case ENTRY_STORE_CODE: return "no such request, or not for this party";
    case ENTRY_STORE_HAND: return "a request is in hand, or none is";
    case ENTRY_STORE_ENTRY: return "no such entry";
    case ENTRY_STORE_KEY: return "the key is an infinity, or no such driver or day";
    case ENTRY_STORE_RANGE: return "first is above second";
    case ENTRY_STORE_FULL: return "too few free records";
    case ENTRY_STORE_LIST: return "the list is too short";
    case ENTRY_STORE_ODD: return "the day has half a word";
    case ENTRY_STORE_DAY: return "the bytes are no day, or the place is not where it stands";
    case ENTRY_STORE_ASKED: return "the session is asked: only commit and abort remain to it";
    case ENTRY_STORE_NO_ASK: return "no such ask";
    case ENTRY_STORE_ANSWERS: return "fewer answers than asks, or too many asks";
    case ENTRY_STORE_NO_DAY: return "no day can be written of these, or not here";
    default: return "no such refusal";
    }
}

static inline const char *entry_store_part_text(uint32_t part)
{
    switch (part) {
    case ENTRY_STORE_PART_NONE: return "none";
    case ENTRY_STORE_PART_SIZES: return "sizes";
    case ENTRY_STORE_PART_ENTRIES: return "entries";
    case ENTRY_STORE_PART_KEY_ZERO: return "key zero";
    case ENTRY_STORE_PART_TREE: return "tree";
    case ENTRY_STORE_PART_REQUESTS: return "requests";
    case ENTRY_STORE_PART_LATCHES: return "short locks";
    case ENTRY_STORE_PART_UNDOS: return "take-back chains";
    case ENTRY_STORE_PART_GROUPS: return "groups";
    case ENTRY_STORE_PART_FREE_CHAIN: return "free chain";
    case ENTRY_STORE_PART_UNREACHED: return "unreached records";
    case ENTRY_STORE_PART_TABLE: return "table";
    case ENTRY_STORE_PART_ORDERS: return "order of begins";
    case ENTRY_STORE_PART_ASKED: return "asked sessions";
    default: return "no such part";
    }
}

#ifdef __cplusplus
}
#endif

#endif
