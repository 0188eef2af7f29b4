// Six desks, a planner and the housekeeper share one entry store.
//
// Desks type in what cards say. A card's day is a row of stretches; each gets an entry of its own: the desk
// writes the stretch's activity and length as the entry's value and then inserts the entry at the key of the
// stretch's driver and first minute. A day is one session: all of it is stored, or nothing.
//
// The planner locates two days of a driver, reads the entries found, and looks for a rest. What it has
// located, empty minutes too, nobody changes until it commits.
//
// Everybody makes one call a round, in turn, so that all are seen to move; day.c has whole sessions in one
// call. The host answers what the store can answer:
//   wait        the party steps again in the next round; it tells whom it waits for, of several the one that
//               began first; where two wait for each other, one is aborted and begins again once the other
//               has ended. Desks that type in at one minute do not wait for each other; two that then look
//               at it do
//   refused 11  no free record: the housekeeper tidies, and the request is put again once it has removed
//               something or a session has ended
//   refused 12  the list is too short: a longer one, and the request is put again
//
// What they type in and look for stands in morning.h.
//
// Usage: host [IMAGE [JOURNAL]]. With a file name the host saves store and table at the first wait for the
// planner, and loads them again at the end. With a second one it writes the journal of all calls there
// (docs/JOURNAL.md). What it prints is the same in every run.
#include "image.h"
#include "journal.h"
#include "morning.h"

#include <errno.h>
#include <inttypes.h>
#include <stdarg.h>
#include <stdio.h>
#include <stdlib.h>
#include <string.h>

// ---- the parties

enum { DESKS = 6, PLANNER = 7, ACTORS = 8 };

enum state {
    AWAY,    // not begun
    READY,   // begun, no request in hand
    MOVING,  // a request is in hand
    KEEPING, // the planner holds what it found
    ASLEEP,  // until somebody wakes it
    GONE,    // its work is done
};

struct yard;
struct actor;

// What a kind of party does between its calls.
struct role {
    // The next request; 0 where none is left.
    int (*next)(const struct actor *a, struct request *r);
    // Takes the answer of a request that is done.
    void (*take)(struct yard *y, struct actor *a, struct entry_store_answer answer);
    // No request is left.
    void (*finish)(struct yard *y, struct actor *a);
};

struct actor {
    uint32_t party;
    const char *name;
    const struct role *role;
    uint32_t starts; // the round in which it begins
    uint32_t after;  // the party whose end it waits for before that, or NOBODY
    enum state state, then;
    uint32_t wakes_on;      // bit p: the end of party p wakes it
    uint32_t waits_for;     // who is in its way, or NOBODY
    int waited;             // it has told that it waits
    int tidied;             // the housekeeper was called for its request
    size_t place;           // how many of its requests are done
    struct request request; // the one in hand

    const struct sheet *sheet; // a desk's

    struct pair_list list;    // the planner's, and a desk's that looks
    uint32_t values[ENTRIES]; // the planner's
    uint32_t found;
    size_t wish;   // which of its wishes
    uint32_t kept; // for how many rounds it has held what it found

    uint32_t from, removed; // the housekeeper's
};

struct yard {
    struct store_host host;
    struct actor actors[ACTORS]; // by party
    uint32_t round;
    uint32_t short_waits;
    int moved; // somebody moved in this round
    const char *image;
    int saved;
    struct journal journal;
    const char *journal_file;
};

// ---- the timeline

static void tell(const struct yard *y, const struct actor *a, const char *form, ...)
{
    va_list words;
    va_start(words, form);
    printf("%5u  %-12s ", y->round, a->name);
    vprintf(form, words);
    putchar('\n');
    va_end(words);
}

struct text {
    char s[64];
};

// A key as driver, day and time.
static const char *moment(struct text *t, uint32_t key)
{
    uint32_t driver = key / KEYS_A_DRIVER, minute = key % KEYS_A_DRIVER;
    snprintf(t->s, sizeof t->s, "%s, day %u %02u:%02u", driver < DRIVERS ? drivers[driver] : "?",
             minute / DAY_MINUTES, minute % DAY_MINUTES / HOUR, minute % HOUR);
    return t->s;
}

// A value is an activity and a length in minutes.
static uint32_t activity_of(uint32_t value)
{
    return value / 2048 % 4;
}

static uint32_t length_of(uint32_t value)
{
    return value % 2048;
}

static const char *value_text(struct text *t, uint32_t value)
{
    uint32_t length = length_of(value);
    snprintf(t->s, sizeof t->s, "%s for %u:%02u", activity_names[activity_of(value)], length / HOUR,
             length % HOUR);
    return t->s;
}

// What the request in hand of a party is about.
static const char *request_text(const struct yard *y, uint32_t party, struct text *t)
{
    const struct entry_store_session *s = &y->host.table[party];
    if (s->code == ENTRY_STORE_INSERT || s->code == ENTRY_STORE_LOCATE) {
        return moment(t, s->first);
    }
    snprintf(t->s, sizeof t->s, "entry %u", s->entry);
    return t->s;
}

static const char *called(const struct yard *y, uint32_t party, struct text *t)
{
    snprintf(t->s, sizeof t->s, "%s%s", party == PLANNER || party == ENTRY_STORE_HOUSEKEEPER ? "the " : "",
             y->actors[party].name);
    return t->s;
}

// A refusal that this host has no answer to is a fault of the host.
static void must_be(struct entry_store_answer a, uint32_t word, const char *call)
{
    if (a.word != word) {
        printf("%s answers %s, %s\n", call, entry_store_word_text(a.word),
               entry_store_refusal_text(a.number));
        exit(1);
    }
}

// ---- desks

static uint32_t stretch_key(const struct stretch *s)
{
    return key_of(s->driver, s->day * DAY_MINUTES + s->minute);
}

static uint32_t stretch_value(const struct stretch *s)
{
    return (uint32_t)s->activity * 2048 + s->length;
}

// The stretch whose minute a desk looks at, once all are typed in; NULL where it does not.
static const struct stretch *looked_at(const struct actor *a)
{
    const struct sheet *s = a->sheet;
    int looks = s->looks && a->place >= 2 * s->count && a->place < 3 * s->count;
    return looks ? &s->stretches[a->place - 2 * s->count] : NULL;
}

// Each stretch is two requests: its value is written, then its entry is inserted. A desk that looks makes a
// locate of each minute in the end.
static int desk_next(const struct actor *a, struct request *r)
{
    size_t k = a->place / 2;
    const struct stretch *seen = looked_at(a);
    if (seen != NULL) {
        struct request look = {ENTRY_STORE_LOCATE, 0, stretch_key(seen), stretch_key(seen)};
        *r = look;
        return 1;
    }
    if (k >= a->sheet->count) {
        return 0;
    }
    const struct stretch *s = &a->sheet->stretches[k];
    r->entry = a->sheet->first_entry + (uint32_t)k;
    r->code = a->place % 2 == 0 ? ENTRY_STORE_WRITE : ENTRY_STORE_INSERT;
    r->first = a->place % 2 == 0 ? stretch_value(s) : stretch_key(s);
    r->second = 0;
    return 1;
}

static void desk_take(struct yard *y, struct actor *a, struct entry_store_answer answer)
{
    const struct stretch *seen = looked_at(a);
    struct text when, what;
    if (seen != NULL) {
        tell(y, a, "sees %u stretch%s at %s", answer.value, answer.value == 1 ? "" : "es",
             moment(&when, stretch_key(seen)));
    } else if (a->place % 2 == 1) {
        const struct stretch *s = &a->sheet->stretches[a->place / 2];
        tell(y, a, "%s: %s%s", moment(&when, stretch_key(s)), value_text(&what, stretch_value(s)),
             answer.value == 1 ? "" : " (was there already)");
    }
    a->place += 1;
}

// ---- sleeping and waking

static void sleep_until(struct actor *a, uint32_t parties, enum state then)
{
    a->state = ASLEEP;
    a->then = then;
    a->wakes_on = parties;
}

// A session has ended, or the housekeeper has removed something: those who waited for that go on.
static void wake(struct yard *y, uint32_t party)
{
    for (size_t k = 0; k < ACTORS; k++) {
        struct actor *a = &y->actors[k];
        if (a->waits_for == party) {
            a->waits_for = NOBODY;
        }
        if (a->after == party) {
            a->after = NOBODY;
        }
        if (a->state == ASLEEP && (a->wakes_on >> party & 1) != 0) {
            a->state = a->then;
        }
    }
}

// Whether all sessions of a party have ended.
static int ended(const struct yard *y, uint32_t party)
{
    return party == NOBODY || y->actors[party].state == GONE;
}

static void commit(struct yard *y, struct actor *a)
{
    must_be(host_commit(&y->host, a->party), ENTRY_STORE_OK, "commit");
    journal_commit(&y->journal, a->party);
    tell(y, a, "commits");
    a->state = GONE;
    wake(y, a->party);
}

// The session is undone and begins again once one of these parties has ended.
static void begin_again_after(struct yard *y, struct actor *a, uint32_t parties)
{
    must_be(host_abort(&y->host, a->party), ENTRY_STORE_OK, "abort");
    a->place = 0;
    a->waits_for = NOBODY;
    a->waited = 0;
    a->tidied = 0;
    wake(y, a->party);
    sleep_until(a, parties, AWAY);
}

// ---- the planner

static const struct wish *wish_of(const struct actor *a)
{
    return &wishes[a->wish];
}

static uint32_t first_key(const struct wish *w)
{
    return key_of(w->driver, w->first_day * DAY_MINUTES);
}

static uint32_t last_key(const struct wish *w)
{
    return key_of(w->driver, (w->last_day + 1) * DAY_MINUTES - 1);
}

// First the locate, then a read of each entry found.
static int planner_next(const struct actor *a, struct request *r)
{
    struct request locate = {ENTRY_STORE_LOCATE, 0, first_key(wish_of(a)), last_key(wish_of(a))};
    *r = locate;
    if (a->place == 0) {
        return 1;
    }
    if (a->place > a->found) {
        return 0;
    }
    r->code = ENTRY_STORE_READ;
    r->entry = a->list.words[2 * (a->place - 1) + 1];
    return 1;
}

static void planner_take(struct yard *y, struct actor *a, struct entry_store_answer answer)
{
    const struct wish *w = wish_of(a);
    struct text from, to;
    if (a->place == 0) {
        a->found = answer.value;
        tell(y, a, "finds %u stretches from %s to %s", a->found, moment(&from, first_key(w)),
             moment(&to, last_key(w)));
    } else {
        a->values[a->place - 1] = answer.value;
    }
    a->place += 1;
}

// The first minute, as a key, from which nothing but rest stands for long enough; 0 where there is none.
// Stretches may overlap, as those of a card and a vehicle file do. No stretch runs past midnight, so none of
// the evening before reaches into the first day; elsewhere the locate starts earlier (docs/HOST.md, "Finding
// a rest").
static uint32_t first_rest(const struct actor *a)
{
    const struct wish *w = wish_of(a);
    uint32_t start = first_key(w), end = last_key(w) + 1;
    for (uint32_t k = 0; k < a->found; k++) {
        uint32_t key = a->list.words[2 * k], value = a->values[k];
        if (activity_of(value) == REST) {
            continue;
        }
        if (key >= start && key - start >= w->length) {
            return start;
        }
        if (key + length_of(value) > start) {
            start = key + length_of(value);
        }
    }
    return start <= end && end - start >= w->length ? start : 0;
}

// The rest is found, or there is none. The planner holds what it read while its user decides.
static void planner_finish(struct yard *y, struct actor *a)
{
    struct text when;
    uint32_t start = first_rest(a), length = wish_of(a)->length;
    if (start == 0) {
        tell(y, a, "finds no rest of %u:%02u", length / HOUR, length % HOUR);
    } else {
        tell(y, a, "plans a rest of %u:%02u: %s", length / HOUR, length % HOUR, moment(&when, start));
    }
    a->kept = 0;
    a->state = KEEPING;
}

static void planner_keep(struct yard *y, struct actor *a)
{
    y->moved = 1;
    if (a->kept < wish_of(a)->keeps) {
        a->kept += 1;
        return;
    }
    commit(y, a);
    if (a->wish + 1 < WISHES) {
        a->wish += 1;
        a->after = ended(y, wish_of(a)->after) ? NOBODY : wish_of(a)->after;
        a->state = AWAY;
        a->place = 0;
    }
}

// ---- the housekeeper

static int housekeeper_next(const struct actor *a, struct request *r)
{
    struct request tidy = {ENTRY_STORE_TIDY, 0, a->from, 0};
    *r = tidy;
    return 1;
}

// One descriptor after the other, in the order of their keys. Key 0 answers that none is left.
static void housekeeper_take(struct yard *y, struct actor *a, struct entry_store_answer answer)
{
    struct text when;
    if (answer.value != 0) {
        a->from = answer.value;
        if (answer.number == 1) {
            a->removed += 1;
            tell(y, a, "removes the empty group of %s", moment(&when, answer.value));
        }
        return;
    }
    tell(y, a, "is through: %u removed", a->removed);
    a->state = ASLEEP;
    if (a->removed > 0) {
        wake(y, ENTRY_STORE_HOUSEKEEPER);
    }
}

static void call_housekeeper(struct yard *y)
{
    struct actor *a = &y->actors[ENTRY_STORE_HOUSEKEEPER];
    if (a->state == ASLEEP) {
        a->from = 0;
        a->removed = 0;
        a->state = READY;
    }
}

static const struct role desk = {desk_next, desk_take, commit};
static const struct role planner = {planner_next, planner_take, planner_finish};
static const struct role housekeeper = {housekeeper_next, housekeeper_take, NULL};

// ---- answers of a step

// Whether the waits lead from a party back to it.
static int waits_for_itself(const struct yard *y, const struct actor *a)
{
    uint32_t holder = a->waits_for;
    for (size_t k = 0; k < ACTORS && holder != NOBODY; k++) {
        if (holder == a->party) {
            return 1;
        }
        holder = y->actors[holder].waits_for;
    }
    return 0;
}

static void save_once(struct yard *y, const struct actor *a)
{
    if (y->image == NULL || y->saved) {
        return;
    }
    y->saved = image_save(&y->host, y->image);
    if (y->saved) {
        tell(y, a, "(the host saves store and table)");
    } else {
        const char *reason = strerror(errno);
        tell(y, a, "(the host cannot save store and table in %s: %s)", y->image, reason);
    }
}

// A long lock is in the way. The request stays in hand and is stepped again in the next round.
static void long_wait(struct yard *y, struct actor *a, uint32_t holder)
{
    struct text who, what;
    if (a->waits_for == holder) {
        return;
    }
    a->waits_for = holder;
    a->waited = 1;
    tell(y, a, "waits for %s: %s", called(y, holder, &who), request_text(y, a->party, &what));
    if (holder == PLANNER) {
        save_once(y, a);
    }
    if (waits_for_itself(y, a)) {
        tell(y, a, "and %s wait for each other: %s is undone and begins again later", who.s, a->name);
        begin_again_after(y, a, 1u << holder);
    }
}

static void on_wait(struct yard *y, struct actor *a, uint32_t holder)
{
    if (is_short_wait(&y->host, a->party)) {
        y->short_waits += 1;
        return;
    }
    long_wait(y, a, holder);
}

// The request has ended, and is put again. The first time the housekeeper is called; the second time only the
// end of a session helps. (To tidy again and again might help nobody: a request that is put again may make
// the very descriptor that was removed, and meet the same refusal.)
static void on_no_record(struct yard *y, struct actor *a)
{
    if (a->tidied) {
        tell(y, a, "finds no free record: goes on when somebody ends");
        sleep_until(a, ~1u, READY);
        return;
    }
    tell(y, a, "finds no free record: the housekeeper is called");
    a->tidied = 1;
    call_housekeeper(y);
    sleep_until(a, ~0u, READY);
}

// The request has ended. The count came back with the refusal.
static void on_short_list(struct yard *y, struct actor *a, uint32_t count)
{
    tell(y, a, "has a list of %zu words, and %u stretches to list: takes a longer one", a->list.length,
         count);
    if (!list_grow(&a->list, count)) {
        printf("no memory\n");
        exit(1);
    }
    a->state = READY;
}

static void on_refusal(struct yard *y, struct actor *a, struct entry_store_answer answer)
{
    if (answer.number == ENTRY_STORE_FULL) {
        on_no_record(y, a);
    } else if (answer.number == ENTRY_STORE_LIST) {
        on_short_list(y, a, answer.value);
    } else {
        must_be(answer, ENTRY_STORE_DONE, "step");
    }
}

static void step(struct yard *y, struct actor *a)
{
    struct entry_store_answer answer = host_step(&y->host, a->party, &a->list);
    if (answer.word == ENTRY_STORE_WAIT) {
        on_wait(y, a, answer.value);
        return;
    }
    y->moved = 1;
    if (a->waited) {
        a->waited = 0;
        tell(y, a, "goes on");
    }
    a->waits_for = NOBODY;
    if (answer.word == ENTRY_STORE_DONE) {
        journal_done(&y->journal, a->party, a->request, answer.value, a->list.words);
        a->state = READY;
        a->tidied = 0;
        a->role->take(y, a, answer);
    } else if (answer.word == ENTRY_STORE_REFUSED) {
        on_refusal(y, a, answer);
    }
}

// ---- turns

static void begin(struct yard *y, struct actor *a)
{
    if (y->round < a->starts || a->after != NOBODY) {
        return;
    }
    must_be(host_begin(&y->host, a->party), ENTRY_STORE_OK, "begin");
    journal_begin(&y->journal, a->party);
    y->moved = 1;
    a->state = READY;
    tell(y, a, "begins%s%s", a->sheet == NULL ? "" : ": ", a->sheet == NULL ? "" : a->sheet->title);
}

static void put(struct yard *y, struct actor *a)
{
    y->moved = 1;
    if (!a->role->next(a, &a->request)) {
        a->role->finish(y, a);
        return;
    }
    must_be(host_put(&y->host, a->party, a->request), ENTRY_STORE_OK, "put");
    a->state = MOVING;
}

// One call, or none.
static void turn(struct yard *y, struct actor *a)
{
    switch (a->state) {
    case AWAY:
        begin(y, a);
        break;
    case READY:
        put(y, a);
        break;
    case MOVING:
        step(y, a);
        break;
    case KEEPING:
        planner_keep(y, a);
        break;
    case ASLEEP:
    case GONE:
        break;
    }
}

static int all_gone(const struct yard *y)
{
    for (size_t k = 1; k < ACTORS; k++) {
        if (y->actors[k].state != GONE) {
            return 0;
        }
    }
    return 1;
}

static int somebody_comes(const struct yard *y)
{
    for (size_t k = 1; k < ACTORS; k++) {
        const struct actor *a = &y->actors[k];
        if (a->state == AWAY && a->after == NOBODY && a->starts > y->round) {
            return 1;
        }
    }
    return 0;
}

static int nobody_begun(const struct yard *y)
{
    uint32_t line[ENTRY_STORE_SESSIONS];
    return host_line(&y->host, line) == 0;
}

// Nobody moved and nobody comes: the one that began last is undone, so that the others can move. (Where
// several are in the way a wait names one of them, so that not every circle is seen at the wait.)
static void undo_one(struct yard *y)
{
    uint32_t line[ENTRY_STORE_SESSIONS], count = host_line(&y->host, line);
    struct actor *a = &y->actors[line[count - 1]];
    if (count > 1) {
        tell(y, a, "is undone and begins again later: nobody could move");
        begin_again_after(y, a, ~1u);
    } else {
        tell(y, a, "is undone: the store is too small for it");
        begin_again_after(y, a, 0);
        a->state = GONE;
    }
}

// One call a round for everybody; the housekeeper is quicker.
enum { HOUSEKEEPER_CALLS = 8 };

static int play(struct yard *y)
{
    while (!all_gone(y)) {
        y->round += 1;
        y->moved = 0;
        for (size_t k = 0; k < HOUSEKEEPER_CALLS; k++) {
            turn(y, &y->actors[ENTRY_STORE_HOUSEKEEPER]);
        }
        for (size_t k = 1; k < ACTORS; k++) {
            turn(y, &y->actors[k]);
        }
        if (!y->moved && !somebody_comes(y)) {
            if (nobody_begun(y)) {
                return 0;
            }
            undo_one(y);
        }
    }
    return 1;
}

// ---- the yard

static void set_actor(struct yard *y, uint32_t party, const char *name, const struct role *role,
                      uint32_t starts)
{
    struct actor *a = &y->actors[party];
    a->party = party;
    a->name = name;
    a->role = role;
    a->starts = starts;
    a->after = NOBODY;
    a->waits_for = NOBODY;
    a->state = AWAY;
}

static void set_desks(struct yard *y)
{
    static const char *const names[DESKS] = {"desk 1", "desk 2", "desk 3", "desk 4", "desk 5", "desk 6"};
    static const uint32_t starts[DESKS] = {1, 1, 95, 2, 2, 30};
    for (uint32_t k = 0; k < DESKS; k++) {
        set_actor(y, k + 1, names[k], &desk, starts[k]);
        y->actors[k + 1].sheet = &sheets[k];
    }
}

static void set_planner(struct yard *y)
{
    set_actor(y, PLANNER, "planner", &planner, 1);
    struct actor *a = &y->actors[PLANNER];
    a->after = wish_of(a)->after;
}

// Lists of two pairs to begin with.
static void set_lists(struct yard *y)
{
    for (size_t k = 1; k < ACTORS; k++) {
        if (!list_grow(&y->actors[k].list, 2)) {
            printf("no memory\n");
            exit(1);
        }
    }
}

static void set_yard(struct yard *y)
{
    set_actor(y, ENTRY_STORE_HOUSEKEEPER, "housekeeper", &housekeeper, 0);
    y->actors[ENTRY_STORE_HOUSEKEEPER].state = ASLEEP;
    set_desks(y);
    set_planner(y);
    set_lists(y);
}

// ---- the end

enum { AUDITOR = 8 };

// Nobody else is there, so nobody can be in the way.
static int no_waiting(void *context, uint32_t party, uint32_t holder)
{
    (void)context;
    (void)party;
    (void)holder;
    return 0;
}

static const struct request all = {ENTRY_STORE_LOCATE, 0, ENTRY_STORE_MIN_KEY, ENTRY_STORE_MAX_KEY};

static uint32_t locate_all(struct store_host *h, struct pair_list *list)
{
    struct entry_store_answer a = host_run(h, AUDITOR, all, list, no_waiting, NULL);
    must_be(a, ENTRY_STORE_DONE, "a locate");
    return a.value;
}

// The reads of all entries found, and the commit, in one call. Each stretch has an entry of its own, so there
// are no more than ENTRIES.
static void read_and_commit(struct yard *y, const struct pair_list *list, uint32_t count, uint64_t *answers)
{
    struct entry_store_ask asks[ENTRIES + 1];
    size_t made;
    for (uint32_t k = 0; k < count; k++) {
        struct request read = {ENTRY_STORE_READ, list->words[2 * k + 1], 0, 0};
        asks[k] = ask_request(AUDITOR, read);
    }
    asks[count] = ask_call(ENTRY_STORE_ASK_COMMIT, AUDITOR);
    must_be(host_session(&y->host, asks, count + 1, answers, &made, no_waiting, NULL), ENTRY_STORE_OK,
            "reads and a commit");
    for (uint32_t k = 0; k < count; k++) {
        struct request read = {ENTRY_STORE_READ, list->words[2 * k + 1], 0, 0};
        journal_done(&y->journal, AUDITOR, read, entry_store_value_of(answers[k]), NULL);
    }
    journal_commit(&y->journal, AUDITOR);
}

// A session of its own that lists every stretch.
static void print_stretches(struct yard *y)
{
    struct pair_list list = {NULL, 0};
    uint64_t values[ENTRIES + 1];
    must_be(host_begin(&y->host, AUDITOR), ENTRY_STORE_OK, "begin");
    journal_begin(&y->journal, AUDITOR);
    uint32_t count = locate_all(&y->host, &list);
    journal_done(&y->journal, AUDITOR, all, count, list.words);
    printf("\nStored at the end, %u stretches:\n", count);
    read_and_commit(y, &list, count, values);
    for (uint32_t k = 0; k < count; k++) {
        struct text when, what;
        printf("  entry %2u  %-20s  %s\n", list.words[2 * k + 1], moment(&when, list.words[2 * k]),
               value_text(&what, entry_store_value_of(values[k])));
    }
    list_free(&list);
}

// ---- whom to phone

// A session that wants a minute which three others hold. They begin in this order.
enum { CALLER = 1, HOLDERS = 3 };
static const uint32_t holders[HOLDERS] = {9, 4, 2};

static void print_line(const struct store_host *h)
{
    uint32_t line[ENTRY_STORE_SESSIONS], count = host_line(h, line);
    printf("  begun, the first in front:");
    for (uint32_t k = 0; k < count; k++) {
        printf(" %u", line[k]);
    }
    printf("\n");
}

// Whoever the wait names is phoned, and commits.
static int phone(void *context, uint32_t party, uint32_t holder)
{
    struct yard *y = context;
    print_line(&y->host);
    printf("  session %u waits, and phones session %u, which commits\n", party, holder);
    must_be(host_commit(&y->host, holder), ENTRY_STORE_OK, "commit");
    journal_commit(&y->journal, holder);
    return 1;
}

// A session begins and runs one request to its end. Gives the entry that a locate has found, where it is one
// alone; else 0.
static uint32_t begin_and_run(struct yard *y, uint32_t party, struct request r, wait_handler on_wait,
                              const char *what)
{
    struct pair_list list = {NULL, 0};
    must_be(host_begin(&y->host, party), ENTRY_STORE_OK, "begin");
    journal_begin(&y->journal, party);
    struct entry_store_answer a = host_run(&y->host, party, r, &list, on_wait, y);
    must_be(a, ENTRY_STORE_DONE, what);
    journal_done(&y->journal, party, r, a.value, list.words);
    uint32_t found = r.code == ENTRY_STORE_LOCATE && a.value == 1 ? list.words[1] : 0;
    list_free(&list);
    return found;
}

static void print_phoning(struct yard *y)
{
    struct text when;
    uint32_t noon = key_of(BERG, 4 * DAY_MINUTES + 12 * HOUR);
    struct request look = {ENTRY_STORE_LOCATE, 0, noon, noon};
    struct request insert = {ENTRY_STORE_INSERT, ENTRIES, noon, 0};
    printf("\nFour want %s: three look at it, and session %d types something in.\n", moment(&when, noon),
           CALLER);
    for (size_t k = 0; k < HOLDERS; k++) {
        begin_and_run(y, holders[k], look, no_waiting, "a locate");
    }
    begin_and_run(y, CALLER, insert, phone, "an insert");
    printf("  session %d goes on\n", CALLER);
    must_be(host_abort(&y->host, CALLER), ENTRY_STORE_OK, "abort");
}

// ---- two desks, one minute

// Two sessions type in at one minute, and a third looks at it.
enum { CARD = 4, VEHICLE = 5, LOOKER = 7, CARD_ENTRY = ENTRIES - 2, VEHICLE_ENTRY = ENTRIES - 1 };

// Of the two, one commits and the other is undone.
static int end_named(void *context, uint32_t party, uint32_t holder)
{
    struct yard *y = context;
    int stays = holder == CARD;
    printf("  session %u waits for session %u, which %s\n", party, holder, stays ? "commits" : "is undone");
    must_be(stays ? host_commit(&y->host, holder) : host_abort(&y->host, holder), ENTRY_STORE_OK, "an end");
    if (stays) {
        journal_commit(&y->journal, holder);
    }
    return 1;
}

static void print_crew(struct yard *y)
{
    struct text when;
    uint32_t six = key_of(DUBOIS, 4 * DAY_MINUTES + 6 * HOUR);
    struct request card = {ENTRY_STORE_INSERT, CARD_ENTRY, six, 0};
    struct request vehicle = {ENTRY_STORE_INSERT, VEHICLE_ENTRY, six, 0};
    struct request look = {ENTRY_STORE_LOCATE, 0, six, six};
    printf("\nTwo type in %s, from the card and from the vehicle file, and session %d looks at it.\n",
           moment(&when, six), LOOKER);
    begin_and_run(y, CARD, card, no_waiting, "an insert");
    begin_and_run(y, VEHICLE, vehicle, no_waiting, "an insert");
    printf("  session %d puts entry %d there and session %d entry %d: neither waits\n", CARD, CARD_ENTRY,
           VEHICLE, VEHICLE_ENTRY);
    uint32_t found = begin_and_run(y, LOOKER, look, end_named, "a locate");
    printf("  session %d goes on, and finds entry %u alone\n", LOOKER, found);
    must_be(host_commit(&y->host, LOOKER), ENTRY_STORE_OK, "commit");
    journal_commit(&y->journal, LOOKER);
}

// ---- the journal

static int write_journal(const struct yard *y)
{
    if (!journal_save(&y->journal, y->journal_file)) {
        const char *reason = strerror(errno);
        printf("\nThe journal cannot be written in %s: %s\n", y->journal_file, reason);
        return 0;
    }
    printf("\nThe journal is written: %" PRIu64 " runs, %zu requests and commits, %zu pairs in lists.\n",
           y->journal.begins, y->journal.line_count, y->journal.pair_count);
    return 1;
}

// ---- a restart

// After a restart: whoever had begun is there no more, and nobody of them was asked, so what they did is
// undone (docs/HOST.md, "Ask, then commit"; restart.c has asked sessions).
static int restart(struct yard *y)
{
    struct store_host h;
    struct pair_list list = {NULL, 0};
    enum image_state state = image_load(&h, y->image);
    if (state != IMAGE_GOOD) {
        printf("\nThe saved image %s cannot be loaded: %s\n", y->image, image_reason(state));
        return 0;
    }
    printf("\nThe saved image is loaded. Undone:");
    for (uint32_t p = 1; p <= ENTRY_STORE_SESSIONS; p++) {
        if (h.table[p].begun != 0 && h.table[p].asked == 0) {
            printf(" %s,", y->actors[p].name);
        }
    }
    must_be(host_recover(&h), ENTRY_STORE_OK, "recover");
    must_be(host_begin(&h, AUDITOR), ENTRY_STORE_OK, "begin");
    printf(" and %u stretches stay.\n", locate_all(&h, &list));
    list_free(&list);
    host_close(&h);
    return 1;
}

// The whole morning; 0 where something failed, which is told.
static int play_morning(struct yard *y)
{
    if (!host_open(&y->host, ENTRIES, RECORDS)) {
        printf("no store\n");
        return 0;
    }
    printf(
        "A store of %d entries and %d records, %zu words. (%u records would do for all of this at once.)\n",
        ENTRIES, RECORDS, y->host.length, records_wanted(ENTRIES, ENTRIES, 2 * WISHES));
    printf("\nround  who          what\n");
    journal_start(&y->journal);
    set_yard(y);
    int good = play(y);
    if (good) {
        printf("\n%u times somebody waited for another's step on the way down the tree.\n", y->short_waits);
        print_stretches(y);
        print_phoning(y);
        print_crew(y);
        good = y->journal_file == NULL || write_journal(y);
        good = (y->image == NULL || (y->saved && restart(y))) && good;
    }
    for (size_t k = 1; k < ACTORS; k++) {
        list_free(&y->actors[k].list);
    }
    host_close(&y->host);
    return good;
}

static const char usage[] =
    "usage: host [IMAGE [JOURNAL]]\n"
    "Plays a morning of six desks, a planner and the housekeeper in one store and prints a timeline.\n"
    "  IMAGE    a file: store and table are saved there in the middle, and loaded again at the end\n"
    "  JOURNAL  a file: the journal of all calls is written there\n"
    "  --help   prints this\n"
    "The exit status is 0, or 1 where a call or a file failed, or 2 for wrong arguments.\n";

int main(int count, char **words)
{
    static struct yard y;
    if (count > 1 && strcmp(words[1], "--help") == 0) {
        fputs(usage, stdout);
        return 0;
    }
    if (count > 1 && words[1][0] == '-') {
        fprintf(stderr, "host: no such option: %s\n%s", words[1], usage);
        return 2;
    }
    if (count > 3) {
        fprintf(stderr, "host: one image and one journal at most\n%s", usage);
        return 2;
    }
    y.image = count > 1 ? words[1] : NULL;
    y.journal_file = count > 2 ? words[2] : NULL;
    int good = play_morning(&y);
    if (fflush(stdout) != 0 || ferror(stdout)) {
        fprintf(stderr, "host: the timeline cannot be written: %s\n", strerror(errno));
        return 1;
    }
    return good ? 0 : 1;
}
