// Whole sessions in one call: a desk's day, a planner that looks at it, and a late note that waits for the
// planner. Then a day from the bytes of a card, which is written out again.
//
// A desk's day is one list of asks: begin, a write and an insert for each of 24 stretches, commit. The
// planner asks for begin and locate in one call, and holds what it found while its user decides. A second
// desk's insert into that day then waits: its batch ends there, with the request in hand. The host lets the
// planner commit and makes the rest of the asks, the first of them now a run of what is in hand (host_session
// in store_host.c).
//
// A third desk reads a card: the bytes of a driver's day are stored by one session, call by call (host_day in
// store_host.c). The planner holds that day too, so the reading waits and goes on from the place where it
// stood. The same session then locates the day, reads the entries and writes them out: the same bytes.
//
// Usage: day [[--journals NAME] SCRIPT...]. What it prints is the same in every run. With scripts it plays
// these instead, compares their answers, and writes the journals of their stores if it is given a name
// (scripts.c).
#include "scripts.h"
#include "store_host.h"

#include <errno.h>
#include <stdio.h>
#include <stdlib.h>
#include <string.h>

enum { ENTRIES = 32, STRETCHES = 24, DRIVER = 2, DAY = 3, HOUR = 60 };
enum { DESK = 1, LATE_DESK = 2, CARD_DESK = 3, PLANNER = 7 };

// A day that is typed in hour by hour, its key and its value; a late note's minute lies between two of them.
static uint32_t hour_key(uint32_t hour)
{
    return key_of(DRIVER, DAY * DAY_MINUTES + hour * HOUR);
}

static uint32_t hour_value(uint32_t hour)
{
    return (hour % 4) * 2048 + HOUR;
}

enum { LATE_ENTRY = STRETCHES + 1, LATE_MINUTE = 5 * HOUR + 30 };

// An answer that this program has no answer to is a fault of its own.
static uint32_t want(uint32_t word, struct entry_store_answer a, const char *what)
{
    if (a.word != word) {
        printf("%s: %s, %s\n", what, entry_store_word_text(a.word), entry_store_refusal_text(a.number));
        exit(1);
    }
    return a.value;
}

static uint32_t steps_of(const uint64_t *answers, size_t count)
{
    uint32_t steps = 0;
    for (size_t k = 0; k < count; k++) {
        steps += entry_store_steps_of(answers[k]);
    }
    return steps;
}

// ---- a stretch, and a session of stretches

static void ask_stretch(struct entry_store_ask *asks, uint32_t party, uint32_t entry, uint32_t key,
                        uint32_t value)
{
    struct request write = {ENTRY_STORE_WRITE, entry, value, 0}, insert = {ENTRY_STORE_INSERT, entry, key, 0};
    asks[0] = ask_request(party, write);
    asks[1] = ask_request(party, insert);
}

// The asks between a begin and a commit are there already.
static void make_session(struct store_host *h, struct entry_store_ask *asks, size_t count,
                         wait_handler on_wait)
{
    uint64_t answers[2 * STRETCHES + 2];
    size_t made;
    asks[0] = ask_call(ENTRY_STORE_ASK_BEGIN, asks[1].party);
    asks[count - 1] = ask_call(ENTRY_STORE_ASK_COMMIT, asks[1].party);
    want(ENTRY_STORE_OK, host_session(h, asks, count, answers, &made, on_wait, h), "a desk's session");
    printf("desk %u    %zu asks are made and committed; %u records are free\n", asks[1].party, made,
           host_free(h));
}

static int no_waiting(void *context, uint32_t party, uint32_t holder)
{
    (void)context;
    (void)party;
    (void)holder;
    return 0;
}

static void desk_day(struct store_host *h)
{
    struct entry_store_ask asks[2 * STRETCHES + 2];
    for (uint32_t k = 0; k < STRETCHES; k++) {
        ask_stretch(asks + 1 + 2 * k, DESK, k + 1, hour_key(k), hour_value(k));
    }
    make_session(h, asks, 2 * STRETCHES + 2, no_waiting);
}

// ---- the planner

// Begin and locate in one call. The session stays open.
static void planner_looks(struct store_host *h)
{
    struct request locate = {ENTRY_STORE_LOCATE, 0, hour_key(0), hour_key(STRETCHES) - 1};
    struct entry_store_ask asks[] = {ask_call(ENTRY_STORE_ASK_BEGIN, PLANNER), ask_request(PLANNER, locate)};
    struct pair_list list = {NULL, 0};
    uint64_t answers[2];
    if (!list_grow(&list, ENTRIES)) {
        printf("no memory\n");
        exit(1);
    }
    uint32_t made = want(ENTRY_STORE_DONE, host_batch(h, asks, 2, answers, &list), "the planner's batch");
    uint32_t found = want(ENTRY_STORE_DONE, entry_store_unpack(answers[made - 1]), "the planner's locate");
    printf("planner   finds %u stretches from %u to %u, in one call of %u steps\n", found, list.words[0],
           list.words[2 * found - 2], steps_of(answers, made));
    list_free(&list);
}

// The planner's user decides, so that the desk can go on.
static int planner_commits(void *context, uint32_t party, uint32_t holder)
{
    struct store_host *h = context;
    uint32_t key = hour_key(0) + LATE_MINUTE;
    printf("desk %u    waits for session %u: minute %u is empty, and has holders %x\n", party, holder, key,
           host_holders(h, key));
    want(ENTRY_STORE_OK, host_commit(h, PLANNER), "the planner's commit");
    printf("planner   commits; the minute's holders are %x\n", host_holders(h, key));
    return 1;
}

static void late_note(struct store_host *h)
{
    struct entry_store_ask asks[4];
    ask_stretch(asks + 1, LATE_DESK, LATE_ENTRY, hour_key(0) + LATE_MINUTE, 2 * 2048 + 30);
    make_session(h, asks, 4, planner_commits);
}

// ---- the card

// Words of two bytes: activity in bits 11 and 12, minute in the low 11. At 20:00 the card is taken out.
static const uint8_t card[] = {
    0x00, 0x00, // 00:00 rest
    0x19, 0x68, // 06:00 driving
    0x02, 0x76, // 10:30 rest
    0x1a, 0xa3, // 11:15 driving
    0x13, 0xa2, // 15:30 work
    0x03, 0xc0, // 16:00 rest
    0x24, 0xb0, // 20:00 rest, the card is not inserted
};
enum { CARD_DRIVER = 3, CARD_START = DAY * DAY_MINUTES, CARD_ENTRY = LATE_ENTRY + 1 };

// What the planner's user decides here lets the reading go on.
static int planner_leaves(void *context, uint32_t party, uint32_t holder)
{
    struct store_host *h = context;
    printf("desk %u    waits for session %u, which has located this day and found nothing\n", party, holder);
    want(ENTRY_STORE_OK, host_commit(h, PLANNER), "the planner's commit");
    printf("planner   commits\n");
    return 1;
}

static void read_card(struct store_host *h)
{
    struct card_day day = {card, sizeof card, CARD_DRIVER, CARD_START, CARD_ENTRY};
    uint32_t key = key_of(CARD_DRIVER, CARD_START), place = 0;
    struct request locate = {ENTRY_STORE_LOCATE, 0, key, key + DAY_MINUTES - 1};
    want(ENTRY_STORE_OK, host_begin(h, PLANNER), "the planner's begin");
    want(ENTRY_STORE_DONE, host_request(h, PLANNER, locate, NULL), "the planner's locate");
    want(ENTRY_STORE_OK, host_begin(h, CARD_DESK), "the desk's begin");
    uint32_t stretches =
        want(ENTRY_STORE_DONE, host_day(h, CARD_DESK, &day, &place, planner_leaves, h), "the card's day");
    printf("desk %d    has read %zu bytes of a card: %u stretches, from entry %u on\n", CARD_DESK, day.length,
           stretches, day.entry);
}

// By the session that has read the card, before it commits.
static void write_card(struct store_host *h)
{
    uint8_t bytes[2 * DAY_MINUTES];
    struct pair_list list = {NULL, 0};
    struct entry_store_answer a =
        host_day_bytes(h, CARD_DESK, CARD_DRIVER, CARD_START, &list, bytes, sizeof bytes, no_waiting, NULL);
    uint32_t length = want(ENTRY_STORE_DONE, a, "the day written out");
    printf("desk %d    writes it out again:", CARD_DESK);
    for (uint32_t k = 0; k < length; k++) {
        printf("%s%02x", k % 2 == 0 ? " " : "", bytes[k]);
    }
    int same = length == sizeof card && memcmp(bytes, card, sizeof card) == 0;
    printf(", %s bytes\n", same ? "the same" : "other");
    want(ENTRY_STORE_OK, host_commit(h, CARD_DESK), "the desk's commit");
    printf("desk %d    commits; %u records are free\n", CARD_DESK, host_free(h));
    list_free(&list);
}

static const char usage[] =
    "usage: day [[--journals NAME] SCRIPT...]\n"
    "Plays a desk's day, a planner and a card, and prints what happens.\n"
    "  SCRIPT           plays scripts instead: a call and its answer in each line, as at the top of "
    "scripts.c\n"
    "  --journals NAME  writes the journals of the scripts' stores, to NAME-1.jnl, NAME-2.jnl and so on\n"
    "  --help           prints this\n"
    "The exit status is 0, 1 where an answer is another, or 2 where a file cannot be read or written or for\n"
    "wrong arguments.\n";

static int play(void)
{
    struct store_host h;
    if (!host_open(&h, ENTRIES, records_wanted(ENTRIES, ENTRIES, 2))) {
        printf("no store\n");
        return 1;
    }
    printf("A store of %d entries; %u records are free.\n", ENTRIES, host_free(&h));
    desk_day(&h);
    planner_looks(&h);
    late_note(&h);
    read_card(&h);
    write_card(&h);
    host_close(&h);
    return 0;
}

static int wrong_arguments(const char *fault, const char *word)
{
    fprintf(stderr, "day: %s%s\n%s", fault, word, usage);
    return 2;
}

static int run(int count, char **words)
{
    const char *journals = NULL;
    int at = 1;
    if (count > 1 && strcmp(words[1], "--help") == 0) {
        fputs(usage, stdout);
        return 0;
    }
    if (count > 1 && strcmp(words[1], "--journals") == 0) {
        if (count < 4) {
            return wrong_arguments("--journals takes a name, and scripts", "");
        }
        journals = words[2];
        at = 3;
    }
    if (at < count && words[at][0] == '-') {
        return wrong_arguments("no such option: ", words[at]);
    }
    return at < count ? play_scripts(count - at, words + at, journals) : play();
}

int main(int count, char **words)
{
    int status = run(count, words);
    if (fflush(stdout) != 0 || ferror(stdout)) {
        fprintf(stderr, "day: what it prints cannot be written: %s\n", strerror(errno));
        return 2;
    }
    return status;
}
