// Ask, then commit, with a wages program; and the host killed and restarted at every point of it.
//
// The wages program pays a run only if the store will commit what a session has typed in for it, and the
// store shall commit only what is paid. So (docs/HOST.md, "Ask, then commit"):
//   1. the session does its work and is asked; from then on its commit is accepted, whatever others do
//   2. the host saves store and table, so that the ask outlasts it
//   3. it tells the wages program yes, which decides and writes its decision down
//   4. the host commits or aborts the session, as was decided, and saves
// After a restart the host loads the last image and recovers: who is not asked is gone. It then goes on with
// 3 for each session that is asked. Which run a session is for stands in the host's note of it, which is
// saved with the store. The functions up to "the morning" are these steps, to copy; a point() is where the
// program may be killed, and is left out.
//
// In the morning session 1 types in something for run 17, which the wages program pays, and session 2 for run
// 18, which it does not; session 3 is a desk that has nothing to do with wages and is never asked; and the
// housekeeper stands at a node with a tidy in hand. A child process plays it and is killed at its first
// point, then another one at its second, and so on, until one comes through. A point is before each call, and
// at each step of writing a file: the new file empty, half written, written, not yet renamed, renamed
// (points.h). After each kill the host is restarted over the files that are left, and killed in that too, at
// one point after the other, until it comes through. Then it is checked:
//   - Nothing asked is lost. After recover an asked session has its record and its locks as before. In the
//     end all its entries are there if the wages program has decided yes, and none if it has decided no.
//   - Nothing else stays: no entry of session 3, nobody begun, no request in hand, no latch, lock, pin or
//     undo record. Store and table are sound, and every record is in use or free.
//   - Store and wages database agree: all of a run is stored if the database says yes, and else nothing.
//
// Usage: restart FOLDER [POINT]. The files are in FOLDER, which is made. With POINT the morning is killed
// there, and what is left stays, to be looked at with dump. What it prints is the same in every run.
#define _POSIX_C_SOURCE 200809L
#include "dump.h"
#include "points.h"
#include "wages.h"

#include <errno.h>
#include <signal.h>
#include <stdio.h>
#include <stdlib.h>
#include <string.h>
#include <sys/stat.h>
#include <sys/wait.h>
#include <unistd.h>

enum { MAX_PATH = 4096 };
static char image_file[MAX_PATH], wages_file[MAX_PATH];

static unsigned killed_at; // the point of the morning, 0 before the first

// What does not hold is told, and ends the program.
static void must(int holds, const char *what)
{
    if (!holds) {
        printf("NOT SO, with the morning killed at point %u: %s\n", killed_at, what);
        exit(1);
    }
}

static uint32_t want(uint32_t word, struct entry_store_answer a, const char *call)
{
    if (a.word != word) {
        printf("%s: %s, %s\n", call, entry_store_word_text(a.word), entry_store_refusal_text(a.number));
    }
    must(a.word == word, "each call is answered as it should be");
    return a.value;
}

// ---- the steps of a host, to copy

static void save(const struct store_host *h)
{
    must(image_save(h, image_file), "store and table are saved");
}

static void load(struct store_host *h)
{
    enum image_state state = image_load(h, image_file);
    must(state == IMAGE_GOOD, image_reason(state));
}

// A session that is asked, and saved: the wages program is told yes, and the session ends as that decides.
// Where the wages program cannot be reached the session stays as it is, with its locks, and this is tried
// again later.
static void resolve(struct store_host *h, uint32_t party)
{
    point();
    enum decision d = wages_decide(wages_file, h->notes[party]);
    must(d == YES || d == NO, "the wages program decides");
    point();
    if (d == YES) {
        want(ENTRY_STORE_OK, host_commit(h, party), "commit of an asked session");
    } else {
        want(ENTRY_STORE_OK, host_abort(h, party), "abort of an asked session");
    }
    h->notes[party] = 0;
}

static void check_recovered(const struct store_host *h);

// The host starts again, over the last image.
static void restart(void)
{
    struct store_host h;
    point();
    load(&h);
    point();
    want(ENTRY_STORE_OK, host_recover(&h), "recover");
    check_recovered(&h);
    for (uint32_t p = 1; p <= ENTRY_STORE_SESSIONS; p++) {
        if (h.table[p].asked != 0) {
            resolve(&h, p);
        }
    }
    save(&h);
    host_close(&h);
}

// ---- the morning

enum { ENTRIES = 8, RECORDS = 40 };
enum { PAID = 1, UNPAID = 2, DESK = 3, AUDITOR = 16 };
enum { PAID_RUN = 17, UNPAID_RUN = 18 };

static void begin(struct store_host *h, uint32_t party)
{
    point();
    want(ENTRY_STORE_OK, host_begin(h, party), "begin");
}

// A request from its put to its end, by a session that nobody is in the way of. A locate finds nothing.
static void request(struct store_host *h, uint32_t party, uint32_t code, uint32_t entry, uint32_t first,
                    uint32_t second)
{
    struct request r = {code, entry, first, second};
    point();
    want(ENTRY_STORE_DONE, host_request(h, party, r, NULL), "a request");
}

// A request is put, and stepped until it stands at a node.
static void walk_to_node(struct store_host *h, uint32_t party, struct request r)
{
    point();
    want(ENTRY_STORE_OK, host_put(h, party, r), "put");
    while (h->table[party].stage != AT_NODE) {
        point();
        want(ENTRY_STORE_MORE, host_step(h, party, NULL), "a step on the way down");
    }
}

// The work of run 17, up to its ask, in one call.
static void type_in_paid(struct store_host *h)
{
    struct request requests[] = {{ENTRY_STORE_WRITE, 3, 300, 0},
                                 {ENTRY_STORE_INSERT, 3, 560, 0},
                                 {ENTRY_STORE_WRITE, 6, 600, 0},
                                 {ENTRY_STORE_INSERT, 6, 900, 0}};
    struct entry_store_ask asks[6] = {ask_call(ENTRY_STORE_ASK_BEGIN, PAID)};
    uint64_t answers[6];
    for (size_t k = 0; k < 4; k++) {
        asks[1 + k] = ask_request(PAID, requests[k]);
    }
    asks[5] = ask_call(ENTRY_STORE_ASK_ASK, PAID);
    h->notes[PAID] = PAID_RUN; // before the ask, so that no image has the ask without it
    point();
    uint32_t made = want(ENTRY_STORE_DONE, host_batch(h, asks, 6, answers, NULL), "a batch");
    want(ENTRY_STORE_OK, entry_store_unpack(answers[made - 1]), "the last of a batch");
}

// That of run 18, call by call: a value changes, a stretch is taken out and one is added, and some minutes
// must stay empty.
static void type_in_unpaid(struct store_host *h)
{
    h->notes[UNPAID] = UNPAID_RUN;
    begin(h, UNPAID);
    request(h, UNPAID, ENTRY_STORE_WRITE, 1, 101, 0);
    request(h, UNPAID, ENTRY_STORE_REMOVE, 2, 600, 0);
    request(h, UNPAID, ENTRY_STORE_WRITE, 4, 400, 0);
    request(h, UNPAID, ENTRY_STORE_INSERT, 4, 800, 0);
    request(h, UNPAID, ENTRY_STORE_LOCATE, 0, 820, 880);
}

// The desk wants to read what run 17 has written, and waits for session 1.
static void desk_waits(struct store_host *h)
{
    struct request read = {ENTRY_STORE_READ, 3, 0, 0};
    point();
    uint32_t holder = want(ENTRY_STORE_WAIT, host_request(h, DESK, read, NULL), "the desk's read");
    must(holder == PAID, "the desk waits for the session that has written");
}

static void morning(void)
{
    struct store_host h;
    struct request tidy = {ENTRY_STORE_TIDY, 0, 500, 0};
    struct request all = {ENTRY_STORE_LOCATE, 0, ENTRY_STORE_MIN_KEY, ENTRY_STORE_MAX_KEY};
    point();
    load(&h);

    begin(&h, DESK);
    request(&h, DESK, ENTRY_STORE_WRITE, 5, 500, 0);
    request(&h, DESK, ENTRY_STORE_INSERT, 5, 700, 0);
    type_in_unpaid(&h);
    save(&h); // nobody is asked yet: of all this nothing outlasts the host

    type_in_paid(&h);
    point();
    want(ENTRY_STORE_OK, host_ask(&h, UNPAID), "ask");
    desk_waits(&h);
    walk_to_node(&h, ENTRY_STORE_HOUSEKEEPER, tidy);
    save(&h); // from here on both asks last, and the wages program may be told

    resolve(&h, PAID);
    save(&h);
    resolve(&h, UNPAID);
    save(&h);

    point();
    want(ENTRY_STORE_DONE, host_steps(&h, ENTRY_STORE_HOUSEKEEPER, NULL), "the tidy");
    point();
    want(ENTRY_STORE_DONE, host_steps(&h, DESK, NULL), "the desk's read");
    walk_to_node(&h, DESK, all);
    save(&h); // the desk stands at a node, and its user goes home
    point();
    host_close(&h);
}

// ---- what is there before the morning

static void remove_file(const char *path)
{
    char beside[MAX_PATH + sizeof ".new"];
    snprintf(beside, sizeof beside, "%s.new", path);
    remove(beside);
    remove(path);
}

// Two stretches, and two groups that a look at 550 to 650 has left empty.
static void lay_out(void)
{
    struct store_host h;
    struct request look = {ENTRY_STORE_LOCATE, 0, 550, 650};
    struct pair_list list = {NULL, 0};
    remove_file(image_file);
    remove_file(wages_file);
    must(host_open(&h, ENTRIES, RECORDS) && list_grow(&list, ENTRIES), "there is a store");
    begin(&h, DESK);
    request(&h, DESK, ENTRY_STORE_WRITE, 1, 100, 0);
    request(&h, DESK, ENTRY_STORE_INSERT, 1, 500, 0);
    request(&h, DESK, ENTRY_STORE_WRITE, 2, 200, 0);
    request(&h, DESK, ENTRY_STORE_INSERT, 2, 600, 0);
    want(ENTRY_STORE_DONE, host_request(&h, DESK, look, &list), "a look");
    want(ENTRY_STORE_OK, host_commit(&h, DESK), "commit");
    save(&h);
    list_free(&list);
    host_close(&h);
}

// What is stored then: each entry's value and key, 0 for none.
struct stored {
    uint32_t value, key;
};

static void stored_due(int paid, struct stored due[ENTRIES + 1])
{
    static const struct stored before[ENTRIES + 1] = {[1] = {100, 500}, [2] = {200, 600}};
    static const struct stored run[ENTRIES + 1] = {[3] = {300, 560}, [6] = {600, 900}};
    for (uint32_t e = 1; e <= ENTRIES; e++) {
        due[e] = paid && run[e].key != 0 ? run[e] : before[e];
    }
}

// ---- what is checked

// The holders words of an entry.
static const uint32_t *holders_of(const struct store_host *h, uint32_t entry)
{
    return h->words + entry_store_words(entry - 1, 0) + 1;
}

// Recover leaves of the image: the records of asked sessions, and of all locks those that these hold.
static void check_locks(const struct store_host *h, const struct store_host *image, uint32_t asked)
{
    for (uint32_t e = 1; e <= ENTRIES; e++) {
        const uint32_t *is = holders_of(h, e), *was = holders_of(image, e);
        must(is[0] == (was[0] & asked) && is[1] == (was[1] & asked), "an entry is held by asked sessions");
    }
    for (uint32_t key = 10; key <= 1000; key += 10) {
        must(host_holders(h, key) == (host_holders(image, key) & (asked | asked << 16)),
             "a key is held by asked sessions");
    }
}

static void check_recovered(const struct store_host *h)
{
    struct store_host image;
    uint32_t asked = 0;
    load(&image);
    must(host_fault(h) == 0, "store and table are sound after recover");
    for (uint32_t p = 0; p <= ENTRY_STORE_SESSIONS; p++) {
        const struct entry_store_session *is = &h->table[p], *was = &image.table[p];
        must(is->stage == NO_REQUEST, "after recover nobody has a request in hand");
        must(p == 0 || was->asked != 0 || is->begun == 0, "after recover only asked sessions are begun");
        must(was->asked == 0 || memcmp(is, was, sizeof *is) == 0, "recover leaves an asked session");
        asked |= was->asked == 0 ? 0 : UINT32_C(1) << (p - 1);
    }
    check_locks(h, &image, asked);
    host_close(&image);
}

// No latch, no lock, no pin, no undo record, and every record is in use or free.
static void check_nothing_held(const struct store_host *h)
{
    static struct dump d;
    memset(&d, 0, sizeof d);
    d.host = *h;
    must(host_fault(h) == 0, "store and table are sound");
    take_sizes(&d, 0);
    meet_all(&d);
    must(d.undo_count == 0, "no undo record is left");
    must(d.node_count + d.descriptor_count + d.member_count + d.free_count == RECORDS,
         "every record is in use or free");
    for (uint32_t p = 0; p <= ENTRY_STORE_SESSIONS; p++) {
        must(!takes_part(&d, p), "nobody is begun or asked, or has a request in hand");
    }
    for (uint32_t k = 0; k < d.node_count; k++) {
        must(word(&d, d.nodes[k], NODE_LATCH) == 0, "no latch is left");
    }
    for (uint32_t k = 0; k < d.descriptor_count; k++) {
        for (uint32_t w = DESC_LOCATE; w <= DESC_PINS; w++) {
            must(word(&d, d.descriptors[k], w) == 0, "no lock and no pin of a key is left");
        }
    }
    for (uint32_t e = 1; e <= ENTRIES; e++) {
        must(entry_word(&d, e, 1) == 0 && entry_word(&d, e, 2) == 0, "no lock of an entry is left");
    }
}

// A session of its own looks at everything.
static void check_stored(struct store_host *h, const struct stored due[ENTRIES + 1])
{
    struct stored is[ENTRIES + 1] = {{0, 0}};
    struct request all = {ENTRY_STORE_LOCATE, 0, ENTRY_STORE_MIN_KEY, ENTRY_STORE_MAX_KEY};
    struct pair_list list = {NULL, 0};
    must(list_grow(&list, RECORDS), "there is memory");
    want(ENTRY_STORE_OK, host_begin(h, AUDITOR), "begin");
    uint32_t count = want(ENTRY_STORE_DONE, host_request(h, AUDITOR, all, &list), "a locate");
    for (uint32_t k = 0; k < count; k++) {
        uint32_t e = list.words[2 * k + 1];
        must(is[e].key == 0, "no stretch is stored twice");
        is[e].key = list.words[2 * k];
    }
    for (uint32_t e = 1; e <= ENTRIES; e++) {
        struct request read = {ENTRY_STORE_READ, e, 0, 0};
        is[e].value = want(ENTRY_STORE_DONE, host_request(h, AUDITOR, read, NULL), "a read");
        must(is[e].value == due[e].value && is[e].key == due[e].key,
             "what is stored is what was there, and run 17 if the wages program says yes");
    }
    want(ENTRY_STORE_OK, host_commit(h, AUDITOR), "commit");
    list_free(&list);
}

// How often what was left had this in it, and how often a restart was killed.
static struct {
    unsigned asked, begun, at_node, killed;
} met;

// The sessions that are asked in the image that was left.
static void look_at_rest(int asked[ENTRY_STORE_PARTIES])
{
    struct store_host h;
    load(&h);
    for (uint32_t p = 0; p <= ENTRY_STORE_SESSIONS; p++) {
        asked[p] = h.table[p].asked != 0;
        met.asked += asked[p] != 0;
        met.begun += p != 0 && h.table[p].begun != 0 && !asked[p];
    }
    met.at_node += h.table[ENTRY_STORE_HOUSEKEEPER].stage == AT_NODE;
    host_close(&h);
}

// After the restart: the store has run 17 exactly if the wages program has decided yes, and whoever was asked
// is decided.
static void check_all(const int asked[ENTRY_STORE_PARTIES])
{
    struct store_host h;
    struct stored due[ENTRIES + 1];
    enum decision paid = wages_decision(wages_file, PAID_RUN),
                  unpaid = wages_decision(wages_file, UNPAID_RUN);
    must(paid != NO && unpaid != YES, "the wages program decides as it does");
    must(!asked[PAID] || paid == YES, "an asked session of run 17 is decided");
    must(!asked[UNPAID] || unpaid == NO, "an asked session of run 18 is decided");
    load(&h);
    check_nothing_held(&h);
    stored_due(paid == YES, due);
    check_stored(&h, due);
    host_close(&h);
}

// ---- the whole

// Plays in a child, which is killed at a point of this number; 1 where it came through.
static int comes_through(void (*play)(void), unsigned kill_at)
{
    int status;
    fflush(stdout);
    pid_t child = fork();
    must(child >= 0, "there is another process");
    if (child == 0) {
        points_start(kill_at);
        play();
        exit(0);
    }
    must(waitpid(child, &status, 0) == child, "the child ends");
    if (WIFSIGNALED(status) && WTERMSIG(status) == SIGKILL) {
        return 0;
    }
    must(WIFEXITED(status) && WEXITSTATUS(status) == 0, "the child is killed, or comes through");
    return 1;
}

// The morning, killed at a point; then restarts over what is left, each killed at the next point of its own,
// until one comes through. 1 where the morning came through.
static int kill_and_restart(unsigned kill_at)
{
    int asked[ENTRY_STORE_PARTIES];
    killed_at = kill_at;
    lay_out();
    int through = comes_through(morning, kill_at);
    look_at_rest(asked);
    for (unsigned k = 1; !comes_through(restart, k); k++) {
        met.killed += 1;
    }
    check_all(asked);
    return through;
}

static void all_points(void)
{
    unsigned points = 0;
    while (!kill_and_restart(points + 1)) {
        points += 1;
    }
    printf("restart: %u points, killed and restarted at each: nothing asked was lost, nothing else stayed\n",
           points);
    printf("%u sessions were asked in what was left, and ended as the wages program decided; %u were not "
           "asked, and "
           "are gone\n",
           met.asked, met.begun);
    printf("%u times a tidy stood at a node; the restarts were killed at their own points too, %u times\n",
           met.at_node, met.killed);
}

static void one_point(unsigned kill_at)
{
    lay_out();
    printf("restart: %s\n", comes_through(morning, kill_at) ? "the morning came through" : "killed");
}

static const char usage[] =
    "usage: restart FOLDER [POINT]\n"
    "Plays a morning with a wages program, kills the host at every point of it, restarts it over the files "
    "that\n"
    "are left, and checks that nothing asked is lost and nothing else stays.\n"
    "  FOLDER  where the files are; it is made\n"
    "  POINT   a number: the host is killed at this point alone, and what is left stays\n"
    "  --help  prints this\n"
    "The exit status is 0, 1 where a check failed, or 2 for wrong arguments.\n";

static int wrong_arguments(const char *fault, const char *word)
{
    fprintf(stderr, "restart: %s%s\n%s", fault, word, usage);
    return 2;
}

// The names of the files. 0 where the arguments are good, and else the exit status.
static int set_files(int count, char **words)
{
    if (count < 2 || count > 3) {
        return wrong_arguments("it takes a folder, and one point at most", "");
    }
    if (words[1][0] == '-') {
        return wrong_arguments("no such option: ", words[1]);
    }
    if (strlen(words[1]) > MAX_PATH - 32) {
        return wrong_arguments("too long a name: ", words[1]);
    }
    if (count > 2 && (words[2][0] == 0 || words[2][strspn(words[2], "0123456789")] != 0)) {
        return wrong_arguments("no point: ", words[2]);
    }
    if (mkdir(words[1], 0777) != 0 && errno != EEXIST) {
        fprintf(stderr, "restart: %s cannot be made: %s\n", words[1], strerror(errno));
        return 2;
    }
    snprintf(image_file, sizeof image_file, "%s/yard.image", words[1]);
    snprintf(wages_file, sizeof wages_file, "%s/wages", words[1]);
    return 0;
}

int main(int count, char **words)
{
    int help = count > 1 && strcmp(words[1], "--help") == 0;
    int status = help ? 0 : set_files(count, words);
    if (status != 0) {
        return status;
    }
    if (help) {
        fputs(usage, stdout);
    } else if (count > 2) {
        one_point((unsigned)strtoul(words[2], NULL, 10));
    } else {
        all_points();
    }
    if (fflush(stdout) != 0 || ferror(stdout)) {
        fprintf(stderr, "restart: what it prints cannot be written: %s\n", strerror(errno));
        return 2;
    }
    return 0;
}
