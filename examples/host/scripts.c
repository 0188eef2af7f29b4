// Plays scripts: each line is a call and the answer that it must have.
//
//   store M R L                            a store of M entries and R records, and its table, formatted anew;
//                                          every list that is lent from here on has L words
//   b P, c P, a P                          begin, commit, abort
//   k P, v                                 ask, recover
//   r P E, w P E V, i P E K, d P E K       put: read, write, insert, remove
//   l P K K, t 0 K                         put: locate, tidy
//   s P, g P                               one step; steps until one is not answered more
//   day P DRIVER START ENTRY PLACE BYTES   one call of a day
//   run P DRIVER START ENTRY PLACE BYTES   calls of a day, each with the place that the one before answered,
//                                          until one is answered neither ok nor more; the answer begins with
//                                          their number
//   out P DRIVER START                     the session locates the day, reads each entry found and writes
//                                          the day out: its bytes, or the answer that stopped it
//
// A line is `call = answer`; one that begins with # is a comment. BYTES are hexadecimal digits, two a byte, -
// for none. PLACE is first; or last, the one that this party's last day call answered, a refusal none; or
// reqJ, at request J of the day, from 0; or loc, the locate of an empty day, or remC, its next removal after
// C of them.
//
// An answer is its word and numbers: refused has two, done of a tidy too, done of a locate has the pairs
// key:entry behind its count. Behind the answer of a day call stands the place, - for none.
//
// All calls are told to a journal, which starts anew with each store (journal.h).
#include "scripts.h"
#include "journal.h"

#include <errno.h>
#include <stdarg.h>
#include <stdio.h>
#include <stdlib.h>
#include <string.h>

enum { MAX_LINE = 65536, MAX_BYTES = MAX_LINE / 2, MAX_WORDS = 8, MAX_PATH = 4096 };

struct player {
    struct store_host h;
    struct pair_list list;
    uint32_t last[ENTRY_STORE_PARTIES]; // the place that the party's last day call answered
    uint8_t bytes[MAX_BYTES];
    char said[MAX_LINE]; // the answer, as a text
    size_t length;
    int wrong; // the line is no call
    struct journal journal;
    const char *journals; // how the names of the journals begin, NULL where none are wanted
    unsigned saved;       // how many are written
    int unsaved;          // one could not be
};

// ---- the answer as a text

static void say(struct player *p, const char *format, ...)
{
    va_list values;
    va_start(values, format);
    int length = vsnprintf(p->said + p->length, sizeof p->said - p->length, format, values);
    va_end(values);
    if (length > 0) {
        p->length += (size_t)length;
    }
    if (p->length >= sizeof p->said) {
        p->length = sizeof p->said - 1;
    }
}

static void say_answer(struct player *p, struct entry_store_answer a)
{
    say(p, "%s", entry_store_word_text(a.word));
    if (a.word == ENTRY_STORE_WAIT || a.word == ENTRY_STORE_DONE) {
        say(p, " %u", a.value);
    } else if (a.word == ENTRY_STORE_REFUSED) {
        say(p, " %u %u", a.number, a.value);
    }
}

static void say_bytes(struct player *p, const uint8_t *bytes, size_t length)
{
    for (size_t k = 0; k < length; k++) {
        say(p, "%02x", bytes[k]);
    }
    if (length == 0) {
        say(p, "-");
    }
}

static void say_place(struct player *p, struct entry_store_answer a, uint32_t place, size_t length)
{
    if (a.word == ENTRY_STORE_REFUSED) {
        say(p, " -");
    } else if (length > 0) {
        say(p, " req%u", place);
    } else if (place == 0) {
        say(p, " loc");
    } else {
        say(p, " rem%u", place - 1);
    }
}

// ---- the words of a line

static uint32_t number_of(struct player *p, const char *word)
{
    unsigned long long n = strtoull(word, NULL, 10);
    if (word[0] == 0 || word[strspn(word, "0123456789")] != 0 || n > UINT32_MAX) {
        p->wrong = 1;
    }
    return (uint32_t)n;
}

static uint32_t place_of(struct player *p, uint32_t party, const char *word)
{
    if (strcmp(word, "last") == 0) {
        return party < ENTRY_STORE_PARTIES ? p->last[party] : 0;
    }
    if (strcmp(word, "first") == 0 || strcmp(word, "loc") == 0) {
        return 0;
    }
    int removal = strncmp(word, "rem", 3) == 0;
    if (!removal && strncmp(word, "req", 3) != 0) {
        p->wrong = 1;
        return 0;
    }
    return number_of(p, word + 3) + (removal ? 1 : 0);
}

// The bytes go to p->bytes; this is how many they are.
static size_t bytes_of(struct player *p, const char *word)
{
    static const char digits[] = "0123456789abcdef";
    size_t length = strcmp(word, "-") == 0 ? 0 : strlen(word);
    if (length % 2 != 0 || strspn(word, digits) < length) {
        p->wrong = 1;
        return 0;
    }
    for (size_t k = 0; k < length / 2; k++) {
        size_t high = (size_t)(strchr(digits, word[2 * k]) - digits);
        size_t low = (size_t)(strchr(digits, word[2 * k + 1]) - digits);
        p->bytes[k] = (uint8_t)(16 * high + low);
    }
    return length / 2;
}

// ---- the journal

// Of the store that was there until now.
static void save_journal(struct player *p)
{
    char path[MAX_PATH];
    if (p->journals == NULL || journal_records(&p->journal) == 0) {
        return;
    }
    int length = snprintf(path, sizeof path, "%s-%u.jnl", p->journals, p->saved + 1);
    errno = ENAMETOOLONG;
    if (length >= MAX_PATH || !journal_save(&p->journal, path)) {
        fprintf(stderr, "%s cannot be written: %s\n", path, strerror(errno));
        p->unsaved = 1;
        return;
    }
    p->saved += 1;
}

// A party's record in the table; of one that is no party, a record without a request.
static struct entry_store_session session_of(const struct player *p, uint32_t party)
{
    static const struct entry_store_session none;
    return party < ENTRY_STORE_PARTIES ? p->h.table[party] : none;
}

// ---- the calls

// A call by its name, how many numbers it takes and how many words behind them.
struct row {
    const char *name;
    size_t numbers, words;
    void (*play)(struct player *p, const struct row *row, const uint32_t *n, char **words);
    uint32_t code; // of a put
};

static void close_store(struct player *p)
{
    save_journal(p);
    journal_start(&p->journal);
    host_close(&p->h);
    list_free(&p->list);
}

static void play_store(struct player *p, const struct row *row, const uint32_t *n, char **words)
{
    (void)row;
    (void)words;
    close_store(p);
    memset(p->last, 0, sizeof p->last);
    p->list.length = n[2];
    p->list.words = calloc((size_t)n[2] + 1, sizeof *p->list.words);
    if (p->list.words == NULL) {
        p->list.length = 0;
    }
    say(p, host_open(&p->h, n[0], n[1]) ? "ok" : "no store");
}

static void play_begin(struct player *p, const struct row *row, const uint32_t *n, char **words)
{
    (void)row;
    (void)words;
    struct entry_store_answer a = host_begin(&p->h, n[0]);
    if (a.word == ENTRY_STORE_OK) {
        journal_begin(&p->journal, n[0]);
    }
    say_answer(p, a);
}

static void play_commit(struct player *p, const struct row *row, const uint32_t *n, char **words)
{
    (void)row;
    (void)words;
    struct entry_store_answer a = host_commit(&p->h, n[0]);
    if (a.word == ENTRY_STORE_OK) {
        journal_commit(&p->journal, n[0]);
    }
    say_answer(p, a);
}

static void play_abort(struct player *p, const struct row *row, const uint32_t *n, char **words)
{
    (void)row;
    (void)words;
    say_answer(p, host_abort(&p->h, n[0]));
}

static void play_ask(struct player *p, const struct row *row, const uint32_t *n, char **words)
{
    (void)row;
    (void)words;
    say_answer(p, host_ask(&p->h, n[0]));
}

// Of the sessions that it ends the journal is told nothing, as of an abort.
static void play_recover(struct player *p, const struct row *row, const uint32_t *n, char **words)
{
    (void)row;
    (void)n;
    (void)words;
    say_answer(p, host_recover(&p->h));
}

static void play_put(struct player *p, const struct row *row, const uint32_t *n, char **words)
{
    (void)words;
    struct request r = {row->code, 0, n[1], 0};
    if (row->code == ENTRY_STORE_LOCATE) {
        r.second = n[2];
    } else if (row->code != ENTRY_STORE_TIDY) {
        r.entry = n[1];
        r.first = row->numbers == 3 ? n[2] : 0;
    }
    say_answer(p, host_put(&p->h, n[0], r));
}

static void play_steps(struct player *p, const struct row *row, const uint32_t *n, char **words)
{
    (void)words;
    struct entry_store_session before = session_of(p, n[0]);
    struct entry_store_answer a =
        row->name[0] == 's' ? host_step(&p->h, n[0], &p->list) : host_steps(&p->h, n[0], &p->list);
    say_answer(p, a);
    if (a.word != ENTRY_STORE_DONE) {
        return;
    }
    journal_done(&p->journal, n[0], request_in_hand(&before), a.value, p->list.words);
    if (before.code == ENTRY_STORE_TIDY) {
        say(p, " %u", a.number);
    }
    for (uint32_t k = 0; before.code == ENTRY_STORE_LOCATE && k < a.value; k++) {
        say(p, " %u:%u", p->list.words[2 * k], p->list.words[2 * k + 1]);
    }
}

static void play_day(struct player *p, const struct row *row, const uint32_t *n, char **words)
{
    struct card_day d = {p->bytes, bytes_of(p, words[1]), n[1], n[2], n[3]};
    uint32_t place = place_of(p, n[0], words[0]), calls = 0;
    struct entry_store_answer a;
    int runs = row->name[0] == 'r';
    if (p->wrong) {
        return;
    }
    do {
        struct entry_store_session before = session_of(p, n[0]), after;
        a = host_day_call(&p->h, n[0], &d, &place);
        after = session_of(p, n[0]);
        journal_day(&p->journal, n[0], a, &before, &after);
        calls += 1;
    } while (runs && (a.word == ENTRY_STORE_OK || a.word == ENTRY_STORE_MORE));
    if (n[0] < ENTRY_STORE_PARTIES && (calls > 1 || a.word != ENTRY_STORE_REFUSED)) {
        p->last[n[0]] = place;
    }
    if (runs) {
        say(p, "%u ", calls);
    }
    say_answer(p, a);
    say_place(p, a, place, d.length);
}

// Reads the entries of so many pairs. 0 where a read is not done, whose answer is said.
static int read_all(struct player *p, uint32_t party, uint32_t count, uint32_t *values)
{
    for (uint32_t k = 0; k < count; k++) {
        struct request read = {ENTRY_STORE_READ, p->list.words[2 * k + 1], 0, 0};
        struct entry_store_answer a = host_request(&p->h, party, read, NULL);
        if (a.word != ENTRY_STORE_DONE) {
            say_answer(p, a);
            return 0;
        }
        journal_done(&p->journal, party, read, a.value, NULL);
        values[k] = a.value;
    }
    return 1;
}

static void play_out(struct player *p, const struct row *row, const uint32_t *n, char **words)
{
    (void)row;
    (void)words;
    uint32_t values[DAY_MINUTES + 1], key = key_of(n[1], n[2]);
    struct request locate = {ENTRY_STORE_LOCATE, 0, key, key + DAY_MINUTES - 1};
    struct entry_store_answer a = host_request(&p->h, n[0], locate, &p->list);
    if (a.word != ENTRY_STORE_DONE) {
        say_answer(p, a);
        return;
    }
    journal_done(&p->journal, n[0], locate, a.value, p->list.words);
    uint32_t count = a.value > DAY_MINUTES ? DAY_MINUTES + 1 : a.value;
    if (!read_all(p, n[0], count, values)) {
        return;
    }
    a = entry_store_unpack(entry_store_day_bytes(p->list.words, p->list.length, values, count, n[1], n[2],
                                                 p->bytes, sizeof p->bytes));
    if (a.word == ENTRY_STORE_DONE) {
        say_bytes(p, p->bytes, a.value);
    } else {
        say_answer(p, a);
    }
}

static const struct row rows[] = {
    {"store", 3, 0, play_store, 0},
    {"b", 1, 0, play_begin, 0},
    {"c", 1, 0, play_commit, 0},
    {"a", 1, 0, play_abort, 0},
    {"k", 1, 0, play_ask, 0},
    {"v", 0, 0, play_recover, 0},
    {"r", 2, 0, play_put, ENTRY_STORE_READ},
    {"w", 3, 0, play_put, ENTRY_STORE_WRITE},
    {"i", 3, 0, play_put, ENTRY_STORE_INSERT},
    {"d", 3, 0, play_put, ENTRY_STORE_REMOVE},
    {"l", 3, 0, play_put, ENTRY_STORE_LOCATE},
    {"t", 2, 0, play_put, ENTRY_STORE_TIDY},
    {"s", 1, 0, play_steps, 0},
    {"g", 1, 0, play_steps, 0},
    {"day", 4, 2, play_day, 0},
    {"run", 4, 2, play_day, 0},
    {"out", 3, 0, play_out, 0},
};

// ---- lines

// Cuts a text into its words, in place.
static size_t cut(char *text, char **words)
{
    size_t count = 0;
    for (char *word = strtok(text, " "); word != NULL && count < MAX_WORDS; word = strtok(NULL, " ")) {
        words[count++] = word;
    }
    return count;
}

static const struct row *find_row(char **words, size_t count)
{
    for (size_t k = 0; count > 0 && k < sizeof rows / sizeof rows[0]; k++) {
        if (strcmp(words[0], rows[k].name) == 0) {
            return count == 1 + rows[k].numbers + rows[k].words ? &rows[k] : NULL;
        }
    }
    return NULL;
}

// Makes the call of a line; its answer is p->said. 0 where the line is none, or no store is there for it.
static int play_call(struct player *p, char *call)
{
    char *words[MAX_WORDS];
    uint32_t n[MAX_WORDS];
    size_t count = cut(call, words);
    const struct row *row = find_row(words, count);
    p->length = 0;
    p->said[0] = 0;
    p->wrong = row == NULL || (p->h.words == NULL && row->play != play_store);
    for (size_t k = 0; !p->wrong && k < row->numbers; k++) {
        n[k] = number_of(p, words[1 + k]);
    }
    if (!p->wrong) {
        row->play(p, row, n, words + 1 + row->numbers);
    }
    return !p->wrong;
}

// 1 where the answer is another than the line's.
static int play_line(struct player *p, const char *name, unsigned number, char *line)
{
    static char call[MAX_LINE];
    char *answer = strstr(line, " = ");
    if (answer == NULL) {
        printf("%s:%u: no answer: %s\n", name, number, line);
        return 1;
    }
    *answer = 0;
    strcpy(call, line);
    if (!play_call(p, call)) {
        printf("%s:%u: no such call: %s\n", name, number, line);
        return 1;
    }
    if (strcmp(p->said, answer + 3) == 0) {
        return 0;
    }
    printf("%s:%u: %s = %s, but it answers %s\n", name, number, line, answer + 3, p->said);
    return 1;
}

// ---- files

struct tally {
    unsigned lines, differences;
};

// 0 where the file cannot be read, or a journal not written.
static int play_script(struct player *p, const char *name, struct tally *tally)
{
    static char line[MAX_LINE];
    FILE *file = fopen(name, "r");
    if (file == NULL) {
        fprintf(stderr, "%s cannot be read: %s\n", name, strerror(errno));
        return 0;
    }
    for (unsigned number = 1; fgets(line, sizeof line, file) != NULL; number++) {
        line[strcspn(line, "\r\n")] = 0;
        if (line[0] != '#' && line[0] != 0) {
            tally->lines += 1;
            tally->differences += (unsigned)play_line(p, name, number, line);
        }
    }
    int whole = !ferror(file);
    fclose(file);
    close_store(p);
    return whole && !p->unsaved;
}

int play_scripts(int count, char **names, const char *journals)
{
    static struct player player;
    struct tally tally = {0, 0};
    player.journals = journals;
    for (int k = 0; k < count; k++) {
        if (!play_script(&player, names[k], &tally)) {
            return 2;
        }
    }
    printf("%d files, %u lines, %u differences\n", count, tally.lines, tally.differences);
    if (journals != NULL) {
        printf("%u journals are written\n", player.saved);
    }
    return tally.differences == 0 ? 0 : 1;
}
