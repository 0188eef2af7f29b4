// Prints a journal as a text, with what is wrong with it and where.
//
// Usage: show_journal FILE. A line for each request and commit of the main chain: the index of its record,
// the call in the letters of the trace language (docs/TRACE.md) with the run in place of the party, and its
// answer. Behind it stands what is wrong there:
//   15  the chain of calls, or a list, leaves the file or comes back
//   16  a code or a number that no store accepts, or a run that goes on after its commit
//   17  the answer or the list is not that of the plain model, fed the committed runs in order of commit
// 17 is looked for where neither 15 nor 16 is met. The last line is the verdict, as the program check_journal
// gives it (docs/JOURNAL.md). That program is proved; this one is an aid, and is held to it by examples.
//
// Exit status: 0 for ok, 1 for another verdict, 2 where the file cannot be read, what it prints cannot be
// written, or the arguments are wrong.
#include "journal.h"

#include <errno.h>
#include <stdarg.h>
#include <stdio.h>
#include <string.h>

enum { NEXT, RUN, CODE, ENTRY, FIRST, SECOND, ANSWER, LIST };
enum { KEY = RUN, MEMBER = CODE }; // of a record of a list
enum { OK = 0, BAD_FILE = 15, BAD_NUMBER = 16, DIFFERS = 17 };
enum { RECORD_BYTES = 4 * JOURNAL_WORDS, MOST_BYTES = RECORD_BYTES * JOURNAL_RECORDS };

// What is wrong with a record of the main chain: the lowest number that applies, OK for nothing.
struct fault {
    int number;
    char text[100];
};

struct shown {
    uint32_t count; // records of the file
    uint32_t records[JOURNAL_RECORDS + 1][JOURNAL_WORDS];
    size_t line_count; // records of the main chain
    uint32_t lines[JOURNAL_RECORDS];
    struct fault faults[JOURNAL_RECORDS];
};

// The plain model: the value of each entry, and the pairs of key and entry, rising.
struct model {
    uint32_t values[ENTRY_STORE_MAX_ENTRIES + 1];
    size_t count;
    uint32_t pairs[JOURNAL_RECORDS][2];
};

static const uint32_t *line(const struct shown *s, size_t k)
{
    return s->records[s->lines[k]];
}

static void blame(struct fault *f, int number, const char *form, ...)
{
    if (f->number == OK || number < f->number) {
        va_list words;
        va_start(words, form);
        f->number = number;
        vsnprintf(f->text, sizeof f->text, form, words);
        va_end(words);
    }
}

// ---- chains

// The records of a chain in order; where it does not end, those before the fault, which is told of.
static size_t follow(const struct shown *s, uint32_t at, uint32_t *found, struct fault *f, const char *whose)
{
    static unsigned char met[JOURNAL_RECORDS + 1];
    size_t count = 0;
    memset(met, 0, sizeof met);
    for (; at != 0; at = s->records[at][NEXT]) {
        if (at > s->count) {
            blame(f, BAD_FILE, "%s leads to record %u, and the file has %u", whose, at, s->count);
            break;
        }
        if (met[at]) {
            blame(f, BAD_FILE, "%s comes back to record %u", whose, at);
            break;
        }
        met[at] = 1;
        found[count++] = at;
    }
    return count;
}

// The pairs of a locate's list are records of the file.
static size_t list_of(const struct shown *s, const uint32_t *locate, uint32_t *found)
{
    struct fault ignored = {OK, ""};
    return follow(s, locate[LIST], found, &ignored, "");
}

static void follow_all(struct shown *s)
{
    uint32_t found[JOURNAL_RECORDS];
    struct fault f = {OK, ""};
    s->line_count = follow(s, 1, s->lines, &f, "the chain of calls");
    s->faults[s->line_count - 1] = f;
    for (size_t k = 0; k < s->line_count; k++) {
        if (line(s, k)[CODE] == ENTRY_STORE_LOCATE) {
            follow(s, line(s, k)[LIST], found, &s->faults[k], "the list");
        }
    }
}

// ---- codes, numbers and runs

static void test_key(struct fault *f, uint32_t key)
{
    if (key < ENTRY_STORE_MIN_KEY || key > ENTRY_STORE_MAX_KEY) {
        blame(f, BAD_NUMBER, "key %u is an infinity", key);
    }
}

static void test_numbers(struct fault *f, const uint32_t *r)
{
    uint32_t code = r[CODE];
    if (code == JOURNAL_COMMIT) {
        return;
    }
    if (code < ENTRY_STORE_READ || code > ENTRY_STORE_LOCATE) {
        blame(f, BAD_NUMBER, "no such code: %u", code);
        return;
    }
    if (code != ENTRY_STORE_LOCATE && (r[ENTRY] < 1 || r[ENTRY] > ENTRY_STORE_MAX_ENTRIES)) {
        blame(f, BAD_NUMBER, "no such entry: %u", r[ENTRY]);
    }
    if (code >= ENTRY_STORE_INSERT) {
        test_key(f, r[FIRST]);
    }
    if (code == ENTRY_STORE_LOCATE) {
        test_key(f, r[SECOND]);
        if (r[FIRST] > r[SECOND]) {
            blame(f, BAD_NUMBER, "first, %u, is above second, %u", r[FIRST], r[SECOND]);
        }
    }
}

static void test_all(struct shown *s)
{
    for (size_t k = 0; k < s->line_count; k++) {
        test_numbers(&s->faults[k], line(s, k));
        for (size_t i = 0; i < k; i++) {
            if (line(s, i)[CODE] == JOURNAL_COMMIT && line(s, i)[RUN] == line(s, k)[RUN]) {
                blame(&s->faults[k], BAD_NUMBER, "run %u has committed at record %u", line(s, k)[RUN],
                      s->lines[i]);
            }
        }
    }
}

// ---- the model

// Where a pair stands, or would stand: behind all that are below it.
static size_t place_of(const struct model *m, uint32_t key, uint32_t entry)
{
    size_t k = 0;
    while (k < m->count && (m->pairs[k][0] < key || (m->pairs[k][0] == key && m->pairs[k][1] < entry))) {
        k++;
    }
    return k;
}

static int stands(const struct model *m, size_t k, uint32_t key, uint32_t entry)
{
    return k < m->count && m->pairs[k][0] == key && m->pairs[k][1] == entry;
}

// Each line inserts one pair at most, and once, so there is room.
static uint32_t insert(struct model *m, uint32_t key, uint32_t entry)
{
    size_t k = place_of(m, key, entry);
    if (stands(m, k, key, entry)) {
        return 0;
    }
    memmove(m->pairs[k + 1], m->pairs[k], (m->count - k) * sizeof m->pairs[0]);
    m->pairs[k][0] = key;
    m->pairs[k][1] = entry;
    m->count += 1;
    return 1;
}

static uint32_t take_out(struct model *m, uint32_t key, uint32_t entry)
{
    size_t k = place_of(m, key, entry);
    if (!stands(m, k, key, entry)) {
        return 0;
    }
    m->count -= 1;
    memmove(m->pairs[k], m->pairs[k + 1], (m->count - k) * sizeof m->pairs[0]);
    return 1;
}

// The model's pairs stand together, from place on.
static void compare_list(const struct shown *s, const struct model *m, struct fault *f, const uint32_t *r,
                         size_t place, size_t count)
{
    uint32_t found[JOURNAL_RECORDS];
    size_t stored = list_of(s, r, found);
    if (stored != count) {
        blame(f, DIFFERS, "the list has %zu pairs, and the model's %zu", stored, count);
    }
    for (size_t k = 0; k < count && k < stored; k++) {
        const uint32_t *pair = s->records[found[k]];
        if (!stands(m, place + k, pair[KEY], pair[MEMBER])) {
            blame(f, DIFFERS, "pair %zu is %u:%u in the model", k + 1, m->pairs[place + k][0],
                  m->pairs[place + k][1]);
        }
    }
}

// What the model answers to a request.
static uint32_t feed(struct model *m, const uint32_t *r)
{
    switch (r[CODE]) {
    case ENTRY_STORE_READ:
        return m->values[r[ENTRY]];
    case ENTRY_STORE_WRITE:
        m->values[r[ENTRY]] = r[FIRST];
        return 0;
    case ENTRY_STORE_INSERT:
        return insert(m, r[FIRST], r[ENTRY]);
    case ENTRY_STORE_REMOVE:
        return take_out(m, r[FIRST], r[ENTRY]);
    default:
        return (uint32_t)(place_of(m, r[SECOND] + 1, 0) - place_of(m, r[FIRST], 0));
    }
}

static void replay_line(struct shown *s, struct model *m, size_t k)
{
    const uint32_t *r = line(s, k);
    uint32_t answer = feed(m, r);
    if (answer != r[ANSWER]) {
        blame(&s->faults[k], DIFFERS, "the model answers done %u", answer);
    }
    if (r[CODE] == ENTRY_STORE_LOCATE) {
        compare_list(s, m, &s->faults[k], r, place_of(m, r[FIRST], 0), answer);
    }
}

// The committed runs one after another, in order of commit, each with all its requests.
static void replay_all(struct shown *s)
{
    static struct model m;
    for (size_t c = 0; c < s->line_count; c++) {
        for (size_t k = 0; line(s, c)[CODE] == JOURNAL_COMMIT && k < c; k++) {
            if (line(s, k)[RUN] == line(s, c)[RUN]) {
                replay_line(s, &m, k);
            }
        }
    }
}

// The lowest number of all faults.
static int verdict(const struct shown *s)
{
    int number = OK;
    for (size_t k = 0; k < s->line_count; k++) {
        int here = s->faults[k].number;
        number = here != OK && (number == OK || here < number) ? here : number;
    }
    return number;
}

// ---- printing

static void call_text(char *text, size_t room, const uint32_t *r)
{
    switch (r[CODE]) {
    case ENTRY_STORE_READ:
        snprintf(text, room, "r %u %u", r[RUN], r[ENTRY]);
        break;
    case ENTRY_STORE_WRITE:
    case ENTRY_STORE_INSERT:
    case ENTRY_STORE_REMOVE:
        snprintf(text, room, "%c %u %u %u", " rwid"[r[CODE]], r[RUN], r[ENTRY], r[FIRST]);
        break;
    case ENTRY_STORE_LOCATE:
        snprintf(text, room, "l %u %u %u", r[RUN], r[FIRST], r[SECOND]);
        break;
    case JOURNAL_COMMIT:
        snprintf(text, room, "c %u", r[RUN]);
        break;
    default:
        snprintf(text, room, "? %u", r[RUN]);
    }
}

static void print_line(const struct shown *s, size_t k)
{
    char text[64];
    uint32_t found[JOURNAL_RECORDS];
    const uint32_t *r = line(s, k);
    call_text(text, sizeof text, r);
    printf("%5u  %-28s", s->lines[k], text);
    if (r[CODE] == JOURNAL_COMMIT) {
        printf(" ok");
    } else {
        printf(" done %u", r[ANSWER]);
    }
    size_t count = r[CODE] == ENTRY_STORE_LOCATE ? list_of(s, r, found) : 0;
    for (size_t i = 0; i < count; i++) {
        printf(" %u:%u", s->records[found[i]][KEY], s->records[found[i]][MEMBER]);
    }
    if (s->faults[k].number != OK) {
        printf("   <-- %d: %s", s->faults[k].number, s->faults[k].text);
    }
    printf("\n");
}

static int print_verdict(int number)
{
    if (number == OK) {
        printf("ok\n");
    } else {
        printf("%d\n", number);
    }
    return number == OK ? 0 : 1;
}

static int show(struct shown *s)
{
    follow_all(s);
    test_all(s);
    if (verdict(s) == OK) {
        replay_all(s);
    }
    for (size_t k = 0; k < s->line_count; k++) {
        print_line(s, k);
    }
    return print_verdict(verdict(s));
}

// ---- the file

static void take_records(struct shown *s, const unsigned char *bytes, size_t count)
{
    s->count = (uint32_t)(count / RECORD_BYTES);
    for (size_t k = 0; k < count; k++) {
        s->records[1 + k / RECORD_BYTES][k % RECORD_BYTES / 4] |= (uint32_t)bytes[k] << (8 * (k % 4));
    }
}

static int show_file(FILE *file, const char *path)
{
    static struct shown s;
    static unsigned char bytes[MOST_BYTES + 1];
    size_t count = fread(bytes, 1, sizeof bytes, file);
    if (ferror(file)) {
        fprintf(stderr, "show_journal: %s cannot be read: %s\n", path, strerror(errno));
        return 2;
    }
    if (count == 0 || count > MOST_BYTES || count % RECORD_BYTES != 0) {
        printf("no journal: %s%zu bytes, and not 1 to %d records of %d\n",
               count > MOST_BYTES ? "at least " : "", count, JOURNAL_RECORDS, RECORD_BYTES);
        return print_verdict(BAD_FILE);
    }
    take_records(&s, bytes, count);
    return show(&s);
}

static const char usage[] =
    "usage: show_journal FILE\n"
    "Prints a journal: each request and commit of its main chain, with its answer, and what is wrong with "
    "it;\n"
    "then the verdict, ok, 15, 16 or 17.\n"
    "  --help  prints this\n"
    "The exit status is 0 for ok, 1 for another verdict, 2 where the file cannot be read, what it prints\n"
    "cannot be written, or for wrong arguments.\n";

static int run(int count, char **words)
{
    if (count > 1 && strcmp(words[1], "--help") == 0) {
        fputs(usage, stdout);
        return 0;
    }
    if (count != 2 || words[1][0] == '-') {
        fprintf(stderr, "show_journal: %s%s\n%s", count == 2 ? "no such option: " : "one journal",
                count == 2 ? words[1] : "", usage);
        return 2;
    }
    FILE *file = fopen(words[1], "rb");
    if (file == NULL) {
        fprintf(stderr, "show_journal: %s cannot be read: %s\n", words[1], strerror(errno));
        return 2;
    }
    int status = show_file(file, words[1]);
    fclose(file);
    return status;
}

int main(int count, char **words)
{
    int status = run(count, words);
    if (fflush(stdout) != 0 || ferror(stdout)) {
        fprintf(stderr, "show_journal: what it prints cannot be written: %s\n", strerror(errno));
        return 2;
    }
    return status;
}
