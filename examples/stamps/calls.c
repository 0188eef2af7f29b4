// Plays calls of the two conversions and prints each with its result.
//
// Usage: calls < FILE. A call a line, as the files in calls/ have it before the sign =, all numbers words in decimal:
//   utc BASE YEAR MONTH DAY HOUR MINUTE MARK    is answered the UTC minute, or 18, 19, 20
//   local BASE UTC LENGTH                       is answered 0 and the seven bytes, or 18
// Lines that are empty or begin with # are printed as they stand.
//
// The lent bytes and those on both sides of them are filled with 170 before each call. A refusal leaves them all, and
// an accepted call those around the lent ones: a byte that is another then is told of on standard error.
//
// Exit status: 0; 1 where such a byte was written; 2 where a line has another form, standard input cannot be read, what
// is printed cannot be written, or there is an argument.
#include "lines.h"
#include "local_stamps.h"

#include <errno.h>
#include <stdio.h>
#include <string.h>

enum { MOST_WORDS = 7, MOST_LENT = 4096, AROUND = 64, FILLED = 170 };

// Bytes that are lent, and those around them.
static uint8_t room[AROUND + MOST_LENT + AROUND];

// The numbers behind a call's name, each with a blank before it: how many there are, or -1 where something else stands
// there.
static int take_words(const char *at, uint32_t words[MOST_WORDS])
{
    int count = 0;
    while (at != NULL && *at == ' ' && count < MOST_WORDS) {
        at = take_number(at + 1, 10, &words[count++]);
    }
    return at == NULL || *at != 0 ? -1 : count;
}

static void print_call(const char *name, const uint32_t *words, int count)
{
    printf("%s", name);
    for (int k = 0; k < count; k++) {
        printf(" %u", words[k]);
    }
    printf(" =");
}

static void play_utc(const uint32_t w[MOST_WORDS])
{
    print_call("utc", w, MOST_WORDS);
    printf(" %u\n", local_stamp_to_utc(w[0], w[1], w[2], w[3], w[4], w[5], w[6]));
}

// Whether all of some bytes are as they were filled.
static int is_left(const uint8_t *bytes, size_t count)
{
    size_t k = 0;
    while (k < count && bytes[k] == FILLED) {
        k++;
    }
    return k == count;
}

// 0 where a byte was written that is none of the call's to write.
static int play_local(const uint32_t w[3])
{
    uint8_t *lent = room + AROUND;
    size_t length = w[2];
    memset(room, FILLED, sizeof room);
    uint32_t answer = local_stamp_of_utc(w[0], w[1], lent, length);
    print_call("local", w, 3);
    printf(" %u", answer);
    for (size_t k = 0; answer == 0 && k < length; k++) {
        printf(" %u", lent[k]);
    }
    printf("\n");
    return is_left(room, AROUND) && is_left(lent + length, sizeof room - AROUND - length) &&
           (answer == 0 || is_left(lent, length));
}

static int complain(unsigned long number, const char *what, int status)
{
    fflush(stdout);
    fprintf(stderr, "calls: line %lu: %s\n", number, what);
    return status;
}

static int play_line(const char *text, unsigned long number)
{
    uint32_t words[MOST_WORDS];
    if (text[0] == 0 || text[0] == '#') {
        printf("%s\n", text);
        return 0;
    }
    if (strncmp(text, "utc", 3) == 0 && take_words(text + 3, words) == MOST_WORDS) {
        play_utc(words);
        return 0;
    }
    if (strncmp(text, "local", 5) != 0 || take_words(text + 5, words) != 3) {
        return complain(number, "no such call", 2);
    }
    if (words[2] > MOST_LENT) {
        return complain(number, "more bytes than there are to lend", 2);
    }
    return play_local(words) ? 0 : complain(number, "a byte was written that is not the call's", 1);
}

// The highest status of all lines.
static int play(FILE *file)
{
    char text[LINE_ROOM];
    int status = 0;
    for (unsigned long number = 1; read_line(file, text); number++) {
        int here = play_line(text, number);
        status = here > status ? here : status;
    }
    if (ferror(file)) {
        fprintf(stderr, "calls: standard input cannot be read: %s\n", strerror(errno));
        return 2;
    }
    return status;
}

int main(int count, char **words)
{
    (void)words;
    if (count != 1) {
        fprintf(stderr, "usage: calls < FILE\n");
        return 2;
    }
    int status = play(stdin);
    if (fflush(stdout) != 0 || ferror(stdout)) {
        fprintf(stderr, "calls: what it prints cannot be written: %s\n", strerror(errno));
        return 2;
    }
    return status;
}
