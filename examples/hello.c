/* One session writes an entry, inserts it at a key and finds it there, all in one call; then it reads what it found and
 * commits. From the project's root:
 *     cc -std=c99 -Iinclude examples/hello.c target/staticlib/libentry_store.a -o target/hello
 * (make archive proves and builds the archive; docs/HOST.md says what a host does at each answer.) */
#include "entry_store.h"

#include <stdio.h>
#include <stdlib.h>

enum { M = 8, R = 32, WORDS = ENTRY_STORE_WORDS(M, R), LIST_WORDS = 2 * M };
enum { SESSION = 1, MOST = ENTRY_STORE_MOST_STEPS };

static uint32_t store[WORDS], list[LIST_WORDS];
static struct entry_store_session table[ENTRY_STORE_PARTIES];
#define LENT store, WORDS, table, ENTRY_STORE_PARTIES

static const struct entry_store_ask asks[] = {
    {ENTRY_STORE_ASK_BEGIN, SESSION, 0, 0, 0, 0, 0},
    {ENTRY_STORE_ASK_REQUEST, SESSION, ENTRY_STORE_WRITE, 3, 45, 0, MOST},     /* entry 3 has value 45 */
    {ENTRY_STORE_ASK_REQUEST, SESSION, ENTRY_STORE_INSERT, 3, 500, 0, MOST},   /* and is in the group of key 500 */
    {ENTRY_STORE_ASK_REQUEST, SESSION, ENTRY_STORE_LOCATE, 0, 400, 600, MOST}, /* what stands at keys 400 to 600? */
};
enum { ASKS = sizeof asks / sizeof asks[0] };

/* The value of an answer of this word. Any other ends the program, with its reason. */
static uint32_t want(uint32_t word, const char *call, uint64_t answer)
{
    uint32_t got = entry_store_word_of(answer), number = entry_store_number_of(answer);
    if (got != word) {
        fprintf(stderr, "%s: %s\n", call,
                got == ENTRY_STORE_REFUSED ? entry_store_refusal_text(number) : entry_store_word_text(got));
        exit(1);
    }
    return entry_store_value_of(answer);
}

/* All asks in one call, and the answer of the last: the number of pairs found. A batch ends early at an ask that waits
 * or is refused, and this is then the last that was made; no other session is there, so none waits. */
static uint32_t make_asks(void)
{
    uint64_t answers[ASKS];
    uint32_t made = want(ENTRY_STORE_DONE, "batch",
                         entry_store_batch(LENT, list, LIST_WORDS, (const uint32_t *)asks,
                                           ENTRY_STORE_ASK_WORDS * ASKS, answers, ASKS));
    return want(ENTRY_STORE_DONE, "an ask", answers[made - 1]);
}

/* A request from its put to its end. */
static uint32_t read_entry(uint32_t entry)
{
    uint64_t answer = entry_store_request(LENT, list, 0, SESSION, ENTRY_STORE_READ, entry, 0, 0, MOST);
    return want(ENTRY_STORE_DONE, "read", answer);
}

int main(void)
{
    want(ENTRY_STORE_OK, "format", entry_store_format(LENT, M));
    uint32_t count = make_asks();
    for (uint32_t *pair = list; pair < list + 2 * count; pair += 2) {
        printf("key %u: entry %u, value %u\n", pair[0], pair[1], read_entry(pair[1]));
    }
    want(ENTRY_STORE_OK, "commit", entry_store_commit(LENT, SESSION));
    printf("committed\n");
    return 0;
}
