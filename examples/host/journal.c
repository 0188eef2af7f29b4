#include "journal.h"
#include "replace.h"

#include <errno.h>
#include <stdlib.h>
#include <string.h>

// ---- what the host tells

void journal_start(struct journal *j)
{
    memset(j, 0, sizeof *j);
}

void journal_begin(struct journal *j, uint32_t party)
{
    j->begins += 1;
    j->runs[party] = (uint32_t)j->begins;
}

// Lines and pairs for which there is no room are counted all the same.
static void add_line(struct journal *j, struct journal_line l)
{
    if (j->line_count < JOURNAL_RECORDS) {
        j->lines[j->line_count] = l;
    }
    j->line_count += 1;
}

static void add_pair(struct journal *j, uint32_t key, uint32_t entry)
{
    if (j->pair_count < JOURNAL_RECORDS) {
        j->pairs[2 * j->pair_count] = key;
        j->pairs[2 * j->pair_count + 1] = entry;
    }
    j->pair_count += 1;
}

void journal_done(struct journal *j, uint32_t party, struct request r, uint32_t value, const uint32_t *pairs)
{
    struct journal_line l = {j->runs[party], r.code, r.entry, r.first, r.second, value, j->pair_count};
    if (r.code == ENTRY_STORE_TIDY) {
        return;
    }
    add_line(j, l);
    for (uint32_t k = 0; r.code == ENTRY_STORE_LOCATE && k < value; k++) {
        add_pair(j, pairs[2 * k], pairs[2 * k + 1]);
    }
}

// A refusal, 11 for one, ends a request that is not done.
void journal_day(struct journal *j, uint32_t party, struct entry_store_answer a,
                 const struct entry_store_session *before, const struct entry_store_session *after)
{
    int has_ended = before->stage != NO_REQUEST && after->stage == NO_REQUEST;
    int has_added = before->code == ENTRY_STORE_INSERT && after->undo != before->undo;
    if (a.word != ENTRY_STORE_REFUSED && has_ended) {
        journal_done(j, party, request_in_hand(before), has_added ? 1 : 0, NULL);
    }
}

void journal_commit(struct journal *j, uint32_t party)
{
    struct journal_line l = {j->runs[party], JOURNAL_COMMIT, 0, 0, 0, 0, j->pair_count};
    add_line(j, l);
}

size_t journal_records(const struct journal *j)
{
    return j->line_count + j->pair_count;
}

// ---- the file

enum { RECORD_BYTES = 4 * JOURNAL_WORDS };

// Record k, counted from 0.
static void put_record(unsigned char *bytes, size_t k, const uint32_t words[JOURNAL_WORDS])
{
    unsigned char *at = bytes + RECORD_BYTES * k;
    for (size_t i = 0; i < RECORD_BYTES; i++) {
        at[i] = (unsigned char)(words[i / 4] >> (8 * (i % 4)));
    }
}

// The list of a locate stands behind all lines, at its pairs' places.
static void put_lines(const struct journal *j, unsigned char *bytes)
{
    for (size_t k = 0; k < j->line_count; k++) {
        const struct journal_line *l = &j->lines[k];
        int has_list = l->code == ENTRY_STORE_LOCATE && l->answer > 0;
        size_t next = k + 1 < j->line_count ? k + 2 : 0;
        size_t list = has_list ? j->line_count + l->pairs + 1 : 0;
        uint32_t words[JOURNAL_WORDS] = {(uint32_t)next, l->run,    l->code,   l->entry,
                                         l->first,       l->second, l->answer, (uint32_t)list};
        put_record(bytes, k, words);
    }
}

static void put_list(const struct journal *j, const struct journal_line *l, unsigned char *bytes)
{
    for (uint32_t k = 0; k < l->answer; k++) {
        size_t place = l->pairs + k, at = j->line_count + place;
        size_t next = k + 1 < l->answer ? at + 2 : 0;
        uint32_t words[JOURNAL_WORDS] = {(uint32_t)next, j->pairs[2 * place], j->pairs[2 * place + 1]};
        put_record(bytes, at, words);
    }
}

static void put_lists(const struct journal *j, unsigned char *bytes)
{
    for (size_t k = 0; k < j->line_count; k++) {
        if (j->lines[k].code == ENTRY_STORE_LOCATE) {
            put_list(j, &j->lines[k], bytes);
        }
    }
}

// What cannot be a journal, as errno has it; 0 for nothing.
static int reason_against(const struct journal *j)
{
    size_t count = journal_records(j);
    if (count == 0) {
        return EINVAL;
    }
    if (count > JOURNAL_RECORDS) {
        return EFBIG;
    }
    return j->begins > UINT32_MAX ? EOVERFLOW : 0;
}

int journal_save(const struct journal *j, const char *path)
{
    size_t count = RECORD_BYTES * journal_records(j);
    int reason = reason_against(j);
    if (reason != 0) {
        errno = reason;
        return 0;
    }
    unsigned char *bytes = malloc(count);
    if (bytes == NULL) {
        return 0;
    }
    put_lines(j, bytes);
    put_lists(j, bytes);
    int good = replace_file(path, bytes, count);
    free_and_keep_reason(bytes);
    return good;
}
