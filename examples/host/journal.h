// A journal of a store's calls, as the program check_journal reads it
// (docs/JOURNAL.md).
//
// The host tells the journal of each begin and commit that is accepted and of
// each request that is done, right after the call. In the end it has the
// journal written to a file.
//
//   bytes    what, in records of eight words of four bytes, the lowest byte first
//   0        a record for each request and each commit, in the order of their
//            calls: next index, run, code, entry, first, second, answer, index
//            of the list
//   behind   the lists of the locates, a record for each pair: next index, key,
//            entry, and five zeros
//
// Records count from 1; next index 0 ends the calls, and each list.
#ifndef JOURNAL_H
#define JOURNAL_H

#include "store_host.h"

enum { JOURNAL_RECORDS = 2048, JOURNAL_WORDS = 8, JOURNAL_COMMIT = 255 };

struct journal_line {
    uint32_t run, code, entry, first, second, answer;
    size_t pairs; // where its pairs start, for a locate
};

struct journal {
    uint64_t begins;                    // how many were accepted
    uint32_t runs[ENTRY_STORE_PARTIES]; // the run of each session: which begin it is
    size_t line_count, pair_count;      // also of those for which there was no room
    struct journal_line lines[JOURNAL_RECORDS];
    uint32_t pairs[2 * JOURNAL_RECORDS];
};

// Right after the store's format: a journal of no calls.
void journal_start(struct journal *j);

// A begin was answered ok. Runs are numbered from 1 on, and no two may have one number: after more than
// 4,294,967,295 begins the journal cannot be saved.
void journal_begin(struct journal *j, uint32_t party);

// A request was answered done with this value. The pairs are those that a locate wrote, and NULL for others.
// A tidy is no call of a journal, and is left out.
void journal_done(struct journal *j, uint32_t party, struct request r, uint32_t value, const uint32_t *pairs);

// A call of a card's day has this answer; before and after are the party's record in the table, right before
// the call and right after it. Where a call that was not refused has ended the request in hand, that request
// is done: of a write with 0, of an insert with 1 if it has left an undo record, else with 0. Any other call
// tells nothing.
void journal_day(struct journal *j, uint32_t party, struct entry_store_answer a,
                 const struct entry_store_session *before, const struct entry_store_session *after);

// A commit was answered ok. (Of an abort nothing is told: a run without a commit is passed over.)
void journal_commit(struct journal *j, uint32_t party);

// How many records the file has.
size_t journal_records(const struct journal *j);

// Writes the file whole, or leaves it as it was (replace.h). 0 where it failed; errno says why: EINVAL where
// no call was told of, EFBIG where there are more than JOURNAL_RECORDS records, EOVERFLOW where there are
// more begins than words.
int journal_save(const struct journal *j, const char *path);

#endif
