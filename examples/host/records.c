#include "dump.h"

// ---- words

int is_record(const struct dump *d, uint32_t i)
{
    return i >= 1 && i <= d->records;
}

uint32_t word(const struct dump *d, uint32_t i, uint32_t k)
{
    return d->host.words[entry_store_words(d->entries, i - 1) + k];
}

uint32_t entry_word(const struct dump *d, uint32_t e, uint32_t k)
{
    return d->host.words[entry_store_words(e - 1, 0) + k];
}

// Whether i is a record that is met for the first time.
static int meet(struct dump *d, uint32_t i)
{
    if (!is_record(d, i) || d->seen[i]) {
        return 0;
    }
    d->seen[i] = 1;
    return 1;
}

// ---- the tree

uint32_t sons_of(const struct dump *d, uint32_t node)
{
    uint32_t count = word(d, node, NODE_COUNT);
    return count < MAX_SONS ? count : MAX_SONS;
}

// Meets the sons of the nodes of one level, in order; they go into row from count on. Answers the new count.
static uint32_t meet_sons(struct dump *d, uint32_t from, uint32_t end, uint32_t *row, uint32_t count)
{
    for (uint32_t k = from; k < end; k++) {
        uint32_t node = d->nodes[k];
        for (uint32_t s = 0; s < sons_of(d, node); s++) {
            uint32_t son = word(d, node, NODE_SONS + s);
            if (meet(d, son)) {
                row[count] = son;
                count += 1;
            }
        }
    }
    return count;
}

static void meet_tree(struct dump *d)
{
    uint32_t root = d->host.words[H_ROOT], height = d->host.words[H_HEIGHT];
    if (height < 1 || height > MAX_HEIGHT || !meet(d, root)) {
        return;
    }
    d->nodes[0] = root;
    d->node_count = 1;
    d->level_start[0] = 0;
    for (d->levels = 1; d->levels < height; d->levels++) {
        uint32_t from = d->level_start[d->levels - 1], end = d->node_count;
        d->level_start[d->levels] = end;
        d->node_count = meet_sons(d, from, end, d->nodes, end);
    }
    d->descriptor_count = meet_sons(d, d->level_start[d->levels - 1], d->node_count, d->descriptors, 0);
}

// How many records of a chain are met, from the first on.
static uint32_t meet_chain(struct dump *d, uint32_t first)
{
    uint32_t count = 0;
    for (uint32_t i = first; meet(d, i); i = word(d, i, NEXT)) {
        count += 1;
    }
    return count;
}

void meet_all(struct dump *d)
{
    if (d->records == 0) {
        return;
    }
    meet_tree(d);
    for (uint32_t k = 0; k < d->descriptor_count; k++) {
        d->members[k] = meet_chain(d, word(d, d->descriptors[k], DESC_MEMBER));
        d->member_count += d->members[k];
    }
    for (uint32_t p = 1; p < ENTRY_STORE_PARTIES; p++) {
        d->undos[p] = meet_chain(d, d->host.table[p].undo);
        d->undo_count += d->undos[p];
    }
    d->free_count = meet_chain(d, d->host.words[H_FREE]);
}

// ---- parties

int takes_part(const struct dump *d, uint32_t p)
{
    const struct entry_store_session *s = &d->host.table[p];
    int session = p != ENTRY_STORE_HOUSEKEEPER;
    return s->stage != NO_REQUEST || s->asked != 0 || (session && (s->begun != 0 || s->undo != 0));
}

// ---- the whole

void take_sizes(struct dump *d, uint32_t fault)
{
    if (fault != ENTRY_STORE_PART_SIZES) {
        d->entries = d->host.words[H_ENTRIES];
        d->records = d->host.words[H_RECORDS];
    }
}
