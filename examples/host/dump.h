// A saved image, as the parts of the dump program see it: what its records are (records.c), as a text
// (texts.c, dump.c) and as a picture (dot.c).
//
// An image may be damaged in any way. Every record number is tested before it is used, and every record is
// met once at most: from the root level by level, then along the members of each descriptor, the undo records
// of each session and the free records.
#ifndef DUMP_H
#define DUMP_H

#include "image.h"

// Where the words stand (docs/STORE.md).
enum { H_ENTRIES, H_RECORDS, H_ROOT, H_HEIGHT, H_FIRST, H_FREE };
enum { NEXT = 0 };
enum { NODE_LATCH = 0, NODE_COUNT = 1, NODE_BOUNDS = 2, NODE_SONS = 9, MAX_SONS = 8, MAX_HEIGHT = 8 };
enum { DESC_KEY = 1, DESC_LOCATE, DESC_UPDATE, DESC_GAP, DESC_PINS, DESC_MEMBER };
enum { MEMBER_ENTRY = 2 };
enum { UNDO_KIND = 1, UNDO_ENTRY = 2, UNDO_VALUE = 3, UNDO_DESC = 4 };
enum { UNDO_WRITE = 1, UNDO_ADDED = 2, UNDO_TAKEN = 3 };

// ---- records

struct dump {
    struct store_host host;
    uint32_t entries, records;
    unsigned char seen[ENTRY_STORE_MAX_RECORDS + 1];
    uint32_t nodes[ENTRY_STORE_MAX_RECORDS];       // level by level from the root
    uint32_t level_start[MAX_HEIGHT + 1];          // where each level starts in nodes
    uint32_t levels;                               // how many levels were met
    uint32_t descriptors[ENTRY_STORE_MAX_RECORDS]; // in the tree's order
    uint32_t members[ENTRY_STORE_MAX_RECORDS];     // how many of each descriptor were met
    uint32_t undos[ENTRY_STORE_PARTIES];           // how many of each session were met
    uint32_t node_count, descriptor_count, member_count, undo_count, free_count;
};

int is_record(const struct dump *d, uint32_t i);

// Word k of record i, which is a record.
uint32_t word(const struct dump *d, uint32_t i, uint32_t k);

uint32_t entry_word(const struct dump *d, uint32_t e, uint32_t k);

// How many sons of a node are looked at, whatever its count says.
uint32_t sons_of(const struct dump *d, uint32_t node);

// The sizes, if they are those of a store of this length; else no record is looked at.
void take_sizes(struct dump *d, uint32_t fault);

// Meets all records, where there are any.
void meet_all(struct dump *d);

// Whether there is something to show of a party: a request in hand, or a session that is begun, has undo
// records or is asked.
int takes_part(const struct dump *d, uint32_t p);

// ---- texts, on standard output

// A key as a number and as driver/day/hours:minutes.
void print_key(uint32_t key);

// The sessions of a holders word, - for none; the same after a name.
void print_sessions(uint32_t holders);
void print_holders(const char *name, uint32_t holders);

// A record number that leads nowhere: ?number if it is no record, number! if it was met before.
void print_astray(const struct dump *d, uint32_t i);

// A request in hand, and where it stands.
void print_request(const struct entry_store_session *s);
void print_stage(const struct entry_store_session *s);

// ---- the picture

// Tree, latches and holders in the language of Graphviz. The records are met already; where the sizes fail
// there are none.
void print_dot(const struct dump *d, enum image_state state, uint32_t fault);

#endif
