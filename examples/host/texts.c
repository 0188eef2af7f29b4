#include "dump.h"

#include <stdio.h>

void print_key(uint32_t key)
{
    uint32_t minute = key % KEYS_A_DRIVER;
    printf("%u (%u/%u/%02u:%02u)", key, key / KEYS_A_DRIVER, minute / DAY_MINUTES, minute % DAY_MINUTES / 60,
           minute % 60);
}

void print_sessions(uint32_t holders)
{
    const char *before = "";
    if (holders == 0) {
        printf("-");
    }
    for (uint32_t bit = 0; bit < 32; bit++) {
        if ((holders >> bit & 1) != 0) {
            printf("%s%u", before, bit + 1);
            before = ",";
        }
    }
}

void print_holders(const char *name, uint32_t holders)
{
    printf("  %s ", name);
    print_sessions(holders);
}

void print_astray(const struct dump *d, uint32_t i)
{
    printf(is_record(d, i) ? " %u!" : " ?%u", i);
}

void print_request(const struct entry_store_session *s)
{
    static const char *const codes[] = {"?", "read", "write", "insert", "remove", "locate", "tidy"};
    printf("%s", codes[s->code <= ENTRY_STORE_TIDY ? s->code : 0]);
    if (s->code >= ENTRY_STORE_READ && s->code <= ENTRY_STORE_REMOVE) {
        printf(" entry %u", s->entry);
    }
    if (s->code == ENTRY_STORE_WRITE) {
        printf(", value %u", s->first);
    } else if (s->code != ENTRY_STORE_READ) {
        printf(s->code == ENTRY_STORE_TIDY ? " above key " : " key ");
        print_key(s->first);
    }
    if (s->code == ENTRY_STORE_LOCATE) {
        printf(" to ");
        print_key(s->second);
    }
}

void print_stage(const struct entry_store_session *s)
{
    static const char *const stages[] = {"no request", "at its start",      "before the root",
                                         "at a node",  "before the change", "taking"};
    printf("%s", s->stage <= TAKING ? stages[s->stage] : "no such stage");
    if (s->stage == AT_NODE) {
        printf(", record %u, level %u", s->at, s->level);
    }
    if (s->stage == ENTERING || s->stage == AT_NODE) {
        printf(", on the way to key ");
        print_key(s->target);
    }
    if (s->stage == TAKING) {
        printf(", last key taken ");
        print_key(s->last);
    }
}
