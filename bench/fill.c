// Stores with something in them, made by calls alone.
#include "bench.h"

enum { DESK = 1 };

uint32_t rising_key(uint32_t number)
{
    return number << 16;
}

// A mix of the bits that gives different numbers different keys.
uint32_t scattered_key(uint32_t number)
{
    number ^= number >> 16;
    number *= 0x85ebca6bu;
    number ^= number >> 13;
    number *= 0xc2b2ae35u;
    return number ^ number >> 16;
}

uint32_t entry_of(const struct host *h, uint32_t number, uint32_t member)
{
    return 1 + (7 * number + member) % h->entries;
}

// A session that stores a key and gives it its members; 0 where there is no room. A locate stores a key without members.
static int add_key(struct host *h, const struct mix *mix, uint32_t number)
{
    uint32_t key = mix->key(number);
    host_begin(h, DESK);
    int room = mix->members > 0 || host_locate(h, key, key) != NO_PAIRS;
    for (uint32_t k = 0; room && k < mix->members; k++) {
        room = host_insert(h, key, entry_of(h, number, k)) != NO_ROOM;
    }
    host_commit(h, DESK);
    return room;
}

// One more member for key after key, until there is no room: what was left of the records is used up.
static void top_up(struct host *h, const struct mix *mix, uint32_t keys)
{
    int room = 1;
    for (uint32_t number = 1; room && number <= keys; number++) {
        host_begin(h, DESK);
        room = host_insert(h, mix->key(number), entry_of(h, number, mix->members)) != NO_ROOM;
        host_commit(h, DESK);
    }
}

uint32_t fill(struct host *h, uint32_t records, const struct mix *mix)
{
    uint32_t keys = 0;
    host_format(h, records);
    while (add_key(h, mix, keys + 1)) {
        keys += 1;
    }
    top_up(h, mix, keys);
    return keys;
}

static void remove_key(struct host *h, const struct mix *mix, uint32_t number)
{
    host_begin(h, DESK);
    for (uint32_t k = 0; k < mix->members; k++) {
        must(host_remove(h, mix->key(number), entry_of(h, number, k)) == 1, "remove");
    }
    host_commit(h, DESK);
}

void fill_and_empty(struct host *h, uint32_t records, const struct mix *mix)
{
    uint32_t keys = records / (2 + mix->members);
    host_format(h, records);
    for (uint32_t number = 1; number <= keys; number++) {
        must(add_key(h, mix, number), "insert");
    }
    for (uint32_t number = 1; number <= keys; number++) {
        remove_key(h, mix, number);
    }
    host_tidy_all(h);
}
