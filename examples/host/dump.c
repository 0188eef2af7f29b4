// Prints a saved image of a store and its session table, and changes nothing.
//
// Usage: dump IMAGE [KEY...]. A key is a number, or driver/day/hours:minutes. dump --dot IMAGE draws it
// instead (dot.c).
//
// Prints the sizes, whether store and table are sound or which part of soundness fails, what the records are,
// the parties in the order of their begins and with their requests in hand and take-backs, the tree level by
// level, the descriptors in the tree's order, the entries that have a value or a holder, and the holders of
// each KEY, stored or not.
//
// An image may be damaged in any way. Every record number is tested before it is used, and every record is
// followed once at most: what is not a record is printed as ?number, what was met before as number!.
//
// Exit status: 0 for a sound image, 1 for a damaged one, 2 where there is none or the arguments are wrong.
#include "dump.h"

#include <errno.h>
#include <stdio.h>
#include <string.h>

// ---- printing

static void print_records(const struct dump *d)
{
    uint32_t met = d->node_count + d->descriptor_count + d->member_count + d->undo_count + d->free_count;
    printf("records: %u nodes, %u descriptors, %u memberships, %u take-backs, %u free, %u not reached\n",
           d->node_count, d->descriptor_count, d->member_count, d->undo_count, d->free_count,
           d->records - met);
}

static void print_node(const struct dump *d, uint32_t node)
{
    uint32_t latch = word(d, node, NODE_LATCH), sons = sons_of(d, node);
    printf("  record %u:", node);
    for (uint32_t s = 0; s < sons; s++) {
        uint32_t son = word(d, node, NODE_SONS + s);
        if (is_record(d, son)) {
            printf(" %u", son);
        } else {
            print_astray(d, son);
        }
        if (s + 1 < sons) {
            printf(" |%u|", word(d, node, NODE_BOUNDS + s));
        }
    }
    if (word(d, node, NODE_COUNT) > MAX_SONS) {
        printf("  (%u sons?)", word(d, node, NODE_COUNT));
    }
    if (latch != 0) {
        printf("  latch of party %u", latch - 1);
    }
    printf("\n");
}

static void print_tree(const struct dump *d)
{
    printf("\ntree, sons with the boundaries between them:\n");
    if (d->levels == 0) {
        printf("  none: root record %u, height %u\n", d->host.words[H_ROOT], d->host.words[H_HEIGHT]);
    }
    for (uint32_t l = 0; l < d->levels; l++) {
        uint32_t end = l + 1 < d->levels ? d->level_start[l + 1] : d->node_count;
        printf(" level %u%s\n", d->levels - l, l == 0 ? ", the root" : "");
        for (uint32_t k = d->level_start[l]; k < end; k++) {
            print_node(d, d->nodes[k]);
        }
    }
}

// So many members, by their entries; where the chain goes on after that it leads nowhere.
static void print_members(const struct dump *d, uint32_t first, uint32_t count)
{
    uint32_t i = first;
    printf("  members");
    for (; count > 0; count--) {
        printf(" %u", word(d, i, MEMBER_ENTRY));
        i = word(d, i, NEXT);
    }
    if (first == 0) {
        printf(" -");
    } else if (i != 0) {
        print_astray(d, i);
    }
}

static void print_descriptor_holders(const struct dump *d, uint32_t i)
{
    print_holders("locate", word(d, i, DESC_LOCATE));
    print_holders("update", word(d, i, DESC_UPDATE));
    print_holders("gap", word(d, i, DESC_GAP));
}

static void print_descriptors(const struct dump *d)
{
    printf("\ndescriptors:\n");
    for (uint32_t k = 0; k < d->descriptor_count; k++) {
        uint32_t i = d->descriptors[k];
        printf("  record %u: key ", i);
        print_key(word(d, i, DESC_KEY));
        print_descriptor_holders(d, i);
        printf("  pins %u", word(d, i, DESC_PINS));
        print_members(d, word(d, i, DESC_MEMBER), d->members[k]);
        printf("\n");
    }
}

static void print_entries(const struct dump *d)
{
    printf("\nentries with a value or a holder:\n");
    for (uint32_t e = 1; e <= d->entries; e++) {
        uint32_t value = entry_word(d, e, 0), share = entry_word(d, e, 1), exclusive = entry_word(d, e, 2);
        if (value != 0 || share != 0 || exclusive != 0) {
            printf("  entry %u: value %u", e, value);
            print_holders("share", share);
            print_holders("exclusive", exclusive);
            printf("\n");
        }
    }
}

// ---- parties

static void print_undo(const struct dump *d, uint32_t i)
{
    uint32_t kind = word(d, i, UNDO_KIND), of = word(d, i, UNDO_DESC);
    printf("    entry %u", word(d, i, UNDO_ENTRY));
    if (kind == UNDO_WRITE) {
        printf(" had value %u", word(d, i, UNDO_VALUE));
    } else if (kind == UNDO_ADDED || kind == UNDO_TAKEN) {
        printf(kind == UNDO_ADDED ? " was added at key " : " was taken out at key ");
        if (is_record(d, of)) {
            print_key(word(d, of, DESC_KEY));
        } else {
            print_astray(d, of);
        }
    } else {
        printf(" kind %u?", kind);
    }
    printf("\n");
}

// The take-backs of a session, newest first.
static void print_undos(const struct dump *d, uint32_t first, uint32_t count)
{
    uint32_t i = first;
    if (i != 0) {
        printf("   take-backs, newest first:\n");
    }
    for (; count > 0; count--) {
        print_undo(d, i);
        i = word(d, i, NEXT);
    }
    if (i != 0) {
        printf("   ");
        print_astray(d, i);
        printf("\n");
    }
}

static void print_begun(const struct entry_store_session *s)
{
    if (s->begun != 0) {
        printf("begun, number %u", s->order);
    } else {
        printf("not begun");
    }
    if (s->asked != 0) {
        printf(", asked");
    }
}

static void print_party(const struct dump *d, uint32_t p)
{
    const struct entry_store_session *s = &d->host.table[p];
    int housekeeper = p == ENTRY_STORE_HOUSEKEEPER;
    if (!takes_part(d, p)) {
        return;
    }
    if (housekeeper) {
        printf("  housekeeper%s: ", s->asked != 0 ? ", asked" : "");
    } else {
        printf("  session %u: ", p);
        print_begun(s);
        if (d->host.notes[p] != 0) {
            printf(", note %u", d->host.notes[p]);
        }
        printf("; ");
    }
    if (s->stage == NO_REQUEST) {
        printf("no request in hand");
    } else {
        print_request(s);
        printf("; ");
        print_stage(s);
    }
    printf("\n");
    if (!housekeeper && d->records > 0) {
        print_undos(d, s->undo, d->undos[p]);
    }
}

static void print_line(const struct dump *d)
{
    uint32_t sessions[ENTRY_STORE_SESSIONS], count = host_line(&d->host, sessions);
    printf("  order of begins:");
    for (uint32_t k = 0; k < count; k++) {
        printf(" %u", sessions[k]);
    }
    printf("%s\n", count == 0 ? " -" : "");
}

static void print_parties(const struct dump *d)
{
    printf("\nparties:\n");
    print_line(d);
    for (uint32_t p = 0; p < ENTRY_STORE_PARTIES; p++) {
        print_party(d, p);
    }
}

// ---- the holders of a key

// The descriptor of the highest key up to this one, 0 for none.
static uint32_t descriptor_up_to(const struct dump *d, uint32_t key)
{
    uint32_t best = 0;
    for (uint32_t k = 0; k < d->descriptor_count; k++) {
        uint32_t i = d->descriptors[k], here = word(d, i, DESC_KEY);
        if (here <= key && (best == 0 || here >= word(d, best, DESC_KEY))) {
            best = i;
        }
    }
    return best;
}

static void print_holders_of(const struct dump *d, uint32_t key)
{
    uint32_t i = descriptor_up_to(d, key);
    printf("\nholders of key ");
    print_key(key);
    printf(":");
    if (i == 0) {
        printf(" no descriptor up to it\n");
    } else if (word(d, i, DESC_KEY) == key) {
        printf(" stored;");
        print_holders("locate", word(d, i, DESC_LOCATE));
        print_holders("update", word(d, i, DESC_UPDATE));
        printf("\n");
    } else {
        printf(" not stored, in the gap above key ");
        print_key(word(d, i, DESC_KEY));
        printf(";");
        print_holders("locate", word(d, i, DESC_GAP));
        printf("\n");
    }
}

// A number, or driver/day/hours:minutes. 0 where it is neither.
static int parse_key(const char *text, uint32_t *key)
{
    unsigned long driver, day, hours, minutes;
    char rest;
    if (sscanf(text, "%lu/%lu/%lu:%lu%c", &driver, &day, &hours, &minutes, &rest) == 4) {
        *key = key_of((uint32_t)driver, (uint32_t)(day * DAY_MINUTES + hours * 60 + minutes));
        return driver < 4096 && day < 728 && hours < 24 && minutes < 60;
    }
    if (sscanf(text, "%lu%c", &driver, &rest) == 1) {
        *key = (uint32_t)driver;
        return driver <= UINT32_MAX;
    }
    return 0;
}

// ---- the whole

static void print_image(const struct dump *d, enum image_state state, uint32_t fault)
{
    printf("image: %zu words, %u entries, %u records; the sum %s\n", d->host.length, d->entries, d->records,
           state == IMAGE_GOOD ? "agrees" : "differs");
    if (fault == 0) {
        printf("sound\n");
    } else {
        printf("not sound, part %u (%s) fails: %s\n", fault, entry_store_part_text(fault),
               part_in_full(fault));
    }
}

static void print_all(const struct dump *d, uint32_t fault)
{
    if (fault == ENTRY_STORE_PART_SIZES) {
        printf("nothing else can be told: where a record lies depends on the sizes\n");
        return;
    }
    print_records(d);
    print_parties(d);
    print_tree(d);
    print_descriptors(d);
    print_entries(d);
}

static void print_keys(const struct dump *d, int count, char **words)
{
    for (int k = 0; k < count; k++) {
        uint32_t key;
        if (parse_key(words[k], &key)) {
            print_holders_of(d, key);
        }
    }
}

static const char usage[] =
    "usage: dump IMAGE [KEY...]\n"
    "       dump --dot IMAGE\n"
    "Prints a saved image of a store and its session table: whether it is sound, or which part of soundness\n"
    "fails; its records, parties, tree, descriptors and entries; and who holds each KEY.\n"
    "  KEY     a number, or driver/day/hours:minutes\n"
    "  --dot   prints a picture of tree, latches and holders for Graphviz: dump --dot IMAGE | dot -Tsvg\n"
    "  --help  prints this\n"
    "The exit status is 0 for a sound image, 1 for a damaged one, 2 where there is none or for wrong\n"
    "arguments.\n";

// What cannot be read is told where the text would stand, or beside the picture.
static int no_image(const char *path, enum image_state state, int picture)
{
    fprintf(picture ? stderr : stdout, "%s: %s%s\n", path, state == IMAGE_NOT_READ ? "cannot be read: " : "",
            image_reason(state));
    return 2;
}

static int wrong_arguments(const char *fault, const char *word)
{
    fprintf(stderr, "dump: %s%s\n%s", fault, word, usage);
    return 2;
}

static int dump_image(const char *path, int picture, int count, char **keys)
{
    static struct dump d;
    enum image_state state = image_read(&d.host, path);
    if (state != IMAGE_GOOD && state != IMAGE_SUM_DIFFERS) {
        return no_image(path, state, picture);
    }
    uint32_t fault = host_fault(&d.host);
    take_sizes(&d, fault);
    meet_all(&d);
    if (picture) {
        print_dot(&d, state, fault);
    } else {
        print_image(&d, state, fault);
        print_all(&d, fault);
        print_keys(&d, count, keys);
    }
    host_close(&d.host);
    return fault == 0 && state == IMAGE_GOOD ? 0 : 1;
}

int main(int count, char **words)
{
    int picture = 0, at = 1;
    for (; at < count && words[at][0] == '-'; at++) {
        if (strcmp(words[at], "--help") == 0) {
            fputs(usage, stdout);
            return 0;
        }
        if (strcmp(words[at], "--dot") != 0) {
            return wrong_arguments("no such option: ", words[at]);
        }
        picture = 1;
    }
    if (at == count) {
        return wrong_arguments("an image is missing", "");
    }
    if (picture && at + 1 < count) {
        return wrong_arguments("--dot takes no key: ", words[at + 1]);
    }
    for (int k = at + 1; k < count; k++) {
        uint32_t key;
        if (!parse_key(words[k], &key)) {
            return wrong_arguments("no key: ", words[k]);
        }
    }
    int status = dump_image(words[at], picture, count - at - 1, words + at + 1);
    if (fflush(stdout) != 0 || ferror(stdout)) {
        fprintf(stderr, "dump: what it prints cannot be written: %s\n", strerror(errno));
        return 2;
    }
    return status;
}
