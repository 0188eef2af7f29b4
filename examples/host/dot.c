// A saved image as a picture for Graphviz: the parties above, and then from left to right the root, the nodes
// level by level with their boundaries and latches, and at the right the descriptors of each lowest node with
// key, members and holders, each over the gap that lies above it.
//
// The image may be damaged: a son that leads nowhere is shown as the text has it, ?number or number!, and no
// line goes to it.
#include "dump.h"

#include <stdio.h>

// Colours: what is latched, held in locate mode, held in update mode, and damaged.
#define LATCHED "#f2a6a0"
#define LOCATED "#b9d7f0"
#define UPDATED "#f7cf94"
#define ASTRAY "#c00000"
#define HEAD "#dddddd"
#define PLAIN "#ffffff"
#define FAINT "#f4f4f4"

// Heights that a lowest node and its descriptors share, so that the lines between them are level; and a
// node's width.
enum { ROW = 22, SLIT = 16, NODE_WIDTH = 200 };

// The records of the level below that were met, in the order in which they were.
struct below {
    const uint32_t *records;
    uint32_t count, next;
};

// The sons of a node: which of them were met under it.
struct sons {
    uint32_t node, count, met_count, from;
    uint32_t records[MAX_SONS];
    int met[MAX_SONS];
};

static struct sons take_sons(const struct dump *d, uint32_t node, struct below *b)
{
    struct sons s = {node, sons_of(d, node), 0, b->next, {0}, {0}};
    for (uint32_t k = 0; k < s.count; k++) {
        s.records[k] = word(d, node, NODE_SONS + k);
        s.met[k] = b->next < b->count && b->records[b->next] == s.records[k];
        b->next += s.met[k] ? 1 : 0;
    }
    s.met_count = b->next - s.from;
    return s;
}

// ---- cells

static void open_table(const char *name, uint32_t number)
{
    printf("  %s%u [label=<<TABLE BORDER=\"0\" CELLBORDER=\"1\" CELLSPACING=\"0\" CELLPADDING=\"3\">\n", name,
           number);
}

static void close_table(void)
{
    printf("    </TABLE>>]\n");
}

static void open_cell(const char *colour, int height)
{
    printf("<TD BGCOLOR=\"%s\" HEIGHT=\"%d\">", colour, height);
}

static void holders_cell(uint32_t holders, const char *colour)
{
    open_cell(holders == 0 ? PLAIN : colour, ROW);
    print_sessions(holders);
    printf("</TD>");
}

static void number_cell(uint32_t number, const char *colour)
{
    open_cell(colour, ROW);
    printf("%u</TD>", number);
}

static void astray(const struct dump *d, uint32_t i)
{
    printf("<FONT COLOR=\"" ASTRAY "\"><B>");
    print_astray(d, i);
    printf("</B></FONT>");
}

// ---- nodes

static void party_name(uint32_t party)
{
    if (party == ENTRY_STORE_HOUSEKEEPER) {
        printf("the housekeeper");
    } else {
        printf("session %u", party);
    }
}

static void node_head(const struct dump *d, uint32_t node, uint32_t level)
{
    uint32_t latch = word(d, node, NODE_LATCH), count = word(d, node, NODE_COUNT);
    printf("    <TR><TD PORT=\"head\" BGCOLOR=\"%s\" HEIGHT=\"%d\" WIDTH=\"%d\">",
           latch == 0 ? HEAD : LATCHED, ROW, NODE_WIDTH);
    printf("<B>%s %u</B>, level %u", node == d->nodes[0] ? "root" : "node", node, level);
    if (count > MAX_SONS) {
        printf(", %u sons?", count);
    }
    if (latch != 0) {
        printf(", latch: ");
        party_name(latch - 1);
    }
    printf("</TD></TR>\n");
}

static void node_table(const struct dump *d, const struct sons *s, uint32_t level)
{
    open_table("node", s->node);
    node_head(d, s->node, level);
    for (uint32_t k = 0; k < s->count; k++) {
        printf("    <TR><TD PORT=\"s%u\" HEIGHT=\"%d\">", k, ROW);
        if (s->met[k]) {
            printf("%u", s->records[k]);
        } else {
            astray(d, s->records[k]);
        }
        printf("</TD></TR>\n    <TR>");
        if (k + 1 < s->count) {
            open_cell(FAINT, SLIT);
            printf("<FONT POINT-SIZE=\"9\">up to ");
            print_key(word(d, s->node, NODE_BOUNDS + k));
            printf("</FONT></TD></TR>\n");
        } else {
            printf("<TD BORDER=\"0\" HEIGHT=\"%d\"></TD></TR>\n", SLIT);
        }
    }
    close_table();
}

// ---- descriptors

static void print_member(const struct dump *d, uint32_t entry)
{
    printf("%u", entry);
    if (entry < 1 || entry > d->entries) {
        return;
    }
    uint32_t share = entry_word(d, entry, 1), exclusive = entry_word(d, entry, 2);
    if (share != 0) {
        printf(" (share ");
        print_sessions(share);
        printf(")");
    }
    if (exclusive != 0) {
        printf(" (exclusive ");
        print_sessions(exclusive);
        printf(")");
    }
}

enum { MEMBERS_A_LINE = 4 };

static void members_cell(const struct dump *d, uint32_t first, uint32_t count)
{
    uint32_t i = first;
    open_cell(PLAIN, ROW);
    if (first == 0) {
        printf("-");
    }
    for (uint32_t k = 0; k < count; k++) {
        printf("%s", k == 0 ? "" : k % MEMBERS_A_LINE == 0 ? "<BR/>" : ", ");
        print_member(d, word(d, i, MEMBER_ENTRY));
        i = word(d, i, NEXT);
    }
    if (i != 0) {
        astray(d, i);
    }
    printf("</TD>");
}

// The descriptor that was met at this place, and the gap above it.
static void descriptor_rows(const struct dump *d, uint32_t place, uint32_t port)
{
    uint32_t i = d->descriptors[place], pins = word(d, i, DESC_PINS), gap = word(d, i, DESC_GAP);
    printf("    <TR><TD PORT=\"d%u\" HEIGHT=\"%d\">%u</TD>", port, ROW, i);
    open_cell(PLAIN, ROW);
    printf("<B>");
    print_key(word(d, i, DESC_KEY));
    printf("</B></TD>");
    members_cell(d, word(d, i, DESC_MEMBER), d->members[place]);
    holders_cell(word(d, i, DESC_LOCATE), LOCATED);
    holders_cell(word(d, i, DESC_UPDATE), UPDATED);
    number_cell(pins, pins == 0 ? PLAIN : LATCHED);
    printf("</TR>\n    <TR><TD COLSPAN=\"6\" HEIGHT=\"%d\" BGCOLOR=\"%s\"><FONT POINT-SIZE=\"9\">gap", SLIT,
           gap == 0 ? FAINT : LOCATED);
    if (gap != 0) {
        printf(", locate ");
        print_sessions(gap);
    }
    printf("</FONT></TD></TR>\n");
}

static void descriptor_table(const struct dump *d, const struct sons *s)
{
    static const char *const names[] = {"record", "key", "members", "locate", "update", "pins"};
    static const int widths[] = {44, 140, 100, 44, 46, 32};
    open_table("under", s->node);
    printf("    <TR>");
    for (size_t k = 0; k < sizeof names / sizeof names[0]; k++) {
        printf("<TD BGCOLOR=\"" HEAD "\" HEIGHT=\"%d\" WIDTH=\"%d\">%s</TD>", ROW, widths[k], names[k]);
    }
    printf("</TR>\n");
    for (uint32_t k = 0; k < s->met_count; k++) {
        descriptor_rows(d, s->from + k, k);
    }
    close_table();
}

// ---- the tree

// Lines from a node to its sons that were met.
static void lines(const struct sons *s, uint32_t level)
{
    uint32_t met = 0;
    for (uint32_t k = 0; k < s->count; k++) {
        if (!s->met[k]) {
            continue;
        }
        if (level == 1) {
            printf("  node%u:s%u:e -> under%u:d%u:w\n", s->node, k, s->node, met);
        } else {
            printf("  node%u:s%u:e -> node%u:head:w [minlen=3]\n", s->node, k, s->records[k]);
        }
        met += 1;
    }
}

static void print_level(const struct dump *d, uint32_t l)
{
    int lowest = l + 1 == d->levels;
    uint32_t end = lowest ? d->node_count : d->level_start[l + 1];
    struct below b = {d->nodes, d->node_count, end};
    if (lowest) {
        struct below all = {d->descriptors, d->descriptor_count, 0};
        b = all;
    }
    for (uint32_t k = d->level_start[l]; k < end; k++) {
        struct sons s = take_sons(d, d->nodes[k], &b);
        node_table(d, &s, d->levels - l);
        if (lowest && s.met_count > 0) {
            descriptor_table(d, &s);
        }
        lines(&s, d->levels - l);
    }
}

// ---- the title

static void party_row(const struct dump *d, uint32_t p)
{
    const struct entry_store_session *s = &d->host.table[p];
    printf("    <TR><TD ALIGN=\"LEFT\"><B>");
    party_name(p);
    if (p == ENTRY_STORE_HOUSEKEEPER) {
        printf("</B></TD><TD>-</TD>");
    } else if (s->begun == 0) {
        printf("</B>, not begun</TD><TD>-</TD>");
    } else {
        printf("</B>%s</TD><TD>%u</TD>", s->asked != 0 ? ", asked" : "", s->order);
    }
    printf("<TD ALIGN=\"LEFT\">");
    if (s->stage == NO_REQUEST) {
        printf("-");
    } else {
        print_request(s);
    }
    printf("</TD><TD ALIGN=\"LEFT\">");
    print_stage(s);
    printf("</TD><TD>%u</TD></TR>\n", d->undos[p]);
}

static void party_rows(const struct dump *d)
{
    printf("    <TR><TD BGCOLOR=\"" HEAD "\">party</TD><TD BGCOLOR=\"" HEAD "\">order</TD>"
           "<TD BGCOLOR=\"" HEAD "\">request in hand</TD>"
           "<TD BGCOLOR=\"" HEAD "\">where it stands</TD><TD BGCOLOR=\"" HEAD "\">undo records</TD></TR>\n");
    for (uint32_t p = 0; p < ENTRY_STORE_PARTIES; p++) {
        if (takes_part(d, p)) {
            party_row(d, p);
        }
    }
}

// Which entries are in a group, by number.
static void mark_grouped(const struct dump *d, unsigned char *grouped)
{
    for (uint32_t k = 0; k < d->descriptor_count; k++) {
        uint32_t i = word(d, d->descriptors[k], DESC_MEMBER);
        for (uint32_t m = 0; m < d->members[k]; m++, i = word(d, i, NEXT)) {
            uint32_t entry = word(d, i, MEMBER_ENTRY);
            grouped[entry <= d->entries ? entry : 0] = 1;
        }
    }
}

// Entries that are held and in no group, as between a write and its insert.
static void lone_row(const struct dump *d)
{
    unsigned char grouped[ENTRY_STORE_MAX_ENTRIES + 1] = {0};
    uint32_t count = 0;
    mark_grouped(d, grouped);
    for (uint32_t e = 1; e <= d->entries; e++) {
        if (!grouped[e] && (entry_word(d, e, 1) != 0 || entry_word(d, e, 2) != 0)) {
            printf("%s", count == 0 ? "    <TR><TD COLSPAN=\"5\">entries held and in no group: "
                         : count % MEMBERS_A_LINE == 0 ? "<BR/>"
                                                       : ", ");
            print_member(d, e);
            count += 1;
        }
    }
    printf("%s", count == 0 ? "" : "</TD></TR>\n");
}

static void print_title(const struct dump *d, enum image_state state, uint32_t fault)
{
    uint32_t met = d->node_count + d->descriptor_count + d->member_count + d->undo_count + d->free_count;
    printf("  label=<<TABLE BORDER=\"0\" CELLBORDER=\"1\" CELLSPACING=\"0\" CELLPADDING=\"3\">\n"
           "    <TR><TD COLSPAN=\"5\" BORDER=\"0\">%u entries, %u records: %u nodes, %u descriptors, %u "
           "memberships, "
           "%u undo records, <B>%u free</B>, %u not reached</TD></TR>\n",
           d->entries, d->records, d->node_count, d->descriptor_count, d->member_count, d->undo_count,
           d->free_count, d->records - met);
    printf("    <TR><TD COLSPAN=\"5\" BORDER=\"0\">");
    if (fault == 0) {
        printf("sound%s", state == IMAGE_GOOD ? "" : ", but the sum differs");
    } else {
        printf("<FONT COLOR=\"" ASTRAY "\">not sound: part %u (%s) fails</FONT>", fault,
               entry_store_part_text(fault));
    }
    printf("; blue: held to locate, orange: held to update, red: latched or pinned</TD></TR>\n");
    party_rows(d);
    lone_row(d);
    printf("    <TR><TD COLSPAN=\"5\" BORDER=\"0\"> </TD></TR>\n    </TABLE>>\n");
}

// ---- the whole

void print_dot(const struct dump *d, enum image_state state, uint32_t fault)
{
    printf("digraph store {\n"
           "  rankdir=LR; splines=line; ranksep=0.5; nodesep=0.25; labelloc=t; bgcolor=white\n"
           "  fontname=\"Helvetica\"; fontsize=11\n"
           "  node [shape=plain, fontname=\"Helvetica\", fontsize=11]\n"
           "  edge [arrowsize=0.5, color=\"#666666\"]\n");
    print_title(d, state, fault);
    for (uint32_t l = 0; l < d->levels; l++) {
        print_level(d, l);
    }
    printf("}\n");
}
