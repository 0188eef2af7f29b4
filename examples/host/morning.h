// A morning in the yard, as data for host.c: what six desks have to type in, and what the planner looks for.
#ifndef MORNING_H
#define MORNING_H

#include <stddef.h>
#include <stdint.h>

// No party.
enum { NOBODY = 99 };

// ---- stretches

enum activity { REST, AVAILABILITY, WORK, DRIVING };

static const char *const activity_names[] = {"rest", "availability", "work", "driving"};

static const char *const drivers[] = {"nobody", "Adams", "Berg", "Costa", "Dubois", "Engel", "Farkas"};

enum { ADAMS = 1, BERG, COSTA, DUBOIS, ENGEL, FARKAS, DRIVERS };

// A stretch of one activity. None runs past midnight.
struct stretch {
    uint32_t driver, day, minute, length;
    enum activity activity;
};

// What one desk types in as one session. Its entries are counted up from the first. A desk that looks has,
// before it commits, each minute that it has typed in shown with all that stands there.
struct sheet {
    const char *title;
    uint32_t first_entry;
    size_t count;
    const struct stretch *stretches;
    int looks;
};

#define SHEET(title, first_entry, stretches, looks)                                                          \
    {                                                                                                        \
        title, first_entry, sizeof stretches / sizeof stretches[0], stretches, looks                         \
    }

enum { TYPES = 0, LOOKS = 1 };

enum { HOUR = 60 };

static const struct stretch adams_day[] = {
    {ADAMS, 3, 0, 6 * HOUR, REST}, {ADAMS, 3, 6 * HOUR, 270, DRIVING}, {ADAMS, 3, 630, 45, REST},
    {ADAMS, 3, 675, 255, DRIVING}, {ADAMS, 3, 930, 30, WORK},          {ADAMS, 3, 16 * HOUR, 8 * HOUR, REST},
};

static const struct stretch berg_day[] = {
    {BERG, 3, 0, 5 * HOUR, REST},    {BERG, 3, 5 * HOUR, 4 * HOUR, DRIVING},
    {BERG, 3, 9 * HOUR, HOUR, WORK}, {BERG, 3, 10 * HOUR, 285, DRIVING},
    {BERG, 3, 885, 15, WORK},        {BERG, 3, 15 * HOUR, 9 * HOUR, REST},
};

// A note on paper that comes in late.
static const struct stretch late_notes[] = {
    {ADAMS, 4, 6 * HOUR, HOUR, WORK},
    {BERG, 4, HOUR + 30, HOUR, WORK},
};

// A crew of two: their cards, and the file of their vehicle, have the same minutes. The desks that type them
// in do not wait for each other. Where both look, they do.
static const struct stretch crew_cards[] = {
    {DUBOIS, 3, 6 * HOUR, 270, DRIVING},
    {ENGEL, 3, 6 * HOUR, 270, AVAILABILITY},
};

static const struct stretch crew_vehicle[] = {
    {ENGEL, 3, 6 * HOUR, 270, AVAILABILITY},
    {DUBOIS, 3, 6 * HOUR, 270, DRIVING},
};

static const struct stretch two_cards[] = {
    {FARKAS, 3, 0, 7 * HOUR, REST},           {FARKAS, 3, 7 * HOUR, 4 * HOUR, DRIVING},
    {FARKAS, 3, 11 * HOUR, HOUR, REST},       {FARKAS, 3, 12 * HOUR, 4 * HOUR, DRIVING},
    {FARKAS, 3, 16 * HOUR, 8 * HOUR, REST},   {COSTA, 3, 0, 8 * HOUR, REST},
    {COSTA, 3, 8 * HOUR, 3 * HOUR, WORK},     {COSTA, 3, 11 * HOUR, HOUR, REST},
    {COSTA, 3, 12 * HOUR, 4 * HOUR, DRIVING}, {COSTA, 3, 16 * HOUR, 8 * HOUR, REST},
};

static const struct sheet sheets[] = {
    SHEET("the card of Adams", 1, adams_day, TYPES),
    SHEET("the card of Berg", 7, berg_day, TYPES),
    SHEET("two late notes", 13, late_notes, TYPES),
    SHEET("the cards of the crew Dubois and Engel", 15, crew_cards, LOOKS),
    SHEET("the vehicle file of the crew Dubois and Engel", 17, crew_vehicle, LOOKS),
    SHEET("the cards of Farkas and Costa", 19, two_cards, TYPES),
};

// ---- wishes

// What the planner looks for in one session: a rest of so many minutes of a driver in whole days. It begins
// once a party has ended, and holds what it found for so many rounds, until its user has decided.
struct wish {
    uint32_t driver, first_day, last_day, length;
    uint32_t after, keeps;
};

static const struct wish wishes[] = {
    {COSTA, 1, 2, 9 * HOUR, NOBODY, 0},
    {BERG, 3, 4, 11 * HOUR, 2, 40},
    {BERG, 3, 4, 11 * HOUR, 3, 0},
};

enum { WISHES = sizeof wishes / sizeof wishes[0] };

// ---- sizes

// Too few records for everybody at once, so that 11 is met.
enum { ENTRIES = 32, RECORDS = 84 };

#endif
