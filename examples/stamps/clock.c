// Holds the two conversions to a wall clock that ticks, and to the C library.
//
// Usage: clock [--all]. No rule of local time is computed here: things happen, and are written down. The UTC calendar
// is counted on minute by minute from Thursday 1 January 1970. For each base offset a clock on the wall ticks with it;
// it is put on an hour when UTC reaches 01:00 on a Sunday of March that no other Sunday of that March follows, and
// back an hour likewise in October. For each year that the clock goes through, it is written down which UTC minute
// showed each date and time, in summer and in winter, and which ones the clock was put past. Then each date and time is
// called without a mark and with either:
//   - a mark is accepted if the clock showed the date and time in that season, with that minute, and else 18;
//   - no mark: shown once, it is that minute; shown twice 20; never 19 if the clock was put past it, else 18;
// and the bytes of each of these minutes are what the clock showed then, and what localtime_r has under the same rule.
// Only minutes of the UTC years 2002 to 2105 are written down, so all dates and times of no such minute are 18.
//
// Arguments that are out of range must be refused 18, with nothing written.
//
// Each minute is looked at of the days of a switch, the days before and after them and the first and the last day of a
// year, and every 61st minute of all other days; with --all each minute of all days.
//
// Exit status: 0; 1 where something differs; 2 where what it prints cannot be written or for wrong arguments.
#define _POSIX_C_SOURCE 200112L // localtime_r, setenv, tzset
#include "local_stamps.h"

#include <errno.h>
#include <stdarg.h>
#include <stdio.h>
#include <stdlib.h>
#include <string.h>
#include <time.h>

enum { FIRST_YEAR = 2002, LAST_YEAR = 2105, STRIDE = 61, DAY = 1440, YEAR_DAYS = 366, YEAR_MINUTES = YEAR_DAYS * DAY };
enum { SHOWN_DIFFERENCES = 10, AROUND = 8, MOST_LENT = 65543, FILLED = 170 };

static const uint32_t marks[] = {LOCAL_STAMP_SUMMER, LOCAL_STAMP_WINTER};
enum { SUMMER, WINTER, SEASONS };

// The base offsets, each with its rule for the C library.
static const struct zone {
    uint32_t base;
    const char *rule;
} zones[] = {
    {0, "WET0WEST,M3.5.0/1,M10.5.0/2"},
    {60, "CET-1CEST,M3.5.0/2,M10.5.0/3"},
    {120, "EET-2EEST,M3.5.0/3,M10.5.0/4"},
};
enum { ZONES = sizeof zones / sizeof zones[0] };

// ---- what is counted

static struct {
    int is_all;
    unsigned long calls, differences;
    unsigned long minutes, faces, skipped, doubled; // of one base offset
} seen;

static void differ(const char *form, ...)
{
    if (seen.differences < SHOWN_DIFFERENCES) {
        va_list words;
        va_start(words, form);
        vprintf(form, words);
        va_end(words);
        printf("\n");
    }
    seen.differences += 1;
}

// ---- dates and times, counted on

// What a clock with a calendar shows, and the number of the minute in its year, counted from 0.
struct face {
    uint32_t year, month, day, hour, minute, place;
};

static int is_leap(uint32_t year)
{
    return year % 4 == 0 && (year % 100 != 0 || year % 400 == 0);
}

static uint32_t month_length(uint32_t year, uint32_t month)
{
    static const uint8_t lengths[] = {31, 28, 31, 30, 31, 30, 31, 31, 30, 31, 30, 31};
    return month == 2 && is_leap(year) ? 29 : lengths[month - 1];
}

static void next_day(struct face *f)
{
    f->day += 1;
    if (f->day > month_length(f->year, f->month)) {
        f->day = 1;
        f->month += 1;
    }
    if (f->month > 12) {
        f->month = 1;
        f->year += 1;
        f->place = 0;
    }
}

static void tick(struct face *f)
{
    f->minute += 1;
    f->place += 1;
    if (f->minute == 60) {
        f->minute = 0;
        f->hour += 1;
    }
    if (f->hour == 24) {
        f->hour = 0;
        next_day(f);
    }
}

static struct face first_face(uint32_t year)
{
    struct face f = {year, 1, 1, 0, 0, 0};
    return f;
}

// ---- UTC

struct utc {
    uint32_t minute; // since 1 January 1970
    struct face face;
    int weekday; // 0 is Sunday
};

static void tick_utc(struct utc *u)
{
    u->minute += 1;
    tick(&u->face);
    if (u->face.hour == 0 && u->face.minute == 0) {
        u->weekday = u->weekday == 6 ? 0 : u->weekday + 1;
    }
}

// Whether it is 01:00 on the last Sunday of a month.
static int is_switch(const struct utc *u, uint32_t month)
{
    const struct face *f = &u->face;
    return f->month == month && f->hour == 1 && f->minute == 0 && u->weekday == 0 &&
           f->day + 7 > month_length(f->year, f->month);
}

static int is_in_range(const struct utc *u)
{
    return u->face.year >= FIRST_YEAR && u->face.year <= LAST_YEAR;
}

// ---- what is written down of a year, by the place of a date and time in it

static struct {
    uint32_t shown[SEASONS][YEAR_MINUTES]; // the UTC minute that showed it in a season, 0 for none
    uint8_t is_past[YEAR_MINUTES];         // the clock was put past it
    uint8_t is_near[YEAR_DAYS];            // each minute of this day is looked at
} notes;

static void clear_notes(void)
{
    memset(&notes, 0, sizeof notes);
}

// The day of a place, and those before and after it.
static void note_near(uint32_t place)
{
    uint32_t day = place / DAY;
    notes.is_near[day - 1] = notes.is_near[day] = notes.is_near[day + 1] = 1;
}

// ---- the clock on the wall

struct wall {
    struct face face;
    int season;
};

static void put_on(struct wall *w, int is_noted)
{
    note_near(w->face.place);
    for (int k = 0; k < 60; k++) {
        notes.is_past[w->face.place] = (uint8_t)is_noted;
        tick(&w->face);
    }
    w->season = SUMMER;
}

// Clocks are put back in the night, and never past midnight.
static void put_back(struct wall *w)
{
    note_near(w->face.place);
    w->face.hour -= 1;
    w->face.place -= 60;
    w->season = WINTER;
}

static void tick_wall(struct wall *w, const struct utc *u)
{
    tick(&w->face);
    if (is_switch(u, 3)) {
        put_on(w, is_in_range(u));
    } else if (is_switch(u, 10)) {
        put_back(w);
    }
}

// ---- the calls, held to what is expected

static void expect_reading(uint32_t base, const struct face *f, uint32_t mark, uint32_t expected)
{
    uint32_t answer = local_stamp_to_utc(base, f->year, f->month, f->day, f->hour, f->minute, mark);
    seen.calls += 1;
    if (answer != expected) {
        differ("utc %u %u %u %u %u %u %u = %u, and not %u", base, f->year, f->month, f->day, f->hour, f->minute, mark,
               answer, expected);
    }
}

// The lent bytes, with others on both sides.
static uint8_t room[AROUND + MOST_LENT + AROUND];

static int is_left(const uint8_t *bytes, size_t count)
{
    size_t k = 0;
    while (k < count && bytes[k] == FILLED) {
        k++;
    }
    return k == count;
}

static void expect_refused(uint32_t base, uint32_t utc, size_t length)
{
    size_t count = AROUND + length + AROUND;
    memset(room, FILLED, count);
    uint32_t answer = local_stamp_of_utc(base, utc, room + AROUND, length);
    seen.calls += 1;
    if (answer != LOCAL_STAMP_OUT_OF_RANGE || !is_left(room, count)) {
        differ("local %u %u %zu = %u, and not 18 with nothing written", base, utc, length, answer);
    }
}

// Seven bytes as one number.
static unsigned long long number_of(const uint8_t *bytes)
{
    unsigned long long n = 0;
    for (int k = 0; k < LOCAL_STAMP_BYTES; k++) {
        n = n << 8 | bytes[k];
    }
    return n;
}

static unsigned long long number_of_fields(uint32_t year, uint32_t month, uint32_t day, uint32_t hour, uint32_t minute,
                                           uint32_t mark)
{
    unsigned long long n = year;
    n = n << 8 | month;
    n = n << 8 | day;
    n = n << 8 | hour;
    n = n << 8 | minute;
    return n << 8 | mark;
}

// What the C library shows in a UTC minute.
static unsigned long long library_number(uint32_t utc)
{
    struct tm t;
    time_t seconds = (time_t)utc * 60;
    if (localtime_r(&seconds, &t) == NULL) {
        return 0;
    }
    return number_of_fields((uint32_t)t.tm_year + 1900, (uint32_t)t.tm_mon + 1, (uint32_t)t.tm_mday,
                            (uint32_t)t.tm_hour, (uint32_t)t.tm_min, marks[t.tm_isdst > 0 ? SUMMER : WINTER]);
}

static void expect_stamp(uint32_t base, uint32_t utc, const struct face *f, uint32_t mark)
{
    unsigned long long expected = number_of_fields(f->year, f->month, f->day, f->hour, f->minute, mark);
    uint8_t *lent = room + AROUND;
    memset(room, FILLED, AROUND + LOCAL_STAMP_BYTES + AROUND);
    uint32_t answer = local_stamp_of_utc(base, utc, lent, LOCAL_STAMP_BYTES);
    seen.calls += 1;
    seen.minutes += 1;
    if (answer != 0 || number_of(lent) != expected) {
        differ("local %u %u 7 = %u %014llx, and not 0 %014llx (the bytes in base 16)", base, utc, answer,
               number_of(lent), expected);
    }
    if (!is_left(room, AROUND) || !is_left(lent + LOCAL_STAMP_BYTES, AROUND)) {
        differ("local %u %u 7 writes beside the lent bytes", base, utc);
    }
    if (library_number(utc) != expected) {
        differ("localtime_r in UTC minute %u, base offset %u: %014llx, and not %014llx", utc, base, library_number(utc),
               expected);
    }
}

// ---- a year that the clock has gone through

static uint32_t unmarked(uint32_t summer, uint32_t winter, int is_past)
{
    if (summer != 0 && winter != 0) {
        seen.doubled += 1;
        return LOCAL_STAMP_DOUBLED;
    }
    if (summer != 0 || winter != 0) {
        return summer != 0 ? summer : winter;
    }
    seen.skipped += is_past ? 1 : 0;
    return is_past ? LOCAL_STAMP_SKIPPED : LOCAL_STAMP_OUT_OF_RANGE;
}

static void look_at(uint32_t base, const struct face *f)
{
    uint32_t summer = notes.shown[SUMMER][f->place], winter = notes.shown[WINTER][f->place];
    seen.faces += 1;
    expect_reading(base, f, LOCAL_STAMP_UNMARKED, unmarked(summer, winter, notes.is_past[f->place]));
    for (int season = SUMMER; season < SEASONS; season++) {
        uint32_t utc = notes.shown[season][f->place];
        expect_reading(base, f, marks[season], utc != 0 ? utc : LOCAL_STAMP_OUT_OF_RANGE);
        if (utc != 0) {
            expect_stamp(base, utc, f, marks[season]);
        }
    }
}

static int is_looked_at(const struct face *f)
{
    int is_end = (f->month == 1 && f->day == 1) || (f->month == 12 && f->day == 31);
    return seen.is_all || is_end || notes.is_near[f->place / DAY] || f->place % STRIDE == 0;
}

static void look_at_year(uint32_t base, uint32_t year)
{
    for (struct face f = first_face(year); f.year == year; tick(&f)) {
        if (is_looked_at(&f)) {
            look_at(base, &f);
        }
    }
}

// ---- the clock goes

// A UTC minute has come: the clock on the wall ticks, and its year is looked at where it is over.
static void pass_minute(uint32_t base, struct wall *w, const struct utc *u)
{
    uint32_t year = w->face.year;
    tick_wall(w, u);
    if (w->face.year != year) {
        if (year >= FIRST_YEAR - 1) {
            look_at_year(base, year);
        }
        clear_notes();
    }
    if (is_in_range(u)) {
        notes.shown[w->season][w->face.place] = u->minute;
    } else if (u->face.year >= FIRST_YEAR - 1 && is_looked_at(&u->face)) {
        expect_refused(base, u->minute, LOCAL_STAMP_BYTES);
    }
}

// The header's two ends are the first minutes of these years.
static void look_at_ends(const struct utc *u)
{
    if (u->face.place == 0 && u->face.year == FIRST_YEAR && u->minute != LOCAL_STAMP_FIRST_UTC) {
        differ("LOCAL_STAMP_FIRST_UTC is not %u", u->minute);
    }
    if (u->face.place == 0 && u->face.year == LAST_YEAR + 1 && u->minute != LOCAL_STAMP_END_UTC) {
        differ("LOCAL_STAMP_END_UTC is not %u", u->minute);
    }
}

static void set_rule(const char *rule)
{
    if (setenv("TZ", rule, 1) != 0) {
        perror("clock: TZ");
        exit(2);
    }
    tzset();
}

// From 1970 until the clock on the wall has gone through the year after the last.
static void keep_clock(const struct zone *zone)
{
    struct utc u = {0, first_face(1970), 4};
    struct wall w = {first_face(1970), WINTER};
    for (uint32_t k = 0; k < zone->base; k++) {
        tick(&w.face);
    }
    seen.minutes = seen.faces = seen.skipped = seen.doubled = 0;
    clear_notes();
    set_rule(zone->rule);
    while (w.face.year <= LAST_YEAR + 1) {
        tick_utc(&u);
        look_at_ends(&u);
        pass_minute(zone->base, &w, &u);
    }
    printf("base offset %3u: %9lu UTC minutes, %9lu dates and times, %lu of them skipped and %lu doubled\n", zone->base,
           seen.minutes, seen.faces, seen.skipped, seen.doubled);
}

// ---- arguments that are out of range

// Words at which a test that is too narrow, or a sum that wraps, would show.
static const uint32_t far_words[] = {
    0,          1,          60,         255,        256,        1440,       65535,      65536,      16777216,
    2147483647, 2147483648, 2147483649, 4294967235, 4294967236, 4294967237, 4294967294, 4294967295,
};
enum { FAR_WORDS = sizeof far_words / sizeof far_words[0], CANDIDATES = 3 * FAR_WORDS + 4 };

// Words near the ends of a range and far from it; those that lie in it are left out. How many there are.
static int words_outside(uint32_t low, uint32_t high, uint32_t good, uint32_t found[CANDIDATES])
{
    uint32_t all[CANDIDATES] = {low - 1, low - 2, high + 1, high + 2};
    int count = 0;
    for (int k = 0; k < FAR_WORDS; k++) {
        all[4 + 3 * k] = far_words[k];
        all[5 + 3 * k] = far_words[k] + good;
        all[6 + 3 * k] = far_words[k] - good;
    }
    for (int k = 0; k < CANDIDATES; k++) {
        if (all[k] < low || all[k] > high) {
            found[count++] = all[k];
        }
    }
    return count;
}

// A field of a good date and time takes words outside its range. The field lies in this very face.
static void look_at_field(struct face *f, uint32_t *field, uint32_t low, uint32_t high)
{
    uint32_t good = *field, words[CANDIDATES];
    int count = words_outside(low, high, good, words);
    for (int k = 0; k < count; k++) {
        *field = words[k];
        for (int z = 0; z < ZONES; z++) {
            for (uint32_t mark = 0; mark <= LOCAL_STAMP_WINTER; mark++) {
                expect_reading(zones[z].base, f, mark, LOCAL_STAMP_OUT_OF_RANGE);
            }
        }
    }
    *field = good;
}

static void look_at_marks(const struct face *f)
{
    uint32_t words[CANDIDATES];
    for (uint32_t mark = 0; mark <= LOCAL_STAMP_WINTER; mark++) {
        int count = words_outside(0, LOCAL_STAMP_WINTER, mark, words);
        for (int k = 0; k < count; k++) {
            for (int z = 0; z < ZONES; z++) {
                expect_reading(zones[z].base, f, words[k], LOCAL_STAMP_OUT_OF_RANGE);
            }
        }
    }
}

static void look_at_base(const struct face *f, uint32_t utc, uint32_t base)
{
    for (int z = 0; z < ZONES; z++) {
        if (zones[z].base == base) {
            return;
        }
    }
    for (uint32_t mark = 0; mark <= LOCAL_STAMP_WINTER; mark++) {
        expect_reading(base, f, mark, LOCAL_STAMP_OUT_OF_RANGE);
    }
    expect_refused(base, utc, LOCAL_STAMP_BYTES);
}

static void look_at_bases(const struct face *f, uint32_t utc)
{
    uint32_t words[CANDIDATES];
    for (uint32_t base = 0; base <= 400; base++) {
        look_at_base(f, utc, base);
    }
    for (int z = 0; z < ZONES; z++) {
        int count = words_outside(zones[z].base, zones[z].base, zones[z].base, words);
        for (int k = 0; k < count; k++) {
            look_at_base(f, utc, words[k]);
        }
    }
}

// Days that a month does not have, at noon; 29 February is one of them in most years.
static void look_at_days(void)
{
    for (uint32_t year = FIRST_YEAR; year <= LAST_YEAR; year++) {
        for (uint32_t month = 1; month <= 12; month++) {
            struct face f = {year, month, 1, 12, 0, 0};
            look_at_field(&f, &f.day, 1, month_length(year, month));
        }
    }
}

static void look_at_lengths(uint32_t utc)
{
    static const size_t lengths[] = {256, 263, 65536, MOST_LENT};
    for (int z = 0; z < ZONES; z++) {
        for (size_t length = 0; length <= 16; length++) {
            if (length != LOCAL_STAMP_BYTES) {
                expect_refused(zones[z].base, utc, length);
            }
        }
        for (int k = 0; k < 4; k++) {
            expect_refused(zones[z].base, utc, lengths[k]);
        }
    }
}

static void look_at_minutes(void)
{
    uint32_t words[CANDIDATES];
    int count = words_outside(LOCAL_STAMP_FIRST_UTC, LOCAL_STAMP_END_UTC - 1, LOCAL_STAMP_FIRST_UTC, words);
    for (int k = 0; k < count; k++) {
        for (int z = 0; z < ZONES; z++) {
            expect_refused(zones[z].base, words[k], LOCAL_STAMP_BYTES);
        }
    }
}

// Dates and times, and a UTC minute beside each; some are skipped or doubled, so 18 must come before 19 and 20.
static void look_at_wrong(void)
{
    static const struct {
        struct face face;
        uint32_t utc;
    } near[] = {
        {{2002, 1, 1, 0, 0, 0}, LOCAL_STAMP_FIRST_UTC}, {{2024, 3, 31, 2, 30, 0}, 28530780},
        {{2024, 10, 27, 2, 30, 0}, 28833150},           {{2100, 2, 28, 23, 59, 0}, 68459039},
        {{2104, 2, 29, 12, 30, 0}, 70562070},           {{2106, 1, 1, 0, 0, 0}, LOCAL_STAMP_END_UTC - 1},
    };
    for (size_t k = 0; k < sizeof near / sizeof near[0]; k++) {
        struct face f = near[k].face;
        look_at_field(&f, &f.year, FIRST_YEAR, LAST_YEAR + 1);
        look_at_field(&f, &f.month, 1, 12);
        look_at_field(&f, &f.day, 1, month_length(f.year, f.month));
        look_at_field(&f, &f.hour, 0, 23);
        look_at_field(&f, &f.minute, 0, 59);
        look_at_marks(&f);
        look_at_bases(&f, near[k].utc);
        look_at_lengths(near[k].utc);
    }
    look_at_days();
    look_at_minutes();
}

// ---- the program

static int compare(void)
{
    for (int z = 0; z < ZONES; z++) {
        keep_clock(&zones[z]);
    }
    unsigned long before = seen.calls;
    look_at_wrong();
    printf("arguments that are out of range: %lu calls\n", seen.calls - before);
    printf("%lu calls, %lu differences\n", seen.calls, seen.differences);
    return seen.differences == 0 ? 0 : 1;
}

static const char usage[] =
    "usage: clock [--all]\n"
    "Holds the two conversions to a wall clock that ticks from 1970 to 2106, and to the C library; in ten seconds.\n"
    "  --all   looks at each minute of each year, and not only where something may happen; in four minutes\n"
    "  --help  prints this\n"
    "The exit status is 0, 1 where something differs, 2 where what is printed cannot be written or for wrong\n"
    "arguments.\n";

static int run(int count, char **words)
{
    if (count == 2 && strcmp(words[1], "--help") == 0) {
        fputs(usage, stdout);
        return 0;
    }
    seen.is_all = count == 2 && strcmp(words[1], "--all") == 0;
    if (count > 2 || (count == 2 && !seen.is_all)) {
        fprintf(stderr, "clock: %s%s\n%s", count == 2 ? "no such option: " : "one option", count == 2 ? words[1] : "",
                usage);
        return 2;
    }
    return compare();
}

int main(int count, char **words)
{
    int status = run(count, words);
    if (fflush(stdout) != 0 || ferror(stdout)) {
        fprintf(stderr, "clock: what it prints cannot be written: %s\n", strerror(errno));
        return 2;
    }
    return status;
}
