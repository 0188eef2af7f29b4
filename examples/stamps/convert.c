/* Converts local dates and times to UTC minutes, and back: what a planner does with a list from an older reader.
 *
 *     convert             shows the nights of 2024 in which clocks are put back and on
 *     convert BASE FILE   converts the lines of a file, of standard input where FILE is -
 *
 * Each line has a local date and time, as 2024-10-27 02:30, with the word summer or winter behind it where it is
 * marked; or a UTC minute since 1 January 1970, as 28833150. What follows a # counts for nothing, and empty lines are
 * left out. A refusal is an answer as any other, with its number and the reason. A line of neither form is named on
 * standard error.
 *
 * From the project's root, where make archive has proved and built the archive:
 *     cc -std=c99 -Iinclude examples/stamps/convert.c examples/stamps/lines.c \
 *         target/staticlib/liblocal_stamps.a -o target/convert
 *
 * Exit status: 0; 1 where a line has neither form; 2 where the file cannot be read, what is printed cannot be written,
 * or the arguments are wrong. */
#include "lines.h"
#include "local_stamps.h"

#include <errno.h>
#include <stdio.h>
#include <string.h>
#include <time.h>

enum { COLUMN = 26 };

struct stamp {
    uint32_t year, month, day, hour, minute, mark;
};

// ---- the two calls, and their answers as texts

static const char *mark_text(uint32_t mark)
{
    switch (mark) {
    case LOCAL_STAMP_SUMMER: return " summer";
    case LOCAL_STAMP_WINTER: return " winter";
    default: return "";
    }
}

static void stamp_text(char *text, size_t room, const struct stamp *s)
{
    snprintf(text, room, "%04u-%02u-%02u %02u:%02u%s", s->year, s->month, s->day, s->hour, s->minute,
             mark_text(s->mark));
}

// A UTC minute in words, by the C library's calendar.
static void utc_text(char *text, size_t room, uint32_t utc)
{
    time_t seconds = (time_t)utc * 60;
    const struct tm *t = gmtime(&seconds);
    if (t == NULL || strftime(text, room, "%Y-%m-%d %H:%M", t) == 0) {
        snprintf(text, room, "no date");
    }
}

static void print_refusal(uint32_t number)
{
    printf("refused %u: %s\n", number, local_stamp_refusal_text(number));
}

// A stamp, and behind it the UTC minute.
static void show_stamp(uint32_t base, const struct stamp *s)
{
    char text[64], utc[64];
    uint32_t answer = local_stamp_to_utc(base, s->year, s->month, s->day, s->hour, s->minute, s->mark);
    stamp_text(text, sizeof text, s);
    printf("%-*s", COLUMN, text);
    if (local_stamp_is_refusal(answer)) {
        print_refusal(answer);
    } else {
        utc_text(utc, sizeof utc, answer);
        printf("%-10u%s UTC\n", answer, utc);
    }
}

// The stamp of a UTC minute: 1, or 0 and the refusal.
static int find_stamp(uint32_t base, uint32_t utc, struct stamp *s, uint32_t *refusal)
{
    uint8_t bytes[LOCAL_STAMP_BYTES];
    *refusal = local_stamp_of_utc(base, utc, bytes, sizeof bytes);
    if (*refusal != 0) {
        return 0;
    }
    s->year = local_stamp_year(bytes);
    s->month = bytes[LOCAL_STAMP_MONTH];
    s->day = bytes[LOCAL_STAMP_DAY];
    s->hour = bytes[LOCAL_STAMP_HOUR];
    s->minute = bytes[LOCAL_STAMP_MINUTE];
    s->mark = bytes[LOCAL_STAMP_MARK];
    return 1;
}

// A UTC minute, and behind it the stamp.
static void show_minute(uint32_t base, uint32_t utc)
{
    struct stamp s;
    char text[64];
    uint32_t refusal;
    printf("%-*u", COLUMN, utc);
    if (find_stamp(base, utc, &s, &refusal)) {
        stamp_text(text, sizeof text, &s);
        printf("%s\n", text);
    } else {
        print_refusal(refusal);
    }
}

// ---- two nights

// The half hours from one UTC minute to another, with what a local clock shows.
static void show_hours(uint32_t base, uint32_t from, uint32_t to)
{
    struct stamp s;
    char utc[64], local[64];
    uint32_t refusal;
    printf("\n%-14s%-20s%s\n", "UTC minute", "UTC", "local");
    for (uint32_t t = from; t <= to; t += 30) {
        if (find_stamp(base, t, &s, &refusal)) {
            utc_text(utc, sizeof utc, t);
            stamp_text(local, sizeof local, &s);
            printf("%-14u%-20s%s\n", t, utc, local);
        }
    }
}

// How a date and time reads without a mark and with each of the two.
static void show_readings(uint32_t base, struct stamp s)
{
    printf("\n");
    for (s.mark = LOCAL_STAMP_UNMARKED; s.mark <= LOCAL_STAMP_WINTER; s.mark++) {
        show_stamp(base, &s);
    }
}

static void show_nights(void)
{
    const uint32_t base = 60;
    const struct stamp october = {2024, 10, 27, 2, 30, 0}, march = {2024, 3, 31, 2, 30, 0};
    printf("27 October 2024, base offset 60: clocks are put back an hour, and show 02:00 to 02:59 twice.\n");
    show_hours(base, 28833090, 28833240);
    show_readings(base, october);
    printf("\n31 March 2024, base offset 60: clocks are put on an hour, and no clock shows 02:00 to 02:59.\n");
    show_hours(base, 28530720, 28530840);
    show_readings(base, march);
}

// ---- a list

// Reads a number of exactly so many digits and the character behind it. A 0 stands for the end of the line.
static const char *take_field(const char *at, int digits, char behind, uint32_t *number)
{
    const char *end = at == NULL ? NULL : take_number(at, digits, number);
    if (end == NULL || end - at != digits || *end != behind) {
        return NULL;
    }
    return behind == 0 ? end : end + 1;
}

// Cuts the mark's word from the end of a line. A line has single blanks by now.
static uint32_t cut_mark(char *text)
{
    static const uint32_t marks[] = {LOCAL_STAMP_SUMMER, LOCAL_STAMP_WINTER};
    for (int k = 0; k < 2; k++) {
        const char *word = mark_text(marks[k]);
        size_t length = strlen(text), cut = strlen(word);
        if (length > cut && strcmp(text + length - cut, word) == 0) {
            text[length - cut] = 0;
            return marks[k];
        }
    }
    return LOCAL_STAMP_UNMARKED;
}

static int is_stamp(char *text, struct stamp *s)
{
    s->mark = cut_mark(text);
    const char *at = take_field(text, 4, '-', &s->year);
    at = take_field(at, 2, '-', &s->month);
    at = take_field(at, 2, ' ', &s->day);
    at = take_field(at, 2, ':', &s->hour);
    return take_field(at, 2, 0, &s->minute) != NULL;
}

static int is_minute(const char *text, uint32_t *utc)
{
    const char *end = take_number(text, 10, utc);
    return end != NULL && *end == 0;
}

// Leaves out what follows a #, blanks at both ends and all but one blank between two words.
static void tidy_line(char *text)
{
    char *to = text;
    text[strcspn(text, "#")] = 0;
    for (const char *word = text + strspn(text, " \t\r"); *word != 0; word += strspn(word, " \t\r")) {
        size_t length = strcspn(word, " \t\r");
        if (to != text) {
            *to++ = ' ';
        }
        memmove(to, word, length);
        to += length;
        word += length;
    }
    *to = 0;
}

// Converts a line, whose text is changed. 0 where it has neither form.
static int convert_line(uint32_t base, char *text)
{
    struct stamp s;
    uint32_t utc;
    tidy_line(text);
    if (text[0] == 0) {
        return 1;
    }
    if (is_minute(text, &utc)) {
        show_minute(base, utc);
        return 1;
    }
    if (is_stamp(text, &s)) {
        show_stamp(base, &s);
        return 1;
    }
    return 0;
}

static int convert_file(uint32_t base, FILE *file, const char *name)
{
    char text[LINE_ROOM];
    int status = 0;
    for (unsigned long number = 1; read_line(file, text); number++) {
        if (!convert_line(base, text)) {
            fflush(stdout);
            fprintf(stderr, "convert: %s, line %lu: no date and time and no UTC minute\n", name, number);
            status = 1;
        }
    }
    if (ferror(file)) {
        fprintf(stderr, "convert: %s cannot be read: %s\n", name, strerror(errno));
        return 2;
    }
    return status;
}

// ---- the program

static const char usage[] =
    "usage: convert [BASE FILE]\n"
    "Shows two nights of 2024; or converts the lines of a file between local stamps and UTC minutes.\n"
    "  BASE    the base offset: 0, 60 or 120\n"
    "  FILE    in each line a date and time, and summer or winter behind it if it is marked (2024-10-27 02:30\n"
    "          summer), or a UTC minute since 1970 (28833150); - is standard input\n"
    "  --help  prints this\n"
    "The exit status is 0, 1 where a line has another form, 2 where a file cannot be read, what is printed\n"
    "cannot be written, or for wrong arguments.\n";

static int convert_list(uint32_t base, const char *path)
{
    if (strcmp(path, "-") == 0) {
        return convert_file(base, stdin, "standard input");
    }
    FILE *file = fopen(path, "r");
    if (file == NULL) {
        fprintf(stderr, "convert: %s cannot be read: %s\n", path, strerror(errno));
        return 2;
    }
    int status = convert_file(base, file, path);
    fclose(file);
    return status;
}

static int wrong_arguments(const char *what, const char *word)
{
    fprintf(stderr, "convert: %s%s\n%s", what, word, usage);
    return 2;
}

// The base offset is one that the library takes.
static int is_base(const char *text, uint32_t *base)
{
    struct stamp s;
    uint32_t refusal;
    return is_minute(text, base) && find_stamp(*base, LOCAL_STAMP_FIRST_UTC, &s, &refusal);
}

static int run(int count, char **words)
{
    uint32_t base;
    if (count == 1) {
        show_nights();
        return 0;
    }
    if (strcmp(words[1], "--help") == 0) {
        fputs(usage, stdout);
        return 0;
    }
    if (words[1][0] == '-') {
        return wrong_arguments("no such option: ", words[1]);
    }
    if (!is_base(words[1], &base)) {
        return wrong_arguments("no such base offset: ", words[1]);
    }
    return count == 3 ? convert_list(base, words[2]) : wrong_arguments("a base offset and one file", "");
}

int main(int count, char **words)
{
    int status = run(count, words);
    if (fflush(stdout) != 0 || ferror(stdout)) {
        fprintf(stderr, "convert: what it prints cannot be written: %s\n", strerror(errno));
        return 2;
    }
    return status;
}
