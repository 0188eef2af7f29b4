#include "wages.h"
#include "replace.h"

#include <errno.h>
#include <stdio.h>
#include <string.h>

// A line for each run: its number, and yes or no.
enum { MAX_FILE = 4096 };

// The file as a text; one that is not there is empty. 0 where it cannot be read.
static int read_file(const char *path, char text[MAX_FILE])
{
    FILE *file = fopen(path, "r");
    text[0] = 0;
    if (file == NULL) {
        return errno == ENOENT;
    }
    size_t length = fread(text, 1, MAX_FILE - 1, file);
    int whole = !ferror(file) && fgetc(file) == EOF;
    text[length] = 0;
    fclose(file);
    return whole;
}

static enum decision find_run(const char *text, uint32_t run)
{
    unsigned number;
    char word[4];
    for (const char *line = text; sscanf(line, "%u %3s", &number, word) == 2; line = strchr(line, '\n') + 1) {
        if (number == run) {
            return strcmp(word, "yes") == 0 ? YES : NO;
        }
    }
    return UNDECIDED;
}

enum decision wages_decision(const char *path, uint32_t run)
{
    char text[MAX_FILE];
    return read_file(path, text) ? find_run(text, run) : NOT_READ;
}

// What this toy has against even runs is its own affair.
enum decision wages_decide(const char *path, uint32_t run)
{
    char text[MAX_FILE], line[32];
    if (!read_file(path, text)) {
        return NOT_READ;
    }
    enum decision d = find_run(text, run);
    if (d != UNDECIDED) {
        return d;
    }
    d = run % 2 == 1 ? YES : NO;
    snprintf(line, sizeof line, "%u %s\n", (unsigned)run, d == YES ? "yes" : "no");
    if (strlen(text) + strlen(line) >= MAX_FILE) {
        return NOT_READ;
    }
    strcat(text, line);
    return replace_file(path, (const unsigned char *)text, strlen(text)) ? d : NOT_READ;
}
