// The machine that is measured. VECTOR_BITS is given: what the compiler made of the pass in vector code.
#define _DEFAULT_SOURCE
#include <stdio.h>
#include <string.h>
#include <unistd.h>

#include "bench.h"

// The text behind the colon of the first line that starts with a name; empty where there is none.
static void find_line(const char *file, const char *name, char *text, size_t size)
{
    char line[256];
    FILE *in = fopen(file, "r");
    text[0] = 0;
    while (in != NULL && text[0] == 0 && fgets(line, sizeof line, in) != NULL) {
        char *colon = strchr(line, ':');
        if (colon != NULL && strncmp(line, name, strlen(name)) == 0) {
            colon[strcspn(colon, "\n")] = 0;
            snprintf(text, size, "%s", colon + strspn(colon, ": \t"));
        }
    }
    if (in != NULL) {
        fclose(in);
    }
}

void print_machine(void)
{
    char model[128];
    find_line("/proc/cpuinfo", "model name", model, sizeof model);
    printf("Machine: %s, %ld processors. The pass in vector code works on %d bits at a time.\n",
           model[0] == 0 ? "a processor that the system does not name" : model, sysconf(_SC_NPROCESSORS_ONLN), VECTOR_BITS);
}
