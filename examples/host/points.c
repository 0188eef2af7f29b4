#define _POSIX_C_SOURCE 200809L
#include "points.h"

#include <signal.h>
#include <stdio.h>
#include <unistd.h>

static unsigned passed, chosen;

void points_start(unsigned kill_at)
{
    passed = 0;
    chosen = kill_at;
}

void point(void)
{
    passed += 1;
    if (passed == chosen) {
        raise(SIGKILL);
    }
}

// ---- the steps of writing a file

ssize_t __real_write(int file, const void *bytes, size_t count);
ssize_t __wrap_write(int file, const void *bytes, size_t count);
int __wrap_fsync(int file);
int __real_rename(const char *from, const char *to);
int __wrap_rename(const char *from, const char *to);

// A new file is there, with nothing in it; or with half of its bytes.
ssize_t __wrap_write(int file, const void *bytes, size_t count)
{
    point();
    ssize_t half = __real_write(file, bytes, count / 2);
    point();
    if (half < 0) {
        return half;
    }
    ssize_t rest = __real_write(file, (const char *)bytes + half, count - (size_t)half);
    return rest < 0 ? rest : half + rest;
}

// All bytes are there, or the file has its new name. What a killed program has written is in the system's
// hands, and stays; only a power cut needs the disk, and none is played here. So nothing waits for the disk.
int __wrap_fsync(int file)
{
    (void)file;
    point();
    return 0;
}

// All is written, and the old file has its name still.
int __wrap_rename(const char *from, const char *to)
{
    point();
    return __real_rename(from, to);
}
