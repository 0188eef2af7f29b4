#define _POSIX_C_SOURCE 200809L
#include "replace.h"

#include <errno.h>
#include <fcntl.h>
#include <stdio.h>
#include <stdlib.h>
#include <string.h>
#include <unistd.h>

void free_and_keep_reason(void *memory)
{
    int reason = errno;
    free(memory);
    errno = reason;
}

static int write_all(int file, const unsigned char *bytes, size_t count)
{
    while (count > 0) {
        ssize_t written = write(file, bytes, count);
        if (written <= 0) {
            errno = written == 0 ? EIO : errno;
            return 0;
        }
        bytes += written;
        count -= (size_t)written;
    }
    return 1;
}

// Closes a file of which all was good so far, or not; the reason of the first failure stays in errno.
static int close_after(int file, int good)
{
    int reason = errno;
    if (close(file) != 0 && good) {
        return 0;
    }
    errno = reason;
    return good;
}

// The bytes are on the disk when this answers 1.
static int write_file(const char *path, const unsigned char *bytes, size_t count)
{
    int file = open(path, O_WRONLY | O_CREAT | O_TRUNC, 0644);
    if (file < 0) {
        return 0;
    }
    return close_after(file, write_all(file, bytes, count) && fsync(file) == 0);
}

// The new name is on the disk when this answers 1.
static int sync_folder_of(const char *path)
{
    char *folder = malloc(strlen(path) + 2);
    if (folder == NULL) {
        return 0;
    }
    const char *slash = strrchr(path, '/');
    if (slash == NULL) {
        strcpy(folder, ".");
    } else {
        size_t length = (size_t)(slash - path) + 1;
        memcpy(folder, path, length);
        folder[length] = 0;
    }
    int file = open(folder, O_RDONLY);
    free_and_keep_reason(folder);
    if (file < 0) {
        return 0;
    }
    return close_after(file, fsync(file) == 0);
}

int replace_file(const char *path, const unsigned char *bytes, size_t count)
{
    char *beside = malloc(strlen(path) + sizeof ".new");
    if (beside == NULL) {
        return 0;
    }
    strcpy(beside, path);
    strcat(beside, ".new");
    int good = write_file(beside, bytes, count) && rename(beside, path) == 0;
    if (!good) {
        int reason = errno;
        remove(beside);
        errno = reason;
    }
    free_and_keep_reason(beside);
    return good && sync_folder_of(path);
}
