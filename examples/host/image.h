// A store and its session table in one file.
//
// The two belong together: a table beside the words of another moment is not
// sound, or worse, is sound and wrong. So both are in one file, which is
// written whole beside the old one and then takes its name.
//
//   bytes    what, in words of four bytes, the lowest byte first
//   0        the letters ENTRYST3
//   8        number of words of the store, n
//   12       number of records of the table
//   16       CRC-32 of all that follows
//   20       the n words of the store
//   20 + 4n  the records, fields in the header file's order
//   behind   the host's notes, a word for each record
//
// Files with the letters ENTRYST1 or ENTRYST2 are older: their records have
// fewer fields, and they are turned down.
//
// The soundness test sees damage to the structure, but any value of an entry
// is sound: the sum sees those too.
#ifndef IMAGE_H
#define IMAGE_H

#include "store_host.h"

enum image_state {
    IMAGE_GOOD,
    IMAGE_SUM_DIFFERS, // whole, but not what was written
    IMAGE_NOT_SOUND,   // as it was written, but no sound store and table
    IMAGE_NOT_WHOLE,   // cut short, too long, or no image
    IMAGE_OLDER,       // of an older version, whose records have fewer words
    IMAGE_NOT_READ,    // no such file, or it cannot be read, or no memory: errno says which
};

// Writes both, or leaves the file as it was. 0 where it failed; errno says why.
int image_save(const struct store_host *h, const char *path);

// Reads both. Where the state is IMAGE_GOOD or IMAGE_SUM_DIFFERS, h has them
// and is to be closed; soundness is not looked at.
enum image_state image_read(struct store_host *h, const char *path);

// For a host: reads both and accepts only a good image that is sound. Where the state is not IMAGE_GOOD, h
// has nothing and needs no close.
enum image_state image_load(struct store_host *h, const char *path);

// The reason of a state, right after it was given: IMAGE_NOT_READ's is that of errno.
const char *image_reason(enum image_state state);

#endif
