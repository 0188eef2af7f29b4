#include "image.h"
#include "replace.h"

#include <errno.h>
#include <stdio.h>
#include <stdlib.h>
#include <string.h>

enum { MAGIC_BYTES = 8, HEAD_BYTES = 20, WORD_BYTES = 4, FIELDS = ENTRY_STORE_SESSION_WORDS };

// More than any store needs: words beyond 4,096 records are never touched.
enum { MAX_IMAGE_WORDS = 1 << 24 };

static const unsigned char magic[MAGIC_BYTES] = {'E', 'N', 'T', 'R', 'Y', 'S', 'T', '3'};

// ---- bytes

static void put_word(unsigned char *at, uint32_t w)
{
    for (int k = 0; k < WORD_BYTES; k++) {
        at[k] = (unsigned char)(w >> (8 * k));
    }
}

static uint32_t get_word(const unsigned char *at)
{
    uint32_t w = 0;
    for (int k = WORD_BYTES - 1; k >= 0; k--) {
        w = w << 8 | at[k];
    }
    return w;
}

static uint32_t crc32(const unsigned char *bytes, size_t count)
{
    uint32_t crc = 0xffffffffu;
    for (size_t k = 0; k < count; k++) {
        crc ^= bytes[k];
        for (int bit = 0; bit < 8; bit++) {
            crc = crc >> 1 ^ (crc & 1 ? 0xedb88320u : 0);
        }
    }
    return ~crc;
}

static size_t image_bytes(size_t words)
{
    return HEAD_BYTES + WORD_BYTES * (words + (size_t)ENTRY_STORE_PARTIES * (FIELDS + 1));
}

// ---- a record of the table as words

static void session_to_words(const struct entry_store_session *s, uint32_t *w)
{
    const uint32_t fields[FIELDS] = {s->begun, s->code,   s->entry, s->first, s->second,
                                     s->stage, s->target, s->at,    s->level, s->low,
                                     s->high,  s->last,   s->undo,  s->order, s->asked};
    memcpy(w, fields, sizeof fields);
}

static void session_from_words(struct entry_store_session *s, const uint32_t *w)
{
    uint32_t *const fields[FIELDS] = {&s->begun, &s->code,   &s->entry, &s->first, &s->second,
                                      &s->stage, &s->target, &s->at,    &s->level, &s->low,
                                      &s->high,  &s->last,   &s->undo,  &s->order, &s->asked};
    for (int k = 0; k < FIELDS; k++) {
        *fields[k] = w[k];
    }
}

// ---- writing

static void fill_image(const struct store_host *h, unsigned char *bytes)
{
    unsigned char *at = bytes + HEAD_BYTES;
    for (size_t k = 0; k < h->length; k++, at += WORD_BYTES) {
        put_word(at, h->words[k]);
    }
    for (int p = 0; p < ENTRY_STORE_PARTIES; p++) {
        uint32_t fields[FIELDS];
        session_to_words(&h->table[p], fields);
        for (int k = 0; k < FIELDS; k++, at += WORD_BYTES) {
            put_word(at, fields[k]);
        }
    }
    for (int p = 0; p < ENTRY_STORE_PARTIES; p++, at += WORD_BYTES) {
        put_word(at, h->notes[p]);
    }
    memcpy(bytes, magic, MAGIC_BYTES);
    put_word(bytes + 8, (uint32_t)h->length);
    put_word(bytes + 12, ENTRY_STORE_PARTIES);
    put_word(bytes + 16, crc32(bytes + HEAD_BYTES, image_bytes(h->length) - HEAD_BYTES));
}

int image_save(const struct store_host *h, const char *path)
{
    if (h->length > MAX_IMAGE_WORDS) {
        errno = EFBIG;
        return 0;
    }
    size_t count = image_bytes(h->length);
    unsigned char *bytes = malloc(count);
    if (bytes == NULL) {
        return 0;
    }
    fill_image(h, bytes);
    int good = replace_file(path, bytes, count);
    free_and_keep_reason(bytes);
    return good;
}

// ---- reading

// Takes words and table from bytes that follow a head for so many words.
static int take_image(struct store_host *h, const unsigned char *bytes, size_t words)
{
    h->length = words;
    h->words = malloc(words > 0 ? words * sizeof *h->words : 1);
    if (h->words == NULL) {
        return 0;
    }
    for (size_t k = 0; k < words; k++, bytes += WORD_BYTES) {
        h->words[k] = get_word(bytes);
    }
    for (int p = 0; p < ENTRY_STORE_PARTIES; p++) {
        uint32_t fields[FIELDS];
        for (int k = 0; k < FIELDS; k++, bytes += WORD_BYTES) {
            fields[k] = get_word(bytes);
        }
        session_from_words(&h->table[p], fields);
    }
    for (int p = 0; p < ENTRY_STORE_PARTIES; p++, bytes += WORD_BYTES) {
        h->notes[p] = get_word(bytes);
    }
    return 1;
}

// Whether a head is that of an image, and of how many words.
static int head_words(const unsigned char *head, size_t *words)
{
    *words = get_word(head + 8);
    return memcmp(head, magic, MAGIC_BYTES) == 0 && *words <= MAX_IMAGE_WORDS &&
           get_word(head + 12) == ENTRY_STORE_PARTIES;
}

// Whether it is that of an older version: the same letters with a lower digit.
static int is_older(const unsigned char *head)
{
    return memcmp(head, magic, MAGIC_BYTES - 1) == 0 && head[MAGIC_BYTES - 1] >= '1' &&
           head[MAGIC_BYTES - 1] < magic[MAGIC_BYTES - 1];
}

static enum image_state read_body(struct store_host *h, FILE *file, size_t words, uint32_t sum)
{
    size_t count = image_bytes(words) - HEAD_BYTES;
    unsigned char *bytes = malloc(count);
    if (bytes == NULL) {
        return IMAGE_NOT_READ;
    }
    enum image_state state = IMAGE_NOT_READ;
    int whole = fread(bytes, 1, count, file) == count && fgetc(file) == EOF;
    if (!whole && !ferror(file)) {
        state = IMAGE_NOT_WHOLE;
    } else if (whole && take_image(h, bytes, words)) {
        state = crc32(bytes, count) == sum ? IMAGE_GOOD : IMAGE_SUM_DIFFERS;
    }
    free_and_keep_reason(bytes);
    return state;
}

enum image_state image_read(struct store_host *h, const char *path)
{
    unsigned char head[HEAD_BYTES];
    size_t words = 0;
    FILE *file = fopen(path, "rb");
    if (file == NULL) {
        return IMAGE_NOT_READ;
    }
    enum image_state state = IMAGE_NOT_WHOLE;
    size_t count = fread(head, 1, HEAD_BYTES, file);
    if (ferror(file)) {
        state = IMAGE_NOT_READ;
    } else if (count == HEAD_BYTES && head_words(head, &words)) {
        state = read_body(h, file, words, get_word(head + 16));
    } else if (count == HEAD_BYTES && is_older(head)) {
        state = IMAGE_OLDER;
    }
    int reason = errno;
    fclose(file);
    errno = reason;
    return state;
}

enum image_state image_load(struct store_host *h, const char *path)
{
    enum image_state state = image_read(h, path);
    if (state == IMAGE_GOOD && host_fault(h) != 0) {
        host_close(h);
        return IMAGE_NOT_SOUND;
    }
    if (state == IMAGE_SUM_DIFFERS) {
        host_close(h);
    }
    return state;
}

const char *image_reason(enum image_state state)
{
    switch (state) {
    case IMAGE_GOOD:
        return "good";
    case IMAGE_SUM_DIFFERS:
        return "not what was written: the sum differs";
    case IMAGE_NOT_SOUND:
        return "store or table is not sound";
    case IMAGE_NOT_WHOLE:
        return "not a whole image";
    case IMAGE_OLDER:
        return "an image of an older version, whose session records have fewer words";
    default:
        return strerror(errno);
    }
}
