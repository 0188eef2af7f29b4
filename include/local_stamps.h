/*
 * local_stamps.h: local stamps of UTC minutes, and back, for C. Link liblocal_stamps.a (x86-64).
 *
 * Older readers write local time. A stamp is a local date and time to the minute, and a mark: 1 summer, 2 winter, 0
 * none. A UTC minute is counted from 1 January 1970, 00:00 UTC. Local time is UTC and a base offset of 0, 60 or 120
 * minutes, and an hour more in summer, which runs from 01:00 UTC on the last Sunday of March to 01:00 UTC on the last
 * Sunday of October (Directive 2000/84/EC). The UTC years are 2002 to 2105.
 *
 *   local_stamp_to_utc   a stamp's UTC minute
 *   local_stamp_of_utc   a UTC minute's stamp, always with mark 1 or 2, as seven bytes
 *
 * The rules are in docs/RULES.md, section 16; docs/STAMPS.md is for whoever calls, and examples/stamps/convert.c is a
 * whole program.
 *
 * Proved of their source (crates/local_stamps) for any numbers at all, and for lent bytes of any length and content:
 *   - every UTC minute in range gets a stamp with mark 1 or 2, and that stamp reads back to the minute;
 *   - a marked stamp that is accepted is the stamp of the minute that it gives;
 *   - an unmarked stamp that is accepted reads as with the one mark that is accepted;
 *   - each refusal is answered exactly where enum local_stamp_refusal says so, and writes nothing.
 * The compiler's back end is trusted. local_stamp_of_utc takes as given what no test can tell, and the caller answers
 * for it at every call:
 *   - the pointer is not null, also where the length is 0;
 *   - as many bytes as the length says are there;
 *   - no other thread touches them during the call.
 *
 * The functions allocate nothing, keep nothing between calls and read no clock, time zone or locale: any thread may
 * call at any time, and the same numbers always get the same answer. A call takes less than 200 bytes of stack. The
 * version is that of entry_store.h.
 */
#ifndef LOCAL_STAMPS_H
#define LOCAL_STAMPS_H

#include <stddef.h>
#include <stdint.h>

#ifdef __cplusplus
extern "C" {
#endif

/* ---- ranges */

/* The UTC minutes that have a stamp: from the first of 2002 up to, and without, the first of 2106. */
#define LOCAL_STAMP_FIRST_UTC UINT32_C(16830720)
#define LOCAL_STAMP_END_UTC UINT32_C(71529120)

/* A stamp's fields are in range with
 *   year    2002 to 2106; of 2106 only 1 January, for its first minutes lie in the UTC year 2105
 *   month   1 to 12
 *   day     1 to the last of the month; 2100 is no leap year
 *   hour    0 to 23
 *   minute  0 to 59
 *   mark    0 to 2 */
enum local_stamp_mark {
    LOCAL_STAMP_UNMARKED = 0, /* only read, never written */
    LOCAL_STAMP_SUMMER = 1,
    LOCAL_STAMP_WINTER = 2
};

/* ---- refusals */

/*
 * Checked in this order, and the first that applies is answered; once the base offset and the fields are in range, no
 * two apply to one stamp.
 */
enum local_stamp_refusal {
    LOCAL_STAMP_OUT_OF_RANGE = 18, /* base offset other than 0, 60 and 120.
                                      to_utc: a field out of range; or the UTC minute that the stamp gives lies outside
                                      the years 2002 to 2105 (an unmarked one gives that of winter there); or the mark
                                      contradicts the season of that minute, as each mark does in the skipped hour.
                                      of_utc: the UTC minute lies outside these years, or the length is not
                                      LOCAL_STAMP_BYTES */
    LOCAL_STAMP_SKIPPED = 19,      /* to_utc, mark 0: the stamp falls in the hour that clocks leave out in March; no
                                      clock showed it: ask for another */
    LOCAL_STAMP_DOUBLED = 20       /* to_utc, mark 0: the stamp falls in the hour that clocks go through twice in
                                      October; with mark 1 it is read as the earlier one, with mark 2 as the later */
};

/* ---- the seven bytes */

/* Each field in a byte, the year in two; its high byte comes first. */
enum local_stamp_byte {
    LOCAL_STAMP_YEAR_HIGH = 0,
    LOCAL_STAMP_YEAR_LOW = 1,
    LOCAL_STAMP_MONTH = 2,
    LOCAL_STAMP_DAY = 3,
    LOCAL_STAMP_HOUR = 4,
    LOCAL_STAMP_MINUTE = 5,
    LOCAL_STAMP_MARK = 6
};
#define LOCAL_STAMP_BYTES 7

/* ---- the calls */

/* The UTC minute of a stamp, LOCAL_STAMP_FIRST_UTC or more; or 18, 19 or 20 (local_stamp_is_refusal tells them
 * apart). */
uint32_t local_stamp_to_utc(uint32_t base, uint32_t year, uint32_t month, uint32_t day, uint32_t hour, uint32_t minute,
                            uint32_t mark);

/* Fills the LOCAL_STAMP_BYTES lent bytes with the stamp of a UTC minute and answers 0; or answers 18 and writes
 * nothing. */
uint32_t local_stamp_of_utc(uint32_t base, uint32_t utc, uint8_t *bytes, size_t length);

/* ---- answers */

/* Whether local_stamp_to_utc refused. Not of an answer of local_stamp_of_utc, whose 0 is no refusal. */
static inline int local_stamp_is_refusal(uint32_t word)
{
    return word < LOCAL_STAMP_FIRST_UTC;
}

static inline const char *local_stamp_refusal_text(uint32_t refusal)
{
    switch (refusal) {
    case LOCAL_STAMP_OUT_OF_RANGE: return "out of range, or the mark is of the other season";
    case LOCAL_STAMP_SKIPPED: return "in the skipped hour: no clock showed it";
    case LOCAL_STAMP_DOUBLED: return "in the doubled hour: it needs a mark";
    default: return "no such refusal";
    }
}

/* The year of seven bytes. */
static inline uint32_t local_stamp_year(const uint8_t *bytes)
{
    return (uint32_t)bytes[LOCAL_STAMP_YEAR_HIGH] << 8 | bytes[LOCAL_STAMP_YEAR_LOW];
}

#ifdef __cplusplus
}
#endif

#endif
