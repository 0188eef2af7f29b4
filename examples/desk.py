"""A desk's day from Python: a driver's day is typed in by one call, and a planner looks for the longest rest in it.

    python3 examples/desk.py [target/host/libentry_store.so]

The shared object is made of the archive, by make in examples/host or by
    cc -shared -o libentry_store.so -Wl,--whole-archive target/staticlib/libentry_store.a -Wl,--no-whole-archive
"""
import ctypes
import sys
from ctypes import c_size_t, c_uint32, c_uint64

ENTRIES, RECORDS, PARTIES, MOST = 16, 100, 17, 16383
BEGIN, COMMIT, REQUEST = 1, 4, 7                      # kinds of asks: enum entry_store_kind
READ, WRITE, INSERT, LOCATE = 1, 2, 3, 5              # requests: enum entry_store_code
OK, DONE = 0, 3                                       # answers: enum entry_store_word
DESK, PLANNER, DAY = 1, 7, 2 * 1048576 + 3 * 1440     # sessions; driver 2, day 3 (docs/HOST.md, "Finding a rest")
REST, WORK, DRIVING = 0, 2, 3                         # a value is activity x 2048 + minutes
TYPED_IN = [(0, 360, REST), (360, 270, DRIVING), (630, 45, REST), (675, 255, DRIVING), (930, 30, WORK)]

store = (c_uint32 * (16 + 3 * ENTRIES + 20 * RECORDS))()
table, pairs = (c_uint32 * (15 * PARTIES))(), (c_uint32 * (2 * ENTRIES))()
library = ctypes.CDLL(sys.argv[1] if len(sys.argv) > 1 else "target/host/libentry_store.so")
library.entry_store_format.restype = library.entry_store_batch.restype = c_uint64
lent = store, c_size_t(len(store)), table, c_size_t(PARTIES)


def batch(*asks):
    """Makes the asks in one call and gives the value of each answer. Only one session is there, so none waits."""
    words = (c_uint32 * (7 * len(asks)))(*[word for ask in asks for word in (*ask, *[0] * 5)[:6] + (MOST,)])
    answers = (c_uint64 * len(asks))()
    whole = library.entry_store_batch(*lent, pairs, c_size_t(len(pairs)), words, c_size_t(len(words)), answers,
                                      c_size_t(len(asks)))
    if whole != 1 << 48 | DONE << 40 | len(asks) or answers[len(asks) - 1] >> 40 & 0xff not in (OK, DONE):
        sys.exit(f"the batch ended early: {whole:#x}, {[hex(answer) for answer in answers]}")
    return [answer & 0xffffffff for answer in answers]


if library.entry_store_format(*lent, c_uint32(ENTRIES)) != OK:
    sys.exit("format was refused")
requests = [(REQUEST, DESK, code, entry + 1, first) for entry, (minute, length, activity) in enumerate(TYPED_IN)
            for code, first in ((WRITE, activity * 2048 + length), (INSERT, DAY + minute))]
print(f"desk: {sum(batch((BEGIN, DESK), *requests, (COMMIT, DESK)))} of {len(TYPED_IN)} stretches are new")
found = batch((BEGIN, PLANNER), (REQUEST, PLANNER, LOCATE, 0, DAY, DAY + 1439))[1]
values = batch(*[(REQUEST, PLANNER, READ, pairs[2 * k + 1]) for k in range(found)], (COMMIT, PLANNER))
busy = [(pairs[2 * k] - DAY, values[k] % 2048) for k in range(found) if values[k] // 2048 % 4 != REST] + [(1440, 0)]
start, longest, rest = 0, 0, 0
for minute, length in busy:
    if minute - start > longest:
        longest, rest = minute - start, start
    start = max(start, minute + length)
print(f"planner: {found} stretches; the longest rest is {longest} minutes from {rest // 60}:{rest % 60:02}")
