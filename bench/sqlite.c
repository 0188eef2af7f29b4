// The memberships in SQLite: a database in memory, one connection, one thread, statements prepared once.
#include <sqlite3.h>

#include "bench.h"

enum { BEGIN, INSERT, LOCATE, WRITE, FIND, COMMIT, STATEMENTS };

static const char *const texts[STATEMENTS] = {
    "BEGIN",
    "INSERT OR IGNORE INTO memberships VALUES (?1, ?2)",
    "SELECT key, entry FROM memberships WHERE key BETWEEN ?1 AND ?2 ORDER BY key, entry",
    "UPDATE entries SET value = ?2 WHERE entry = ?1",
    "SELECT key, entry, value FROM memberships JOIN entries USING (entry) WHERE key BETWEEN ?1 AND ?2 ORDER BY key, entry",
    "COMMIT",
};

struct database {
    sqlite3 *connection;
    sqlite3_stmt *statement[STATEMENTS];
    uint32_t list[2 * MAX_PAIRS];
};

// A statement that gives no row.
static void run(struct database *d, int which)
{
    must(sqlite3_step(d->statement[which]) == SQLITE_DONE, texts[which]);
    must(sqlite3_reset(d->statement[which]) == SQLITE_OK, texts[which]);
}

static void bind_two(struct database *d, int which, uint32_t one, uint32_t two)
{
    must(sqlite3_bind_int64(d->statement[which], 1, one) == SQLITE_OK, texts[which]);
    must(sqlite3_bind_int64(d->statement[which], 2, two) == SQLITE_OK, texts[which]);
}

static void begin(void *self)
{
    run(self, BEGIN);
}

static void commit(void *self)
{
    run(self, COMMIT);
}

static uint32_t insert(void *self, uint32_t key, uint32_t entry)
{
    struct database *d = self;
    bind_two(d, INSERT, key, entry);
    run(d, INSERT);
    return (uint32_t)sqlite3_changes(d->connection);
}

static uint32_t column(sqlite3_stmt *statement, int which)
{
    return (uint32_t)sqlite3_column_int64(statement, which);
}

static uint32_t locate(void *self, uint32_t first, uint32_t second, const uint32_t **pairs)
{
    struct database *d = self;
    sqlite3_stmt *statement = d->statement[LOCATE];
    uint32_t count = 0;
    bind_two(d, LOCATE, first, second);
    while (sqlite3_step(statement) == SQLITE_ROW && count < MAX_PAIRS) {
        d->list[2 * count] = column(statement, 0);
        d->list[2 * count + 1] = column(statement, 1);
        count += 1;
    }
    must(sqlite3_reset(statement) == SQLITE_OK, texts[LOCATE]);
    *pairs = d->list;
    return count;
}

void sqlite_write(void *self, uint32_t entry, uint32_t value)
{
    bind_two(self, WRITE, entry, value);
    run(self, WRITE);
}

uint32_t sqlite_find(void *self, uint32_t first, uint32_t second, uint32_t *pairs, uint32_t *values)
{
    struct database *d = self;
    sqlite3_stmt *statement = d->statement[FIND];
    uint32_t count = 0;
    bind_two(d, FIND, first, second);
    while (sqlite3_step(statement) == SQLITE_ROW && count < MAX_PAIRS) {
        pairs[2 * count] = column(statement, 0);
        pairs[2 * count + 1] = column(statement, 1);
        values[count] = column(statement, 2);
        count += 1;
    }
    must(sqlite3_reset(statement) == SQLITE_OK, texts[FIND]);
    return count;
}

// ---- opened and closed

void sqlite_start(void)
{
    must(sqlite3_config(SQLITE_CONFIG_SINGLETHREAD) == SQLITE_OK, "SQLite in one thread");
    must(sqlite3_config(SQLITE_CONFIG_MEMSTATUS, 0) == SQLITE_OK, "SQLite without memory statistics");
}

// The entries, all of value 0, as the store has them.
static void make_entries(struct database *d, uint32_t count)
{
    sqlite3_stmt *statement;
    static const char text[] = "INSERT INTO entries VALUES (?1, 0)";
    must(sqlite3_prepare_v2(d->connection, text, -1, &statement, NULL) == SQLITE_OK, text);
    for (uint32_t entry = 1; entry <= count; entry++) {
        must(sqlite3_bind_int64(statement, 1, entry) == SQLITE_OK && sqlite3_step(statement) == SQLITE_DONE, text);
        must(sqlite3_reset(statement) == SQLITE_OK, text);
    }
    sqlite3_finalize(statement);
}

struct side sqlite_open(uint32_t entries)
{
    static struct database d;
    static const char tables[] = "CREATE TABLE memberships (key INTEGER, entry INTEGER, PRIMARY KEY (key, entry)) WITHOUT ROWID;"
                                 "CREATE TABLE entries (entry INTEGER PRIMARY KEY, value INTEGER)";
    must(sqlite3_open(":memory:", &d.connection) == SQLITE_OK, "SQLite, open");
    must(sqlite3_exec(d.connection, tables, NULL, NULL, NULL) == SQLITE_OK, tables);
    make_entries(&d, entries);
    for (int k = 0; k < STATEMENTS; k++) {
        must(sqlite3_prepare_v3(d.connection, texts[k], -1, SQLITE_PREPARE_PERSISTENT, &d.statement[k], NULL) == SQLITE_OK, texts[k]);
    }
    return (struct side){&d, begin, insert, locate, commit};
}

void sqlite_end(struct side side)
{
    struct database *d = side.self;
    for (int k = 0; k < STATEMENTS; k++) {
        sqlite3_finalize(d->statement[k]);
    }
    must(sqlite3_close(d->connection) == SQLITE_OK, "SQLite, close");
}

const char *sqlite_version(void)
{
    return sqlite3_libversion();
}
