/* Writes what the steps of a site in benches/store.rt.txt write, by libsqlite3: the same tables, the same rows, a
   transaction for each step, in WAL mode with a sync at each commit, and then reads all rows. Words: a new file, how many
   events stand before, and how many steps of each kind are timed. Prints microseconds. */
#include <sqlite3.h>
#include <stdio.h>
#include <stdlib.h>
#include <time.h>

static sqlite3 *db;
static long events = 0;

static void must(int code) {
    if (code != SQLITE_OK && code != SQLITE_DONE && code != SQLITE_ROW) {
        fprintf(stderr, "%s\n", sqlite3_errmsg(db));
        exit(1);
    }
}
static void run(const char *text) { must(sqlite3_exec(db, text, 0, 0, 0)); }

static const char *TABLES =
    "CREATE TABLE store (one INTEGER PRIMARY KEY CHECK (one = 1), version INTEGER NOT NULL, me INTEGER NOT NULL, next_message INTEGER NOT NULL, next_recall INTEGER NOT NULL) STRICT;"
    "CREATE TABLE site (no INTEGER PRIMARY KEY, name TEXT NOT NULL UNIQUE) STRICT;"
    "CREATE TABLE address (text TEXT PRIMARY KEY NOT NULL, site INTEGER NOT NULL REFERENCES site(no), place INTEGER NOT NULL) STRICT;"
    "CREATE TABLE event (no INTEGER PRIMARY KEY, id TEXT, seconds INTEGER NOT NULL, nanos INTEGER NOT NULL, kind INTEGER NOT NULL, make_id TEXT) STRICT;"
    "CREATE TABLE part (event INTEGER NOT NULL REFERENCES event(no), role INTEGER NOT NULL, place INTEGER NOT NULL, text TEXT NOT NULL, PRIMARY KEY (event, role, place)) STRICT;"
    "CREATE TABLE quarantine (recall_site INTEGER NOT NULL, recall_no INTEGER NOT NULL, item TEXT NOT NULL, PRIMARY KEY (recall_site, recall_no, item)) STRICT;"
    "CREATE TABLE outbox (number INTEGER PRIMARY KEY, dest INTEGER NOT NULL, recall_site INTEGER NOT NULL, recall_no INTEGER NOT NULL, item TEXT NOT NULL) STRICT;"
    "CREATE TABLE seen (sender INTEGER NOT NULL, number INTEGER NOT NULL, recall_site INTEGER NOT NULL, recall_no INTEGER NOT NULL, PRIMARY KEY (sender, number)) STRICT;"
    "CREATE TABLE parent (recall_site INTEGER NOT NULL, recall_no INTEGER NOT NULL, sender INTEGER NOT NULL, number INTEGER NOT NULL, PRIMARY KEY (recall_site, recall_no)) STRICT;"
    "CREATE TABLE recall (number INTEGER PRIMARY KEY, root TEXT NOT NULL, ended INTEGER NOT NULL CHECK (ended IN (0, 1))) STRICT;";

/* The keys by which a site's tables are read, in their order. */
static const char *READS[] = {
    "SELECT * FROM store", "SELECT * FROM site ORDER BY no", "SELECT * FROM address ORDER BY text",
    "SELECT * FROM event ORDER BY no", "SELECT * FROM part ORDER BY event, role, place",
    "SELECT * FROM quarantine ORDER BY recall_site, recall_no, item", "SELECT * FROM outbox ORDER BY number",
    "SELECT * FROM seen ORDER BY sender, number", "SELECT * FROM parent ORDER BY recall_site, recall_no",
    "SELECT * FROM recall ORDER BY number",
};

static sqlite3_stmt *begin, *commit, *event, *part, *quarantine, *outbox, *seen, *parent, *numbers, *cleared, *left;

static sqlite3_stmt *prepared(const char *text) {
    sqlite3_stmt *statement;
    must(sqlite3_prepare_v2(db, text, -1, &statement, 0));
    return statement;
}
static void done(sqlite3_stmt *statement) {
    must(sqlite3_step(statement));
    must(sqlite3_reset(statement));
}
static void add_part(long role, const char *text) {
    sqlite3_bind_int64(part, 1, events);
    sqlite3_bind_int64(part, 2, role);
    sqlite3_bind_text(part, 3, text, -1, SQLITE_TRANSIENT);
    done(part);
}
/* A document of so many shipments to C, each of an item of its own: the events, and then the members of their lists. */
static void capture(long count) {
    char item[32];
    long first = events + 1;
    done(begin);
    for (long i = 0; i < count; i++) {
        sqlite3_bind_int64(event, 1, first + i);
        sqlite3_bind_int64(event, 2, 1714550400);
        done(event);
    }
    for (long i = 0; i < count; i++) {
        events = first + i;
        snprintf(item, sizeof item, "uri %ld", events);
        add_part(0, item);
        add_part(1, "C");
    }
    done(commit);
}
/* A message of the recall, which brings one item under it and numbers one message. The first one is the parent. */
static void take(long number) {
    char item[32];
    snprintf(item, sizeof item, "uri %ld", number);
    done(begin);
    sqlite3_bind_text(quarantine, 1, item, -1, SQLITE_TRANSIENT);
    done(quarantine);
    sqlite3_bind_int64(outbox, 1, number);
    sqlite3_bind_text(outbox, 2, item, -1, SQLITE_TRANSIENT);
    done(outbox);
    sqlite3_bind_int64(seen, 1, number);
    done(seen);
    if (number == 1) done(parent);
    sqlite3_bind_int64(numbers, 1, number + 1);
    done(numbers);
    done(commit);
}
/* A signal. With the last one the parent goes. */
static void signalled(long number, long last) {
    done(begin);
    sqlite3_bind_int64(cleared, 1, number);
    done(cleared);
    if (number == last) done(left);
    done(commit);
}
static double now(void) {
    struct timespec t;
    clock_gettime(CLOCK_MONOTONIC, &t);
    return t.tv_sec * 1e6 + t.tv_nsec / 1e3;
}
static void open_file(const char *path) {
    must(sqlite3_open(path, &db));
    run("PRAGMA journal_mode = WAL; PRAGMA synchronous = FULL; PRAGMA foreign_keys = ON; PRAGMA cache_size = 2000");
}
/* Goes through all rows, each value taken as what it is. */
static long read_all(void) {
    long rows = 0;
    for (size_t i = 0; i < sizeof READS / sizeof *READS; i++) {
        sqlite3_stmt *statement = prepared(READS[i]);
        while (sqlite3_step(statement) == SQLITE_ROW) {
            rows++;
            for (int c = 0; c < sqlite3_column_count(statement); c++) {
                if (sqlite3_column_type(statement, c) == SQLITE_TEXT) rows += !sqlite3_column_text(statement, c);
                else rows += sqlite3_column_int64(statement, c) < 0;
            }
        }
        sqlite3_finalize(statement);
    }
    return rows;
}

int main(int count, char **words) {
    if (count != 4) return 2;
    long before = atol(words[2]), steps = atol(words[3]);
    open_file(words[1]);
    run("BEGIN");
    run(TABLES);
    run("INSERT INTO store VALUES (1, 1, 1, 1, 1); INSERT INTO site VALUES (0, 'A'), (1, 'B'), (2, 'C');"
        "INSERT INTO address VALUES ('a', 0, 0), ('b', 1, 0), ('c', 2, 0)");
    run("COMMIT");
    begin = prepared("BEGIN");
    commit = prepared("COMMIT");
    event = prepared("INSERT INTO event VALUES (?1, NULL, ?2, 0, 1, NULL)");
    part = prepared("INSERT INTO part VALUES (?1, ?2, 0, ?3)");
    quarantine = prepared("INSERT INTO quarantine VALUES (0, 1, ?1)");
    outbox = prepared("INSERT INTO outbox VALUES (?1, 2, 0, 1, ?2) ON CONFLICT (number) DO UPDATE SET dest = excluded.dest, recall_site = excluded.recall_site, recall_no = excluded.recall_no, item = excluded.item");
    seen = prepared("INSERT INTO seen VALUES (0, ?1, 0, 1)");
    parent = prepared("INSERT INTO parent VALUES (0, 1, 0, 1)");
    numbers = prepared("UPDATE store SET next_message = ?1, next_recall = 1");
    cleared = prepared("DELETE FROM outbox WHERE number = ?1");
    left = prepared("DELETE FROM parent WHERE recall_site = 0 AND recall_no = 1");
    while (events < before) capture(before - events < 1000 ? before - events : 1000);
    double t = now();
    for (long i = 0; i < steps; i++) capture(1);
    printf(" Capture %.0f", (now() - t) / steps);
    t = now();
    for (long i = 1; i <= steps; i++) take(i);
    printf(" Take %.0f", (now() - t) / steps);
    t = now();
    for (long i = 1; i <= steps; i++) signalled(i, steps);
    printf(" Signal %.0f", (now() - t) / steps);
    long documents = (steps + 9) / 10;
    t = now();
    for (long i = 0; i < documents; i++) capture(100);
    printf(" Hundred %.0f", (now() - t) / documents);
    sqlite3_stmt *all[] = {begin, commit, event, part, quarantine, outbox, seen, parent, numbers, cleared, left};
    for (size_t i = 0; i < sizeof all / sizeof *all; i++) sqlite3_finalize(all[i]);
    must(sqlite3_close(db));
    t = now();
    open_file(words[1]);
    long rows = read_all();
    printf(" opening %.0f events %ld rows %ld\n", now() - t, events, rows);
    must(sqlite3_close(db));
    return 0;
}
