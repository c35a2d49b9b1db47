/* A store as Lynx makes them, by libsqlite3: the same tables, statements, transactions and bytes, a log with FULL syncs,
   statements prepared once. store.c and port.c stand on it. */
#include <sqlite3.h>
#include <stdint.h>
#include <stdio.h>
#include <stdlib.h>
#include <string.h>

static const char SET[] =
    "lynx 1\nservers 2\ntable acct\nshard 0 999 0\nshard 1000 18446744073709551615 1\nprogram seed n\nhop 0\nadd acct 0 n\n"
    "end\nprogram pay n\nhop 0\nget x acct 0\nneed x >= n\nsub acct 0 n\nhop 1\nadd acct 1000 n\nend\n";

/* The bytes of a encoding. */
typedef struct {
    unsigned char bytes[128];
    int length;
} Encoding;

/* The database of a server, and its statements. */
typedef struct {
    sqlite3 *db;
    sqlite3_stmt *begin, *insert, *upsert, *commit;
} Store;

static void need(int is_well, sqlite3 *db) {
    if (!is_well) {
        fprintf(stderr, "store: %s\n", db ? sqlite3_errmsg(db) : "no database");
        exit(4);
    }
}

static void put_byte(Encoding *encoding, int byte) {
    encoding->bytes[encoding->length++] = (unsigned char)byte;
}

static void put_number(Encoding *encoding, uint64_t number) {
    for (int shift = 56; shift >= 0; shift -= 8)
        put_byte(encoding, (int)(number >> shift & 0xff));
}

static void begin_encoding(Encoding *encoding, int tag) {
    encoding->length = 0;
    put_byte(encoding, tag);
    for (int i = 0; i < 4; i++)
        put_byte(encoding, 0);
}

/* The length of the body, which is below 128. */
static void end_encoding(Encoding *encoding) {
    encoding->bytes[4] = (unsigned char)(encoding->length - 5);
}

static void step(Store *store, sqlite3_stmt *statement) {
    need(sqlite3_step(statement) == SQLITE_DONE, store->db);
    sqlite3_reset(statement);
}

/* An entry and a cell. */
static void put_row(Store *store, uint64_t place, const Encoding *body, uint64_t key, uint64_t value) {
    Encoding k = {.length = 0}, v = {.length = 0};
    put_number(&k, key);
    put_number(&v, value);
    sqlite3_bind_int64(store->insert, 1, (sqlite3_int64)place);
    sqlite3_bind_blob(store->insert, 2, body->bytes, body->length, SQLITE_TRANSIENT);
    step(store, store->insert);
    sqlite3_bind_int64(store->upsert, 1, 0);
    sqlite3_bind_blob(store->upsert, 2, k.bytes, k.length, SQLITE_TRANSIENT);
    sqlite3_bind_blob(store->upsert, 3, v.bytes, v.length, SQLITE_TRANSIENT);
    step(store, store->upsert);
}

static void run(Store *store, const char *text) {
    need(sqlite3_exec(store->db, text, NULL, NULL, NULL) == SQLITE_OK, store->db);
}

static sqlite3_stmt *prepared(Store *store, const char *text) {
    sqlite3_stmt *statement;
    need(sqlite3_prepare_v3(store->db, text, -1, SQLITE_PREPARE_PERSISTENT, &statement, NULL) == SQLITE_OK, store->db);
    return statement;
}

/* A new store of that server. */
static void make(Store *store, const char *folder, int server) {
    char name[4096], text[2048];
    snprintf(name, sizeof name, "%s/server-%d.lynx", folder, server);
    int is_memory = strcmp(folder, ":memory:") == 0;
    need(sqlite3_open(is_memory ? folder : name, &store->db) == SQLITE_OK, store->db);
    run(store, "PRAGMA journal_mode = WAL; PRAGMA synchronous = FULL");
    snprintf(text, sizeof text,
        "BEGIN; CREATE TABLE meta(id INTEGER PRIMARY KEY, txt TEXT NOT NULL) STRICT;"
        "CREATE TABLE entry(place INTEGER PRIMARY KEY, body BLOB NOT NULL) STRICT;"
        "CREATE TABLE cell(tab INTEGER NOT NULL, k BLOB NOT NULL, v BLOB NOT NULL, PRIMARY KEY(tab, k)) STRICT;"
        "INSERT INTO meta VALUES(1, 'lynx store 1'), (2, '%d'), (3, '%s'); COMMIT", server, SET);
    run(store, text);
    store->begin = prepared(store, "BEGIN");
    store->insert = prepared(store, "INSERT INTO entry VALUES(?1, ?2)");
    store->upsert = prepared(store, "INSERT INTO cell VALUES(?1, ?2, ?3) ON CONFLICT(tab, k) DO UPDATE SET v = excluded.v");
    store->commit = prepared(store, "COMMIT");
}
