/* store FOLDER|:memory: COUNT: what `lynx_bench store FOLDER COUNT` does to its two stores, done by libsqlite3:
   the same tables, statements, transactions and bytes, a log with FULL syncs, statements prepared once. It prints how many
   payments it did, as `lynx_bench` does. tests/bench runs the two in turn.

   cc -O2 -o store tests/baselines/store.c -lsqlite3 */
#include "store.h"

static void put_value(Encoding *encoding, uint64_t value) {
    put_byte(encoding, 1);
    put_number(encoding, value);
}

/* An entry and a cell, in one transaction. */
static void commit(Store *store, uint64_t place, const Encoding *body, uint64_t key, uint64_t value) {
    step(store, store->begin);
    put_row(store, place, body, key, value);
    step(store, store->commit);
}

static void end(Store *store) {
    sqlite3_stmt *all[] = {store->begin, store->insert, store->upsert, store->commit};
    for (int i = 0; i < 4; i++)
        sqlite3_finalize(all[i]);
    need(sqlite3_close(store->db) == SQLITE_OK, store->db);
}

/* The entry of the seed. */
static void seed_encoding(Encoding *encoding, uint64_t amount) {
    begin_encoding(encoding, 0x22);
    put_number(encoding, 1);
    put_number(encoding, UINT64_MAX);
    put_byte(encoding, 0);
    put_value(encoding, amount);
    put_number(encoding, 0);
    put_byte(encoding, 0);
    put_number(encoding, 0);
    put_byte(encoding, 1);
    put_byte(encoding, 0);
    put_number(encoding, 0);
    put_number(encoding, 1);
    put_byte(encoding, 0);
    end_encoding(encoding);
}

/* The numbers of a payment, of which so many were before. */
static void put_numbers(Encoding *encoding, uint64_t before) {
    put_byte(encoding, 2);
    put_byte(encoding, 0);
    put_number(encoding, before + 1);
    put_byte(encoding, 1);
    put_number(encoding, before);
}

/* The entry of a payment where it begins. */
static void begun_encoding(Encoding *encoding, uint64_t before, uint64_t found) {
    begin_encoding(encoding, 0x22);
    put_number(encoding, 1);
    put_number(encoding, before);
    put_byte(encoding, 1);
    put_value(encoding, 1);
    put_number(encoding, 0);
    put_byte(encoding, 0);
    put_number(encoding, before + 1);
    put_numbers(encoding, before);
    put_number(encoding, before + 2);
    put_value(encoding, found);
    end_encoding(encoding);
}

/* The entry of a payment where it arrives. */
static void hop_encoding(Encoding *encoding, uint64_t before, uint64_t found) {
    begin_encoding(encoding, 0x24);
    put_byte(encoding, 0);
    put_number(encoding, before + 1);
    put_byte(encoding, 1);
    put_byte(encoding, 1);
    put_number(encoding, before + 2);
    put_value(encoding, 1);
    put_numbers(encoding, before);
    put_byte(encoding, 1);
    put_value(encoding, found);
    put_number(encoding, before + 3);
    put_byte(encoding, 0);
    end_encoding(encoding);
}

int main(int count, char **words) {
    if (count != 3) {
        fprintf(stderr, "store: a folder and a count are wanted\n");
        return 2;
    }
    uint64_t payments = strtoull(words[2], NULL, 10), amount = payments + 1;
    Store payer, payee;
    Encoding encoding;
    make(&payer, words[1], 0);
    make(&payee, words[1], 1);
    seed_encoding(&encoding, amount);
    commit(&payer, 0, &encoding, 0, amount);
    for (uint64_t before = 0; before < payments; before++) {
        begun_encoding(&encoding, before, amount - before);
        commit(&payer, before + 1, &encoding, 0, amount - before - 1);
        hop_encoding(&encoding, before, amount - before);
        commit(&payee, before, &encoding, 1000, before + 1);
    }
    end(&payer);
    end(&payee);
    printf("%llu\n", (unsigned long long)payments);
    return 0;
}
