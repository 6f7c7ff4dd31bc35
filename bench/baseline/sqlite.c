/* Durable batches in SQLite: the same script's entries, each judged, posted to one or two balances and kept as a row, and
   each turn's entries one transaction. The database is in WAL mode with synchronous=FULL, so that a commit is synced. Where
   other processes post to it too, each waits for the others.
   Words: the database, which is made. The script comes on standard input; the total is printed. */

#include <sqlite3.h>
#include <stdio.h>
#include <stdlib.h>
#include <string.h>

static sqlite3 *database;
static sqlite3_stmt *begin, *commit, *credit, *debit, *keep;

static void check(int answer) {
    if (answer != SQLITE_OK && answer != SQLITE_DONE && answer != SQLITE_ROW) {
        fprintf(stderr, "%s\n", sqlite3_errmsg(database));
        exit(1);
    }
}

static void run(const char *words) {
    check(sqlite3_exec(database, words, NULL, NULL, NULL));
}

static sqlite3_stmt *prepared(const char *words) {
    sqlite3_stmt *statement;
    check(sqlite3_prepare_v3(database, words, -1, SQLITE_PREPARE_PERSISTENT, &statement, NULL));
    return statement;
}

/* Whether the statement changed a row. */
static int step(sqlite3_stmt *statement, int count, const sqlite3_int64 *values) {
    for (int at = 0; at < count; at++)
        check(sqlite3_bind_int64(statement, at + 1, values[at]));
    check(sqlite3_step(statement));
    check(sqlite3_reset(statement));
    return sqlite3_changes(database) == 1;
}

static void post(int kind, sqlite3_int64 from, sqlite3_int64 to, sqlite3_int64 amount) {
    if (kind == 3 && from == to)
        return;
    if (kind != 1 && !step(debit, 2, (sqlite3_int64[]){from, amount}))
        return;
    if (kind != 2)
        step(credit, 2, (sqlite3_int64[]){to, amount});
    step(keep, 4, (sqlite3_int64[]){kind, from, to, amount});
}

static void take(const char *line, int *open) {
    long long one, other, amount;
    if (strncmp(line, "turn", 4) == 0) {
        step(commit, 0, NULL);
        *open = 0;
        return;
    }
    if (strncmp(line, "post", 4) != 0)
        return;
    if (!*open)
        step(begin, 0, NULL);
    *open = 1;
    if (sscanf(line, "post %*d deposit %lld %lld", &one, &amount) == 2)
        post(1, 0, one, amount);
    else if (sscanf(line, "post %*d withdraw %lld %lld", &one, &amount) == 2)
        post(2, one, 0, amount);
    else if (sscanf(line, "post %*d transfer %lld %lld %lld", &one, &other, &amount) == 3)
        post(3, one, other, amount);
}

int main(int count, char **words) {
    char line[256];
    int open = 0;
    if (count != 2) {
        fprintf(stderr, "usage: sqlite DATABASE < SCRIPT\n");
        return 2;
    }
    check(sqlite3_open(words[1], &database));
    run("PRAGMA busy_timeout = 60000; PRAGMA journal_mode = WAL; PRAGMA synchronous = FULL;"
        "CREATE TABLE IF NOT EXISTS accounts (id INTEGER PRIMARY KEY, balance INTEGER NOT NULL);"
        "CREATE TABLE IF NOT EXISTS entries (id INTEGER PRIMARY KEY, kind INTEGER NOT NULL, source INTEGER NOT NULL,"
        " target INTEGER NOT NULL, amount INTEGER NOT NULL);"
        "WITH RECURSIVE n (i) AS (SELECT 1 UNION ALL SELECT i + 1 FROM n WHERE i < 1024)"
        " INSERT OR IGNORE INTO accounts SELECT i, 0 FROM n");
    begin = prepared("BEGIN IMMEDIATE");
    commit = prepared("COMMIT");
    credit = prepared("UPDATE accounts SET balance = balance + ?2 WHERE id = ?1");
    debit = prepared("UPDATE accounts SET balance = balance - ?2 WHERE id = ?1 AND balance >= ?2");
    keep = prepared("INSERT INTO entries (kind, source, target, amount) VALUES (?1, ?2, ?3, ?4)");
    while (fgets(line, sizeof line, stdin))
        take(line, &open);
    sqlite3_stmt *total = prepared("SELECT sum(balance) FROM accounts");
    check(sqlite3_step(total));
    printf("total %lld\n", (long long)sqlite3_column_int64(total, 0));
    return 0;
}
