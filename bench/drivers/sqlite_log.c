/* sqlite_log FILE normal|full < SCRIPT: runs a script on a log that is kept in a database of SQLite.
 * sqlite_log FILE make: makes the database. sqlite_log FILE show: lists the appends.
 *
 * The database has a row for each append, under its number. What comes between two syncs is one transaction. The journal
 * is a write-ahead log. With `normal` a transaction's end isn't synced: their order is kept, and a sync makes a checkpoint,
 * which syncs. With `full` each transaction is synced at its end.
 */
#include "log_script.h"

#include <sqlite3.h>
#include <string.h>

enum statement { BEGIN, COMMIT, ADD, LIST, STATEMENTS };

static const char *const TEXTS[STATEMENTS] = {
    [BEGIN] = "BEGIN IMMEDIATE",
    [COMMIT] = "COMMIT",
    [ADD] = "INSERT INTO appends (number, data) VALUES (?1, ?2)",
    [LIST] = "SELECT number, data FROM appends ORDER BY number",
};

static const char TABLE[] = "CREATE TABLE appends (number INTEGER PRIMARY KEY, data BLOB NOT NULL)";

static sqlite3 *database;
static sqlite3_stmt *prepared[STATEMENTS];

/* Ends the driver where a call of SQLite has another result than this one. */
static void need(int result, int wanted, const char *what) {
    if (result != wanted)
        fail("sqlite", what, sqlite3_errmsg(database));
}

static void run_text(const char *text) {
    need(sqlite3_exec(database, text, NULL, NULL, NULL), SQLITE_OK, text);
}

static void prepare(void) {
    for (enum statement one = BEGIN; one < STATEMENTS; one++)
        need(sqlite3_prepare_v2(database, TEXTS[one], -1, &prepared[one], NULL), SQLITE_OK, TEXTS[one]);
}

/* Runs a statement that has no rows. */
static void run(enum statement one) {
    need(sqlite3_step(prepared[one]), SQLITE_DONE, TEXTS[one]);
    need(sqlite3_reset(prepared[one]), SQLITE_OK, TEXTS[one]);
}

static void put(const struct log_call *call, uint64_t number) {
    need(sqlite3_bind_int64(prepared[ADD], 1, (sqlite3_int64)number), SQLITE_OK, TEXTS[ADD]);
    need(sqlite3_bind_blob(prepared[ADD], 2, call->data, (int)call->length, SQLITE_STATIC), SQLITE_OK, TEXTS[ADD]);
    run(ADD);
}

static void run_script(bool is_full) {
    struct log_call call;
    struct log_state state = {0};
    bool has_begun = false;
    run_text(is_full ? "PRAGMA synchronous = FULL" : "PRAGMA synchronous = NORMAL");
    prepare();
    while (next_call(stdin, &call)) {
        if (call.word == APPEND) {
            if (!has_begun)
                run(BEGIN);
            put(&call, state.next++);
            has_begun = true;
        } else if (has_begun) {
            run(COMMIT);
            state.point++;
            has_begun = false;
        }
        if (call.word == SYNC && !is_full)
            need(sqlite3_wal_checkpoint_v2(database, NULL, SQLITE_CHECKPOINT_FULL, NULL, NULL), SQLITE_OK, "checkpoint");
        reply_to_call(&call, &state);
    }
    if (has_begun)
        fail("sqlite", "script", "it ends without a sync");
}

static void show(void) {
    prepare();
    int result;
    while ((result = sqlite3_step(prepared[LIST])) == SQLITE_ROW)
        show_append((uint64_t)sqlite3_column_int64(prepared[LIST], 0), sqlite3_column_blob(prepared[LIST], 1),
            (size_t)sqlite3_column_bytes(prepared[LIST], 1));
    need(result, SQLITE_DONE, TEXTS[LIST]);
}

int main(int count, char **words) {
    const char *mode = count == 3 ? words[2] : "";
    need(sqlite3_open(count == 3 ? words[1] : "", &database), SQLITE_OK, "open");
    if (strcmp(mode, "make") == 0) {
        run_text("PRAGMA journal_mode = WAL");
        run_text(TABLE);
    } else if (strcmp(mode, "show") == 0) {
        show();
    } else if (strcmp(mode, "full") == 0 || strcmp(mode, "normal") == 0) {
        run_script(strcmp(mode, "full") == 0);
    } else {
        fail("sqlite_log", "usage", "sqlite_log FILE make|normal|full|show");
    }
    for (enum statement one = BEGIN; one < STATEMENTS; one++)
        sqlite3_finalize(prepared[one]);
    need(sqlite3_close(database), SQLITE_OK, "close");
    end_output();
    return 0;
}
