/* sqlite_tree FILE normal|full < SCRIPT: runs a script on a tree that is kept in a database of SQLite.
 * sqlite_tree FILE make: makes the database. sqlite_tree FILE show: lists the tree.
 *
 * The database has a row for each path and one for each piece of a file, of 1 KiB as the blocks of optfs. What comes
 * between two syncs is one transaction. The journal is a write-ahead log. With `normal` a transaction's end isn't synced:
 * their order is kept, and a dsync makes a checkpoint, which syncs. With `full` each transaction is synced at its end.
 */
#include "script.h"

#include <sqlite3.h>
#include <string.h>

enum { PIECE = 1024 };

static const sqlite3_int64 MOST_PIECES = 1 << 24;

enum statement { BEGIN, COMMIT, ADD, FIND, RESIZE, MOVE, REMOVE, PUT, CLEAR, LIST, PIECES, STATEMENTS };

static const char *const TEXTS[STATEMENTS] = {
    [BEGIN] = "BEGIN IMMEDIATE",
    [COMMIT] = "COMMIT",
    [ADD] = "INSERT INTO nodes (path, size) VALUES (?1, ?2)",
    [FIND] = "SELECT number, size FROM nodes WHERE path = ?1",
    [RESIZE] = "UPDATE nodes SET size = ?2 WHERE number = ?1",
    [MOVE] = "UPDATE nodes SET path = ?2 WHERE number = ?1",
    [REMOVE] = "DELETE FROM nodes WHERE number = ?1",
    [PUT] = "REPLACE INTO pieces (id, data) VALUES (?1, ?2)",
    [CLEAR] = "DELETE FROM pieces WHERE id >= ?1 AND id < ?2",
    [LIST] = "SELECT path, number, size FROM nodes ORDER BY path",
    [PIECES] = "SELECT data FROM pieces WHERE id >= ?1 AND id < ?2 ORDER BY id",
};

static const char TABLES[] =
    "CREATE TABLE nodes (number INTEGER PRIMARY KEY, path TEXT NOT NULL UNIQUE, size INTEGER);"
    "CREATE TABLE pieces (id INTEGER PRIMARY KEY, data BLOB NOT NULL);";

struct node {
    sqlite3_int64 number;
    uint64_t size;
};

static sqlite3 *database;
static sqlite3_stmt *prepared[STATEMENTS];
static bool is_full;
static bool has_begun;

/* Ends the driver where a call of SQLite has another result than this one. */
static void need(int result, int wanted, const char *what) {
    if (result != wanted)
        fail("sqlite", what, sqlite3_errmsg(database));
}

static void run_text(const char *text) {
    need(sqlite3_exec(database, text, NULL, NULL, NULL), SQLITE_OK, text);
}

static void prepare(enum statement first, enum statement last) {
    for (enum statement one = first; one <= last; one++)
        need(sqlite3_prepare_v2(database, TEXTS[one], -1, &prepared[one], NULL), SQLITE_OK, TEXTS[one]);
}

static void bind_number(enum statement one, int place, sqlite3_int64 number) {
    need(sqlite3_bind_int64(prepared[one], place, number), SQLITE_OK, TEXTS[one]);
}

static void bind_text(enum statement one, int place, const char *text) {
    need(sqlite3_bind_text(prepared[one], place, text, -1, SQLITE_STATIC), SQLITE_OK, TEXTS[one]);
}

/* Whether a statement has a row; it is still under way then. */
static bool has_row(enum statement one) {
    int result = sqlite3_step(prepared[one]);
    if (result != SQLITE_ROW)
        need(result, SQLITE_DONE, TEXTS[one]);
    return result == SQLITE_ROW;
}

static void end(enum statement one) {
    need(sqlite3_reset(prepared[one]), SQLITE_OK, TEXTS[one]);
}

/* The id of a piece of a file. Those of one file are neighbours. */
static sqlite3_int64 id_of(sqlite3_int64 number, uint64_t place) {
    return number * MOST_PIECES + (sqlite3_int64)place;
}

/* Lets a statement be about all pieces of a file. */
static void bind_file(enum statement one, sqlite3_int64 number) {
    bind_number(one, 1, id_of(number, 0));
    bind_number(one, 2, id_of(number + 1, 0));
}

/* Runs a statement that has no rows. */
static void run(enum statement one) {
    if (has_row(one))
        fail("sqlite", TEXTS[one], "it has a row");
    end(one);
}

static void begin_if_need_be(void) {
    if (!has_begun)
        run(BEGIN);
    has_begun = true;
}

/* Adds a directory or an empty file: the size of a directory is none. */
static void add(const char *path, bool is_file) {
    need(sqlite3_clear_bindings(prepared[ADD]), SQLITE_OK, TEXTS[ADD]);
    bind_text(ADD, 1, path);
    if (is_file)
        bind_number(ADD, 2, 0);
    run(ADD);
}

static bool find(const char *path, struct node *node) {
    bind_text(FIND, 1, path);
    bool is_there = has_row(FIND);
    if (is_there) {
        node->number = sqlite3_column_int64(prepared[FIND], 0);
        node->size = (uint64_t)sqlite3_column_int64(prepared[FIND], 1);
    }
    end(FIND);
    return is_there;
}

static struct node found(const char *path) {
    struct node node;
    if (!find(path, &node))
        fail("sqlite", path, "it isn't there");
    return node;
}

static void put(const struct command *command) {
    struct node node = found(command->path);
    uint64_t past = command->offset + command->length;
    if (command->offset % PIECE != 0 || (command->length % PIECE != 0 && past < node.size))
        fail("sqlite", command->path, "a write that cuts a piece is no part of a workload");
    for (size_t done = 0; done < command->length; done += PIECE) {
        size_t length = command->length - done < PIECE ? command->length - done : PIECE;
        bind_number(PUT, 1, id_of(node.number, (command->offset + done) / PIECE));
        need(sqlite3_bind_blob(prepared[PUT], 2, command->data + done, (int)length, SQLITE_STATIC), SQLITE_OK, TEXTS[PUT]);
        run(PUT);
    }
    if (past > node.size) {
        bind_number(RESIZE, 1, node.number);
        bind_number(RESIZE, 2, (sqlite3_int64)past);
        run(RESIZE);
    }
}

static void rename_file(const char *path, const char *other) {
    struct node node = found(path), old;
    if (find(other, &old)) {
        bind_file(CLEAR, old.number);
        run(CLEAR);
        bind_number(REMOVE, 1, old.number);
        run(REMOVE);
    }
    bind_number(MOVE, 1, node.number);
    bind_text(MOVE, 2, other);
    run(MOVE);
}

/* Ends the transaction, if there is one. In the mode `normal` a dsync has to sync the log besides. */
static void sync_tree(enum word word, uint64_t *point) {
    if (has_begun) {
        run(COMMIT);
        *point += 1;
    }
    has_begun = false;
    if (word == DSYNC && !is_full)
        need(sqlite3_wal_checkpoint_v2(database, NULL, SQLITE_CHECKPOINT_FULL, NULL, NULL), SQLITE_OK, "checkpoint");
}

static void obey(const struct command *command, uint64_t *point) {
    if (command->word == OSYNC || command->word == DSYNC) {
        sync_tree(command->word, point);
        return;
    }
    begin_if_need_be();
    if (command->word == MKDIR || command->word == CREATE)
        add(command->path, command->word == CREATE);
    else if (command->word == RENAME)
        rename_file(command->path, command->other);
    else
        put(command);
}

static void run_script(void) {
    struct command command;
    uint64_t point = 0;
    run_text(is_full ? "PRAGMA synchronous = FULL" : "PRAGMA synchronous = NORMAL");
    prepare(BEGIN, CLEAR);
    while (next_command(stdin, &command)) {
        obey(&command, &point);
        reply_to(&command, point);
    }
    if (has_begun)
        fail("sqlite", "script", "it ends without a sync");
}

static void show_file(sqlite3_int64 number, sqlite3_int64 size) {
    printf(" %lld ", (long long)size);
    bind_file(PIECES, number);
    while (has_row(PIECES))
        write_hex(sqlite3_column_blob(prepared[PIECES], 0), (size_t)sqlite3_column_bytes(prepared[PIECES], 0));
    end(PIECES);
}

/* Lists each path but the root: `dir PATH`, or `file PATH SIZE BYTES`. */
static void show(void) {
    prepare(LIST, PIECES);
    while (has_row(LIST)) {
        bool is_file = sqlite3_column_type(prepared[LIST], 2) != SQLITE_NULL;
        printf("%s %s", is_file ? "file" : "dir", (const char *)sqlite3_column_text(prepared[LIST], 0));
        if (is_file)
            show_file(sqlite3_column_int64(prepared[LIST], 1), sqlite3_column_int64(prepared[LIST], 2));
        putchar('\n');
    }
    end(LIST);
}

static void close_database(void) {
    for (enum statement one = BEGIN; one < STATEMENTS; one++)
        sqlite3_finalize(prepared[one]);
    need(sqlite3_close(database), SQLITE_OK, "close");
}

int main(int count, char **words) {
    const char *mode = count == 3 ? words[2] : "";
    is_full = strcmp(mode, "full") == 0;
    need(sqlite3_open(count == 3 ? words[1] : "", &database), SQLITE_OK, "open");
    if (strcmp(mode, "make") == 0) {
        run_text("PRAGMA journal_mode = WAL");
        run_text(TABLES);
    } else if (strcmp(mode, "show") == 0) {
        show();
    } else if (is_full || strcmp(mode, "normal") == 0) {
        run_script();
    } else {
        fail("sqlite_tree", "usage", "sqlite_tree FILE make|normal|full|show");
    }
    close_database();
    end_output();
    return 0;
}
