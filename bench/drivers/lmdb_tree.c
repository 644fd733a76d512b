/* lmdb_tree FILE sync|nometasync < SCRIPT: runs a script on a tree that is kept in a database of LMDB.
 * lmdb_tree FILE make: makes the database. lmdb_tree FILE show: lists the tree.
 *
 * A key is a path, or a file's number and the place of a piece of it, of 1 KiB as the blocks of optfs. What comes
 * between two syncs is one transaction. With `sync` each is synced at its end, twice: its pages, and the page that names
 * them. With `nometasync` the second sync is left to the next transaction, so a crash may undo the last one, and a dsync
 * syncs besides.
 */
#include "script.h"

#include <lmdb.h>
#include <string.h>

enum { PIECE = 1024, LONGEST_KEY = 500, PIECE_KEY = 17 };

static const size_t LARGEST_DATABASE = (size_t)1 << 30;

struct node {
    uint64_t number;
    uint64_t size;
    uint64_t is_file;
};

/* The key of a path or of a piece, by its first byte. */
struct key {
    size_t length;
    unsigned char bytes[LONGEST_KEY];
};

static MDB_env *environment;
static MDB_txn *transaction;
static MDB_dbi database;
static bool is_synced;
static uint64_t last_number;

/* Ends the driver where a call of LMDB has failed. */
static void need(int result, const char *what) {
    if (result != MDB_SUCCESS)
        fail("lmdb", what, mdb_strerror(result));
}

static void begin(unsigned flags) {
    need(mdb_txn_begin(environment, NULL, flags, &transaction), "begin");
}

static void commit(void) {
    need(mdb_txn_commit(transaction), "commit");
    transaction = NULL;
}

static struct key key_of_path(const char *path) {
    struct key key = {.length = 1 + strlen(path)};
    if (key.length > LONGEST_KEY)
        fail("lmdb", path, "it is too long for a key");
    key.bytes[0] = 'p';
    memcpy(key.bytes + 1, path, key.length - 1);
    return key;
}

/* Numbers have their highest byte first, so that the pieces of a file are in order. */
static struct key key_of_piece(uint64_t number, uint64_t place) {
    struct key key = {.length = PIECE_KEY};
    key.bytes[0] = 'b';
    for (int byte = 0; byte < 8; byte++) {
        key.bytes[1 + byte] = (unsigned char)(number >> (56 - 8 * byte));
        key.bytes[9 + byte] = (unsigned char)(place >> (56 - 8 * byte));
    }
    return key;
}

static void set(struct key key, const void *data, size_t length) {
    MDB_val name = {key.length, key.bytes}, value = {length, (void *)data};
    need(mdb_put(transaction, database, &name, &value, 0), "put");
}

static void delete(struct key key) {
    MDB_val name = {key.length, key.bytes};
    need(mdb_del(transaction, database, &name, NULL), "delete");
}

static bool find(const char *path, struct node *node) {
    struct key key = key_of_path(path);
    MDB_val name = {key.length, key.bytes}, value;
    int result = mdb_get(transaction, database, &name, &value);
    if (result == MDB_NOTFOUND)
        return false;
    need(result, path);
    memcpy(node, value.mv_data, sizeof *node);
    return true;
}

static struct node found(const char *path) {
    struct node node;
    if (!find(path, &node))
        fail("lmdb", path, "it isn't there");
    return node;
}

static void add(const char *path, bool is_file) {
    struct node node = {.number = ++last_number, .is_file = is_file};
    set(key_of_path(path), &node, sizeof node);
}

static void put(const struct command *command) {
    struct node node = found(command->path);
    uint64_t past = command->offset + command->length;
    if (command->offset % PIECE != 0 || (command->length % PIECE != 0 && past < node.size))
        fail("lmdb", command->path, "a write that cuts a piece is no part of a workload");
    for (size_t done = 0; done < command->length; done += PIECE) {
        size_t length = command->length - done < PIECE ? command->length - done : PIECE;
        set(key_of_piece(node.number, (command->offset + done) / PIECE), command->data + done, length);
    }
    if (past > node.size) {
        node.size = past;
        set(key_of_path(command->path), &node, sizeof node);
    }
}

static void rename_file(const char *path, const char *other) {
    struct node node = found(path), old;
    if (find(other, &old))
        for (uint64_t place = 0; place * PIECE < old.size; place++)
            delete(key_of_piece(old.number, place));
    set(key_of_path(other), &node, sizeof node);
    delete(key_of_path(path));
}

/* Ends the transaction, if there is one. In the mode `nometasync` a dsync has to sync its last page besides. */
static void sync_tree(enum word word, uint64_t *point) {
    if (transaction != NULL) {
        commit();
        *point += 1;
    }
    if (word == DSYNC && !is_synced)
        need(mdb_env_sync(environment, 1), "sync");
}

static void obey(const struct command *command, uint64_t *point) {
    if (command->word == OSYNC || command->word == DSYNC) {
        sync_tree(command->word, point);
        return;
    }
    if (transaction == NULL)
        begin(0);
    if (command->word == MKDIR || command->word == CREATE)
        add(command->path, command->word == CREATE);
    else if (command->word == RENAME)
        rename_file(command->path, command->other);
    else
        put(command);
}

static void run_script(void) {
    struct command command;
    uint64_t point = 0;
    while (next_command(stdin, &command)) {
        obey(&command, &point);
        reply_to(&command, point);
    }
    if (transaction != NULL)
        fail("lmdb", "script", "it ends without a sync");
}

static void show_file(const struct node *node) {
    printf(" %llu ", (unsigned long long)node->size);
    for (uint64_t place = 0; place * PIECE < node->size; place++) {
        struct key key = key_of_piece(node->number, place);
        MDB_val name = {key.length, key.bytes}, value;
        need(mdb_get(transaction, database, &name, &value), "piece");
        write_hex(value.mv_data, value.mv_size);
    }
}

static void show_path(const MDB_val *name, const MDB_val *value) {
    struct node node;
    memcpy(&node, value->mv_data, sizeof node);
    printf("%s %.*s", node.is_file ? "file" : "dir", (int)name->mv_size - 1, (const char *)name->mv_data + 1);
    if (node.is_file)
        show_file(&node);
    putchar('\n');
}

/* Lists each path but the root: `dir PATH`, or `file PATH SIZE BYTES`. */
static void show(void) {
    MDB_cursor *cursor;
    MDB_val name, value;
    begin(MDB_RDONLY);
    need(mdb_cursor_open(transaction, database, &cursor), "cursor");
    int result;
    while ((result = mdb_cursor_get(cursor, &name, &value, MDB_NEXT)) == MDB_SUCCESS)
        if (*(const char *)name.mv_data == 'p')
            show_path(&name, &value);
    if (result != MDB_NOTFOUND)
        need(result, "next");
    mdb_cursor_close(cursor);
    mdb_txn_abort(transaction);
}

static void open_database(const char *path, unsigned flags) {
    need(mdb_env_create(&environment), "create");
    need(mdb_env_set_mapsize(environment, LARGEST_DATABASE), "size");
    need(mdb_env_open(environment, path, MDB_NOSUBDIR | flags, 0644), path);
    begin(0);
    need(mdb_dbi_open(transaction, NULL, 0, &database), "open");
    commit();
}

int main(int count, char **words) {
    const char *mode = count == 3 ? words[2] : "";
    bool is_made = strcmp(mode, "make") == 0, is_shown = strcmp(mode, "show") == 0;
    is_synced = strcmp(mode, "sync") == 0;
    if (!is_made && !is_shown && !is_synced && strcmp(mode, "nometasync") != 0)
        fail("lmdb_tree", "usage", "lmdb_tree FILE make|sync|nometasync|show");
    open_database(words[1], is_made || is_shown || is_synced ? 0 : MDB_NOMETASYNC);
    if (is_shown)
        show();
    else if (!is_made)
        run_script();
    mdb_env_close(environment);
    end_output();
    return 0;
}
