/* posix_tree DIRECTORY < SCRIPT: runs a script on a directory of the host, with files as files.
 *
 * A sync is what a program does that wants its changes in order and durable: an fsync of each file that was touched since
 * the last one, and then of each directory whose names were changed; or, where these are many, one syncfs. The system
 * has nothing weaker that keeps an order, so an osync costs here what a dsync does.
 */
#define _GNU_SOURCE
#include "script.h"

#include <fcntl.h>
#include <stdlib.h>
#include <string.h>
#include <sys/stat.h>
#include <unistd.h>

/* From so many paths on a syncfs is less than an fsync of each. */
enum { MANY = 4 };

/* A list of paths, each of them once. */
struct paths {
    char **path;
    size_t count;
    size_t room;
};

static int root;
static struct paths files;
static struct paths directories;

/* A path as one below the directory that is the root. */
static const char *below_root(const char *path) {
    return path[1] != 0 ? path + 1 : ".";
}

static char *copy_of(const char *path, size_t length) {
    char *copy = memory(NULL, length + 1);
    memcpy(copy, path, length);
    copy[length] = 0;
    return copy;
}

/* Puts so many bytes of a path into a list that hasn't it. */
static void note(struct paths *list, const char *path, size_t length) {
    for (size_t place = list->count; place-- > 0;)
        if (strncmp(list->path[place], path, length) == 0 && list->path[place][length] == 0)
            return;
    if (list->count == list->room) {
        list->room = 2 * list->room + 16;
        list->path = memory(list->path, list->room * sizeof *list->path);
    }
    list->path[list->count++] = copy_of(path, length);
}

static void note_file(const char *path) {
    note(&files, path, strlen(path));
}

static void note_parent(const char *path) {
    size_t length = (size_t)(strrchr(path, '/') - path);
    note(&directories, path, length == 0 ? 1 : length);
}

static void close_file(int file, const char *path) {
    if (close(file) != 0)
        fail_by_system("close", path);
}

static void make_directory(const char *path) {
    if (mkdirat(root, below_root(path), 0755) != 0)
        fail_by_system("mkdir", path);
    note_parent(path);
}

static void make_file(const char *path) {
    int file = openat(root, below_root(path), O_CREAT | O_EXCL | O_WRONLY | O_CLOEXEC, 0644);
    if (file < 0)
        fail_by_system("create", path);
    close_file(file, path);
    note_file(path);
    note_parent(path);
}

static void put(const struct command *command) {
    int file = openat(root, below_root(command->path), O_WRONLY | O_CLOEXEC);
    if (file < 0)
        fail_by_system("open", command->path);
    for (size_t done = 0; done < command->length;) {
        off_t place = (off_t)(command->offset + done);
        ssize_t more = pwrite(file, command->data + done, command->length - done, place);
        if (more <= 0)
            fail_by_system("write", command->path);
        done += (size_t)more;
    }
    close_file(file, command->path);
    note_file(command->path);
}

static void rename_file(const char *path, const char *other) {
    if (renameat(root, below_root(path), root, below_root(other)) != 0)
        fail_by_system("rename", path);
    note_parent(path);
    note_parent(other);
    for (size_t place = 0; place < files.count; place++)
        if (strcmp(files.path[place], path) == 0) {
            free(files.path[place]);
            files.path[place] = copy_of(other, strlen(other));
        }
}

static void sync_path(const char *path) {
    int file = openat(root, below_root(path), O_RDONLY | O_CLOEXEC);
    if (file < 0)
        fail_by_system("open", path);
    if (fsync(file) != 0)
        fail_by_system("fsync", path);
    close_file(file, path);
}

static void forget(struct paths *list) {
    for (size_t place = 0; place < list->count; place++)
        free(list->path[place]);
    list->count = 0;
}

static void sync_tree(uint64_t *point) {
    size_t count = files.count + directories.count;
    *point += count > 0;
    if (count >= MANY && syncfs(root) != 0)
        fail_by_system("syncfs", "the image");
    for (size_t place = 0; place < files.count && count < MANY; place++)
        sync_path(files.path[place]);
    for (size_t place = 0; place < directories.count && count < MANY; place++)
        sync_path(directories.path[place]);
    forget(&files);
    forget(&directories);
}

static void obey(const struct command *command, uint64_t *point) {
    switch (command->word) {
    case MKDIR:
        make_directory(command->path);
        break;
    case CREATE:
        make_file(command->path);
        break;
    case WRITE:
    case FILL:
        put(command);
        break;
    case RENAME:
        rename_file(command->path, command->other);
        break;
    case OSYNC:
    case DSYNC:
        sync_tree(point);
        break;
    }
}

int main(int count, char **words) {
    if (count != 2)
        fail("posix_tree", "usage", "posix_tree DIRECTORY < SCRIPT");
    root = open(words[1], O_DIRECTORY | O_RDONLY | O_CLOEXEC);
    if (root < 0)
        fail_by_system("open", words[1]);
    struct command command;
    uint64_t point = 0;
    while (next_command(stdin, &command)) {
        obey(&command, &point);
        reply_to(&command, point);
    }
    end_output();
    return 0;
}
