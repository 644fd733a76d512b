/* Reads scripts and writes replies: see script.h. */
#include "script.h"

#include <errno.h>
#include <stdlib.h>
#include <string.h>

static const char *const WORDS[] = {"mkdir", "create", "write", "fill", "rename", "osync", "dsync"};
static const size_t MOST_PARTS = 5;

static unsigned long line_number;

noreturn void fail(const char *what, const char *of, const char *why) {
    fprintf(stderr, "%s: %s: %s\n", what, of, why);
    exit(1);
}

noreturn void fail_by_system(const char *what, const char *of) {
    fail(what, of, strerror(errno));
}

void *memory(void *old, size_t bytes) {
    void *found = realloc(old, bytes);
    if (found == NULL)
        fail_by_system("memory", "it isn't found");
    return found;
}

/* Ends the driver, since the line is no command of a workload. */
static noreturn void refuse(const char *why) {
    char place[32];
    snprintf(place, sizeof place, "line %lu", line_number);
    fail("script", place, why);
}

static enum word word_of(const char *text) {
    for (size_t word = 0; word < sizeof WORDS / sizeof *WORDS; word++)
        if (strcmp(text, WORDS[word]) == 0)
            return (enum word)word;
    refuse("no workload uses this command");
}

static uint64_t number_of(const char *text) {
    char *end;
    errno = 0;
    uint64_t number = strtoull(text, &end, 10);
    if (*text < '0' || *text > '9' || *end != 0 || errno != 0)
        refuse("a number isn't one");
    return number;
}

static unsigned char digit_of(char digit) {
    if (digit >= '0' && digit <= '9')
        return (unsigned char)(digit - '0');
    if (digit >= 'a' && digit <= 'f')
        return (unsigned char)(digit - 'a' + 10);
    refuse("bytes aren't pairs of hexadecimal digits");
}

/* Memory for the bytes of a command, which is used again by the next one. */
static unsigned char *room_for(size_t length) {
    static unsigned char *room;
    static size_t has;
    if (length > has) {
        room = memory(room, length);
        has = length;
    }
    return room;
}

const unsigned char *bytes_of(const char *digits, size_t *length) {
    if (strlen(digits) % 2 != 0)
        refuse("bytes aren't pairs of hexadecimal digits");
    *length = strlen(digits) / 2;
    unsigned char *data = room_for(*length);
    for (size_t place = 0; place < *length; place++)
        data[place] = (unsigned char)(digit_of(digits[2 * place]) << 4 | digit_of(digits[2 * place + 1]));
    return data;
}

static void read_fill(struct command *command, const char *length, const char *byte) {
    command->length = number_of(length);
    unsigned char *data = room_for(command->length);
    memset(data, (int)number_of(byte), command->length);
    command->data = data;
}

/* Parts a line at its blanks, and returns how many parts it has. */
static size_t part(char *line, char *parts[]) {
    size_t count = 0;
    for (char *rest = line; rest != NULL;) {
        if (count == MOST_PARTS)
            refuse("it has too many parts");
        parts[count++] = strsep(&rest, " ");
    }
    return count;
}

static void read_parts(struct command *command, char *parts[], size_t count) {
    static const size_t WANTED[] = {2, 2, 4, 5, 3, 1, 1};
    command->word = word_of(parts[0]);
    if (count != WANTED[command->word])
        refuse("it has other parts than its command wants");
    if (count > 1)
        command->path = parts[1];
    if (command->word == RENAME)
        command->other = parts[2];
    if (command->word == WRITE || command->word == FILL)
        command->offset = number_of(parts[2]);
    if (command->word == WRITE)
        command->data = bytes_of(parts[3], &command->length);
    if (command->word == FILL)
        read_fill(command, parts[3], parts[4]);
    if (command->path != NULL && command->path[0] != '/')
        refuse("a path begins with a slash");
}

bool next_command(FILE *script, struct command *command) {
    static char *line;
    static size_t has;
    char *parts[5];
    ssize_t length = getline(&line, &has, script);
    if (length < 0 && ferror(script))
        fail_by_system("script", "read");
    if (length < 0)
        return false;
    line_number++;
    if (line[length - 1] == '\n')
        line[length - 1] = 0;
    *command = (struct command){0};
    read_parts(command, parts, part(line, parts));
    return true;
}

void reply_to(const struct command *command, uint64_t point) {
    if (command->word == OSYNC)
        printf("synced %llu\n", (unsigned long long)point);
    else if (command->word == DSYNC)
        printf("durable %llu\n", (unsigned long long)point);
    else
        puts("ok");
}

void write_hex(const unsigned char *data, size_t length) {
    static const char DIGITS[] = "0123456789abcdef";
    for (size_t place = 0; place < length; place++) {
        putchar(DIGITS[data[place] >> 4]);
        putchar(DIGITS[data[place] & 15]);
    }
}

void end_output(void) {
    if (fflush(stdout) != 0 || ferror(stdout))
        fail_by_system("output", "write");
}
