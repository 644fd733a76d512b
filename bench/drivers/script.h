/* The script of a workload, read line by line, and the replies to it.
 *
 * The drivers of all peers share this file, so that reading commands and writing replies costs each of them the same.
 * It knows the commands that the workloads use, and ends the driver with a line on standard error where a line is none
 * of them, or where anything fails.
 */
#ifndef SCRIPT_H
#define SCRIPT_H

#include <stdbool.h>
#include <stddef.h>
#include <stdint.h>
#include <stdio.h>
#include <stdnoreturn.h>

enum word { MKDIR, CREATE, WRITE, FILL, RENAME, OSYNC, DSYNC };

struct command {
    enum word word;
    const char *path;
    const char *other; /* the new path of a rename */
    uint64_t offset;
    size_t length;
    const unsigned char *data; /* what a write or a fill puts there */
};

/* Ends the driver, and says on standard error what failed, of which thing, and why. */
noreturn void fail(const char *what, const char *of, const char *why);

/* The same where the system says why. */
noreturn void fail_by_system(const char *what, const char *of);

/* Memory of so many bytes, which is never NULL: the old memory, made larger, where there is some. */
void *memory(void *old, size_t bytes);

/* Reads the next command. It is valid up to the next call. False at the end of the script. */
bool next_command(FILE *script, struct command *command);

/* Writes the reply to a command that was done; `point` is the number of the last sync point. */
void reply_to(const struct command *command, uint64_t point);

/* The bytes that pairs of hexadecimal digits are, and how many these are. They are valid up to the next call. */
const unsigned char *bytes_of(const char *digits, size_t *length);

/* Writes bytes as pairs of hexadecimal digits. */
void write_hex(const unsigned char *data, size_t length);

/* Hands on what was written to standard output. */
void end_output(void);

#endif
