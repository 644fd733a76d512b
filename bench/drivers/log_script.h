/* The script of a workload on a log, read line by line, and the replies to it. The drivers of logs share this file, as
 * those of trees share script.h, of which it has the rest.
 */
#ifndef LOG_SCRIPT_H
#define LOG_SCRIPT_H

#include "script.h"

enum log_word { APPEND, ORDER, SYNC };

struct log_call {
    enum log_word word;
    size_t length;
    const unsigned char *data; /* what is appended */
};

/* What a log has come to: the number of the next append, and that of the last sync point. */
struct log_state {
    uint64_t next;
    uint64_t point;
};

/* Reads the next call. It is valid up to the next one. False at the end of the script. */
bool next_call(FILE *script, struct log_call *call);

/* Writes the reply to a call that was done; the state is that behind it. */
void reply_to_call(const struct log_call *call, const struct log_state *state);

/* Writes the line of an append: its number and its bytes. */
void show_append(uint64_t number, const unsigned char *data, size_t length);

#endif
