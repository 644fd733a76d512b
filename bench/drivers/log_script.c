/* Reads scripts of logs and writes replies: see log_script.h. */
#include "log_script.h"

#include <string.h>

static const char APPEND_WORD[] = "append ";

bool next_call(FILE *script, struct log_call *call) {
    static char *line;
    static size_t has;
    ssize_t length = getline(&line, &has, script);
    if (length < 0 && ferror(script))
        fail_by_system("script", "read");
    if (length < 0)
        return false;
    if (line[length - 1] == '\n')
        line[length - 1] = 0;
    *call = (struct log_call){0};
    if (strncmp(line, APPEND_WORD, strlen(APPEND_WORD)) == 0)
        call->data = bytes_of(line + strlen(APPEND_WORD), &call->length);
    else if (strcmp(line, "order") == 0)
        call->word = ORDER;
    else if (strcmp(line, "sync") == 0)
        call->word = SYNC;
    else
        fail("script", line, "no workload uses this call");
    return true;
}

void reply_to_call(const struct log_call *call, const struct log_state *state) {
    if (call->word == APPEND)
        printf("ok %llu\n", (unsigned long long)(state->next - 1));
    else
        printf("%s %llu\n", call->word == ORDER ? "synced" : "durable", (unsigned long long)state->point);
}

void show_append(uint64_t number, const unsigned char *data, size_t length) {
    printf("%llu ", (unsigned long long)number);
    write_hex(data, length);
    putchar('\n');
}
