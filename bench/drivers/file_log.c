/* file_log FILE run < SCRIPT: appends to a file, and syncs it by fdatasync where the script orders or syncs: the system has
 * nothing weaker that keeps an order. file_log FILE show: lists the appends.
 *
 * An append lies in the file as in a segment of optfs: how many bytes it has, in four, the lowest first, and these bytes.
 */
#include "log_script.h"

#include <fcntl.h>
#include <string.h>
#include <unistd.h>

enum { HEAD = 4 };

static int file;

static void put(const struct log_call *call) {
    static unsigned char *text;
    size_t length = HEAD + call->length;
    text = memory(text, length);
    for (size_t place = 0; place < HEAD; place++)
        text[place] = (unsigned char)(call->length >> (8 * place));
    memcpy(text + HEAD, call->data, call->length);
    if (write(file, text, length) != (ssize_t)length)
        fail_by_system("write", "the log");
}

static void run_script(void) {
    struct log_call call;
    struct log_state state = {0};
    bool has_changed = false;
    while (next_call(stdin, &call)) {
        if (call.word == APPEND) {
            put(&call);
            state.next++;
            has_changed = true;
        } else if (has_changed) {
            if (fdatasync(file) != 0)
                fail_by_system("fdatasync", "the log");
            state.point++;
            has_changed = false;
        }
        reply_to_call(&call, &state);
    }
}

/* Reads so many bytes. False at the end of the file. */
static bool read_whole(unsigned char *into, size_t length) {
    ssize_t found = read(file, into, length);
    if (found < 0)
        fail_by_system("read", "the log");
    if (found != 0 && (size_t)found != length)
        fail("read", "the log", "an append isn't whole");
    return length == 0 || found != 0;
}

static void show(void) {
    unsigned char head[HEAD], *data = NULL;
    for (uint64_t number = 0; read_whole(head, HEAD); number++) {
        size_t length = 0;
        for (size_t place = 0; place < HEAD; place++)
            length |= (size_t)head[place] << (8 * place);
        data = memory(data, length + 1);
        if (!read_whole(data, length))
            fail("read", "the log", "an append isn't whole");
        show_append(number, data, length);
    }
}

int main(int count, char **words) {
    const char *mode = count == 3 ? words[2] : "";
    bool is_run = strcmp(mode, "run") == 0;
    if (!is_run && strcmp(mode, "show") != 0)
        fail("file_log", "usage", "file_log FILE run|show");
    file = open(words[1], is_run ? O_CREAT | O_APPEND | O_WRONLY | O_CLOEXEC : O_RDONLY | O_CLOEXEC, 0644);
    if (file < 0)
        fail_by_system("open", words[1]);
    if (is_run)
        run_script();
    else
        show();
    if (close(file) != 0)
        fail_by_system("close", words[1]);
    end_output();
    return 0;
}
