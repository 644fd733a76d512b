/* measure REPORT COMMAND ..: runs a command, writes one line into the file REPORT, and ends as the command does.
 *
 * The line has the command's wall time, its user and system time, all three in microseconds, and its peak memory in KiB.
 * What the system counts as a program's peak has that of the program from which it was forked, so this small one stands
 * between.
 */
#include "script.h"

#include <stdlib.h>
#include <sys/resource.h>
#include <sys/wait.h>
#include <time.h>
#include <unistd.h>

static long long microseconds(struct timeval time) {
    return time.tv_sec * 1000000LL + time.tv_usec;
}

static long long now(void) {
    struct timespec time;
    if (clock_gettime(CLOCK_MONOTONIC, &time) != 0)
        fail_by_system("clock", "CLOCK_MONOTONIC");
    return time.tv_sec * 1000000LL + time.tv_nsec / 1000;
}

int main(int count, char **words) {
    if (count < 3)
        fail("measure", "usage", "measure REPORT COMMAND ..");
    long long begun = now();
    pid_t child = fork();
    if (child < 0)
        fail_by_system("fork", words[2]);
    if (child == 0) {
        execvp(words[2], words + 2);
        fail_by_system("run", words[2]);
    }
    int status;
    struct rusage used;
    if (wait4(child, &status, 0, &used) != child)
        fail_by_system("wait", words[2]);
    long long wall = now() - begun;
    FILE *report = fopen(words[1], "w");
    if (report == NULL)
        fail_by_system("open", words[1]);
    fprintf(report, "%lld %lld %lld %ld\n", wall, microseconds(used.ru_utime), microseconds(used.ru_stime), used.ru_maxrss);
    if (fclose(report) != 0)
        fail_by_system("write", words[1]);
    return WIFEXITED(status) ? WEXITSTATUS(status) : 128 + WTERMSIG(status);
}
