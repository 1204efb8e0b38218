// Runs a command, and writes the microseconds of the processor that it took, its greatest KiB and its status (below 0: a signal) to a descriptor.
//
// usage: used FD COMMAND ..
#include <fcntl.h>
#include <stdio.h>
#include <stdlib.h>
#include <sys/resource.h>
#include <sys/wait.h>
#include <unistd.h>

static long long micros(struct timeval it) { return it.tv_sec * 1000000LL + it.tv_usec; }

int main(int argc, char **argv) {
    int told = argc > 2 ? atoi(argv[1]) : -1, status;
    struct rusage used;
    if (told < 0 || fcntl(told, F_SETFD, FD_CLOEXEC) != 0) return 2;
    pid_t child = fork();
    if (child == 0) {
        execvp(argv[2], argv + 2);
        _exit(127);
    }
    if (child < 0 || wait4(child, &status, 0, &used) != child) return 2;
    dprintf(told, "%lld %ld %d\n", micros(used.ru_utime) + micros(used.ru_stime), used.ru_maxrss,
            WIFSIGNALED(status) ? -WTERMSIG(status) : WEXITSTATUS(status));
    return 0;
}
