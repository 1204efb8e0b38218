/* Cuts what is read from connections, for tools/tries/fuzz. Loaded before the C library by LD_PRELOAD.

   A connection begins with how it is cut: a count of four bytes, and so many lengths of four bytes each, least byte first. These are taken
   where it is accepted. Its reads then give at most the first length, at most the second after that, and so on, and then what is there. */
#define _GNU_SOURCE
#include <stdint.h>
#include <sys/socket.h>
#include <sys/syscall.h>
#include <unistd.h>

enum { MOST = 1 << 17 };

static uint32_t lengths[MOST], count, at;

/* Takes bytes from a connection, and says whether all came. */
static int takes(int link, void *to, size_t size) {
    return size == 0 || recvfrom(link, to, size, MSG_WAITALL, NULL, NULL) == (ssize_t)size;
}

int accept4(int listener, struct sockaddr *from, socklen_t *size, int flags) {
    int link = (int)syscall(SYS_accept4, listener, from, size, flags);
    at = 0;
    if (link >= 0 && !(takes(link, &count, sizeof count) && count <= MOST && takes(link, lengths, count * sizeof *lengths)))
        count = 0;
    return link;
}

ssize_t recv(int link, void *to, size_t size, int flags) {
    if (at == count)
        return recvfrom(link, to, size, flags, NULL, NULL);
    ssize_t got = recvfrom(link, to, size < lengths[at] ? size : lengths[at], flags, NULL, NULL);
    if (got > 0 && (lengths[at] -= (uint32_t)got) == 0)
        at++;
    return got;
}
