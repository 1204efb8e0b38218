/* Counts the calls that take memory, and answers want of memory at some of them. Loaded before the C library by LD_PRELOAD.

   REFUSE_FILE is a file of 16 bytes: two numbers, how many calls there were and how many of them were refused. It is shared, so it
   tells both where the program was killed too. The calls from number REFUSE_FROM to REFUSE_TO are refused, the first being 1; without
   REFUSE_FILE none is counted or refused. A realloc to no bytes takes no memory and is not counted.

   A connection is accepted when something came on it, so that no read is late because the machine is busy. */
#define _GNU_SOURCE
#include <errno.h>
#include <fcntl.h>
#include <poll.h>
#include <stdint.h>
#include <stdlib.h>
#include <sys/mman.h>
#include <sys/socket.h>
#include <sys/syscall.h>
#include <unistd.h>

extern void *__libc_malloc(size_t size);
extern void *__libc_calloc(size_t count, size_t size);
extern void *__libc_realloc(void *old, size_t size);
extern void *__libc_memalign(size_t align, size_t size);

struct told {
    uint64_t calls, refused;
};

static struct told *told;
static uint64_t from, to;

static uint64_t number_of(const char *name) {
    const char *text = getenv(name);
    return text ? strtoull(text, NULL, 10) : 0;
}

__attribute__((constructor)) static void start(void) {
    const char *path = getenv("REFUSE_FILE");
    if (!path)
        return;
    int file = open(path, O_RDWR | O_CLOEXEC);
    if (file < 0)
        _exit(125);
    void *at = mmap(NULL, sizeof *told, PROT_READ | PROT_WRITE, MAP_SHARED, file, 0);
    close(file);
    if (at == MAP_FAILED)
        _exit(125);
    from = number_of("REFUSE_FROM");
    to = number_of("REFUSE_TO");
    told = at;
}

/* Counts a call, and says whether it is one that is refused. */
static int is_refused(void) {
    if (!told)
        return 0;
    uint64_t number = __atomic_add_fetch(&told->calls, 1, __ATOMIC_RELAXED);
    if (number < from || number > to)
        return 0;
    __atomic_add_fetch(&told->refused, 1, __ATOMIC_RELAXED);
    errno = ENOMEM;
    return 1;
}

void *malloc(size_t size) {
    return is_refused() ? NULL : __libc_malloc(size);
}

void *calloc(size_t count, size_t size) {
    return is_refused() ? NULL : __libc_calloc(count, size);
}

void *realloc(void *old, size_t size) {
    return (size > 0 || !old) && is_refused() ? NULL : __libc_realloc(old, size);
}

void *aligned_alloc(size_t align, size_t size) {
    return is_refused() ? NULL : __libc_memalign(align, size);
}

void *memalign(size_t align, size_t size) {
    return is_refused() ? NULL : __libc_memalign(align, size);
}

int posix_memalign(void **at, size_t align, size_t size) {
    int kept = errno;
    void *got = is_refused() ? NULL : __libc_memalign(align, size);
    errno = kept;
    if (!got)
        return ENOMEM;
    *at = got;
    return 0;
}

int accept4(int listener, struct sockaddr *from, socklen_t *size, int flags) {
    int link = (int)syscall(SYS_accept4, listener, from, size, flags);
    struct pollfd came = {.fd = link, .events = POLLIN};
    if (link >= 0)
        poll(&came, 1, 60000);
    return link;
}
