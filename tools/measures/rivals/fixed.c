/* Answers each request with the same bytes, those of a file: one connection after the other, each for 1,000 requests.
   A read that gives bytes is taken for one request. usage: fixed PORT FILE */
#include <arpa/inet.h>
#include <netinet/tcp.h>
#include <stdio.h>
#include <stdlib.h>
#include <sys/socket.h>
#include <unistd.h>

static char asked[1 << 16];

static int give(int link, const char *bytes, size_t left) {
    while (left > 0) {
        ssize_t given = write(link, bytes, left);
        if (given <= 0)
            return -1;
        bytes += given;
        left -= (size_t)given;
    }
    return 0;
}

/* The answer with the bytes of a file, and with one field more. */
static char *answer_of(const char *path, const char *field, size_t *length) {
    FILE *file = fopen(path, "rb");
    if (file == NULL || fseek(file, 0, SEEK_END) != 0)
        exit(2);
    size_t size = (size_t)ftell(file);
    char *answer = malloc(size + 200);
    rewind(file);
    int head = sprintf(answer, "HTTP/1.1 200 OK\r\nContent-Type: text/html; charset=utf-8\r\nContent-Length: %zu\r\n%s\r\n", size, field);
    if (fread(answer + head, 1, size, file) != size)
        exit(2);
    *length = (size_t)head + size;
    return answer;
}

static int listening(int port) {
    int on = 1, link = socket(AF_INET, SOCK_STREAM, 0);
    struct sockaddr_in place = {.sin_family = AF_INET, .sin_port = htons((unsigned short)port), .sin_addr.s_addr = htonl(INADDR_LOOPBACK)};
    setsockopt(link, SOL_SOCKET, SO_REUSEADDR, &on, sizeof on);
    if (bind(link, (struct sockaddr *)&place, sizeof place) != 0 || listen(link, 128) != 0)
        exit(3);
    return link;
}

int main(int count, char **words) {
    if (count != 3)
        return 1;
    size_t length, last_length;
    char *answer = answer_of(words[2], "", &length);
    char *last = answer_of(words[2], "Connection: close\r\n", &last_length);
    int all = listening(atoi(words[1])), on = 1;
    for (;;) {
        int link = accept(all, NULL, NULL);
        if (link < 0)
            continue;
        setsockopt(link, IPPROTO_TCP, TCP_NODELAY, &on, sizeof on);
        for (int left = 1000; left > 0 && read(link, asked, sizeof asked) > 0; left--)
            if (give(link, left > 1 ? answer : last, left > 1 ? length : last_length) != 0)
                break;
        close(link);
    }
}
