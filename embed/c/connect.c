/* connect PROXY_HOST PROXY_PORT 5|4 HOST PORT [USER PASSWORD]: through the proxy to HOST, and its stream to standard output. */
#include "gitaymba_posix.h"
#include <netdb.h>
#include <stdio.h>
#include <stdlib.h>
#include <unistd.h>

static int dial(const char *host, const char *port) {
    struct addrinfo hints = {.ai_socktype = SOCK_STREAM}, *list;
    int fd = -1, error = getaddrinfo(host, port, &hints, &list);
    if (error != 0) return fprintf(stderr, "%s: %s\n", host, gai_strerror(error)), -1;
    for (struct addrinfo *at = list; at != NULL && fd < 0; at = at->ai_next) {
        fd = socket(at->ai_family, at->ai_socktype, at->ai_protocol);
        if (fd >= 0 && connect(fd, at->ai_addr, at->ai_addrlen) != 0) close(fd), fd = -1;
    }
    if (fd < 0) perror(host);
    freeaddrinfo(list);
    return fd;
}

int main(int argc, char **argv) {
    if (argc != 6 && argc != 8) return fputs("connect PROXY_HOST PROXY_PORT 5|4 HOST PORT [USER PASSWORD]\n", stderr), 2;
    char *end;
    unsigned long port = strtoul(argv[5], &end, 10);
    if (end == argv[5] || *end != 0 || port > 65535) port = GITAYMBA_NO_PORT;
    struct gitaymba_step asked = gitaymba_posix_prepare(atoi(argv[3]), argv[4], (uint32_t)port, argv[6], argc == 8 ? argv[7] : NULL);
    if (asked.answer != 0) return fprintf(stderr, "%s\n", gitaymba_error_text(asked.answer)), 1; /* no connection was needed to know */

    int fd = dial(argv[1], argv[2]);
    if (fd < 0) return 1;
    uint8_t buffer[4096], text[GITAYMBA_TEXT];
    struct gitaymba_posix_done done = gitaymba_posix_handshake(fd, &asked.session, 10000, buffer, sizeof buffer);
    if (done.failure != NULL) return fprintf(stderr, "%s (status %d)\n", done.failure, done.outcome.status), 1;
    struct gitaymba_text bound = gitaymba_bound_text(asked.session, text);
    gitaymba_wipe(&asked, sizeof asked);
    fprintf(stderr, "open by %.*s, %zu bytes came with the reply\n", (int)bound.len, (const char *)text, done.rest_len);

    fwrite(done.rest, 1, done.rest_len, stdout);
    for (ssize_t n; (n = read(fd, buffer, sizeof buffer)) > 0;) fwrite(buffer, 1, (size_t)n, stdout);
    return close(fd);
}
