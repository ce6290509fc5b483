/* many PROXY_ADDR:PORT 5|4 HOST PORT N EXPECTED_FILE [USER PASSWORD]: N connections, one after the other, through the proxy; each must
 * give the file's bytes and no others. Prints `open A whole B with-rest C`: connections that opened, that gave the whole stream, and
 * that had its first bytes in one read with the proxy's last reply. Exit status 1 if not all were whole. */
#include "gitaymba_posix.h"
#include <netdb.h>
#include <stdio.h>
#include <stdlib.h>
#include <unistd.h>

#define LIMIT 20000 /* milliseconds of a handshake, or of a wait for more of the stream */

static uint8_t *expected;
static size_t expected_len;

static _Noreturn void die(const char *what) {
    perror(what);
    exit(2);
}

static void read_expected(const char *path) {
    FILE *file = fopen(path, "rb");
    if (!file || fseek(file, 0, SEEK_END) != 0) die(path);
    expected_len = (size_t)ftell(file);
    expected = malloc(expected_len + 1);
    rewind(file);
    if (!expected || fread(expected, 1, expected_len, file) != expected_len) die(path);
    fclose(file);
}

/* 127.0.0.1:1080 or [::1]:1080 */
static struct addrinfo *address_of(char *proxy) {
    struct addrinfo hints = {.ai_flags = AI_NUMERICHOST | AI_NUMERICSERV, .ai_socktype = SOCK_STREAM}, *found;
    char *port = strrchr(proxy, ':');
    if (port) {
        *port++ = 0;
        if (proxy[0] == '[' && port[-2] == ']') {
            port[-2] = 0;
            proxy++;
        }
    }
    int error = port ? getaddrinfo(proxy, port, &hints, &found) : EAI_NONAME;
    if (error != 0) {
        fprintf(stderr, "%s: %s\n", proxy, gai_strerror(error));
        exit(2);
    }
    return found;
}

static int dial(const struct addrinfo *proxy) {
    int fd = socket(proxy->ai_family, SOCK_STREAM, 0);
    if (fd < 0 || connect(fd, proxy->ai_addr, proxy->ai_addrlen) != 0) die("connect");
    return fd;
}

/* whether `piece` and then the connection, to its end, give what is expected */
static int is_whole(int fd, const uint8_t *piece, size_t len) {
    static uint8_t buffer[65536];
    size_t at = 0;
    for (;;) {
        if (len > expected_len - at || memcmp(expected + at, piece, len) != 0) return 0;
        at += len;
        if (gitaymba_posix_receive(fd, buffer, sizeof buffer, &len, gitaymba_posix_now() + LIMIT) != 0) return 0;
        if (len == 0) return at == expected_len;
        piece = buffer;
    }
}

int main(int argc, char **argv) {
    if (argc != 7 && argc != 9) {
        fprintf(stderr, "many PROXY_ADDR:PORT 5|4 HOST PORT N EXPECTED_FILE [USER PASSWORD]\n");
        return 2;
    }
    static uint8_t buffer[65536];
    struct addrinfo *proxy = address_of(argv[1]);
    const char *user = argc > 8 ? argv[7] : NULL, *password = argc > 8 ? argv[8] : NULL;
    int count = atoi(argv[5]), opened = 0, whole = 0, with_rest = 0, told = 0;
    read_expected(argv[6]);
    for (int i = 0; i < count; i++) {
        struct gitaymba_session session = gitaymba_posix_prepare(atoi(argv[2]), argv[3], (uint32_t)atoi(argv[4]), user, password).session;
        int fd = dial(proxy);
        struct gitaymba_posix_done done = gitaymba_posix_handshake(fd, &session, LIMIT, buffer, sizeof buffer);
        if (!done.failure) {
            opened++;
            with_rest += done.rest_len > 0;
            whole += is_whole(fd, done.rest, done.rest_len);
        } else if (!told++) {
            fprintf(stderr, "many: connection %d did not open: %s, status %d\n", i + 1, done.failure, done.outcome.status);
        }
        close(fd);
    }
    freeaddrinfo(proxy);
    free(expected);
    printf("open %d whole %d with-rest %d\n", opened, whole, with_rest);
    return whole == count ? 0 : 1;
}
