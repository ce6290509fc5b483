/* gitaymba_posix.h: a handshake over a connected socket, blocking or not, with a time limit.
 *
 * For C11 and C++11. A strict -std=c11 wants _POSIX_C_SOURCE defined as 200809L, for the clock.
 */
#ifndef GITAYMBA_POSIX_H
#define GITAYMBA_POSIX_H

#include "gitaymba.h"
#include <errno.h>
#include <poll.h>
#include <string.h>
#include <sys/socket.h>
#include <time.h>

/* What a handshake came to. */
struct gitaymba_posix_done {
    const char *failure;             /* NULL if the session is open, else why not, as a text */
    int error;                       /* errno of a socket call, ETIMEDOUT at the time limit, or 0 */
    struct gitaymba_outcome outcome; /* how the session stands */
    const uint8_t *rest;             /* the stream's first bytes, in the caller's buffer; the others are still to be read */
    size_t rest_len;
};

/* Prepares with strings, over version 4 (4a for a name) or else 5; without credentials if user is NULL, as ever over version 4. Names are
 * looked up by the proxy. Its answer need not be looked at: a handshake with a refused session fails with the same number. */
static inline struct gitaymba_step gitaymba_posix_prepare(int version, const char *host, uint32_t port, const char *user,
    const char *password) {
    struct gitaymba_config config = {0, 0, 0};
    if (version == 4) return gitaymba_prepare4(0, (const uint8_t *)host, strlen(host), port, NULL, 0);
    config.proxy_auth = user != NULL;
    return gitaymba_prepare5(config, (const uint8_t *)host, strlen(host), port, (const uint8_t *)user, user ? strlen(user) : 0,
        (const uint8_t *)password, password ? strlen(password) : 0, NULL, 0);
}

static inline int64_t gitaymba_posix_now(void) {
    struct timespec t;
    clock_gettime(CLOCK_MONOTONIC, &t);
    return (int64_t)t.tv_sec * 1000 + t.tv_nsec / 1000000;
}

/* 0, or an errno. until below 0 is no limit. */
static inline int gitaymba_posix_wait(int fd, short events, int64_t until) {
    for (;;) {
        struct pollfd p = {fd, events, 0};
        int64_t left = until < 0 ? -1 : until - gitaymba_posix_now();
        if (until >= 0 && left <= 0) return ETIMEDOUT;
        int n = poll(&p, 1, (int)left);
        if (n > 0) return 0;
        if (n < 0 && errno != EINTR) return errno;
    }
}

static inline int gitaymba_posix_send(int fd, const uint8_t *bytes, size_t len, int64_t until) {
    while (len > 0) {
        ssize_t n = send(fd, bytes, len, MSG_NOSIGNAL | MSG_DONTWAIT);
        if (n >= 0) {
            bytes += n;
            len -= (size_t)n;
        } else if (errno == EAGAIN || errno == EWOULDBLOCK) {
            int error = gitaymba_posix_wait(fd, POLLOUT, until);
            if (error != 0) return error;
        } else if (errno != EINTR) {
            return errno;
        }
    }
    return 0;
}

/* 0 with *len bytes, none at the stream's end, or an errno. */
static inline int gitaymba_posix_receive(int fd, uint8_t *bytes, size_t size, size_t *len, int64_t until) {
    for (;;) {
        int error = gitaymba_posix_wait(fd, POLLIN, until);
        if (error != 0) return error;
        ssize_t n = recv(fd, bytes, size, MSG_DONTWAIT);
        if (n >= 0) return *len = (size_t)n, 0;
        if (errno != EAGAIN && errno != EWOULDBLOCK && errno != EINTR) return errno;
    }
}

/* Starts a prepared session and runs it until it is open or failed, or timeout_ms milliseconds have passed; below 0 is no limit. Pieces are
 * read into buffer, of size bytes and at least one, which holds the rest of the last piece afterwards. The session is left as the
 * handshake leaves it, with the credentials in it; this function wipes its own copies. The socket stays open. */
static inline struct gitaymba_posix_done gitaymba_posix_handshake(int fd, struct gitaymba_session *session, int timeout_ms,
    uint8_t *buffer, size_t size) {
    struct gitaymba_posix_done done = {NULL, 0, {0, 0, 0}, NULL, 0};
    int64_t until = timeout_ms < 0 ? -1 : gitaymba_posix_now() + timeout_ms;
    uint8_t out[GITAYMBA_OUT];
    size_t len = 0;
    struct gitaymba_step step = gitaymba_start(*session, out);
    while (step.answer == 0) {
        /* what a failed session has said goes too */
        done.error = gitaymba_posix_send(fd, out, step.sent, until);
        if (done.error != 0 || step.outcome.state != GITAYMBA_STATE_WAITING) break;
        done.error = gitaymba_posix_receive(fd, buffer, size, &len, until);
        if (done.error != 0) break;
        step = len > 0 ? gitaymba_deliver(step.session, buffer, len, out) : gitaymba_end(step.session);
    }
    *session = step.session;
    done.outcome = step.outcome;
    if (done.error != 0) {
        done.failure = strerror(done.error);
    } else if (step.outcome.state == GITAYMBA_STATE_FAILED) {
        done.failure = gitaymba_error_text(step.outcome.number);
    } else if (step.answer != 0) {
        done.failure = gitaymba_error_text(step.answer);
    } else {
        done.rest_len = gitaymba_rest(buffer, len, step.used);
        done.rest = buffer + (len - done.rest_len);
    }
    gitaymba_wipe(&step, sizeof step);
    gitaymba_wipe(out, sizeof out);
    return done;
}

#endif
