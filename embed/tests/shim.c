/* The shim over a pair of sockets: the other end is played here. */
#if !defined __cplusplus && !defined _DEFAULT_SOURCE
#define _DEFAULT_SOURCE
#endif
#include "gitaymba_posix.h"
#include "tests.h"
#include <fcntl.h>
#include <signal.h>
#include <sys/time.h>
#include <sys/wait.h>
#include <unistd.h>

static int ours, theirs;
static uint8_t buffer[4096], got[4096];

static void pair(const char *replies, size_t len) {
    int fds[2];
    if (socketpair(AF_UNIX, SOCK_STREAM, 0, fds) != 0) abort();
    ours = fds[0];
    theirs = fds[1];
    HOLDS(write(theirs, replies, len) == (ssize_t)len);
}

static struct gitaymba_posix_done shake(struct gitaymba_step asked, int timeout_ms, size_t size) {
    return gitaymba_posix_handshake(ours, &asked.session, timeout_ms, buffer, size);
}

static void shut(void) {
    close(ours);
    close(theirs);
}

static void on_alarm(int number) { (void)number; }

int main(void) {
    struct gitaymba_step v5 = gitaymba_posix_prepare(5, "192.0.2.7", 443, NULL, NULL);
    struct gitaymba_step with = gitaymba_posix_prepare(5, "example.com", 80, "u", "pw");
    struct gitaymba_step v4 = gitaymba_posix_prepare(4, "example.com", 80, NULL, NULL);
    struct gitaymba_posix_done done;

    /* all replies and the stream's first bytes in one piece */
    pair("\5\0\5\0\0\1\300\0\2\7\37\220SDF", 15);
    done = shake(v5, 1000, sizeof buffer);
    HOLDS(done.failure == NULL && done.error == 0 && done.outcome.state == GITAYMBA_STATE_OPEN);
    HOLDS(done.rest_len == 3 && is(done.rest, "SDF", 3));
    HOLDS(read(theirs, got, sizeof got) == 13 && is(got, "\5\1\0\5\1\0\1\300\0\2\7\1\273", 13));
    shut();

    /* byte by byte: nothing is left over, and the stream is still to be read */
    pair("\5\2\1\0\5\0\0\1\300\0\2\7\37\220SDF", 17);
    done = shake(with, 1000, 1);
    HOLDS(done.failure == NULL && done.rest_len == 0);
    HOLDS(read(ours, got, sizeof got) == 3 && is(got, "SDF", 3));
    HOLDS(read(theirs, got, sizeof got) == 3 + 6 + 18 && is(got, "\5\1\2\1\1u\2pw\5\1\0\3\13example.com\0\120", 27));
    shut();

    pair("\0\132\0\0\0\0\0\0!", 9);
    fcntl(ours, F_SETFL, O_NONBLOCK);
    done = shake(v4, -1, sizeof buffer);
    HOLDS(done.failure == NULL && done.rest_len == 1 && done.rest[0] == '!');
    HOLDS(read(theirs, got, sizeof got) == 21 && is(got, "\4\1\0\120\0\0\0\377\0example.com\0", 21));
    shut();

    /* refused, by the proxy and ahead of it */
    pair("\0\133\0\0\0\0\0\0", 8);
    done = shake(v4, 1000, sizeof buffer);
    HOLDS(done.failure != NULL && done.error == 0 && done.outcome.number == GITAYMBA_ERROR_COMMAND && done.outcome.status == 91);
    done = shake(gitaymba_posix_prepare(5, "", 80, NULL, NULL), 1000, sizeof buffer);
    HOLDS(done.error == 0 && done.outcome.number == GITAYMBA_ERROR_MISSING_HOST && strcmp(done.failure, gitaymba_error_text(2)) == 0);
    with.session.started = 1;
    done = shake(with, 1000, sizeof buffer);
    HOLDS(done.failure != NULL && strcmp(done.failure, gitaymba_error_text(22)) == 0);
    shut();

    /* the proxy ends its stream, or is gone: no signal */
    pair("\5", 1);
    shutdown(theirs, SHUT_WR);
    done = shake(v5, 1000, sizeof buffer);
    HOLDS(done.error == 0 && done.outcome.number == GITAYMBA_ERROR_UNEXPECTED_EOF);
    shut();
    pair("", 0);
    close(theirs);
    done = shake(v5, 1000, sizeof buffer);
    HOLDS(done.error == EPIPE && done.failure != NULL && done.outcome.state == GITAYMBA_STATE_WAITING);
    close(ours);

    /* a silent proxy, with a signal every millisecond */
    struct sigaction action;
    struct itimerval each = {{0, 1000}, {0, 1000}}, none = {{0, 0}, {0, 0}};
    memset(&action, 0, sizeof action);
    action.sa_handler = on_alarm;
    sigaction(SIGALRM, &action, NULL);
    setitimer(ITIMER_REAL, &each, NULL);
    pair("\5", 1);
    int64_t begun = gitaymba_posix_now();
    done = shake(v5, 60, sizeof buffer);
    HOLDS(done.error == ETIMEDOUT && gitaymba_posix_now() - begun >= 60);
    shut();

    /* nothing can be sent at first: until the limit, and until the other end reads */
    pair("\5\0\5\0\0\1\300\0\2\7\37\220SDF", 15);
    size_t filled = 0;
    for (ssize_t n; (n = send(ours, got, sizeof got, MSG_DONTWAIT)) > 0 || errno == EINTR;) filled += n > 0 ? (size_t)n : 0;
    done = shake(v5, 60, sizeof buffer);
    HOLDS(done.error == ETIMEDOUT);
    pid_t child = fork();
    if (child == 0) {
        size_t all = 0;
        usleep(20000);
        for (ssize_t n; all < filled + 13 && (n = read(theirs, got, sizeof got)) != 0;) all += n > 0 ? (size_t)n : 0;
        _exit(all != filled + 13);
    }
    done = shake(v5, 5000, sizeof buffer);
    HOLDS(done.failure == NULL && done.rest_len == 3);
    setitimer(ITIMER_REAL, &none, NULL);
    int status = -1;
    HOLDS(waitpid(child, &status, 0) == child && status == 0);
    shut();
    return failures != 0;
}
