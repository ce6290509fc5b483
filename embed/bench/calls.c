/* calls COUNT WHAT [N]: COUNT rounds of a call, or of an end's handshake, from the same values; prints nanoseconds a round.
 *
 *   nothing        no call
 *   prepare        v5, credentials, a name
 *   start          of that session
 *   byte           a delivery that decides nothing
 *   open           a delivery of the last reply
 *   outcome        of an open session
 *   wipe           of a step
 *   stream N       a delivery of the last reply with N bytes of stream behind it
 *   name N         a last reply with a name of N bytes, byte by byte
 *   proxy KIND N   a proxy's end, KIND 5, 5a (with credentials) or 4, the client's bytes in pieces of N: set up, delivered, asked for the
 *                  destination, answered
 */
#include "gitaymba.h"
#include <stdio.h>
#include <stdlib.h>
#include <string.h>
#include <time.h>

#define BYTES(text) (const uint8_t *)text, sizeof text - 1

static uint8_t piece[7 + 255 + (1 << 20)] = {5, 0, 0, 3, 1, 'a', 0, 0}, out[GITAYMBA_OUT];
static struct gitaymba_step prepared, started, awaits, step;

static void need(int holds) {
    if (!holds) abort();
}

static void set_up(void) {
    struct gitaymba_config config = {.proxy_auth = 1};
    prepared = gitaymba_prepare5(config, BYTES("www.example.com"), 443, BYTES("alice"), BYTES("wonder"), NULL, 0);
    started = gitaymba_start(prepared.session, out);
    awaits = gitaymba_deliver(started.session, (const uint8_t[]){5, 2, 1, 0}, 4, out);
    step = gitaymba_deliver(awaits.session, piece, 8, out);
    need(step.outcome.state == GITAYMBA_STATE_OPEN);
}

static void nothing(void) { __asm__ volatile("" ::: "memory"); }

static void prepare(void) {
    struct gitaymba_config config = {.proxy_auth = 1};
    step = gitaymba_prepare5(config, BYTES("www.example.com"), 443, BYTES("alice"), BYTES("wonder"), NULL, 0);
}

static void start(void) { step = gitaymba_start(prepared.session, out); }
static void byte(void) { step = gitaymba_deliver(started.session, piece, 1, out); }
static void opening(void) { step = gitaymba_deliver(awaits.session, piece, 8, out); }
static void wiping(void) { gitaymba_wipe(&step, sizeof step); }

static void asking(void) {
    struct gitaymba_outcome outcome = gitaymba_outcome(step.session);
    need(outcome.state == GITAYMBA_STATE_OPEN);
}

/* ---- how it grows */

static size_t n;

static void stream(void) {
    step = gitaymba_deliver(awaits.session, piece, 8 + n, out);
    need(step.outcome.state == GITAYMBA_STATE_OPEN && step.used == 8);
}

static void name(void) {
    step = awaits;
    for (size_t at = 0; at < 7 + n; at++) step = gitaymba_deliver(step.session, piece + at, 1, out);
    need(step.outcome.state == GITAYMBA_STATE_OPEN);
}

/* ---- a proxy's end */

static const struct kind {
    const char *name;
    uint8_t authenticates;
    const uint8_t *bytes;
    size_t size;
} kinds[] = {
    {"5", 0, BYTES("\5\1\0\5\1\0\3\17www.example.com\1\273")},
    {"5a", 1, BYTES("\5\1\2\1\5alice\6wonder\5\1\0\3\17www.example.com\1\273")},
    {"4", 0, BYTES("\4\1\1\273\0\0\0\1\0www.example.com\0")},
}, *kind = kinds;

static void proxy(void) {
    struct gitaymba_served end = gitaymba_proxy_set_up(kind->authenticates, BYTES("alice"), BYTES("wonder"));
    for (size_t at = 0; at < kind->size; at += end.used) {
        size_t left = kind->size - at;
        end = gitaymba_proxy_deliver(end.server, kind->bytes + at, left < n ? left : n, out);
        need(end.answer == 0 && end.used > 0);
    }
    need(end.outcome.state == GITAYMBA_STATE_ASKED);
    struct gitaymba_target target = gitaymba_proxy_destination(end.server);
    need(target.kind == GITAYMBA_KIND_NAME && target.len == 15 && target.port == 443);
    struct gitaymba_record bound = {.kind = GITAYMBA_KIND_IPV4, .address = {192, 0, 2, 7}};
    end = gitaymba_proxy_answer(end.server, end.outcome.status, bound, 8080, out);
    need(end.outcome.state == GITAYMBA_STATE_OPEN);
}

static const struct {
    const char *name;
    void (*run)(void);
} all[] = {{"nothing", nothing}, {"prepare", prepare}, {"start", start}, {"byte", byte}, {"open", opening}, {"outcome", asking},
    {"wipe", wiping}, {"stream", stream}, {"name", name}, {"proxy", proxy}};

int main(int argc, char **argv) {
    if (argc < 3) return 2;
    long count = atol(argv[1]);
    void (*run)(void) = NULL;
    for (size_t i = 0; i < sizeof all / sizeof *all; i++) if (!strcmp(argv[2], all[i].name)) run = all[i].run;
    if (!run) return 2;
    set_up();
    if (argc > 3) n = strtoul(argv[argc - 1], NULL, 10);
    if (run == name) {
        piece[4] = n;
        memset(piece + 5, 'a', n);
        memset(piece + 5 + n, 0, 2);
    }
    if (run == proxy) {
        for (size_t i = 0; i < sizeof kinds / sizeof *kinds; i++) if (!strcmp(argv[3], kinds[i].name)) kind = kinds + i;
    }
    struct timespec from, to;
    clock_gettime(CLOCK_MONOTONIC, &from);
    for (long i = 0; i < count; i++) run();
    clock_gettime(CLOCK_MONOTONIC, &to);
    printf("%.1f\n", ((to.tv_sec - from.tv_sec) * 1e9 + (to.tv_nsec - from.tv_nsec)) / count);
}
