/* load COUNT SEED [bytes]: what the program `load` runs and prints, called from C. */
#include "gitaymba.h"
#include <stdio.h>
#include <stdlib.h>
#include <string.h>

/* the replies that open a session: v5 with credentials, v5 without, v4 */
static const uint8_t with[] = {5, 2, 1, 0, 5, 0, 0, 3, 1, 0, 0, 0}, without[] = {5, 0, 5, 0, 0, 3, 1, 0, 0, 0}, four[] = {0, 90, 0, 0, 0, 0, 0, 0};
static uint8_t longest[200], out[GITAYMBA_OUT];
static uint32_t state;
static uint64_t opened, sent, sum;

static uint32_t draw(void) {
    state = state * 1664525u + 1013904223u;
    return state >> 16;
}

static void add(size_t n) {
    uint32_t all = 0;
    for (size_t i = 0; i < n; i++) all += out[i];
    sent += n;
    sum += all;
}

static size_t piece(size_t left, int single) {
    if (single) return 1;
    size_t n = 1 + draw() % 40;
    return n < left ? n : left;
}

static void run_one(int single) {
    int v5 = draw() % 2 == 0, auth = draw() % 2 == 1;
    size_t name = 1 + draw() % 200, n = !v5 ? sizeof four : auth ? sizeof with : sizeof without;
    const uint8_t *replies = !v5 ? four : auth ? with : without, *a = (const uint8_t *)"a";
    struct gitaymba_config config = {.proxy_auth = auth};
    struct gitaymba_step step = v5 ? gitaymba_prepare5(config, longest, name, 443, a, 1, a, 1, NULL, 0) : gitaymba_prepare4(0, longest, name, 443, NULL, 0);
    step = gitaymba_start(step.session, out);
    add(step.sent);
    for (size_t at = 0, k; at < n; at += k) {
        k = piece(n - at, single);
        step = gitaymba_deliver(step.session, replies + at, k, out);
        add(step.sent);
    }
    opened += step.outcome.state == GITAYMBA_STATE_OPEN;
}

int main(int argc, char **argv) {
    if (argc < 3) return 2;
    long count = atol(argv[1]);
    state = strtoul(argv[2], NULL, 10);
    memset(longest, 'a', sizeof longest);
    for (long i = 0; i < count; i++) run_one(argc > 3 && !strcmp(argv[3], "bytes"));
    printf("handshakes %ld open %lu sent %lu sum %lu\n", count, opened, sent, sum);
}
