/* fuzz CASES: random raw sessions and servers, random pieces and outputs, and what every call promises of them. Pieces and outputs end at a
 * page that may not be touched, so that a byte read or written behind them stops the program. */
#if !defined __cplusplus && !defined _DEFAULT_SOURCE
#define _DEFAULT_SOURCE
#endif
#include "gitaymba.h"
#include "tests.h"
#include <sys/mman.h>

static const uint8_t settled = GITAYMBA_ERROR_SETTLED, out_of_order = GITAYMBA_ERROR_OUT_OF_ORDER;
static long client_seen[3], proxy_seen[4]; /* accepted deliveries by the state that they came to */

static uint64_t state = 0x9E3779B97F4A7C15u;
static uint64_t draw(void) {
    state ^= state << 13;
    state ^= state >> 7;
    return state ^= state << 17;
}
static size_t below(size_t n) { return (size_t)(draw() >> 11) % n; }
static uint8_t any(void) { return (uint8_t)(draw() >> 32); }
static void put_any(void *bytes, size_t len) {
    for (size_t i = 0; i < len; i++) ((uint8_t *)bytes)[i] = any();
}

/* the end of size bytes or more, ahead of a page that may not be touched */
static uint8_t *room(size_t size) {
    size_t page = 4096, all = (size + page - 1) / page * page;
    void *at = mmap(NULL, all + page, PROT_READ | PROT_WRITE, MAP_PRIVATE | MAP_ANONYMOUS, -1, 0);
    if (at == MAP_FAILED || mprotect((uint8_t *)at + all, page, PROT_NONE) != 0) abort();
    return (uint8_t *)at + all;
}

static uint8_t *piece_end, *host_end, *user_end, *password_end, *out, *text, before[GITAYMBA_OUT];

static void fresh_out(void) {
    put_any(before, sizeof before);
    memcpy(out, before, sizeof before);
}
static int behind(size_t sent) { return memcmp(out + sent, before + sent, GITAYMBA_OUT - sent) == 0; }

/* ---- the numbers that come back for any: crates/raw_session/specs/Raw.antt and crates/raw_server/specs/Raw.antt */

static int known(uint8_t error) {
    switch (error) {
#define GITAYMBA_X(number, name, words) case number:
        GITAYMBA_ERRORS(GITAYMBA_X)
#undef GITAYMBA_X
        return 1;
    default: return 0;
    }
}
static uint8_t kind_of(uint8_t kind) { return kind == 3 || kind == 4 ? kind : 1; }
static uint8_t error_of(uint8_t error) { return known(error) ? error : settled; }

static struct gitaymba_session usual(struct gitaymba_session s) {
    if (s.stage > 7) s.stage = 0;
    s.error = s.stage == 0 ? error_of(s.error) : 0;
    if (s.error != GITAYMBA_ERROR_COMMAND) s.status = 0;
    s.kind = kind_of(s.kind);
    s.started = s.started != 0;
    s.optimistic = s.optimistic != 0;
    return s;
}

static struct gitaymba_server usual_server(struct gitaymba_server s) {
    if (s.stage.number > 14) s.stage.number = 0;
    int ports = s.stage.number == 9 || s.stage.number == 10;
    s.stage.error = s.stage.number == 0 ? error_of(s.stage.error) : 0;
    if (s.stage.error != GITAYMBA_ERROR_COMMAND) s.stage.status = 0;
    if (!ports && s.stage.number != 7) s.stage.command = 0;
    if (s.stage.number != 7) s.stage.atyp = 0;
    if (!ports) s.stage.dstport = s.stage.first = s.stage.second = s.stage.third = s.stage.fourth = 0;
    s.kind = kind_of(s.kind);
    s.authenticates = s.authenticates != 0;
    return s;
}

/* equal but for the padding */
static int same(struct gitaymba_session a, struct gitaymba_session b) {
    return memcmp(&a, &b, offsetof(struct gitaymba_session, requests) + sizeof a.requests) == 0;
}
static int same_server(struct gitaymba_server a, struct gitaymba_server b) {
    size_t stage = offsetof(struct gitaymba_stage, fourth) + 1, port = offsetof(struct gitaymba_server, port);
    size_t rest = offsetof(struct gitaymba_server, password) + sizeof a.password - port;
    return a.held == b.held && memcmp(&a.stage, &b.stage, stage) == 0 && memcmp((uint8_t *)&a + port, (uint8_t *)&b + port, rest) == 0;
}
static int same_outcome(struct gitaymba_outcome a, struct gitaymba_outcome b) {
    return a.state == b.state && a.number == b.number && a.status == b.status;
}
static int lawful(struct gitaymba_outcome o, uint8_t last_state) {
    if (o.state == GITAYMBA_STATE_FAILED) return known(o.number) && (o.status == 0 || o.number == GITAYMBA_ERROR_COMMAND);
    return o.state <= last_state && o.number == 0 && (o.status == 0 || (o.state == GITAYMBA_STATE_ASKED && o.status == 90));
}

/* ---- pieces: what the other side would say, whole or not, and now and then with a wrong byte, or anything */

static uint8_t draft[2048];
static size_t drafted;
static void add(const char *bytes, size_t len) {
    memcpy(draft + drafted, bytes, len);
    drafted += len;
}
static void add_run(uint8_t byte, size_t len) {
    memset(draft + drafted, byte, len);
    drafted += len;
}
static size_t end_piece(void) {
    size_t len = below(4) ? drafted + below(20) : below(drafted + 1);
    if (len > drafted) put_any(draft + drafted, len - drafted);
    if (below(4) == 0 && len > 0) draft[below(len)] = any();
    if (below(8) == 0) put_any(draft, len);
    memcpy(piece_end - len, draft, len);
    return len;
}

static size_t reply_piece(uint8_t stage) {
    drafted = 0;
    uint8_t name = any();
    if (stage == 1) add("\5\0", 2);
    if (stage == 2) add("\5\2", 2);
    if (stage == 2 || stage == 4) add("\1\0", 2);
    switch (stage == 6 ? 3 : below(3)) {
    case 0: add("\5\0\0\1", 4), add_run('a', 6); break;
    case 1: add("\5\0\0\4", 4), add_run('a', 18); break;
    case 2: add("\5\0\0\3", 4), add_run(name, 1), add_run('a', name + 2u); break;
    default: add("\0\132\1\2\3\4\5\6", 8);
    }
    return end_piece();
}

static size_t request_piece(uint8_t stage, int authenticates) {
    drafted = 0;
    if (stage >= 8 || (stage <= 1 && below(3) == 0)) {
        if (stage <= 1) add("\4", 1);
        if (stage <= 8) add(below(2) ? "\1\0\120\0\0\0\7" : "\1\0\120\300\0\2\7", 7);
        if (stage <= 9) add_run('u', below(260)), add_run(0, 1);
        add_run('n', below(4) ? below(300) : below(1030)), add_run(0, 1);
    } else {
        if (stage <= 1) add("\5", 1);
        if (stage <= 2) add("\2\0\2", 3);
        if (stage <= 2 ? authenticates : stage == 3) add("\1\1u", 3);
        if (stage <= 2 ? authenticates : stage <= 5) add("\1p", 2);
        if (stage <= 6) add("\5\1\0\3", 4);
        add("\4host\0\120", 7);
    }
    return end_piece();
}

/* ---- the client's side */

static struct gitaymba_session any_session(void) {
    struct gitaymba_session s;
    put_any(&s, sizeof s);
    if (below(8)) s.stage = (uint8_t)below(9);
    if (below(4)) s.started = 1;
    if (below(4)) s.held = below(4) ? 0 : below(262);
    if (below(4)) s.first = 3;
    if (below(4)) s.authentication = below(514);
    if (below(4)) s.proxy = below(263);
    return s;
}

static void refused(struct gitaymba_step d, struct gitaymba_session s) {
    HOLDS(d.used == 0 && d.sent == 0 && behind(0) && same(d.session, usual(s)));
}

static void client_case(void) {
    struct gitaymba_session s = any_session(), canon = usual(s);
    int waits = canon.stage >= 1 && canon.stage <= 6;
    HOLDS(lawful(gitaymba_outcome(s), GITAYMBA_STATE_OPEN) && gitaymba_attempts(s) == s.attempts);

    fresh_out();
    struct gitaymba_step d = gitaymba_start(s, out);
    HOLDS(d.answer == (!waits ? settled : canon.started ? out_of_order : 0));
    HOLDS(same_outcome(d.outcome, gitaymba_outcome(d.session)));
    if (d.answer != 0) {
        refused(d, s);
    } else {
        HOLDS(d.used == 0 && d.sent <= GITAYMBA_OUT && behind(d.sent) && memcmp(out, s.requests, d.sent) == 0);
        struct gitaymba_session after = canon;
        after.started = 1;
        HOLDS(same(d.session, after));
    }

    size_t len = reply_piece(canon.stage);
    uint8_t *piece = piece_end - len;
    fresh_out();
    d = gitaymba_deliver(s, piece, len, out);
    HOLDS(d.answer == (!waits ? settled : !canon.started ? out_of_order : 0));
    HOLDS(lawful(d.outcome, GITAYMBA_STATE_OPEN) && same_outcome(d.outcome, gitaymba_outcome(d.session)));
    HOLDS(gitaymba_rest(piece, len, d.used) == len - d.used);
    if (d.answer != 0) {
        refused(d, s);
    } else {
        client_seen[d.outcome.state]++;
        HOLDS(d.used <= len && d.sent <= GITAYMBA_OUT && behind(d.sent) && memcmp(d.session.requests, s.requests, 1024) == 0);
        HOLDS(d.outcome.state != GITAYMBA_STATE_WAITING || (d.used == len && (len == 0 || d.session.held <= 261)));
        /* in two pieces: the same in the end */
        static uint8_t sent[GITAYMBA_OUT];
        memcpy(sent, out, d.sent);
        size_t cut = below(len + 1);
        struct gitaymba_step a = gitaymba_deliver(s, piece, cut, out), b = a;
        HOLDS(a.sent <= d.sent && memcmp(out, sent, a.sent) == 0);
        if (a.outcome.state == GITAYMBA_STATE_WAITING) {
            b = gitaymba_deliver(a.session, piece + cut, len - cut, out);
            HOLDS(a.used + b.used == d.used && a.sent + b.sent == d.sent && memcmp(out, sent + a.sent, b.sent) == 0);
        } else {
            HOLDS(a.used == d.used && a.sent == d.sent);
        }
        HOLDS(same_outcome(b.outcome, d.outcome) && b.session.held == d.session.held && b.session.port == d.session.port);
        HOLDS(d.session.held > 261 || memcmp(b.session.hold, d.session.hold, d.session.held) == 0);
    }

    fresh_out();
    struct gitaymba_step e = gitaymba_end(s);
    HOLDS(e.answer == (!waits ? settled : !canon.started ? out_of_order : 0));
    if (e.answer != 0) refused(e, s);
    else HOLDS(e.outcome.state == GITAYMBA_STATE_FAILED && e.outcome.number == GITAYMBA_ERROR_UNEXPECTED_EOF && e.session.held == 0);

    s = below(2) ? d.session : s;
    struct gitaymba_address bound = gitaymba_bound(s);
    uint8_t text_before[GITAYMBA_TEXT];
    put_any(text_before, sizeof text_before);
    memcpy(text, text_before, sizeof text_before);
    struct gitaymba_text t = gitaymba_bound_text(s, text);
    HOLDS(bound.kind == kind_of(bound.kind) && t.len <= GITAYMBA_TEXT);
    int open = gitaymba_outcome(s).state == GITAYMBA_STATE_OPEN;
    HOLDS(open ? t.answer == 0 : t.answer == GITAYMBA_ERROR_NOT_OPEN);
    HOLDS((t.answer == 0) == (t.len > 0) && memcmp(text + t.len, text_before + t.len, GITAYMBA_TEXT - t.len) == 0);
}

static void prepared(struct gitaymba_step p) {
    HOLDS(p.used == 0 && p.sent == 0 && p.session.started == 0 && p.session.held == 0 && p.session.attempts == 0);
    if (p.answer == 0) HOLDS(p.outcome.state == GITAYMBA_STATE_WAITING);
    else HOLDS(p.outcome.state == GITAYMBA_STATE_FAILED && p.outcome.number == p.answer && has_zeros(p.session.requests, 1024));
}

static void prepare_case(void) {
    static const char *const hosts[] = {"192.0.2.7", "0.0.0.5", "0.0.0.0", "[2001:db8::1]", "::", "[", "[]", "a.example"};
    const char *known_host = below(2) ? hosts[below(8)] : NULL;
    size_t host_len = known_host ? strlen(known_host) : below(4) ? below(300) : below(1100);
    size_t user_len = below(8) ? below(256) : below(300), password_len = below(8) ? below(256) : below(300);
    size_t size = below(9 * sizeof(struct gitaymba_record) + 1);
    uint8_t *host = host_end - host_len, *user = user_end - user_len, *password = password_end - password_len;
    uint8_t *bytes = piece_end - size;
    for (size_t i = 0; i < host_len; i++) host[i] = below(2000) ? (uint8_t)(0x21 + below(0x5E)) : any();
    if (known_host) memcpy(host, known_host, host_len);
    put_any(user, user_len);
    put_any(password, password_len);
    put_any(bytes, size);
    for (size_t i = 0; i < size; i += sizeof(struct gitaymba_record)) bytes[i] = (uint8_t)below(6);
    const struct gitaymba_record *records = (const struct gitaymba_record *)(const void *)bytes;
    uint32_t port = (uint32_t)draw();
    port >>= below(32);
    struct gitaymba_config config;
    put_any(&config, sizeof config);
    if (below(2)) config.local_dns = 0;

    struct gitaymba_step p = gitaymba_prepare5(config, host, host_len, port, user, user_len, password, password_len, records, size);
    prepared(p);
    switch (p.answer) {
    case 0: HOLDS(p.session.stage == (config.proxy_auth ? 2 : 1) && p.session.first == 3 && port <= 65535); break;
    case 2: HOLDS(host_len <= 2); break;
    case 3: break;
    case 4: HOLDS(port > 65535); break;
    case 5: HOLDS(config.proxy_auth && (user_len > 255 || password_len > 255)); break;
    case 6: HOLDS(host_len > 255); break;
    case 8: HOLDS(config.local_dns); break;
    default: HOLDS(p.answer == 0);
    }
    p = gitaymba_prepare4(config.local_dns, host, host_len, port, records, size);
    prepared(p);
    switch (p.answer) {
    case 0: HOLDS(p.session.stage == 6 && p.session.first <= 1024 && port <= 65535); break;
    case 2: HOLDS(host_len <= 2); break;
    case 3: case 7: case 23: break;
    case 4: HOLDS(port > 65535); break;
    case 6: HOLDS(host_len > 1014); break;
    case 8: HOLDS(config.local_dns); break;
    default: HOLDS(p.answer == 0);
    }

    struct gitaymba_served u = gitaymba_proxy_set_up(config.proxy_auth, user, user_len, password, password_len);
    int longer = config.proxy_auth && (user_len > 255 || password_len > 255);
    HOLDS(longer ? u.answer == GITAYMBA_ERROR_CREDENTIAL_TOO_LONG : u.answer == 0);
    HOLDS(u.outcome.state == (u.answer ? GITAYMBA_STATE_FAILED : GITAYMBA_STATE_WAITING) && u.outcome.number == u.answer);
}

/* ---- the proxy's end */

static struct gitaymba_server any_server(void) {
    struct gitaymba_server s;
    put_any(&s, sizeof s);
    if (below(16)) s.stage.number = (uint8_t)below(16);
    if (below(4)) s.held = below(4) ? 0 : below(1015);
    if (below(2)) s.authenticates = 0;
    if (below(4)) s.userlen = s.passlen = 1, s.user[0] = 'u', s.password[0] = 'p';
    if (below(2)) s.stage.command = 1;
    if (below(4)) s.stage.atyp = below(2) ? 3 : below(2) ? 1 : 4;
    return s;
}

static void refused_server(struct gitaymba_served d, struct gitaymba_server s) {
    HOLDS(d.answer == GITAYMBA_ERROR_SETTLED && d.used == 0 && d.sent == 0 && behind(0) && same_server(d.server, usual_server(s)));
}

static void proxy_case(void) {
    struct gitaymba_server s = any_server();
    struct gitaymba_record bound;
    uint8_t stage = usual_server(s).stage.number;
    int waits = stage >= 1 && stage <= 10;
    put_any(&bound, sizeof bound);
    HOLDS(lawful(gitaymba_proxy_outcome(s), GITAYMBA_STATE_ASKED));

    size_t len = request_piece(stage, s.authenticates);
    uint8_t *piece = piece_end - len;
    fresh_out();
    struct gitaymba_served d = gitaymba_proxy_deliver(s, piece, len, out);
    HOLDS(lawful(d.outcome, GITAYMBA_STATE_ASKED) && same_outcome(d.outcome, gitaymba_proxy_outcome(d.server)));
    HOLDS((d.answer == 0) == waits);
    if (d.answer != 0) {
        refused_server(d, s);
    } else {
        proxy_seen[d.outcome.state]++;
        HOLDS(d.used <= len && d.sent <= GITAYMBA_OUT && behind(d.sent));
        HOLDS(d.outcome.state != GITAYMBA_STATE_WAITING || d.used == len);
        static uint8_t sent[GITAYMBA_OUT];
        memcpy(sent, out, d.sent);
        size_t cut = below(len + 1);
        struct gitaymba_served a = gitaymba_proxy_deliver(s, piece, cut, out), b = a;
        HOLDS(a.sent <= d.sent && memcmp(out, sent, a.sent) == 0);
        if (a.outcome.state == GITAYMBA_STATE_WAITING) {
            b = gitaymba_proxy_deliver(a.server, piece + cut, len - cut, out);
            HOLDS(a.used + b.used == d.used && a.sent + b.sent == d.sent && memcmp(out, sent + a.sent, b.sent) == 0);
        } else {
            HOLDS(a.used == d.used && a.sent == d.sent);
        }
        HOLDS(same_outcome(b.outcome, d.outcome) && b.server.held == d.server.held && b.server.port == d.server.port);
        HOLDS(d.server.held > 1014 || memcmp(b.server.hold, d.server.hold, d.server.held) == 0);
    }

    s = below(2) ? d.server : s;
    stage = usual_server(s).stage.number;
    fresh_out();
    uint8_t status = below(2) ? gitaymba_proxy_outcome(s).status : any();
    struct gitaymba_served r = gitaymba_proxy_answer(s, status, bound, (uint16_t)draw(), out);
    HOLDS((r.answer == 0) == (stage == 11 || stage == 12));
    if (r.answer != 0) {
        refused_server(r, s);
    } else {
        size_t size = stage == 11 ? 8 : bound.kind == 4 ? 22 : 10;
        uint8_t went = stage == 11 ? (status >= 90 && status <= 93 ? status : 91) : status <= 8 ? status : 1;
        int granted = went == (stage == 11 ? 90 : 0);
        HOLDS(r.sent == size && r.used == 0 && behind(size) && out[1] == went);
        HOLDS(r.outcome.state == (granted ? GITAYMBA_STATE_OPEN : GITAYMBA_STATE_FAILED));
        HOLDS(granted || (r.outcome.number == GITAYMBA_ERROR_COMMAND && r.outcome.status == went));
    }
    fresh_out();
    struct gitaymba_served e = gitaymba_proxy_end(s);
    HOLDS((e.answer == 0) == (stage >= 1 && stage <= 10));
    if (e.answer != 0) refused_server(e, s);
    else HOLDS(e.outcome.state == GITAYMBA_STATE_FAILED && e.outcome.number == GITAYMBA_ERROR_UNEXPECTED_EOF && e.server.held == 0);
    struct gitaymba_target t = gitaymba_proxy_destination(s);
    HOLDS(t.kind == kind_of(t.kind) && t.len <= 1014 && has_zeros(t.bytes + t.len, 1014 - t.len));
}

int main(int argc, char **argv) {
    long cases = argc > 1 ? atol(argv[1]) : 1000;
    piece_end = room(8192);
    host_end = room(4096);
    user_end = room(4096);
    password_end = room(4096);
    out = room(GITAYMBA_OUT) - GITAYMBA_OUT;
    text = room(GITAYMBA_TEXT) - GITAYMBA_TEXT;
    for (long i = 0; i < cases; i++) {
        client_case();
        prepare_case();
        proxy_case();
    }
    /* the cases are worth something */
    for (int i = 0; i < 3; i++) HOLDS(client_seen[i] >= cases / 50);
    for (int i = 0; i < 4; i++) HOLDS(i == GITAYMBA_STATE_OPEN || proxy_seen[i] >= cases / 50);
    printf("%ld cases; client: %ld waiting, %ld open, %ld failed; proxy: %ld waiting, %ld asked, %ld failed\n", cases, client_seen[0],
        client_seen[1], client_seen[2], proxy_seen[0], proxy_seen[3], proxy_seen[2]);
    return failures != 0;
}
