/* layout fields|zeros|nulls|abi
 *
 * fields: every field of every struct stands where the library has it: each is set and seen to be read, and seen to be written, by a call.
 * zeros: all zeros refuses every call. nulls: NULL with length 0 serves as every slice. abi: header and archive have the same number. */
#include "gitaymba.h"
#include "tests.h"

static uint8_t out[GITAYMBA_OUT], text[GITAYMBA_TEXT];

static struct gitaymba_session zero_session(uint8_t stage) {
    struct gitaymba_session s;
    memset(&s, 0, sizeof s);
    s.stage = stage;
    return s;
}

static struct gitaymba_server zero_server(uint8_t stage) {
    struct gitaymba_server s;
    memset(&s, 0, sizeof s);
    s.stage.number = stage;
    return s;
}

static struct gitaymba_config config(uint8_t proxy_auth, uint8_t local_dns, uint8_t optimistic) {
    struct gitaymba_config c;
    memset(&c, 0, sizeof c);
    c.proxy_auth = proxy_auth;
    c.local_dns = local_dns;
    c.optimistic = optimistic;
    return c;
}

static struct gitaymba_step prepare5(struct gitaymba_config c, const char *host, const struct gitaymba_record *records, size_t size) {
    return gitaymba_prepare5(c, bytes_of(host), strlen(host), 443, bytes_of("abc"), 3, bytes_of("wxyz"), 4, records, size);
}

static void configs(void) {
    struct gitaymba_step p = prepare5(config(1, 0, 0), "a.example", NULL, 0);
    HOLDS(p.answer == 0 && p.session.stage == 2 && p.session.authentication == 10 && p.session.optimistic == 0);
    p = prepare5(config(0, 1, 0), "a.example", NULL, 0);
    HOLDS(p.answer == GITAYMBA_ERROR_DNS_FAILURE);
    p = prepare5(config(0, 0, 1), "a.example", NULL, 0);
    HOLDS(p.answer == 0 && p.session.stage == 1 && p.session.authentication == 0 && p.session.optimistic == 1);
}

static void records(void) {
    struct gitaymba_record r[3];
    struct gitaymba_step p;
    r[0].kind = 9;
    r[1].kind = GITAYMBA_KIND_IPV6;
    r[2].kind = GITAYMBA_KIND_IPV4;
    put_marks(r[0].address, 16);
    put_marks(r[1].address, 16);
    put_marks(r[2].address, 16);
    p = prepare5(config(0, 1, 0), "a.example", r, sizeof r);
    HOLDS(p.answer == 0 && p.session.first == 3 && p.session.proxy == 22);
    HOLDS(is(p.session.requests + 3, "\5\1\0\4", 4) && has_marks(p.session.requests + 7, 0, 16));
    HOLDS(is(p.session.requests + 23, "\1\273", 2) && has_zeros(p.session.requests + 25, 999));
    p = prepare5(config(0, 1, 0), "a.example", r + 2, sizeof *r);
    HOLDS(p.answer == 0 && p.session.proxy == 10 && is(p.session.requests + 3, "\5\1\0\1", 4) && has_marks(p.session.requests + 7, 0, 4));
    p = gitaymba_prepare4(1, bytes_of("a.example"), 9, 443, r, sizeof r);
    HOLDS(p.answer == 0 && p.session.first == 9 && is(p.session.requests, "\4\1\1\273", 4) && has_marks(p.session.requests + 4, 0, 4));
    p = gitaymba_prepare4(1, bytes_of("a.example"), 9, 443, r, 3 * sizeof *r - 1);
    HOLDS(p.answer == GITAYMBA_ERROR_DNS_FAILURE);
    HOLDS(gitaymba_prepare4(0, bytes_of("a.example"), 9, GITAYMBA_NO_PORT, NULL, 0).answer == GITAYMBA_ERROR_MISSING_PORT);
}

/* the session, as calls write it */
static void session_written(void) {
    struct gitaymba_step s = prepare5(config(1, 0, 0), "192.0.2.7", NULL, 0);
    HOLDS(s.answer == 0 && s.used == 0 && s.sent == 0 && s.outcome.state == GITAYMBA_STATE_WAITING);
    HOLDS(s.session.first == 3 && s.session.authentication == 10 && s.session.proxy == 10 && s.session.started == 0);
    HOLDS(is(s.session.requests, "\5\1\2\1\3abc\4wxyz\5\1\0\1\300\0\2\7\1\273", 23) && has_zeros(s.session.requests + 23, 1001));
    s = gitaymba_start(s.session, out);
    HOLDS(s.answer == 0 && s.sent == 3 && s.used == 0 && is(out, "\5\1\2", 3) && s.session.started == 1 && s.session.stage == 2);
    s = gitaymba_deliver(s.session, bytes_of("\5"), 1, out);
    HOLDS(s.sent == 0 && s.used == 1 && s.session.attempts == 1 && s.session.held == 1 && s.session.hold[0] == 5);
    s = gitaymba_deliver(s.session, bytes_of("\2\1\0\5\0"), 5, out);
    HOLDS(s.sent == 20 && s.used == 5 && s.session.attempts == 4 && s.session.stage == 5 && is(out, "\1\3abc\4wxyz\5\1\0\1", 14));
    HOLDS(s.session.held == 2 && is(s.session.hold, "\5\0", 2));
    s = gitaymba_deliver(s.session, bytes_of("\0\3\4exit\37\220SDF"), 12, out);
    HOLDS(s.answer == 0 && s.sent == 0 && s.used == 9 && s.outcome.state == GITAYMBA_STATE_OPEN && s.outcome.number == 0);
    HOLDS(s.session.stage == 7 && s.session.kind == 3 && s.session.port == 8080 && s.session.held == 4 && is(s.session.hold, "exit", 4));
    s = gitaymba_deliver(s.session, bytes_of("x"), 1, out);
    HOLDS(s.answer == GITAYMBA_ERROR_SETTLED && s.used == 0 && s.sent == 0 && s.outcome.state == GITAYMBA_STATE_OPEN);
    struct gitaymba_session v4 = zero_session(6);
    v4.started = 1;
    s = gitaymba_deliver(v4, bytes_of("\0\133\0\0\0\0\0\0"), 8, out);
    HOLDS(s.session.stage == 0 && s.session.error == 15 && s.session.status == 91);
    HOLDS(s.answer == 0 && s.outcome.state == GITAYMBA_STATE_FAILED && s.outcome.number == 15 && s.outcome.status == 91);
    s = gitaymba_end(v4);
    HOLDS(s.answer == 0 && s.outcome.number == GITAYMBA_ERROR_UNEXPECTED_EOF && s.session.error == 9);
}

/* the session, as calls read it */
static void session_read(void) {
    struct gitaymba_session s = zero_session(0);
    struct gitaymba_outcome o;
    s.attempts = 0x0102030405060708u;
    HOLDS(gitaymba_attempts(s) == 0x0102030405060708u);
    s.error = 15;
    s.status = 77;
    o = gitaymba_outcome(s);
    HOLDS(o.state == GITAYMBA_STATE_FAILED && o.number == 15 && o.status == 77);
    o = gitaymba_outcome(zero_session(6));
    HOLDS(o.state == GITAYMBA_STATE_WAITING && o.number == 0 && o.status == 0);

    s = zero_session(7);
    s.kind = GITAYMBA_KIND_NAME;
    s.port = 0x1234;
    s.held = 255;
    put_marks(s.hold, 261);
    struct gitaymba_address a = gitaymba_bound(s);
    HOLDS(a.port == 0x1234 && a.kind == GITAYMBA_KIND_NAME && a.len == 255 && has_marks(a.bytes, 0, 255));
    s.held = 4;
    s.kind = GITAYMBA_KIND_IPV4;
    a = gitaymba_bound(s);
    HOLDS(a.kind == GITAYMBA_KIND_IPV4 && a.len == 4 && has_marks(a.bytes, 0, 4) && has_zeros(a.bytes + 4, 251));
    struct gitaymba_text t = gitaymba_bound_text(s, text);
    HOLDS(t.answer == 0 && t.len == 14 && is(text, "1.8.15.22:4660", 14));
    s.stage = 6;
    t = gitaymba_bound_text(s, text);
    HOLDS(t.answer == GITAYMBA_ERROR_NOT_OPEN && t.len == 0);

    /* the hold's last byte: the port's first in the longest reply */
    s = zero_session(5);
    s.started = 1;
    s.held = 261;
    memset(s.hold, 'a', 260);
    memcpy(s.hold, "\5\0\0\3\377", 5);
    s.hold[260] = 0x12;
    struct gitaymba_step d = gitaymba_deliver(s, bytes_of("\x34!"), 2, out);
    HOLDS(d.used == 1 && d.outcome.state == GITAYMBA_STATE_OPEN && d.session.port == 0x1234 && d.session.held == 255);

    /* the requests and their lengths */
    s = zero_session(6);
    s.first = 1024;
    put_marks(s.requests, 1024);
    d = gitaymba_start(s, out);
    HOLDS(d.answer == 0 && d.sent == 1024 && has_marks(out, 0, 1024) && d.session.started == 1);
    s.started = 1;
    d = gitaymba_start(s, out);
    HOLDS(d.answer == GITAYMBA_ERROR_OUT_OF_ORDER && d.outcome.state == GITAYMBA_STATE_WAITING && d.outcome.number == 0);
    s = zero_session(2);
    s.first = 3;
    s.authentication = 11;
    s.proxy = 17;
    put_marks(s.requests, 1024);
    d = gitaymba_start(s, out);
    HOLDS(d.sent == 3 && has_marks(out, 0, 3) && d.session.optimistic == 0);
    s.optimistic = 1;
    d = gitaymba_start(s, out);
    HOLDS(d.sent == 31 && has_marks(out, 0, 31) && d.session.optimistic == 1);
    s.optimistic = 0;
    s.started = 1;
    d = gitaymba_deliver(s, bytes_of("\5\2"), 2, out);
    HOLDS(d.sent == 11 && d.used == 2 && has_marks(out, 3, 11) && d.session.stage == 4);
    d = gitaymba_deliver(d.session, bytes_of("\1\0"), 2, out);
    HOLDS(d.sent == 17 && d.used == 2 && has_marks(out, 14, 17) && d.session.stage == 5);
}

/* the server, as calls write it */
static void server_written(void) {
    struct gitaymba_served s = gitaymba_proxy_set_up(1, bytes_of("abc"), 3, bytes_of("wxyz"), 4);
    HOLDS(s.answer == 0 && s.used == 0 && s.sent == 0 && s.outcome.state == GITAYMBA_STATE_WAITING && s.server.stage.number == 1);
    HOLDS(s.server.authenticates == 1 && s.server.userlen == 3 && s.server.passlen == 4);
    HOLDS(is(s.server.user, "abc", 3) && has_zeros(s.server.user + 3, 252) && is(s.server.password, "wxyz", 4));
    s = gitaymba_proxy_deliver(s.server, bytes_of("\5\1\2\1\3abc\4wxyz\5\1\0\4\1\2\3"), 20, out);
    HOLDS(s.answer == 0 && s.used == 20 && s.sent == 4 && is(out, "\5\2\1\0", 4));
    HOLDS(s.server.stage.number == 7 && s.server.stage.command == 1 && s.server.stage.atyp == 4);
    HOLDS(s.server.held == 3 && is(s.server.hold, "\1\2\3", 3));
    s = gitaymba_proxy_deliver(s.server, bytes_of("\4\5\6\7\10\11\12\13\14\15\16\17\20\22\64SDF"), 18, out);
    HOLDS(s.used == 15 && s.sent == 0 && s.server.held == 16 && s.server.kind == 4 && s.server.port == 0x1234);
    HOLDS(s.outcome.state == GITAYMBA_STATE_ASKED && s.outcome.number == 0 && s.outcome.status == 0 && s.server.stage.number == 12);
    s = gitaymba_proxy_deliver(s.server, bytes_of("x"), 1, out);
    HOLDS(s.answer == GITAYMBA_ERROR_SETTLED && s.used == 0 && s.sent == 0 && s.outcome.state == GITAYMBA_STATE_ASKED);
    struct gitaymba_record bound;
    bound.kind = GITAYMBA_KIND_IPV6;
    put_marks(bound.address, 16);
    s = gitaymba_proxy_answer(s.server, 0, bound, 0x5678, out);
    HOLDS(s.answer == 0 && s.sent == 22 && is(out, "\5\0\0\4", 4) && has_marks(out + 4, 0, 16) && is(out + 20, "\x56\x78", 2));
    HOLDS(s.outcome.state == GITAYMBA_STATE_OPEN && s.server.stage.number == 14 && s.server.stage.command == 0);

    s = gitaymba_proxy_set_up(0, NULL, 0, NULL, 0);
    HOLDS(s.server.authenticates == 0);
    s = gitaymba_proxy_deliver(s.server, bytes_of("\4\2\22\64\5\6\7\10u"), 9, out);
    HOLDS(s.server.stage.number == 9 && s.server.stage.command == 2 && s.server.stage.dstport == 0x1234 && s.server.held == 1);
    HOLDS(s.server.stage.first == 5 && s.server.stage.second == 6 && s.server.stage.third == 7 && s.server.stage.fourth == 8);
    s = gitaymba_proxy_deliver(s.server, bytes_of("\0x"), 2, out);
    HOLDS(s.used == 1 && s.sent == 8 && is(out, "\0\133\0\0\0\0\0\0", 8) && s.server.stage.error == 15 && s.server.stage.status == 91);
    HOLDS(s.answer == 0 && s.outcome.state == GITAYMBA_STATE_FAILED && s.outcome.number == 15 && s.outcome.status == 91);
}

/* the server, as calls read it */
static void server_read(void) {
    struct gitaymba_server s = zero_server(0);
    struct gitaymba_outcome o;
    s.stage.error = 15;
    s.stage.status = 77;
    o = gitaymba_proxy_outcome(s);
    HOLDS(o.state == GITAYMBA_STATE_FAILED && o.number == 15 && o.status == 77);
    o = gitaymba_proxy_outcome(zero_server(11));
    HOLDS(o.state == GITAYMBA_STATE_ASKED && o.number == 0 && o.status == 90);

    s = zero_server(12);
    s.kind = GITAYMBA_KIND_NAME;
    s.port = 0x1234;
    s.held = 1014;
    put_marks(s.hold, 1014);
    struct gitaymba_target t = gitaymba_proxy_destination(s);
    HOLDS(t.len == 1014 && t.port == 0x1234 && t.kind == GITAYMBA_KIND_NAME && has_marks(t.bytes, 0, 1014));
    s.kind = GITAYMBA_KIND_IPV6;
    s.held = 16;
    t = gitaymba_proxy_destination(s);
    HOLDS(t.len == 16 && t.kind == GITAYMBA_KIND_IPV6 && has_marks(t.bytes, 0, 16) && has_zeros(t.bytes + 16, 998));

    s = zero_server(9);
    s.stage.command = 1;
    s.stage.dstport = 0x1234;
    s.stage.first = 5;
    s.stage.second = 6;
    s.stage.third = 7;
    s.stage.fourth = 8;
    struct gitaymba_served d = gitaymba_proxy_deliver(s, bytes_of("\0"), 1, out);
    t = gitaymba_proxy_destination(d.server);
    HOLDS(d.outcome.state == GITAYMBA_STATE_ASKED && t.kind == GITAYMBA_KIND_IPV4 && is(t.bytes, "\5\6\7\10", 4) && t.port == 0x1234);
    s.stage.command = 2;
    d = gitaymba_proxy_deliver(s, bytes_of("\0"), 1, out);
    HOLDS(d.outcome.number == 15 && d.outcome.status == 91);
    s = zero_server(7);
    s.stage.command = 1;
    s.stage.atyp = 4;
    d = gitaymba_proxy_deliver(s, bytes_of("0123456789abcdef\22\64x"), 19, out);
    t = gitaymba_proxy_destination(d.server);
    HOLDS(d.used == 18 && t.kind == GITAYMBA_KIND_IPV6 && is(t.bytes, "0123456789abcdef", 16) && t.port == 0x1234);

    /* the longest credentials, and one byte of each that differs */
    uint8_t said[3 + 2 + 255 + 1 + 254];
    memcpy(said, "\5\1\2\1\377", 5);
    put_marks(said + 5, 255);
    said[260] = 254;
    put_marks(said + 261, 254);
    s = zero_server(1);
    s.authenticates = 1;
    s.userlen = 255;
    s.passlen = 254;
    put_marks(s.user, 255);
    put_marks(s.password, 255);
    d = gitaymba_proxy_deliver(s, said, sizeof said, out);
    HOLDS(d.used == sizeof said && d.sent == 4 && is(out, "\5\2\1\0", 4) && d.outcome.state == GITAYMBA_STATE_WAITING);
    s.user[254]++;
    HOLDS(gitaymba_proxy_deliver(s, said, sizeof said, out).outcome.number == GITAYMBA_ERROR_WRONG_CREDENTIALS);
    s.user[254]--;
    s.password[253]++;
    HOLDS(gitaymba_proxy_deliver(s, said, sizeof said, out).outcome.number == GITAYMBA_ERROR_WRONG_CREDENTIALS);
    s.password[253]--;
    s.password[254]++;
    HOLDS(gitaymba_proxy_deliver(s, said, sizeof said, out).outcome.state == GITAYMBA_STATE_WAITING);
    s.authenticates = 0;
    HOLDS(gitaymba_proxy_deliver(s, said, sizeof said, out).outcome.number == GITAYMBA_ERROR_UNSUPPORTED);
}

/* all zeros refuses every call, and leaves the output */
static void zeros(void) {
    struct gitaymba_session s = zero_session(0);
    struct gitaymba_server v = zero_server(0);
    struct gitaymba_record bound;
    memset(&bound, 0, sizeof bound);
    put_marks(out, sizeof out);
    put_marks(text, sizeof text);
    struct gitaymba_step d = gitaymba_start(s, out);
    HOLDS(d.answer == 16 && d.used == 0 && d.sent == 0 && d.outcome.state == GITAYMBA_STATE_FAILED && d.outcome.number == 16);
    d = gitaymba_deliver(s, bytes_of("\5\0"), 2, out);
    HOLDS(d.answer == 16 && d.used == 0 && d.sent == 0 && d.outcome.number == 16);
    HOLDS(gitaymba_end(s).answer == 16);
    HOLDS(gitaymba_outcome(s).state == GITAYMBA_STATE_FAILED && gitaymba_attempts(s) == 0);
    struct gitaymba_address a = gitaymba_bound(s);
    HOLDS(a.kind == 1 && a.len == 4 && a.port == 0 && has_zeros(a.bytes, 255));
    struct gitaymba_text t = gitaymba_bound_text(s, text);
    HOLDS(t.answer == 17 && t.len == 0 && has_marks(text, 0, sizeof text));
    struct gitaymba_served p = gitaymba_proxy_deliver(v, bytes_of("\5\1\0"), 3, out);
    HOLDS(p.answer == 16 && p.used == 0 && p.sent == 0 && p.outcome.state == GITAYMBA_STATE_FAILED && p.outcome.number == 16);
    HOLDS(gitaymba_proxy_answer(v, 0, bound, 1, out).answer == 16);
    HOLDS(gitaymba_proxy_end(v).answer == 16);
    HOLDS(gitaymba_proxy_outcome(v).state == GITAYMBA_STATE_FAILED);
    struct gitaymba_target g = gitaymba_proxy_destination(v);
    HOLDS(g.kind == 1 && g.len == 4 && g.port == 0 && has_zeros(g.bytes, 1014));
    HOLDS(has_marks(out, 0, sizeof out));
}

/* NULL with length 0, for every slice */
static void nulls(void) {
    HOLDS(gitaymba_prepare5(config(1, 1, 0), NULL, 0, 80, NULL, 0, NULL, 0, NULL, 0).answer == GITAYMBA_ERROR_MISSING_HOST);
    HOLDS(gitaymba_prepare5(config(1, 1, 0), bytes_of("a"), 1, 80, NULL, 0, NULL, 0, NULL, 0).answer == GITAYMBA_ERROR_DNS_FAILURE);
    struct gitaymba_step d = gitaymba_prepare5(config(1, 0, 0), bytes_of("a"), 1, 80, NULL, 0, NULL, 0, NULL, 0);
    HOLDS(d.answer == 0 && d.session.authentication == 3);
    HOLDS(gitaymba_prepare4(1, NULL, 0, 80, NULL, 0).answer == GITAYMBA_ERROR_MISSING_HOST);
    HOLDS(gitaymba_prepare4(1, bytes_of("a"), 1, 80, NULL, 0).answer == GITAYMBA_ERROR_DNS_FAILURE);
    d = gitaymba_start(d.session, out);
    d = gitaymba_deliver(d.session, NULL, 0, out);
    HOLDS(d.answer == 0 && d.used == 0 && d.sent == 0 && d.session.attempts == 0 && d.outcome.state == GITAYMBA_STATE_WAITING);
    HOLDS(gitaymba_rest(NULL, 0, 0) == 0 && gitaymba_rest(NULL, 0, 7) == 0);
    struct gitaymba_served p = gitaymba_proxy_set_up(1, NULL, 0, NULL, 0);
    HOLDS(p.answer == 0 && p.server.userlen == 0 && p.server.passlen == 0);
    p = gitaymba_proxy_deliver(p.server, NULL, 0, out);
    HOLDS(p.answer == 0 && p.used == 0 && p.sent == 0 && p.outcome.state == GITAYMBA_STATE_WAITING);
}

static void small(void) {
    uint8_t wiped[64];
    put_marks(wiped, sizeof wiped);
    gitaymba_wipe(wiped + 1, 62);
    HOLDS(wiped[0] == mark(0) && has_zeros(wiped + 1, 62) && wiped[63] == mark(63));
    HOLDS(gitaymba_rest(bytes_of("abcde"), 5, 2) == 3 && gitaymba_rest(bytes_of("abcde"), 5, 6) == 0);
}

int main(int argc, char **argv) {
    const char *group = argc > 1 ? argv[1] : "";
    if (strcmp(group, "zeros") == 0) {
        zeros();
    } else if (strcmp(group, "nulls") == 0) {
        nulls();
    } else if (strcmp(group, "abi") == 0) {
        HOLDS(gitaymba_abi() == GITAYMBA_ABI);
    } else {
        configs();
        records();
        session_written();
        session_read();
        server_written();
        server_read();
        small();
    }
    return failures != 0;
}
