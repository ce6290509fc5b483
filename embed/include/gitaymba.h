/* gitaymba.h: a SOCKS4, SOCKS4a and SOCKS5 handshake, the client's side and the proxy's, as values.
 *
 * The library does no input or output, allocates nothing and keeps no state: a call takes a session by value and returns the next one in
 * a step. A refused call (step.answer is not 0) returns the session as it was and leaves the output untouched.
 *
 *   Ownership  A session is plain data. Copy, store or drop it; nothing has to be freed. A step may go where its session came from:
 *              step = gitaymba_deliver(step.session, ...). It holds the credentials: see gitaymba_wipe.
 *   Slices     A pointer and a length in bytes. NULL is allowed where the length is 0. They are read during the call only. Texts carry
 *              no closing 0.
 *   Output     A buffer of GITAYMBA_OUT bytes, of which the first step.sent are to be sent; the bytes behind them stay as they were.
 *   Overlap    The output must not overlap an input of the same call. Inputs may overlap each other.
 *   Threads    Calls on different sessions are independent, and so are calls on copies of one.
 *   Stack      A session has 1336 bytes, a server 1552. A call copies it a few times: allow 24 KB of stack.
 *   Values     Every value of every field has a meaning, for forged sessions too. All zeros refuses every call. Numbers that no call
 *              returns come back as those that mean the same: a flag of 7 as 1, an unknown stage as failed.
 *
 * Link with libgitaymba.a (x86-64, System V ABI); it needs memcpy, memmove and memset alone.
 */
#ifndef GITAYMBA_H
#define GITAYMBA_H

#include <stddef.h>
#include <stdint.h>

#ifdef __cplusplus
extern "C" {
#define GITAYMBA_ASSERT static_assert
#define GITAYMBA_ARRAY(name, n) name[n]
#else
#define GITAYMBA_ASSERT _Static_assert
#define GITAYMBA_ARRAY(name, n) name[static n]
#endif

#define GITAYMBA_ABI 1u         /* changes with any layout, number or signature; gitaymba_abi() is the archive's */
#define GITAYMBA_OUT 1024       /* bytes of output that every call lends */
#define GITAYMBA_TEXT 261       /* bytes of a bound address's text, at most */
#define GITAYMBA_NO_PORT 65536u /* any number above 65535 is no port */

/* how a session stands: outcome.state */
#define GITAYMBA_STATE_WAITING 0
#define GITAYMBA_STATE_OPEN 1
#define GITAYMBA_STATE_FAILED 2
#define GITAYMBA_STATE_ASKED 3 /* the proxy's end alone: it awaits gitaymba_proxy_answer */

/* an address's kind, as RFC 1928 numbers it */
#define GITAYMBA_KIND_IPV4 1
#define GITAYMBA_KIND_NAME 3
#define GITAYMBA_KIND_IPV6 4

/* Why a call was refused (answer) or a session failed (outcome.number). There is no 11. No call here meets 1, 18, 21 and 24 to 27. */
#define GITAYMBA_ERRORS(X) \
    X(1, SHORT_OUTPUT, "the output buffer is too short") \
    X(2, MISSING_HOST, "the host is missing") \
    X(3, HOST_BYTE, "the host has a byte that no host has") \
    X(4, MISSING_PORT, "the port is missing") \
    X(5, CREDENTIAL_TOO_LONG, "the user or the password has more than 255 bytes") \
    X(6, HOST_TOO_LONG, "the host name is too long") \
    X(7, IPV6, "SOCKS4 takes no IPv6 address") \
    X(8, DNS_FAILURE, "the lookup found no address that serves") \
    X(9, UNEXPECTED_EOF, "the other side closed within the handshake") \
    X(10, PARSING, "the proxy's reply is malformed") \
    X(12, UNSUPPORTED, "no authentication method is acceptable") \
    X(13, METHOD_MISMATCH, "the proxy chose a method that was not offered") \
    X(14, FAILED, "the proxy refused the user and password") \
    X(15, COMMAND, "the proxy refused the request; the status says why") \
    X(16, SETTLED, "the call is out of turn, or the handshake is settled") \
    X(17, NOT_OPEN, "the session is not open") \
    X(18, SHORT_TEXT, "the text buffer is too short") \
    X(19, MALFORMED, "the client's request is malformed") \
    X(20, WRONG_CREDENTIALS, "the client's user or password is wrong") \
    X(21, ROUTE_LENGTH, "a route takes one to eight proxies") \
    X(22, OUT_OF_ORDER, "the session is not started, or was started before") \
    X(23, ANNOUNCES_NAME, "SOCKS4 cannot ask for an address 0.0.0.x") \
    X(24, BAD_LINE, "the proxy line goes wrong") \
    X(25, CAPTURE_CUT, "an entry runs past the capture's end") \
    X(26, CAPTURE_NOT_ACCEPTED, "the capture is not a lawful handshake") \
    X(27, SHORT_STREAM, "the stream buffer is too short")

enum gitaymba_error {
#define GITAYMBA_X(number, name, text) GITAYMBA_ERROR_##name = number,
    GITAYMBA_ERRORS(GITAYMBA_X)
#undef GITAYMBA_X
};

/* A text for a user; it lives as long as the program. */
static inline const char *gitaymba_error_text(uint8_t number) {
    switch (number) {
    case 0: return "no error";
#define GITAYMBA_X(number, name, text) case number: return text;
    GITAYMBA_ERRORS(GITAYMBA_X)
#undef GITAYMBA_X
    default: return "unknown error";
    }
}

/* Overwrites a value with zeros, by stores that no compiler may drop: gitaymba_wipe(&step, sizeof step).
 *
 * Sessions, steps, servers and outputs hold credentials. Wipe each of them, outputs once they are sent. Passing and returning by value
 * leaves copies in dead stack frames, the library's own too, which no wipe of a variable reaches. A caller who minds them makes the calls
 * on a thread whose stack it wipes afterwards, or below a frame that then overwrites as much stack as the calls took. */
static inline void gitaymba_wipe(void *value, size_t size) {
    volatile uint8_t *at = (volatile uint8_t *)value;
    while (size > 0) at[--size] = 0;
}

/* ---- the client's side: prepare, start, then deliver each piece that is read, until the outcome is open or failed */

/* 0 is no, any other number yes */
struct gitaymba_config {
    uint8_t proxy_auth; /* with user and password */
    uint8_t local_dns;  /* a name is looked up by the caller, who gives the records; else the proxy looks it up */
    uint8_t optimistic; /* all requests go at the start, ahead of the replies */
};

/* an address, without a port */
struct gitaymba_record {
    uint8_t kind;        /* GITAYMBA_KIND_IPV4 or GITAYMBA_KIND_IPV6 */
    uint8_t address[16]; /* IPv4 uses the first four bytes */
};

struct gitaymba_outcome {
    uint8_t state;  /* GITAYMBA_STATE_* */
    uint8_t number; /* failed: the error's number, else 0 */
    uint8_t status; /* failed with 15: the proxy's status; asked: the status that grants (0 over v5, 90 over v4); else 0 */
};

/* Read and write it by the calls alone; the fields stand here for their layout. */
struct gitaymba_session {
    uint64_t attempts;
    size_t held;
    size_t first;
    size_t authentication;
    size_t proxy;
    uint16_t port;
    uint8_t kind;
    uint8_t stage;
    uint8_t error;
    uint8_t status;
    uint8_t started;
    uint8_t optimistic;
    uint8_t hold[261];
    uint8_t requests[1024];
};

struct gitaymba_step {
    struct gitaymba_session session; /* as the call leaves it */
    size_t used;                     /* bytes of the piece that the handshake took */
    size_t sent;                     /* bytes at the output's start that must be sent, also where the session has failed */
    uint8_t answer;                  /* 0, or the refusal's number */
    struct gitaymba_outcome outcome; /* how the session stands */
};

struct gitaymba_address {
    uint16_t port;      /* in host byte order */
    uint8_t kind;       /* GITAYMBA_KIND_* */
    uint8_t len;        /* 4, 16 or a name's length */
    uint8_t bytes[255]; /* zeros behind the first len */
};

struct gitaymba_text {
    size_t len;
    uint8_t answer; /* 0, or the refusal's number */
};

/* Prepares a session over SOCKS5: all is checked and kept, nothing is sent. It needs no connection.
 *
 * host: address text, also in square brackets, or a name of at most 255 bytes. port: 0 to 65535; any other number is none. user, password:
 * at most 255 bytes each, not looked at unless proxy_auth. records: the caller's lookup as an array, read only if local_dns is set and the
 * host is a name; the first is taken. records_size is in bytes, n * sizeof *records; kinds other than 1 and 4 are skipped.
 *
 * Answers 0, 2, 3, 4, 5, 6 or 8. Refused, the session is empty and failed with that number. */
struct gitaymba_step gitaymba_prepare5(struct gitaymba_config config, const uint8_t *host, size_t host_len, uint32_t port,
    const uint8_t *user, size_t user_len, const uint8_t *password, size_t password_len,
    const struct gitaymba_record *records, size_t records_size);

/* The same over SOCKS4, and SOCKS4a for a name, of at most 1014 bytes, that is not looked up here. Of the records the first IPv4 is taken.
 *
 * Answers 0, 2, 3, 4, 6, 7, 8 or 23. */
struct gitaymba_step gitaymba_prepare4(uint8_t local_dns, const uint8_t *host, size_t host_len, uint32_t port,
    const struct gitaymba_record *records, size_t records_size);

/* Starts a prepared session: the first request, or all, is to be sent.
 *
 * Answers 0, 16 for an open or failed session, 22 for one that was started. */
struct gitaymba_step gitaymba_start(struct gitaymba_session session, uint8_t GITAYMBA_ARRAY(out, GITAYMBA_OUT));

/* Takes a piece, however the reads cut the stream. While the session waits all of it is used; once it is open, what follows the used bytes
 * is the caller's stream. An empty piece changes nothing.
 *
 * Answers 0, 16 for an open or failed session, 22 for one that is not started. An accepted piece may leave the session failed with 10, 12,
 * 13, 14 or 15. */
struct gitaymba_step gitaymba_deliver(struct gitaymba_session session, const uint8_t *piece, size_t piece_len,
    uint8_t GITAYMBA_ARRAY(out, GITAYMBA_OUT));

/* The proxy's stream has ended: a session that waits has failed with 9. Answers 0, 16 or 22 as a delivery does. */
struct gitaymba_step gitaymba_end(struct gitaymba_session session);

/* How a session stands, as in the step that returned it. */
#if defined __cplusplus && defined __GNUC__
#pragma GCC diagnostic push
#pragma GCC diagnostic ignored "-Wshadow" /* a function beside a struct of its name, as stat has it */
#endif
struct gitaymba_outcome gitaymba_outcome(struct gitaymba_session session);
#if defined __cplusplus && defined __GNUC__
#pragma GCC diagnostic pop
#endif

/* The address and port that the proxy bound. Of a session that is not open IPv4 zeros and port 0. */
struct gitaymba_address gitaymba_bound(struct gitaymba_session session);

/* The same as text, without a closing 0: 192.0.2.7:80, [2001:db8::1]:80 or name:80. The bytes behind the text stay as they were.
 *
 * Answers 0, or 17 for a session that is not open. */
struct gitaymba_text gitaymba_bound_text(struct gitaymba_session session, uint8_t GITAYMBA_ARRAY(text, GITAYMBA_TEXT));

/* The effort so far: for each accepted delivery of a nonempty piece the replies decided in it, and one more if it ended waiting. */
uint64_t gitaymba_attempts(struct gitaymba_session session);

/* How many bytes of a piece follow its first count ones; they stand at the piece's end. 0 if count is at or above piece_len. */
size_t gitaymba_rest(const uint8_t *piece, size_t piece_len, size_t count);

/* GITAYMBA_ABI of the archive. */
uint32_t gitaymba_abi(void);

/* ---- the proxy's end: set up, deliver the client's pieces until it is asked, answer, and it is open or failed */

/* a part of gitaymba_server */
struct gitaymba_stage {
    uint16_t dstport;
    uint8_t number;
    uint8_t error;
    uint8_t status;
    uint8_t command;
    uint8_t atyp;
    uint8_t first;
    uint8_t second;
    uint8_t third;
    uint8_t fourth;
};

/* Read and write it by the calls alone; the fields stand here for their layout. */
struct gitaymba_server {
    size_t held;
    struct gitaymba_stage stage;
    uint16_t port;
    uint8_t kind;
    uint8_t authenticates;
    uint8_t userlen;
    uint8_t passlen;
    uint8_t hold[1014];
    uint8_t user[255];
    uint8_t password[255];
};

struct gitaymba_served {
    struct gitaymba_server server;   /* as the call leaves it */
    size_t used;                     /* bytes of the piece that the handshake took */
    size_t sent;                     /* bytes at the output's start that must be sent, also where the end has failed */
    uint8_t answer;                  /* 0, or the refusal's number */
    struct gitaymba_outcome outcome; /* how the end stands */
};

struct gitaymba_target {
    size_t len;          /* 4, 16 or a name's length */
    uint16_t port;       /* in host byte order */
    uint8_t kind;        /* GITAYMBA_KIND_* */
    uint8_t bytes[1014]; /* zeros behind the first len */
};

/* Sets up an end for one client, of either version. Unless authenticates is 0 the client must bring this user and password, of at most 255
 * bytes each; else they are not looked at.
 *
 * Answers 0, or 5, and then the end has failed with it. */
struct gitaymba_served gitaymba_proxy_set_up(uint8_t authenticates, const uint8_t *user, size_t user_len,
    const uint8_t *password, size_t password_len);

/* Takes a client's piece. While the end waits all of it is used; otherwise what follows the used bytes is the client's stream.
 *
 * Answers 0, or 16 unless the end waits. An accepted piece may leave the end asked, or failed with 12, 15, 19 or 20. */
struct gitaymba_served gitaymba_proxy_deliver(struct gitaymba_server server, const uint8_t *piece, size_t piece_len,
    uint8_t GITAYMBA_ARRAY(out, GITAYMBA_OUT));

/* The caller's answer to a destination: a status, and the address and port that are bound. The status that grants is the asked outcome's.
 * One that the client's version does not know goes as 1 over v5 and 91 over v4. bound is IPv6 for kind 4 and else IPv4; an IPv6 address
 * goes to a v4 client as zeros.
 *
 * Answers 0, or 16 unless the end is asked. The end is then open, or failed with 15 and the status that went. */
struct gitaymba_served gitaymba_proxy_answer(struct gitaymba_server server, uint8_t status, struct gitaymba_record bound, uint16_t port,
    uint8_t GITAYMBA_ARRAY(out, GITAYMBA_OUT));

/* The client's stream has ended: an end that waits has failed with 9. Answers 0, or 16 unless the end waits. */
struct gitaymba_served gitaymba_proxy_end(struct gitaymba_server server);

/* How an end stands, as in the step that returned it. */
struct gitaymba_outcome gitaymba_proxy_outcome(struct gitaymba_server server);

/* The destination that an asked or open end hands out. Of any other IPv4 zeros and port 0. */
struct gitaymba_target gitaymba_proxy_destination(struct gitaymba_server server);

/* ---- the archive's layout */

#define GITAYMBA_SIZE(type, size) GITAYMBA_ASSERT(sizeof(struct gitaymba_##type) == (size), "size of gitaymba_" #type)
#define GITAYMBA_AT(type, field, at) GITAYMBA_ASSERT(offsetof(struct gitaymba_##type, field) == (at), "gitaymba_" #type "." #field)

GITAYMBA_ASSERT(sizeof(size_t) == 8, "x86-64 alone");

GITAYMBA_SIZE(config, 3);
GITAYMBA_AT(config, proxy_auth, 0); GITAYMBA_AT(config, local_dns, 1); GITAYMBA_AT(config, optimistic, 2);

GITAYMBA_SIZE(record, 17);
GITAYMBA_AT(record, kind, 0); GITAYMBA_AT(record, address, 1);

GITAYMBA_SIZE(outcome, 3);
GITAYMBA_AT(outcome, state, 0); GITAYMBA_AT(outcome, number, 1); GITAYMBA_AT(outcome, status, 2);

GITAYMBA_SIZE(session, 1336);
GITAYMBA_AT(session, attempts, 0); GITAYMBA_AT(session, held, 8); GITAYMBA_AT(session, first, 16);
GITAYMBA_AT(session, authentication, 24); GITAYMBA_AT(session, proxy, 32); GITAYMBA_AT(session, port, 40); GITAYMBA_AT(session, kind, 42);
GITAYMBA_AT(session, stage, 43); GITAYMBA_AT(session, error, 44); GITAYMBA_AT(session, status, 45); GITAYMBA_AT(session, started, 46);
GITAYMBA_AT(session, optimistic, 47); GITAYMBA_AT(session, hold, 48); GITAYMBA_AT(session, requests, 309);

GITAYMBA_SIZE(step, 1360);
GITAYMBA_AT(step, session, 0); GITAYMBA_AT(step, used, 1336); GITAYMBA_AT(step, sent, 1344); GITAYMBA_AT(step, answer, 1352);
GITAYMBA_AT(step, outcome, 1353);

GITAYMBA_SIZE(address, 260);
GITAYMBA_AT(address, port, 0); GITAYMBA_AT(address, kind, 2); GITAYMBA_AT(address, len, 3); GITAYMBA_AT(address, bytes, 4);

GITAYMBA_SIZE(text, 16);
GITAYMBA_AT(text, len, 0); GITAYMBA_AT(text, answer, 8);

GITAYMBA_SIZE(stage, 12);
GITAYMBA_AT(stage, dstport, 0); GITAYMBA_AT(stage, number, 2); GITAYMBA_AT(stage, error, 3); GITAYMBA_AT(stage, status, 4);
GITAYMBA_AT(stage, command, 5); GITAYMBA_AT(stage, atyp, 6); GITAYMBA_AT(stage, first, 7); GITAYMBA_AT(stage, second, 8);
GITAYMBA_AT(stage, third, 9); GITAYMBA_AT(stage, fourth, 10);

GITAYMBA_SIZE(server, 1552);
GITAYMBA_AT(server, held, 0); GITAYMBA_AT(server, stage, 8); GITAYMBA_AT(server, port, 20); GITAYMBA_AT(server, kind, 22);
GITAYMBA_AT(server, authenticates, 23); GITAYMBA_AT(server, userlen, 24); GITAYMBA_AT(server, passlen, 25); GITAYMBA_AT(server, hold, 26);
GITAYMBA_AT(server, user, 1040); GITAYMBA_AT(server, password, 1295);

GITAYMBA_SIZE(served, 1576);
GITAYMBA_AT(served, server, 0); GITAYMBA_AT(served, used, 1552); GITAYMBA_AT(served, sent, 1560); GITAYMBA_AT(served, answer, 1568);
GITAYMBA_AT(served, outcome, 1569);

GITAYMBA_SIZE(target, 1032);
GITAYMBA_AT(target, len, 0); GITAYMBA_AT(target, port, 8); GITAYMBA_AT(target, kind, 10); GITAYMBA_AT(target, bytes, 11);

#undef GITAYMBA_AT
#undef GITAYMBA_SIZE
#undef GITAYMBA_ARRAY
#undef GITAYMBA_ASSERT

#ifdef __cplusplus
}
#endif
#endif
