/* What the checks share. They are written for C11 and C++11 alike. */
#ifndef TESTS_H
#define TESTS_H

#include <stdio.h>
#include <stdlib.h>
#include <string.h>

static unsigned long failures;
#define HOLDS(condition) ((condition) ? (void)0 : (void)(failures++ < 20 && printf("%s:%d: %s\n", __FILE__, __LINE__, #condition)))

static inline const uint8_t *bytes_of(const char *text) { return (const uint8_t *)text; }
static inline int is(const uint8_t *bytes, const char *text, size_t len) { return memcmp(bytes, text, len) == 0; }

/* No two neighbours are equal, and no two bytes 256 apart. */
static inline uint8_t mark(size_t i) { return (uint8_t)(i * 7 + i / 256 * 3 + 1); }
static inline void put_marks(uint8_t *bytes, size_t len) { for (size_t i = 0; i < len; i++) bytes[i] = mark(i); }
static inline int has_marks(const uint8_t *bytes, size_t from, size_t len) {
    for (size_t i = 0; i < len; i++)
        if (bytes[i] != mark(from + i)) return 0;
    return 1;
}
static inline int has_zeros(const uint8_t *bytes, size_t len) {
    for (size_t i = 0; i < len; i++)
        if (bytes[i] != 0) return 0;
    return 1;
}

#endif
