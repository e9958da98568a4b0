/*
 * Memory lent to a call of the library: exactly its length of bytes, between guards that no call may write. Under the address sanitizer
 * the guards are out of bounds too, so that it sees a byte too much that the C side touches.
 */
#ifndef LENT_H
#define LENT_H

#include <stdint.h>
#include <stdio.h>
#include <stdlib.h>
#include <string.h>

#if defined(__has_feature)
#if __has_feature(address_sanitizer)
#define LENT_SANITIZED
#endif
#endif
#ifdef __SANITIZE_ADDRESS__
#define LENT_SANITIZED
#endif
#ifdef LENT_SANITIZED
#include <sanitizer/asan_interface.h>
#else
#define ASAN_POISON_MEMORY_REGION(from, length) ((void)(from), (void)(length))
#define ASAN_UNPOISON_MEMORY_REGION(from, length) ((void)(from), (void)(length))
#endif

#define LENT_GUARD 64u /* bytes before, and after where no other number is asked for; a multiple of what malloc aligns to */

struct lent {
    uint8_t *bytes;
    size_t length;
    size_t after; /* bytes of the guard after it */
};

/* Ends the program by a signal, which no comparison takes for an answer. */
static inline void stop(const char *why) {
    fflush(stdout);
    fprintf(stderr, "%s\n", why);
    abort();
}

/* Byte i of a guard: no two neighbours alike, so that a shifted or repeated byte shows. */
static inline uint8_t lent_guard(size_t i) { return (uint8_t)(0xa7u + 29u * i); }

static inline void lent_guard_made(uint8_t *guard, size_t length) {
    for (size_t i = 0; i < length; i++) {
        guard[i] = lent_guard(i);
    }
    ASAN_POISON_MEMORY_REGION(guard, length);
}

/* All bits that differ, without a way out on the first: most guards are whole, and some are long. */
static inline void lent_guard_check(const uint8_t *guard, size_t length) {
    uint8_t altered = 0;
    ASAN_UNPOISON_MEMORY_REGION(guard, length);
    for (size_t i = 0; i < length; i++) {
        altered |= guard[i] ^ lent_guard(i);
    }
    if (altered != 0) {
        stop("a byte outside what was lent or the device was written");
    }
    ASAN_POISON_MEMORY_REGION(guard, length);
}

static inline struct lent lent_guarded(size_t length, size_t after) {
    uint8_t *whole = malloc(LENT_GUARD + length + after);
    if (whole == NULL) {
        stop("no memory");
    }
    struct lent lent = {whole + LENT_GUARD, length, after};
    lent_guard_made(whole, LENT_GUARD);
    lent_guard_made(lent.bytes + length, after);
    return lent;
}

static inline struct lent lent_new(size_t length) { return lent_guarded(length, LENT_GUARD); }

/* Looked at after each call: both guards are as they were made. */
static inline void lent_check(struct lent lent) {
    lent_guard_check(lent.bytes - LENT_GUARD, LENT_GUARD);
    lent_guard_check(lent.bytes + lent.length, lent.after);
}

static inline void lent_free(struct lent lent) {
    ASAN_UNPOISON_MEMORY_REGION(lent.bytes - LENT_GUARD, LENT_GUARD);
    ASAN_UNPOISON_MEMORY_REGION(lent.bytes + lent.length, lent.after);
    free(lent.bytes - LENT_GUARD);
}

#endif
