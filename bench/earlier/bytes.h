// Readers of DWARF numbers and strings, and growable lists.
#ifndef BYTES_H
#define BYTES_H
#include "object.h"
#include <stdlib.h>
#include <string.h>

// The current position, the end of the bytes, and the first fault. After a fault, no bytes remain.
struct bytes {
    const uint8_t *at, *end;
    enum cause bad;
};

static inline void fail(struct bytes *b, enum cause cause) {
    if (!b->bad) b->bad = cause;
    b->at = b->end;
}

static inline void skip(struct bytes *b, uint64_t count) {
    if (__builtin_expect((uint64_t)(b->end - b->at) < count, 0)) fail(b, SHORT);
    else b->at += count;
}

static inline uint64_t fixed(struct bytes *b, size_t width) {
    uint64_t value = 0;
    if ((uint64_t)(b->end - b->at) < width) { fail(b, SHORT); return 0; }
    switch (width) {
    case 1: value = *b->at; break;
    case 2: memcpy(&value, b->at, 2); break;
    case 4: memcpy(&value, b->at, 4); break;
    case 8: memcpy(&value, b->at, 8); break;
    default: memcpy(&value, b->at, width);
    }
    b->at += width;
    return value;
}

// Reads a number, which must be `wanted`.
static inline void expect(struct bytes *b, size_t width, uint64_t wanted, enum cause cause) {
    if (fixed(b, width) != wanted) fail(b, cause);
}

static inline uint64_t long_uleb(struct bytes *b) {
    uint64_t sum = 0;
    for (int shift = 0; shift < 70; shift += 7) {
        if (b->at == b->end) { fail(b, SHORT); return 0; }
        uint8_t byte = *b->at++;
        if (shift == 63 && byte > 1) break;
        sum |= (uint64_t)(byte & 0x7f) << shift;
        if (byte < 0x80) return sum;
    }
    fail(b, LEB);
    return 0;
}

static inline uint64_t uleb(struct bytes *b) {
    if (__builtin_expect(b->at < b->end && *b->at < 0x80, 1)) return *b->at++;
    return long_uleb(b);
}

static __attribute__((noinline, unused)) int64_t long_sleb(struct bytes *b) {
    uint64_t sum = 0;
    for (int shift = 0; shift < 70; shift += 7) {
        if (b->at == b->end) { fail(b, SHORT); return 0; }
        uint8_t byte = *b->at++;
        if (shift == 63 && byte != 0 && byte != 0x7f) break;
        sum |= (uint64_t)(byte & 0x7f) << shift;
        if (byte >= 0x80) continue;
        if (shift < 57 && (byte & 0x40)) sum |= ~0ull << (shift + 7);
        return (int64_t)sum;
    }
    fail(b, LEB);
    return 0;
}

static inline int64_t sleb(struct bytes *b) {
    if (__builtin_expect(b->at < b->end && *b->at < 0x80, 1))
        return (int64_t)((uint64_t)*b->at++ << 57) >> 57;
    return long_sleb(b);
}

// Skips a string and its NUL.
static inline void pass_text(struct bytes *b) {
    const uint8_t *nul = b->at < b->end ? memchr(b->at, 0, b->end - b->at) : NULL;
    if (nul) b->at = nul + 1;
    else fail(b, STRING);
}

// Reads an initial length and the width of offsets that it determines.
static inline uint64_t initial_length(struct bytes *b, uint8_t *width) {
    uint64_t length = fixed(b, 4);
    *width = length == 0xffffffff ? 8 : 4;
    if (length == 0xffffffff) return fixed(b, 8);
    if (length >= 0xfffffff0) fail(b, LENGTH);
    return length;
}

// Returns a list with capacity for one more item.
static inline void *grown(void *items, size_t count, size_t *room, size_t size) {
    if (__builtin_expect(count < *room, 1)) return items;
    *room = *room ? *room * 2 : 4;
    items = realloc(items, *room * size);
    if (!items) abort();
    return items;
}
#endif
