/* The library for a Rust program on a machine that cannot link it: makes the calls that come on standard input.
 *
 * A call is the function's number in a byte; the lengths of its three buffers in 4 bytes each, and its two numbers
 * in 8 bytes each, high byte first; and the bytes of the buffers. What comes back is the answer in 8 bytes, and
 * the bytes of the buffers. A byte that is changed beside a buffer ends it with 3. */
#include <stdio.h>
#include <stdlib.h>
#include <string.h>

#include "parchbeetle.h"

enum { FENCE = 16, MARK = 0xa5 };

static uint64_t number(const uint8_t *bytes, int count) {
    uint64_t value = 0;
    for (int i = 0; i < count; i++) {
        value = value << 8 | bytes[i];
    }
    return value;
}

static void take(uint8_t *into, size_t count) {
    if (fread(into, 1, count, stdin) != count) {
        /* Between two calls the input may end. */
        exit(feof(stdin) ? 0 : 2);
    }
}

static void give(const uint8_t *bytes, size_t count) {
    if (fwrite(bytes, 1, count, stdout) != count) {
        exit(2);
    }
}

/* A buffer with known bytes on both sides. */
static uint8_t *fenced(size_t count) {
    uint8_t *room = malloc(count + 2 * FENCE);
    if (room == NULL) {
        exit(2);
    }
    memset(room, MARK, count + 2 * FENCE);
    take(room + FENCE, count);
    return room;
}

static void give_fenced(uint8_t *room, size_t count) {
    for (size_t i = 0; i < FENCE; i++) {
        if (room[i] != MARK || room[FENCE + count + i] != MARK) {
            fprintf(stderr, "bridge: a byte beside a buffer was changed\n");
            exit(3);
        }
    }
    give(room + FENCE, count);
    free(room);
}

static uint64_t called(unsigned function, uint8_t *a, size_t a_len, uint8_t *b, size_t b_len, uint8_t *c, size_t c_len, uint64_t x,
                       uint64_t y) {
    switch (function) {
    case 0:
        return parchbeetle_check(a, a_len);
    case 1:
        return parchbeetle_read(a, a_len, b, b_len);
    case 2:
        return parchbeetle_write(a, a_len, b, b_len);
    case 3:
        return parchbeetle_slot_table(a, a_len, b, b_len);
    case 4:
        return parchbeetle_verdict(a, a_len, b, b_len);
    case 5:
        return parchbeetle_smallest_budget(a, a_len, x);
    case 6:
        return parchbeetle_build(x, a, a_len, b, b_len);
    case 7:
        return parchbeetle_rescue(a, a_len, b, b_len, c, c_len);
    case 8:
        return parchbeetle_fresh(a, a_len, b, b_len);
    case 9:
        return parchbeetle_release(a, a_len, x, y);
    case 10:
        return parchbeetle_show(a, a_len, b, b_len);
    case 11:
        return parchbeetle_advance(a, a_len);
    case 12:
        return parchbeetle_figures(a, a_len, x, b, b_len);
    default:
        fprintf(stderr, "bridge: no function %u\n", function);
        exit(2);
    }
}

int main(void) {
    setvbuf(stdin, NULL, _IOFBF, 1 << 16);
    setvbuf(stdout, NULL, _IOFBF, 1 << 16);
    for (;;) {
        uint8_t head[29], tail[8];
        take(head, sizeof head);
        size_t a_len = number(head + 1, 4), b_len = number(head + 5, 4), c_len = number(head + 9, 4);
        uint8_t *a = fenced(a_len), *b = fenced(b_len), *c = fenced(c_len);
        uint64_t answer = called(head[0], a + FENCE, a_len, b + FENCE, b_len, c + FENCE, c_len, number(head + 13, 8), number(head + 21, 8));
        for (int i = 0; i < 8; i++) {
            tail[i] = (uint8_t)(answer >> 8 * (7 - i));
        }
        give(tail, sizeof tail);
        give_fenced(a, a_len);
        give_fenced(b, b_len);
        give_fenced(c, c_len);
        fflush(stdout);
    }
}
