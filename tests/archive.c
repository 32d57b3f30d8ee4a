/* Calls free_round_watch on many cases from standard input, for tests/archive.
 *
 * A case is: bytes of text, count of output sizes (two 32-bit numbers), the sizes (32 bits each), the text.
 * For each size it prints the number returned, how many bytes outside the written part were changed (two 64-bit
 * numbers), and the bytes written. All numbers have their low byte first, as x86-64 has them.
 *
 * Text and output end where an unreadable page begins, so a step past their end is a crash. */
#define _DEFAULT_SOURCE
#include <stdint.h>
#include <stdio.h>
#include <stdlib.h>
#include <string.h>
#include <sys/mman.h>

#include "free_round_watch.h"

enum { PAGE = 4096, ROOM = 1 << 21, WIDEST = 65536 };

/* The end of ROOM bytes, with nothing readable behind it. */
static uint8_t *edge(void)
{
    uint8_t *room = mmap(NULL, ROOM + PAGE, PROT_READ | PROT_WRITE, MAP_PRIVATE | MAP_ANONYMOUS, -1, 0);
    if (room == MAP_FAILED || mprotect(room + ROOM, PAGE, PROT_NONE) != 0)
        abort();
    return room + ROOM;
}

static int take(void *to, size_t size)
{
    return fread(to, 1, size, stdin) == size;
}

/* No answer has a byte above 127, and neighbours differ: a copied part shows too. */
static uint8_t pattern(const uint8_t *at)
{
    return (uint8_t)((uintptr_t)at * 37) | 128;
}

/* The changed bytes from `from` up to `to`. */
static uint64_t changed(const uint8_t *from, const uint8_t *to)
{
    uint64_t count = 0;
    for (; from < to; from++)
        count += *from != pattern(from);
    return count;
}

/* One call with an output of this size; the PAGE bytes ahead of it are watched too. */
static void call(const uint8_t *text, uint32_t length, const uint8_t *copy, uint8_t *end, uint32_t size)
{
    uint8_t *out = end - size, *front = out - PAGE;
    for (uint8_t *at = front; at < end; at++)
        *at = pattern(at);
    uint64_t number = free_round_watch(text, length, out, size);
    uint64_t written = number / 2 <= size ? number / 2 : size;
    uint64_t wrong[2] = {number, changed(front, out) + changed(out + written, end) + (memcmp(text, copy, length) != 0)};
    fwrite(wrong, sizeof wrong, 1, stdout);
    fwrite(out, 1, written, stdout);
}

int main(void)
{
    uint8_t *text_end = edge(), *copy_end = edge(), *out_end = edge();
    static uint32_t head[2], sizes[WIDEST];
    while (take(head, sizeof head)) {
        if (head[0] > ROOM || head[1] > WIDEST || !take(sizes, head[1] * sizeof *sizes) || !take(text_end - head[0], head[0]))
            return 1;
        memcpy(copy_end - head[0], text_end - head[0], head[0]);
        for (uint32_t i = 0; i < head[1]; i++) {
            if (sizes[i] > ROOM - PAGE)
                return 1;
            call(text_end - head[0], head[0], copy_end - head[0], out_end, sizes[i]);
        }
        fflush(stdout);                         /* a crash is then told of the right case */
    }
    return 0;
}
