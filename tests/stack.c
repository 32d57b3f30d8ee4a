/* Calls free_round_watch on a text from standard input, on a stack of just 65,536 bytes with an unreadable page below, and writes
 * its output. What the loader needs to find a function of the C library at its first call comes off that stack too. */
#define _GNU_SOURCE
#include <stdint.h>
#include <stdio.h>
#include <stdlib.h>
#include <sys/mman.h>
#include <ucontext.h>

#include "free_round_watch.h"

enum { PAGE = 4096, STACK = 65536, ROOM = 1 << 21 };

static uint8_t text[ROOM], out[65536];
static size_t length;
static uint64_t number;

static void call(void)
{
    number = free_round_watch(text, length, out, sizeof out);
}

int main(void)
{
    static ucontext_t here, there;
    uint8_t *low = mmap(NULL, PAGE + STACK, PROT_READ | PROT_WRITE, MAP_PRIVATE | MAP_ANONYMOUS, -1, 0);
    if (low == MAP_FAILED || mprotect(low, PAGE, PROT_NONE) != 0 || getcontext(&there) != 0)
        return 1;
    length = fread(text, 1, sizeof text, stdin);
    there.uc_stack.ss_sp = low + PAGE;
    there.uc_stack.ss_size = STACK;
    there.uc_link = &here;
    makecontext(&there, call, 0);
    if (swapcontext(&here, &there) != 0)
        return 1;
    fwrite(out, 1, number / 2, stdout);
    return 0;
}
