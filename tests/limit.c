/* limit HEAD TAIL OFFSET: calls free_round_watch on a text with HEAD at its beginning, TAIL at OFFSET and NUL bytes
 * between them, and prints the output. The system gives one page of zeros for all bytes that are only read. */
#define _DEFAULT_SOURCE
#include <stdio.h>
#include <stdlib.h>
#include <string.h>
#include <sys/mman.h>

#include "free_round_watch.h"

int main(int argc, char **argv)
{
    static uint8_t out[65536];
    if (argc != 4)
        return 1;
    size_t offset = strtoull(argv[3], NULL, 10), length = offset + strlen(argv[2]);
    uint8_t *text = mmap(NULL, length, PROT_READ | PROT_WRITE, MAP_PRIVATE | MAP_ANONYMOUS | MAP_NORESERVE, -1, 0);
    if (text == MAP_FAILED)
        return 1;
    memcpy(text, argv[1], strlen(argv[1]));
    memcpy(text + offset, argv[2], strlen(argv[2]));
    uint64_t number = free_round_watch(text, length, out, sizeof out);
    fwrite(out, 1, number / 2, stdout);
    return (int)(number % 2);
}
