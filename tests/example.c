/* Answers Game A and tells whether all answers fitted. */
#include <stdio.h>
#include <string.h>

#include "free_round_watch.h"

int main(void)
{
    static const char text[] = "game\t4\t0\n"
                               "pay\t2\n"
                               "move\t0\t1\n"
                               "move\t1\t2\n"
                               "go\n"
                               "add\t2\t1\n"
                               "add\t2\t3\n"
                               "cut\t1\t2\n"
                               "cut\t1\t2\n"
                               "add\t2\t0\n";
    static uint8_t out[65536];

    uint64_t number = free_round_watch((const uint8_t *)text, strlen(text), out, sizeof out);
    fwrite(out, 1, number / 2, stdout);
    puts(number % 2 ? "There was no room for the next line." : "All answers fitted.");
    return 0;
}
