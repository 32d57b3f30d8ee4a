/* Lines in and answers out, for the programs that the watch is compared with. Plain C that C++ takes too. */
#ifndef LINES_H
#define LINES_H

#include <stdio.h>
#include <stdlib.h>
#include <string.h>
#include <unistd.h>

enum { STATES = 512, MOVES = 2048, LONGEST = 32 };

struct record {
    char word[LONGEST + 1];
    unsigned count, number[2];
};

/* Up to 5 digits without a leading zero, at most 65535. */
static int read_number(const char *text, size_t length, unsigned *number)
{
    if (length < 1 || length > 5 || (length > 1 && text[0] == '0'))
        return 0;
    *number = 0;
    for (size_t i = 0; i < length; i++) {
        if (text[i] < '0' || text[i] > '9')
            return 0;
        *number = *number * 10 + (unsigned)(text[i] - '0');
    }
    return *number <= 65535;
}

/* A line without its newline as a word and at most two numbers. */
static int read_record(const char *line, size_t length, struct record *record)
{
    const char *end = line + length, *tab = (const char *)memchr(line, '\t', length);
    size_t word = (size_t)((tab ? tab : end) - line);
    if (length > LONGEST)
        return 0;
    memcpy(record->word, line, word);
    record->word[word] = 0;
    record->count = 0;
    while (tab) {
        const char *field = tab + 1;
        tab = (const char *)memchr(field, '\t', (size_t)(end - field));
        if (record->count == 2 || !read_number(field, (size_t)((tab ? tab : end) - field), &record->number[record->count]))
            return 0;
        record->count++;
    }
    return 1;
}

static int is(const struct record *record, const char *word, unsigned count)
{
    return record->count == count && strcmp(record->word, word) == 0;
}

/* One answer line; it is written as a whole, as soon as it is known. */
static char answer[STATES * 6 + 64];
static size_t answer_length;

static void put_word(const char *word)
{
    answer_length = strlen(word);
    memcpy(answer, word, answer_length);
}

static void put_number(unsigned number)
{
    char digits[10];
    int count = 0;
    do
        digits[count++] = (char)('0' + number % 10);
    while (number /= 10);
    answer[answer_length++] = '\t';
    while (count)
        answer[answer_length++] = digits[--count];
}

static void put_end(void)
{
    answer[answer_length++] = '\n';
    if (write(1, answer, answer_length) < 0)
        exit(1);
}

static void put_refusal(unsigned number)
{
    put_word("no");
    put_number(number);
    put_end();
}

/* The game as loaded, and what a program does with a load, a change and a question. */
static unsigned size, start, edges, paying;
static unsigned char pays[STATES];

static int has(unsigned source, unsigned target);
static void insert(unsigned source, unsigned target);
static void take_out(unsigned source, unsigned target);
static void answer_now(void);
static int answer_question(const struct record *record);        /* 0 where the program has no answer to the line */

static void wrong_load(void)
{
    fputs("the benchmark's texts load\n", stderr);
    exit(1);
}

static void load(const struct record *record)
{
    unsigned a = record->number[0], b = record->number[1];
    if (is(record, "game", 2) && !size && a >= 1 && a <= STATES && b < a) {
        size = a;
        start = b;
    } else if (is(record, "pay", 1) && a < size) {
        paying += !pays[a];
        pays[a] = 1;
    } else if (is(record, "move", 2) && a < size && b < size && edges < MOVES && !has(a, b)) {
        insert(a, b);
        edges++;
    } else {
        wrong_load();
    }
}

/* A state's pay comes or goes. */
static void turn(unsigned state, unsigned char on)
{
    if (state >= size) {
        put_refusal(6);
    } else if (pays[state] == on) {
        put_refusal(on ? 13 : 14);
    } else {
        pays[state] = on;
        answer_now();
    }
}

static void change(const struct record *record)
{
    unsigned a = record->number[0], b = record->number[1];
    int adds = is(record, "add", 2), marks = is(record, "mark", 1);
    if (marks || is(record, "unmark", 1)) {
        turn(a, (unsigned char)marks);
    } else if (!adds && !is(record, "cut", 2)) {
        if (!answer_question(record))
            put_refusal(1);
    } else if (a >= size || b >= size) {
        put_refusal(6);
    } else if (adds && has(a, b)) {
        put_refusal(8);
    } else if (adds && edges == MOVES) {
        put_refusal(9);
    } else if (!adds && !has(a, b)) {
        put_refusal(10);
    } else {
        (adds ? insert : take_out)(a, b);
        edges += adds ? 1 : -1u;
        answer_now();
    }
}

static void watch(void)
{
    char *line = NULL;
    size_t room = 0;
    int loaded = 0;
    for (ssize_t length; (length = getline(&line, &room, stdin)) > 0;) {
        struct record record;
        size_t bytes = (size_t)length - (line[length - 1] == '\n');
        if (!read_record(line, bytes, &record)) {
            if (!loaded)
                wrong_load();
            put_refusal(1);
        } else if (loaded) {
            change(&record);
        } else if (is(&record, "go", 0) && size) {
            loaded = 1;
            put_word("game");
            put_number(size);
            put_number(edges);
            put_number(paying);
            put_end();
            answer_now();
        } else {
            load(&record);
        }
    }
    free(line);
}

#endif
