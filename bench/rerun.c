/* The plain nested depth-first search, run afresh after each change. Spent is the full count, kept is 0. Behind it the searches of
   a line `short`; with an argument, the looks of each such line are told on standard error. */
#define _GNU_SOURCE
#include "lines.h"

/* The targets of each state, oldest first. */
static unsigned short row[STATES][STATES];
static unsigned short degree[STATES];

static unsigned short path[STATES];             /* the open path, and behind it that of the inner search */
static unsigned depth, inner_depth, closed_at, looks;
static unsigned round_length;                   /* of the walk's round; 0 where there is none */
static unsigned short place[STATES];            /* on the open path, from 1; 0 where a state is not on it */
static unsigned char met[STATES], marked[STATES];

static unsigned find(unsigned source, unsigned target)
{
    unsigned at = 0;
    while (at < degree[source] && row[source][at] != target)
        at++;
    return at;
}

static int has(unsigned source, unsigned target)
{
    return find(source, target) < degree[source];
}

static void insert(unsigned source, unsigned target)
{
    row[source][degree[source]++] = (unsigned short)target;
}

static void take_out(unsigned source, unsigned target)
{
    unsigned at = find(source, target), behind = --degree[source] - at;
    memmove(&row[source][at], &row[source][at + 1], behind * sizeof row[source][at]);
}

/* Whether a state on the open path is reached; the inner path is then behind the open one. */
static int inner(unsigned state)
{
    marked[state] = 1;
    for (unsigned i = 0; i < degree[state]; i++) {
        unsigned target = row[state][i];
        looks++;
        if (place[target]) {
            closed_at = place[target] - 1u;
            return 1;
        }
        if (!marked[target]) {
            path[inner_depth++] = (unsigned short)target;
            if (inner(target))
                return 1;
            inner_depth--;
        }
    }
    return 0;
}

static int outer(unsigned state)
{
    met[state] = 1;
    path[depth++] = (unsigned short)state;
    place[state] = (unsigned short)depth;
    for (unsigned i = 0; i < degree[state]; i++) {
        unsigned target = row[state][i];
        looks++;
        if (!met[target] && outer(target))
            return 1;
    }
    inner_depth = depth;
    if (pays[state] && inner(state))
        return 1;
    place[state] = 0;
    depth--;
    return 0;
}

static void answer_now(void)
{
    depth = looks = 0;
    memset(place, 0, size * sizeof *place);
    memset(met, 0, size);
    memset(marked, 0, size);
    round_length = outer(start) ? inner_depth - closed_at : 0;
    put_word(round_length ? "round" : "none");
    put_number(looks);
    put_number(0);
    if (round_length) {
        put_number(closed_at);
        put_number(round_length);
        for (unsigned i = 0; i < inner_depth; i++)
            put_number(path[i]);
    }
    put_end();
}

/* What the looks at some moves have come to: all were looked at, one came back, or the budget does not allow the next. */
enum sweep { THROUGH, BACK, STOPPED };

/* Of a breadth-first search: where the queue of the states seen ends, and the looks that the budget still allows. */
struct front {
    unsigned short *tail;
    unsigned left;
};

static unsigned short queue[STATES];
static unsigned char seen[STATES];
static unsigned short roots[STATES];            /* the states that pay and can be reached, in rising order */
static unsigned root_count, left;
static int tells_looks;

static void note(struct front *front, unsigned state)
{
    if (!seen[state]) {
        seen[state] = 1;
        *front->tail++ = (unsigned short)state;
    }
}

static enum sweep look_through(struct front *front, unsigned state, unsigned goal)
{
    const unsigned short *move = row[state], *end = move + degree[state];
    for (; move < end; move++) {
        unsigned target = *move;
        if (!front->left)
            return STOPPED;
        front->left--;
        if (target == goal)
            return BACK;
        note(front, target);
    }
    return THROUGH;
}

static enum sweep look_levels(struct front *front, unsigned goal, unsigned levels)
{
    const unsigned short *at = queue;
    for (const unsigned short *end = front->tail; levels && at < end; levels--, end = front->tail)
        for (; at < end; at++) {
            enum sweep sweep = look_through(front, *at, goal);
            if (sweep != THROUGH)
                return sweep;
        }
    return THROUGH;
}

/* Breadth-first from a state, over states fewer than so many moves away, until a look leads to the goal. */
static enum sweep search(unsigned from, unsigned goal, unsigned levels)
{
    struct front front = {queue, left};
    memset(seen, 0, size);
    note(&front, from);
    enum sweep sweep = look_levels(&front, goal, levels);
    left = front.left;
    return sweep;
}

static void find_roots(void)
{
    left = MOVES;
    search(start, STATES, size);                /* no look leads to what is no state */
    root_count = 0;
    for (unsigned state = 0; state < size; state++)
        if (pays[state] && seen[state])
            roots[root_count++] = (unsigned short)state;
}

static enum sweep try_length(unsigned length)
{
    enum sweep sweep = THROUGH;
    for (unsigned i = 0; i < root_count && sweep == THROUGH; i++)
        sweep = search(roots[i], roots[i], length);
    return sweep;
}

/* There is a round, so that a length is found or the budget is used up. */
static void put_lengths(unsigned budget)
{
    enum sweep sweep;
    unsigned length = 1;
    find_roots();
    left = budget;
    while ((sweep = try_length(length)) == THROUGH)
        length++;
    put_number(sweep == BACK ? length : round_length);
    put_number(length);
    if (tells_looks)
        fprintf(stderr, "%u\n", budget - left);
}

static int answer_question(const struct record *record)
{
    if (!is(record, "short", 1))
        return 0;
    put_word(round_length ? "short" : "none");
    if (round_length)
        put_lengths(record->number[0]);
    put_end();
    return 1;
}

int main(int count, char **arguments)
{
    (void)arguments;
    tells_looks = count > 1;
    watch();
    return 0;
}
