#!/usr/bin/env python3
"""Scripts for the small test program, and the output expected of it.

    python3 script.py SEED KIND                       the script, to stdout
    python3 script.py --expected SEED KIND            the expected output
    python3 script.py --write SEED KIND SCRIPT OUTPUT both, into two files
    python3 script.py --replay < script               expected output of any script
    python3 script.py --stats SEED                    what the scripts contain

KIND is games, edges, small, full, batches, kinds, over or short; known (games and edges as one script, one end) or drawn (small
and full); or blocks (known, drawn, batches, kinds, over and short, one block each).
"""

import itertools
import random
import struct
import sys
from collections import Counter, namedtuple

import reference
from batches import KIND_NUMBERS, LENGTHS, NUMBERS, some_lines
from reference import (MOST_BUDGET, MOST_KINDS, MOST_MOVES, MOST_STATES, MOVE_WORDS, Table, borders_of, called, carried, flat,
                       given_marks, in_full, is_question, load_args, long_ring, not_come_to, of_kinds, pairs, random_carried,
                       random_kind, short_game, some_budgets, states_of, too_many)

LENT = 600
BLOCK = 65536                                   # bytes of a block, padded with zeros, but for the last
MOST_LINES = 70                                 # of a batch in a script
OPS = {2: "add", 3: "cut", 4: "mark", 5: "unmark"}
ASKED = {7: "ways", 9: "short"}
NO_CHANGE = (0, 0, 0), (9, 0, 1), (9, 0, 0), (0, 1, 0)         # lines of a batch that are none
CODES = {word: op for op, word in OPS.items()}
ALREADY = {"add": 8, "cut": 10, "mark": 13, "unmark": 14}      # the number where it is so already
# About each border of two words, and some other states.
PROBES = [1, 15, 16, 31, 32, 62, 63, 64, 65, 127, 128, 191, 192, 255, 256, 319, 320, 383, 384, 447, 448, 510, 511]
LIMITS = {"games": 30000, "edges": 33400, "small": 20000, "full": 20000, "batches": 64000, "kinds": 64000, "over": 64000,
          "short": 64000}                       # bytes


# ------------------------------------------------------- expected output

def replay(script):
    """Read a script as the test program does; give its output as bytes."""
    blocks = (script[at:at + BLOCK] for at in range(0, len(script), BLOCK))
    return "".join("%d\n" % n for block in blocks for n in replay_block(block)).encode()


def replay_block(block):
    """The output for one block, which starts without a session."""
    numbers = iter(struct.unpack("<%dH" % (len(block) // 2), block))
    take = lambda count: [next(numbers) for _ in range(count)]
    table = Table()
    while True:
        op = next(numbers)
        if op == 0:
            break
        if op in ASKED:
            yield from replied(called(table, ASKED[op], *take(1)))
            continue
        answer, room = READERS.get(op, read_change)(table, op, take)
        assert room <= LENT
        yield from told(answer, room)
    assert not any(numbers)


def read_load(table, _, take):
    """Each of these four makes the call that is read next: its answer and the room lent."""
    size, start, kinds, count = take(4)
    assert count <= MOST_KINDS
    parts = take(32 * count) + [0] * (32 * (MOST_KINDS - count))
    words = [sum(parts[4 * w + i] << (16 * i) for i in range(4)) for w in range(8 * MOST_KINDS)]
    moves = take(*take(1))
    room, = take(1)
    return table.load(size, start, kinds, words, moves, room), room


def read_change(table, op, take):
    *named, room = take(3)
    return getattr(table, OPS[op])(*named, room), room


def read_batch(table, _, take):
    room, count = take(2)
    assert count <= MOST_LINES
    lines = [take(3) for _ in range(count)]
    return table.batch([(OPS[op], *named) if op in OPS else None for op, *named in lines], room), room


def read_kinds(table, _, take):
    kinds, room = take(2)
    return table.set_kinds(kinds, room), room


READERS = {1: read_load, 6: read_batch, 8: read_kinds}         # the others are changes alone


def replied(answer):
    """The numbers printed for a question. No list is lent, so none is summed up."""
    return [{"no": 0, "ways": 4, "short": 5, "none": 6}[answer[0]], *answer[1:]]


def told(answer, room):
    """The numbers printed for one call."""
    lent = [40000 + i for i in range(LENT)]
    if answer[0] == "no":
        out = [3 if len(answer) == 3 else 0, *answer[1:]]
    elif answer[0] == "none":
        out = [1, answer[1], answer[2]]
    else:
        _, spent, kept, stem, round_ = answer
        walk = stem + round_
        assert len(walk) <= room
        lent[:len(walk)] = walk
        out = [2, spent, kept, len(stem), len(round_)] + walk
    return out + [sum((i + 1) * x for i, x in enumerate(lent)) % 65521]


# ------------------------------------------------------- making of scripts

# own: a self-move is named; place: what place_of says, of a batch the count of its lines, of another K the old and the new one;
# kinds: K, 0 without a session
Call = namedtuple("Call", "word own answer place kinds")


def place_of(run, word, move):
    """Where the run before an add or a cut had not come to the move, or that it had."""
    if move[0] not in run.met_after:
        return "never met"
    if not not_come_to(run, word, move):
        return "come to"
    return "stem" if move[0] in run.stem else "round"


class Script:
    """Collects calls; runs each at once, so that the next can look at the table."""

    def __init__(self):
        self.numbers = []
        self.table = Table()
        self.calls = []
        self.named = []                         # the states of the last change or batch, for the next question
        self.no_change = itertools.cycle(NO_CHANGE)
        self.without = itertools.cycle((0, 0, 0, 0, 1))        # kinds that nobody carries, behind the others of a load

    def _said(self, word, moves, answer, want, place=None):
        if want is not None:
            got = answer[0] if answer[0] != "no" else answer[1] if len(answer) == 2 else answer[1:]
            assert got == want, (got, want)
        kinds = self.table.kinds if self.table.loaded else 0
        self.calls.append(Call(word, any(a == b for a, b in moves), answer, place, kinds))
        return answer

    def load(self, size, start, pay, numbers, room=None, want=None):
        """pay: as the reference's games have it; want: the verdict or the number that must come out."""
        *_, kinds, words, _ = load_args(size, start, pay, [])
        room = min(size * kinds, LENT) if room is None else room
        self.named = []
        count = max((kind for kind, states in enumerate(carried(pay).carriers, 1) if states), default=0)
        count = min(MOST_KINDS, count + next(self.without))
        self.numbers += [1, size, start, kinds, count]
        self.numbers += [w >> (16 * i) & 0xFFFF for w in words[:8 * count] for i in range(4)]
        self.numbers += [len(numbers), *numbers, room]
        answer = self.table.load(size, start, kinds, words, numbers, room)
        return self._said("load", pairs(numbers), answer, want)

    def change(self, word, *named, room=None, want=None):
        """named: the two states of a move, or the state of a mark and its kind, which may be left out."""
        assert self.table.loaded
        room = self.table.least_room if room is None else room
        self.named = list(states_of(word, *named))
        self.numbers += [CODES[word], *in_full(word, *named)[1:], room]
        before = self.table.run
        answer = getattr(self.table, word)(*named, room)
        if word not in MOVE_WORDS:
            return self._said(word, [], answer, want)
        place = None if answer[0] == "no" else place_of(before, word, named)
        return self._said(word, [named], answer, want, place)

    def batch(self, lines, room=None, want=None):
        """lines: as Table.batch takes them; want: the verdict, or the number and the position."""
        assert self.table.loaded and len(lines) <= MOST_LINES
        room = self.table.least_room if room is None else room
        self.named = [state for line in lines if line for state in states_of(*line)]
        self.numbers += [6, room, len(lines)]
        for line in lines:
            self.numbers += next(self.no_change) if line is None else (CODES[line[0]], *in_full(*line)[1:])
        moves = [line[1:] for line in lines if line and line[0] in MOVE_WORDS]
        return self._said("batch", moves, self.table.batch(lines, room), want, len(lines))

    def kinds(self, kinds, room=None, want=None):
        """Another K. If no room is told, the list is as long as that K needs."""
        assert self.table.loaded
        room = min(self.table.size * kinds, LENT) if room is None else room
        self.named = []
        self.numbers += [8, kinds, room]
        old = self.table.kinds
        answer = self.table.set_kinds(kinds, room)
        return self._said("kinds", [], answer, want, None if answer[0] == "no" else (old, kinds))

    def ways(self, *states, want=None):
        """Questions, one about each of these states; want: of each the two counts, or the number."""
        assert self.table.loaded
        for state in states:
            self.numbers += [7, state]
            answer = self.table.ways(state)
            assert want in (None, answer[1] if answer[0] == "no" else answer[2:]), (state, answer, want)
            self._said("ways", [], answer, None)

    def short(self, *budgets, want=None):
        """Questions about the shortest round, one for each of these budgets; want: the answer to each."""
        assert self.table.loaded
        for budget in budgets:
            self.numbers += [9, budget]
            answer = self.table.short(budget)
            assert want in (None, answer), (budget, answer, want)
            self._said("short", [], answer, None)

    def add(self, a, b, room=None, want=None):
        return self.change("add", a, b, room=room, want=want)

    def cut(self, a, b, room=None, want=None):
        return self.change("cut", a, b, room=room, want=want)

    def mark(self, state, kind=1, room=None, want=None):
        return self.change("mark", state, kind, room=room, want=want)

    def unmark(self, state, kind=1, room=None, want=None):
        return self.change("unmark", state, kind, room=room, want=want)

    def spared(self, word, a, b):
        """An add or a cut that the run before had not come to: every look is kept, the walk stays."""
        run = self.table.run
        looks = len(run.looks)
        wanted = ("round", 0, looks, run.stem, run.round) if run.found else ("none", 0, looks)
        assert self.change(word, a, b) == wanted

    def move_words(self, move):
        """What is accepted first and then."""
        return ("cut", "add") if move in self.table.moves else ("add", "cut")

    def mark_words(self, state, kind=1):
        return ("unmark", "mark") if self.table.marks[kind - 1][state] else ("mark", "unmark")

    def there_and_back(self, words, named, short):
        """Each of two opposite changes: refused with the short list, accepted, refused as it is so already."""
        for word in words:
            self.change(word, *named, room=short, want=11)
            self.change(word, *named)
            self.change(word, *named, room=short, want=ALREADY[word])

    def size_in_bytes(self):
        return 2 * len(self.numbers)

    def data(self):
        assert all(0 <= n < 65536 for n in self.numbers)
        return struct.pack("<%dH" % len(self.numbers), *self.numbers)


def worked(s, games):
    """Games of the reference, with batches and questions. Lines that make no call are left out."""
    for name, size, pay, moves, first, calls in games:
        assert s.load(size, 0, pay, flat(moves)) == first, name
        for word, *named, wanted in calls:
            if word == "batch":
                lines = [line if isinstance(line, tuple) else None for line in named[0]]
                assert s.batch(lines) == wanted, name
            elif word == "ways":
                s.ways(*named, want=wanted[1] if wanted[0] == "no" else wanted[2:])
            elif word == "short":
                s.short(*named, want=wanted)
            elif word == "kinds":
                lent_less(s, *named)
                assert s.kinds(*named) == wanted, name
            elif word != "line":
                assert s.change(word, *named) == wanted, name


def lent_less(s, kinds):
    """Another K with a list that is one entry too short for it: refused, with 16 where it would be anyway."""
    fits = not too_many(s.table.size, kinds, s.table.moves)
    s.kinds(kinds, s.table.size * kinds - 1 if fits else 0, want=11 if fits else 16)


def make_games(s, rng):
    for name, size, pay, moves, first, changes in reference.SINGLES:
        if len(name) == 1:                      # of games A to I
            s.load(size, 0, pay, flat(moves), size - 1, want=11)
        assert s.load(size, 0, pay, flat(moves)) == first, name
        for word, *named, wanted in changes:
            assert s.change(word, *named) == wanted, name
        if name.startswith("unreached"):        # what follows was asked behind enough other games
            continue
        s.add(size, 0, want=6)
        s.cut(0, size, want=6)
        s.mark(size, want=6)
        s.unmark(size, room=size - 1, want=6)
        if moves:
            s.add(*s.table.moves[-1], want=8)
            s.cut(*s.table.moves[0], room=size - 1, want=11)
            s.cut(*s.table.moves[0], room=LENT)
        s.there_and_back(s.move_words((0, 0)), (0, 0), size - 1)
        s.there_and_back(s.mark_words(size - 1), (size - 1,), size - 1)
    worked(s, reference.WAYS_GAMES)


def distinct_moves(rng, size, count, banned=(), share=0.1):
    """share: how many of the drawn moves lead from a state to itself."""
    moves = set(banned)
    out = []
    while len(out) < count:
        a = rng.randrange(size)
        b = a if rng.random() < share else rng.randrange(size)
        if (a, b) not in moves:
            moves.add((a, b))
            out.append((a, b))
    return out


def make_edges(s, rng):
    # the count of states
    s.load(1, 0, [], [], want="none")
    s.add(0, 1, want=6)
    s.cut(1, 0, want=6)
    s.load(1, 0, [0], [], want="none")
    s.load(1, 0, [0], [], room=0, want=11)
    s.load(1, 0, [], [0, 1], want=6)
    s.load(0, 0, [], [], want=2)
    s.load(0, 5, [3], [1], room=0, want=2)
    s.load(512, 0, [], [], want="none")
    s.load(513, 0, [], [], room=600, want=2)
    s.load(513, 513, [511], [7, 7, 7], room=0, want=2)
    s.load(65535, 0, [], [], room=600, want=2)

    # the start state
    s.load(512, 511, [511], [511, 0, 0, 511], want="round")
    s.cut(0, 511, want="none")
    s.add(0, 511, want="round")
    s.add(511, 510, want="round")
    s.cut(511, 0, want="none")
    s.add(511, 511, want="round")
    s.load(512, 512, [], [], room=600, want=3)
    s.load(512, 65535, [], [], room=600, want=3)
    s.load(2, 2, [2], [0], room=0, want=3)
    s.load(1, 1, [], [], want=3)

    # marks
    for n in (1, 63, 64, 65, 127, 128, 448, 511):
        s.load(n, n - 1, [n], [], want=4)
    s.load(2, 0, [511], [0], room=0, want=4)
    s.load(64, 0, [63], [0, 63, 63, 0], want="round")
    pay = [t for t in range(1, 512) if rng.random() < 0.5]
    pay = sorted(set(pay) ^ {63, 127})
    s.load(512, 0, pay, [], want="none")
    for t in PROBES:
        s.add(t, 0)
        s.add(0, t, want="round" if t in pay else "none")
        s.cut(0, t, want="none")

    # the list
    s.load(3, 0, [], [0], want=5)
    s.load(3, 0, [], [0, 1, 1], want=5)
    s.load(3, 0, [], [3, 0, 1, 1, 9], room=0, want=5)
    two = [[0, 1], [1, 2]]
    for bad6 in ([0, 3], [3, 0], [3, 3], [65535, 2]):
        for at in range(3):                     # 6 first, middle, last
            rest = two[:at] + [bad6] + two[at:]
            s.load(3, 0, [], sum(rest, []), want=6)
    for six in range(4):                        # 6 with 8, in any place
        rest = [[1, 1], [0, 1], [0, 1]]
        rest.insert(six, [0, 3])
        s.load(3, 0, [], sum(rest, []), room=0, want=6)
    s.load(3, 0, [], [0, 1, 0, 1], want=8)
    s.load(3, 0, [], [0, 1, 1, 2, 2, 0, 0, 1], room=2, want=8)
    s.load(3, 0, [], [1, 2, 0, 1, 2, 1, 2, 1], want=8)
    s.load(3, 0, [], [0, 1, 1, 0], room=3, want="none")

    # moves from a state to itself
    s.load(1, 0, [], [0, 0], room=0, want=11)
    s.load(1, 0, [], [0, 0, 0, 0], room=0, want=8)
    s.load(1, 0, [], [0, 0, 1, 1], room=0, want=6)
    for pay, verdict in (([0], "round"), ([], "none")):
        s.load(1, 0, pay, [0, 0], want=verdict)
        s.add(0, 0, room=0, want=8)
        s.cut(1, 1, room=0, want=6)
        s.cut(0, 0, room=0, want=11)
        s.cut(0, 0, want="none")
        s.cut(0, 0, room=0, want=10)
        s.add(1, 1, room=0, want=6)
        s.add(0, 0, room=0, want=11)
        s.add(0, 0, want=verdict)
    for at in range(4):                         # beside an 8, in any place
        rest = [[0, 1], [1, 2], [0, 1]]
        rest.insert(at, [2, 2])
        s.load(3, 0, [], sum(rest, []), room=0, want=8)
    for at in range(3):                         # twice, in any two places
        for again in range(at + 1, 4):
            rest = [[0, 1], [1, 2]]
            rest.insert(at, [2, 2])
            rest.insert(again, [2, 2])
            s.load(3, 0, [], sum(rest, []), room=2, want=8)
    s.load(3, 1, [0, 2], [0, 0, 1, 1, 2, 2], want="none")        # and no others
    s.add(1, 2, want="round")
    s.cut(2, 2, want="none")
    s.add(1, 0, want="round")
    s.cut(1, 1, want="round")
    s.cut(1, 1, want=10)

    # the lent list
    for pay, verdict in (([1], "round"), ([], "none")):
        moves = [1, 2, 2, 1, 2, 3]
        s.load(4, 1, pay, moves, room=0, want=11)
        s.load(4, 1, pay, moves, room=3, want=11)
        s.load(4, 1, pay, moves, room=5, want=verdict)
        s.load(4, 1, pay, moves, room=600, want=verdict)
        s.load(4, 1, pay, moves, room=4, want=verdict)
        s.add(3, 0, room=3, want=11)
        s.add(3, 0, room=5, want=verdict)
        s.add(2, 3, room=3, want=8)
        s.cut(0, 3, room=0, want=10)
        s.cut(0, 0, room=0, want=10)
        s.cut(4, 4, room=0, want=6)
        s.add(2, 2, room=3, want=11)
        s.add(2, 2, room=4, want=verdict)
        s.add(2, 2, room=0, want=8)
        s.cut(2, 2, room=3, want=11)
        s.cut(2, 2, room=4, want=verdict)
        s.cut(0, 3, room=4, want=10)
        s.cut(1, 2, room=0, want=11)            # would be none
        s.cut(1, 2, room=4, want="none")
        s.cut(1, 2, room=4, want=10)
        s.add(1, 2, room=3, want=11)
        s.add(1, 2, room=600, want=verdict)

    # the longest walk: all 512 states
    ring = [(i, (i + 1) % 512) for i in range(512)]
    s.load(512, 0, [511], [0, 511, 511, 511], room=511, want=11)
    answer = s.load(512, 0, [511], flat(ring), room=600, want="round")
    assert len(answer[3]) == 0 and len(answer[4]) == 512
    s.add(511, 510, want="round")
    s.cut(511, 0, room=511, want=11)
    answer = s.cut(511, 0, room=512, want="round")
    assert len(answer[3]) == 510 and len(answer[4]) == 2
    s.cut(511, 510, want="none")
    answer = s.add(511, 256, want="round")
    assert len(answer[3]) == 256 and len(answer[4]) == 256
    answer = s.add(511, 511, want="round")
    assert len(answer[3]) == 256 and len(answer[4]) == 256
    s.cut(511, 256, room=511, want=11)
    answer = s.cut(511, 256, want="round")
    assert len(answer[3]) == 511 and len(answer[4]) == 1
    s.cut(511, 511, want="none")
    s.add(511, 0, want="round")
    s.unmark(511, room=511, want=11)
    assert s.unmark(511) == ("none", 1, 511)
    for t in (0, 256):                          # the inner search leads on to the start state
        answer = s.mark(t, room=LENT)
        assert answer[0] == "round" and answer[2] == t and len(answer[4]) == 512
        s.mark(t, room=511, want=13)
        s.unmark(t, want="none")
    ring_edges(s)
    stem_edges(s)

    # 512 states, each with a move to itself, and no others
    own = [(t, t) for t in range(512)]
    answer = s.load(512, 511, [0, 511], flat(own), want="round")
    assert answer[3:] == ([], [511])
    s.add(511, 511, want=8)
    s.add(512, 512, want=6)
    s.cut(511, 511, room=511, want=11)
    s.cut(511, 511, want="none")
    s.cut(511, 511, want=10)
    s.add(511, 510, want="none")
    s.add(511, 0, want="round")
    s.add(511, 511, room=511, want=11)
    s.add(511, 511, want="round")
    s.cut(0, 0, want="round")
    s.cut(510, 510, want="round")
    s.cut(511, 511, want="none")
    s.cut(256, 256, want="none")                # of a state never met
    s.mark(255, want="none")
    s.add(511, 255, want="round")
    s.unmark(255, want="none")
    s.mark(510, want="none")                    # its own move has gone
    s.mark(511, room=511, want=13)
    s.unmark(511, want="none")

    # the full table: nearly every state has a move to itself, the 2,048th and the 2,049th are such; one has moves to and from all
    size = 512
    rng.shuffle(own)
    hub = own[8][0]
    spokes = [m for t in range(size) if t != hub for m in ((hub, t), (t, hub))]
    moves = own[5:] + spokes + distinct_moves(rng, size, 2047 - 507 - len(spokes), own + spokes, share=0)
    rng.shuffle(moves)
    moves += own[3:5]
    pay = [t for t, _ in own[5:8]]
    s.load(size, 0, pay, flat(moves), room=600, want=5)
    moves.pop()
    s.load(size, 0, pay, flat(moves), room=600)
    assert len(s.table.moves) == 2048
    hub_edges(s, hub, own)
    for t in pay:
        s.cut(t, t)
        s.add(t, t)
    other = distinct_moves(rng, size, 3, moves + own, share=0)
    new = [other[0], own[0], other[1], own[1], other[2], own[2]]
    s.add(*moves[0], want=8)
    s.add(*moves[2047], room=0, want=8)
    s.add(*moves[2047], want=8)
    s.add(512, 512, room=0, want=6)
    s.add(5, 512, room=0, want=6)
    for move in new[:2]:
        s.add(*move, want=9)
        s.add(*move, room=0, want=9)
        s.cut(*move, room=0, want=10)
    for move in (moves[9], moves[2047]):
        s.cut(*move, room=511, want=11)
        s.add(*new[0], want=9)
        s.cut(*move)
        s.add(*move)                            # cut and added again
        s.add(*new[1], want=9)
    for i in range(6):                          # the place of a cut move is free
        s.cut(*moves[[0, 2047, 1000, 1, 2046, 500][i]])
        s.add(*new[i], room=511, want=11)
        s.add(*new[i])
        s.add(*new[i], want=8)
        s.add(*moves[0], want=9)
    for t in (63, 64, 511, pay[0]):
        s.there_and_back(s.mark_words(t), (t,), 511)
    s.mark(512, room=0, want=6)
    s.add(*moves[0], want=9)
    mark_edges(s)


def hub_edges(s, hub, own):
    """A full table in which the hub has a move to each of 512 states and one from each; the first five of these own moves
    are not there but for the fourth."""
    s.ways(hub, want=(512, 512))
    s.ways(512, 513, 65535, want=6)
    for t in (own[0][0], own[6][0]):            # without a move to itself, and with one
        _, _, leaving, entering = s.table.ways(t)
        s.cut(hub, t)
        s.ways(t, want=(leaving, entering - 1))
        s.ways(hub, want=(511, 512))
        s.cut(t, hub)
        s.ways(t, want=(leaving - 1, entering - 1))
        s.ways(hub, want=(511, 511))
        s.cut(t, hub, room=0, want=10)
        s.add(t, hub, room=511, want=11)
        s.add(t, 512, want=6)
        s.ways(hub, want=(511, 511))
        s.add(t, hub)
        s.ways(hub, want=(511, 512))
        s.add(hub, t)
        s.add(hub, t, want=8)
        s.ways(hub, want=(512, 512))
        s.ways(t, want=(leaving, entering))
    s.add(*own[0], want=9)
    s.ways(own[0][0], hub)
    s.cut(hub, hub, room=511, want=11)
    s.ways(hub, want=(512, 512))
    s.cut(hub, hub)
    s.ways(hub, want=(511, 511))                # its own move counted on both sides
    s.batch([("add", hub, hub), ("cut", hub, 0), ("cut", 0, hub), ("add", *own[0]), ("add", *own[0])], want=(8, 5))
    s.ways(hub, want=(511, 511))
    s.batch([("add", hub, hub), ("cut", hub, own[6][0]), ("cut", own[7][0], hub)])
    s.ways(hub, want=(511, 511))
    s.batch([("add", own[7][0], hub), ("add", hub, own[6][0]), ("add", *own[0])], want=(9, 3))
    s.ways(hub, want=(511, 511))
    s.batch([("add", hub, own[6][0]), ("add", own[7][0], hub)])
    s.ways(hub, want=(512, 512))
    s.ways(*[t for t, _ in own[3:8]])


def ring_edges(s):
    """On the ring of 512 states, of which none pays: moves that a run has not come to."""
    assert s.mark(511)[1:3] == (2, 511)
    s.spared("add", 0, 511)
    s.spared("add", 255, 300)
    s.add(510, 0, room=511, want=11)
    s.spared("add", 510, 0)                     # the last state that has not finished
    assert s.add(511, 5)[1:3] == (3, 511)       # the first that has
    s.cut(510, 0, room=511, want=11)
    s.spared("cut", 510, 0)
    assert s.cut(255, 256)[1:3] == (215, 255)
    s.spared("cut", 299, 300)                   # never met now
    s.spared("add", 299, 300)
    s.spared("add", 255, 256)                   # beside its only move, which leads along the walk
    assert s.cut(255, 300)[1:3] == (259, 255)
    assert s.cut(300, 301) == ("round", 4, 300, [], [0, 511])
    s.spared("cut", 400, 401)
    s.spared("add", 0, 0)
    assert s.add(300, 400)[1:3] == (5, 300)     # it has left the open path
    assert s.add(400, 401)[1:3] == (114, 301)   # met and without moves, so it had finished
    assert s.unmark(511) == ("none", 4, 412)
    s.spared("cut", 350, 351)                   # never met
    assert s.cut(0, 0) == ("none", 415, 0)      # with no round all moves of a met state were looked at


def stem_edges(s):
    """64 states in a line; each has a move before and one behind that which leads along it."""
    last = 63
    moves = [m for t in range(last - 1) for m in ((t, 0), (t, t + 1), (t, last))]
    s.load(64, 0, [last], flat(moves + [(last - 1, 0), (last - 1, last), (last, last - 1)]), want="round")
    for t in (0, 1, 31, last - 2):
        s.cut(t, last, room=last, want=11)
        s.spared("cut", t, last)
        s.cut(t, last, room=last, want=10)
        s.spared("add", t, last)
        s.spared("add", t, 40)
        s.add(t, 40, room=last, want=8)
        s.cut(t, 0, want="round")               # before
    s.cut(last - 1, last, want="round")         # at; the last state but one leads back all the same
    s.add(last - 1, last, want="round")         # it had finished
    for t in (last - 3, 2):
        s.cut(t, t + 1, want="round")           # at; the one behind takes its place
        s.spared("add", t, t + 1)
        s.spared("cut", t + 1, last)            # of a state never met
        s.mark(t, want="round")
        s.spared("cut", t, t + 1)
        s.add(last, last, want="round")         # the paying state had finished
        s.cut(last, last, want="round")


def mark_edges(s):
    # the lent list, and what is tried before it
    for pay, verdict in (([0], "round"), ([], "none")):
        s.load(1, 0, pay, [0, 0], want=verdict)
        s.there_and_back(s.mark_words(0), (0,), 0)
        for state in (1, 63, 64, 65535):
            s.mark(state, room=0, want=6)
            s.unmark(state, want=6)
    s.load(4, 1, [2], [1, 2, 2, 1, 2, 3], want="round")
    for room in (4, 5, LENT):
        s.unmark(4, room=0, want=6)
        s.mark(2, room=room, want=13)
        s.mark(2, room=0, want=13)
        s.unmark(2, room=3, want=11)
        s.unmark(2, room=0, want=11)
        s.unmark(2, room=room, want="none")
        s.unmark(2, room=room, want=14)
        s.unmark(2, room=3, want=14)
        s.mark(2, room=3, want=11)
        s.mark(2, room=room, want="round")
    s.unmark(0, want=14)                        # never met
    s.mark(0, room=3, want=11)
    s.mark(0, want="round")

    # none of 512 states pays; some are marked, each alone, and then the start state and one never met
    s.load(512, 0, [], flat((0, t) for t in PROBES) + flat((t, 0) for t in PROBES), want="none")
    for t in PROBES:
        s.unmark(t, room=511, want=14)
        s.mark(t, room=511, want=11)
        answer = s.mark(t, want="round")
        assert answer[4] == [0, t]
        s.mark(t, want=13)
        s.unmark(t, want="none")
    s.there_and_back(s.mark_words(0), (0,), 511)
    s.there_and_back(s.mark_words(2), (2,), 511)

    # all of them pay; a round as long as one of its states does
    ring = [0, 63, 64, 511]
    s.load(512, 0, range(512), flat(zip(ring, ring[1:] + ring[:1])), want="round")
    for t in PROBES:
        s.mark(t, room=0, want=13)
    for t in (512, 513, 576, 65535):
        s.mark(t, room=511, want=6)
        s.unmark(t, want=6)
    for t in (510, 62, 65, 1):                  # beside those of the ring
        s.unmark(t, want="round")
    for t in (511, 0, 64):
        s.unmark(t, want="round")
        s.unmark(t, want=14)
    s.unmark(63, want="none")
    for t in (127, 128, 448):
        s.unmark(t, want="none")
    for t in (62, 65, 510, 1):
        s.mark(t, want="none")
    for t in (0, 64, 63, 511):
        s.mark(t, want="round")
        s.mark(t, want=13)


def make_small(s, rng, limit):
    while True:
        room_left = limit - s.size_in_bytes()
        if room_left < 1000:                    # one session is always below this
            return
        small_session(s, rng)


def small_room(rng, size):
    dice = rng.random()
    if dice < 0.06:
        return rng.randrange(size)
    return size if dice < 0.6 else rng.randint(size, LENT)


def some_switch(s, rng, state, room):
    """A mark or an unmark of this state; one in eight is refused with 13, 14 or 6."""
    kind = random_kind(rng, s.table)
    first, second = s.mark_words(state, kind)
    dice = rng.random()
    if dice < 0.04:
        state = s.table.size + rng.choice((0, 0, 1, 57, 60000))
    return s.change(second if dice < 0.12 else first, state, kind, room=room)


def some_question(s, rng, share):
    """With this chance a question: mostly about a state that the call before names, or any, or one outside."""
    dice, size = rng.random(), s.table.size
    if rng.random() > share:
        return
    if dice < 0.65 and s.named:
        s.ways(rng.choice(s.named))
    else:
        s.ways(size + rng.choice((0, 0, 1, 57, 60000)) if dice > 0.94 else rng.randrange(size))


def some_spared(s, rng, room, target):
    """A change that the last run had not come to, of a state that it met: mostly a cut, where there is a move for it.
    Says whether there is one. target: gives a state to which a new move may lead from another."""
    table, run = s.table, s.table.run
    done, looked = set(run.finished), set(run.looks)
    states = [t for t in run.met_after if t not in done]
    behind = [m for m in table.moves if m[0] in states and m not in looked]
    if not states:
        return False
    if behind and rng.random() < 0.6:
        s.cut(*rng.choice(behind), room)
        return True
    state = rng.choice(states)
    move = state, target(state)
    if move in table.moves:
        return False
    s.add(*move, room)
    return True


def faulty_load(s, rng, size, start, pay, numbers):
    """A load that is mostly refused."""
    fault = rng.randrange(7)
    if fault == 0:
        s.load(rng.choice((0, 513)), start, pay, numbers, small_room(rng, size))
    elif fault == 1:
        s.load(size, rng.randint(size, size + 3), pay, numbers, size)
    elif fault == 2:
        s.load(size, start, pay + [rng.randint(size, 511)], numbers, size)
    elif fault == 3:
        s.load(size, start, pay, numbers + [0], size)
    elif fault == 4:
        a = rng.randrange(size)
        s.load(size, start, pay, [a, a] + numbers + [a, a], size)
    else:
        bad = [[rng.randint(0, size), rng.randint(0, size)] for _ in range(2)]
        at = 2 * rng.randint(0, len(numbers) // 2)
        s.load(size, start, pay, numbers[:at] + sum(bad, []) + numbers[at:], size)


def small_session(s, rng):
    size = rng.choice((1, 2, 3, 3, 4, 4, 5, 5, 6, 6, 7, 7, 8, 8))
    every = [(a, b) for a in range(size) for b in range(size)]
    wanted = min(len(every), int(size * rng.uniform(0.6, 2.2)))
    moves = rng.sample(every, wanted)
    density = rng.choice((0.15, 0.3, 0.5, 0.8))
    pay = [t for t in range(size) if rng.random() < density]
    start = rng.randrange(size)
    numbers = flat(moves)
    if rng.random() < 0.25:
        faulty_load(s, rng, size, start, pay, numbers)
    if s.load(size, start, pay, numbers, small_room(rng, size))[0] == "no":
        s.load(size, start, pay, numbers)
    small_changes(s, rng, every, wanted)


def small_changes(s, rng, every, wanted):
    """every: all moves that there can be; wanted: about how many shall be present."""
    table = s.table
    size = table.size
    last_cut = None

    def pick(moves):                            # rather one that leaves a met state
        near = [m for m in moves if m[0] in table.run.met_after]
        return rng.choice(near if near and rng.random() < 0.6 else moves)

    for _ in range(rng.randint(16, 36) if size > 1 else 6):
        some_question(s, rng, 0.3)
        room = small_room(rng, size)
        if rng.random() < 0.3 and some_spared(s, rng, room, lambda _: rng.randrange(size)):
            continue
        if rng.random() < 0.4:
            states = list(table.run.met_after) if rng.random() < 0.6 else range(size)
            some_switch(s, rng, rng.choice(states), room)
            continue
        dice = rng.random()
        absent = [m for m in every if m not in table.moves]
        if dice < 0.04:
            a, b = rng.randrange(size), size + rng.choice((0, 0, 1, 57, 60000))
            if rng.random() < 0.5:
                a, b = b, a
            s.change(rng.choice(("add", "cut")), a, b, room=room)
            a = rng.randint(0, size)
            s.change(rng.choice(("add", "cut")), a, a, room=room)
        elif dice < 0.08 and table.moves:
            s.add(*rng.choice(table.moves), room)
        elif dice < 0.12 and absent:
            s.cut(*rng.choice(absent), room)
        elif dice < 0.27 and last_cut in absent:
            s.add(*last_cut, room)
        elif absent and rng.random() < (0.65 if len(table.moves) < wanted else 0.35):
            s.add(*pick(absent), room)
        elif table.moves:
            move = pick(table.moves)
            s.cut(*move, room)
            last_cut = move


def make_full(s, rng, limit):
    """Moves lead mostly onwards in a hidden order, or to the same state where that
    does not pay; the moves that lead back, or from a paying state to itself, and
    close a round come and go with the changes, and so do the marks."""
    size = 512
    order = list(range(size))
    rng.shuffle(order)
    start = order[0]
    place = {t: i for i, t in enumerate(order)}
    pay = [order[0]] + [order[i] for i in rng.sample(range(1, size), 30)]
    closed = []                                 # changes that may have closed a round: their opposites

    def onward(i):
        far = 12 if rng.random() < 0.9 else 200
        return order[i], order[min(size - 1, i + rng.randint(1, far))]

    def back(i):
        return order[i], order[max(0, i - (rng.randint(1, 12) if rng.random() < 0.75 else 0))]

    moves = []
    def put(move):
        if move not in seen:
            seen.add(move)
            moves.append(move)
    seen = set()
    # back moves that close no paying round: inside stretches without paying states
    paying = set(pay)
    stretches, first = [], 0
    for i in range(size + 1):
        if i == size or order[i] in paying:
            if i - first >= 6:
                stretches.append((first, i - 1))
            first = i + 1
    while len(moves) < 60:
        low, high = rng.choice(stretches)
        i, j = sorted((rng.randint(low, high), rng.randint(low, high)))
        put((order[j], order[i]))
    for t in rng.sample(order, 200):
        if t not in paying:
            put((t, t))
    while len(moves) < 2044:
        put(onward(rng.randrange(size - 1)))
    rng.shuffle(moves)
    s.load(size, start, pay, flat(moves), want="none")

    table = s.table
    last_cut = None
    while s.size_in_bytes() + 40 <= limit:
        some_question(s, rng, 0.4)
        room = size if rng.random() < 0.7 else rng.randint(size, LENT)
        if rng.random() < 0.02:
            room = rng.randint(0, size - 1)
        met = list(table.run.met_after)
        where = rng.random()
        if where < 0.10:
            state = start
        elif where < 0.30:
            state = met[rng.randrange(min(len(met), 12))]         # met early
        elif where < 0.55:
            state = met[rng.randrange(len(met) // 2, len(met))]   # met late
        else:
            state = rng.randrange(size)
        mine = [m for m in table.moves if m[0] == state]
        walk = table.run.stem + table.run.round
        dice = rng.random()
        if closed and rng.random() < (0.15 if walk else 0.05):     # open a closed round again
            on_walk = [c for c in closed if set(c[1]) <= set(walk)]
            undo = rng.choice(on_walk or closed)
            closed.remove(undo)
            s.change(undo[0], *undo[1], room=room)
        elif rng.random() < 0.4 and some_spared(s, rng, room, lambda t: onward(place[t])[1]):
            pass
        elif rng.random() < 0.3:
            if rng.random() < 0.3:
                state = rng.choice([t for t in walk if table.pays[t]] or pay)
            if some_switch(s, rng, state, room)[0] == "round" and table.pays[state]:
                closed.append(("unmark", (state,)))
        elif dice < 0.03:
            s.add(*rng.choice(table.moves), room, want=8)
        elif dice < 0.05:
            s.cut(*distinct_moves(rng, size, 1, table.moves, share=0.4)[0], room, want=10)
        elif dice < 0.06:
            s.cut(size, rng.choice((state, size)), room, want=6)
        elif dice < 0.12:                       # the state's own move comes or goes
            move = (state, state)
            if move in table.moves:
                s.cut(*move, room)
                last_cut = move
            elif s.add(*move, room)[0] != "no" and table.pays[state]:
                closed.append(("cut", move))
        elif dice < 0.18:                       # a move that may close a round
            move = back(place[rng.choice(pay)] if rng.random() < 0.4 else place[state])
            if move not in table.moves and s.add(*move, room)[0] != "no":
                closed.append(("cut", move))
        elif dice < 0.30 and last_cut and last_cut not in table.moves:
            s.add(*last_cut, room)
        elif mine and dice < (0.95 if len(table.moves) >= 2047 else 0.62):
            last_cut = rng.choice(mine)
            s.cut(*last_cut, room)
            if rng.random() < 0.4:
                s.add(*last_cut, room)
        else:
            move = onward(place[state])
            if move not in table.moves:
                s.add(*move, room)


# ------------------------------------------------------------- batches

def make_batches(s, rng, limit):
    worked(s, reference.BATCH_GAMES)
    lent_batches(s)
    line_batches(s, rng)
    full_batches(s, rng)
    while limit - s.size_in_bytes() > 1200:     # room for a load and a batch
        random_batches(s, rng, limit)


def lent_batches(s):
    """The lent list is tried once, ahead of all lines."""
    for pay, verdict in (([1], "round"), ([], "none")):
        s.load(4, 1, pay, [1, 2, 2, 1, 2, 3], want=verdict)
        back = [("add", 3, 0), ("cut", 3, 0)]
        for lines, want in (([], verdict), (back, verdict), ([None], (1, 1)), (back + [None], (1, 3)), ([("cut", 4, 4)], (6, 1)),
                            (back + [("cut", 3, 0)], (10, 3))):
            for room in (0, 3):
                s.batch(lines, room, want=(11, 0))
            for room in (4, 5, LENT):
                s.batch(lines, room, want=want)
        for lines, want in ((back * 32, verdict), (back * 32 + [None], (1, 65)), (back * 35, (15, 65)), ([None] * 70, (1, 1))):
            s.batch(lines, 3, want=(11, 0))
            s.batch(lines, want=want)
        s.batch([("cut", 1, 2)], 3, want=(11, 0))                 # would be none
        s.batch([("cut", 1, 2)], LENT, want="none")
        s.batch([("add", 1, 2)], 4, want=verdict)


def line_batches(s, rng):
    """A line of 64 states to one that pays, each with a move before and one behind that which leads along it."""
    last = 63
    moves = [m for t in range(last) for m in ((t, 0), (t, t + 1), (t, last))][:-1]
    s.load(64, 0, [last], flat(moves + [(last, last - 1)]), want="round")
    looks = len(s.table.run.looks)
    behind = [("cut", t, last) for t in range(last - 1)]
    assert s.batch(behind)[1:3] == (0, looks)
    assert s.batch([("add", t, last) for t in range(last - 1)] + [("add", 0, 5), ("cut", 0, 5)])[1:3] == (0, looks)
    s.batch(behind + [("add", 5, 9), ("add", 6, 9), ("add", 7, 9)], want=(15, 65))
    s.batch(behind[:40] + [("cut", 9, 0)] + behind[40:], want="round")        # one that had been looked at
    for count in LENGTHS:
        for quiet in (True, False):
            lines = some_lines(rng, s.table, count, quiet)
            s.batch(lines, want=(15, 65) if len(lines) > 64 else None)
            some_question(s, rng, 0.7)
        if not s.table.run.found:
            s.load(64, 0, [last], flat(moves + [(last, last - 1)]), want="round")


def full_batches(s, rng):
    """512 states on the walk, and 2,048 moves, most of them not come to. Each number at each place."""
    size = 512
    line = [(t, t + 1) for t in range(size - 1)] + [(size - 1, 300)]
    s.load(size, 0, [size - 1], flat(line + distinct_moves(rng, size, 2048 - len(line), line)), want="round")
    for number in NUMBERS:
        for place in (1, 2, 33, 64, 65):
            draws = iter(lambda: some_lines(rng, s.table, place, place % 2 == 0, (number, place)), None)
            lines = next(lines for lines in draws if (lines[-1] is None) == (number == 1))
            refused = number if place < 65 or number == 1 else 15
            s.batch(lines + [None] * rng.choice((0, 0, 1, 5)), want=(refused, place))
            some_question(s, rng, 0.9)
    new = distinct_moves(rng, size, 3, s.table.moves)
    old = s.table.moves[700]
    s.batch([("cut", *old), ("add", *new[0]), ("add", *new[1])], want=(9, 3))
    s.batch([("cut", *old), ("add", *new[0]), ("add", *new[0])], want=(8, 3))
    s.batch([("cut", *old), ("add", *new[0])])
    s.batch([("add", *new[1])], want=(9, 1))
    for quiet, count in ((True, 64), (True, 63), (False, 64), (False, 2), (True, 64), (False, 64)):
        s.batch(some_lines(rng, s.table, count, quiet), room=rng.choice((size, LENT)))
        s.ways(*rng.sample(s.named, 2))


def random_batches(s, rng, limit):
    """A session of 1 to 8 states or of up to 40, often with a line to a paying state; batches, and singles between them."""
    size = rng.choice((1, 2, 3, 4, 5, 6, 7, 8, rng.randint(9, 40)))
    every = [(a, b) for a in range(size) for b in range(size)]
    line = [(t, t + 1) for t in range(size - 1)] + [(size - 1, rng.randrange(size))] if rng.random() < 0.6 else []
    moves = list(dict.fromkeys(line + rng.sample(every, min(len(every), int(size * rng.uniform(0.5, 2))))))
    if rng.random() < 0.5:
        rng.shuffle(moves)
    s.load(size, 0, sorted({size - 1, rng.randrange(size)}), flat(moves))
    for _ in range(rng.randint(6, 14)):
        if s.size_in_bytes() + 430 > limit:     # the longest batch, two changes and three questions
            return
        count = rng.choice((0, 1, 1, 2, 2, 3, 3, 4, 5, 6, 9, rng.choice((17, *LENGTHS))))
        fault = (rng.choice(NUMBERS), rng.choice((1, max(1, count // 2), max(1, count)))) if rng.random() < 0.35 else None
        s.batch(some_lines(rng, s.table, count, rng.random() < 0.45, fault), small_room(rng, size))
        some_question(s, rng, 0.7)
        if rng.random() < 0.3:
            some_switch(s, rng, rng.randrange(size), small_room(rng, size))
        if rng.random() < 0.3:
            move = rng.choice(every)
            s.change(s.move_words(move)[rng.random() < 0.1], *move, room=small_room(rng, size))
            some_question(s, rng, 0.5)


# --------------------------------------------------------------- kinds

NAMED_KINDS = 0, 1, 2, 3, 4, 5, 65535


def make_kinds(s, rng, limit):
    # the full tables worked by hand are asked the same as those below, which have more states; of one kind the edges have one
    worked(s, [game for game in reference.KIND_GAMES if not game[0].startswith("kinds-full")])
    refused_loads(s)
    for kinds in range(1, MOST_KINDS + 1):
        most_states(s, kinds)
        named_kinds(s, kinds)
        if kinds > 1:
            most_moves(s, rng, kinds)
    while limit - s.size_in_bytes() > 1000:     # room for a load and a batch
        random_kinds(s, rng, limit)


def refused_loads(s):
    """The order of the numbers: each load has every later fault too."""
    twice = [0, 1, 0, 1]
    s.load(0, 5, of_kinds(5, [3]), [9], room=0, want=2)
    s.load(2, 2, of_kinds(5, [3]), [9], room=0, want=3)
    s.load(2, 0, of_kinds(5, [], [], [2]), [9], room=0, want=4)
    for kinds in range(MOST_KINDS):
        s.load(2, 0, of_kinds(kinds, *[[]] * kinds, [1]), [9], room=0, want=4)          # a kind above K
    s.load(2, 0, of_kinds(5, [], [], [], [1]), [9], room=0, want=5)
    for kinds in (0, 5, 255, 65535):
        s.load(2, 0, of_kinds(kinds), twice + [9, 9], room=0, want=16)
    for kinds in range(1, MOST_KINDS + 1):
        own = of_kinds(kinds, [0], *[[1]] * (kinds - 1))
        s.load(2, 0, own, twice + [9, 9], room=0, want=6)
        s.load(2, 0, own, twice, room=0, want=8)
        s.load(2, 0, own, [0, 1, 1, 0], room=2 * kinds - 1, want=11)
        s.load(2, 0, own, [0, 1, 1, 0], room=2 * kinds, want="round")


def most_states(s, kinds):
    """As many states as there may be with so many kinds, and one more; a list lent with just as many entries as a walk may
    need, and with one fewer."""
    size = MOST_STATES // kinds
    least, last = size * kinds, size - 1
    own = of_kinds(kinds, [last], *[[0]] * (kinds - 1))
    there_and_back = [last, 0, 0, last]
    s.load(size + 1, 0, of_kinds(kinds), [], room=LENT, want=2 if kinds == 1 else 16)
    s.load(size + 1, size, own, there_and_back + there_and_back + [0, 600], room=0, want=2 if kinds == 1 else 16)
    s.load(size, size, own, [], room=LENT, want=3)
    for room, want in ((least - 1, 11), (LENT, "round"), (least, "round")):
        s.load(size, last, own, there_and_back, room=room, want=want)
    for room, want in ((0, 11), (least - 1, 11), (least, "round"), (LENT, "round")):
        s.batch([], room=room, want=(11, 0) if want == 11 else want)
        s.batch([("mark", last, kinds), ("unmark", last, kinds)] if kinds > 1 else [("mark", 0), ("unmark", 0)], room=room,
                want=(11, 0) if want == 11 else want)
    s.there_and_back(s.mark_words(0, kinds), (0, kinds), least - 1)
    s.there_and_back(s.move_words((0, last)), (0, last), least - 1)
    s.mark(size, kinds, room=0, want=6)
    s.ways(last, want=(1, 1))
    s.ways(size, least, want=6)


def most_moves(s, rng, kinds):
    """The same with as many moves as there may be. Loads with one more are among the games worked by hand."""
    size, count = MOST_STATES // kinds, MOST_MOVES // kinds
    least = size * kinds
    ring = [(t, (t + 1) % size) for t in range(size)]
    drawn = distinct_moves(rng, size, count - size + 4, ring)
    moves, new = ring + drawn[4:], drawn[:4]
    pay = of_kinds(kinds, *[[0, rng.randrange(size)] for _ in range(kinds)])
    s.load(size, 0, pay, flat(moves), want="round")
    s.ways(0, size - 1)
    s.add(*moves[0], room=0, want=8)
    s.add(*new[0], room=0, want=9)
    s.add(*new[0], want=9)
    s.cut(*new[0], room=0, want=10)
    s.cut(*moves[-1], room=least - 1, want=11)
    for old in (moves[-1], moves[size // 2], moves[0]):         # the place of a cut move is free for one
        s.cut(*old)
        s.add(*new[1], room=least - 1, want=11)
        s.add(*new[1])
        s.add(*new[1], want=8)
        s.add(*old, want=9)
        s.batch([("cut", *new[1]), ("add", *old), ("add", *new[2])], want=(9, 3))
        s.batch([("cut", *new[1]), ("add", *old)])
    for quiet, lines in itertools.product((True, False), (64, 5)):
        s.batch(some_lines(rng, s.table, lines, quiet))
    s.batch(some_lines(rng, s.table, 40, False, (9, 40)))
    some_switch(s, rng, 0, least)


def named_kinds(s, kinds):
    """Marks of each kind that there is, of others above K, and of such as there never are; alone and in a batch."""
    s.load(3, 0, of_kinds(kinds, [0], *[[1]] * (kinds - 1)), [0, 1, 1, 2, 2, 0], want="round")
    for kind, state, word in itertools.product(NAMED_KINDS, (0, 1, 3, 65535), ("mark", "unmark")):
        wrong = 1 if not 1 <= kind <= 4 else 4 if kind > kinds else 6 if state > 2 else None
        if wrong:
            s.change(word, state, kind, room=0, want=wrong)
            s.batch([("add", 0, 0), (word, state, kind)], want=(wrong, 2))
        elif word == s.mark_words(state, kind)[0]:
            s.there_and_back(s.mark_words(state, kind), (state, kind), 3 * kinds - 1)
            s.batch([(other, state, kind) for other in s.mark_words(state, kind)])
        else:
            s.change(word, state, kind, room=0, want=ALREADY[word])
            s.batch([(word, state, kind)], want=(ALREADY[word], 1))
    back = [("mark", 2, kinds), ("unmark", 2, kinds)] * 32
    s.batch(back + [("mark", 9, 4)], want=(15, 65))
    s.batch(back + [("mark", 9, 5)], want=(1, 65))


def random_kinds(s, rng, limit):
    every = kinds_load(s, rng)
    for _ in range(rng.randint(10, 24)):
        if s.size_in_bytes() + 450 > limit:     # the longest batch, two changes and questions
            return
        kinds_step(s, rng, every)


def kinds_load(s, rng):
    """A session of up to 8 states, seldom more, and 1 to 4 kinds; often with a ring. All moves that there can be."""
    kinds = rng.randint(1, MOST_KINDS)
    size = rng.choice((1, 2, 2, 3, 3, 4, 4, 5, 6, 7, 8, rng.randint(9, 40 // kinds + 9)))
    every = [(a, b) for a in range(size) for b in range(size)]
    ring = [(t, (t + 1) % size) for t in range(size)] if rng.random() < 0.6 else []
    wanted = min(len(every), int(size * rng.uniform(0.6, 2.2)))
    moves = list(dict.fromkeys(ring + rng.sample(every, wanted)))
    rng.shuffle(moves)
    s.load(size, rng.randrange(size), random_carried(rng, size, kinds), flat(moves))
    return every


def kinds_step(s, rng, every):
    """A change alone or a batch, and often a question before it. every: all moves that there can be."""
    size = s.table.size
    some_question(s, rng, 0.3)
    room = small_room(rng, s.table.least_room)
    dice = rng.random()
    if dice < 0.2:
        some_batch(s, rng, room)
    elif dice < 0.26:                           # any kind, of any state
        s.change(rng.choice(("mark", "unmark")), rng.randint(0, size), rng.choice(NAMED_KINDS), room=room)
    elif dice < 0.55:
        some_switch(s, rng, rng.choice(list(s.table.run.met_after)) if rng.random() < 0.6 else rng.randrange(size), room)
    elif dice > 0.8 and some_spared(s, rng, room, lambda _: rng.randrange(size)):
        pass
    else:
        move = rng.choice(s.table.moves if s.table.moves and rng.random() < 0.5 else every)
        s.change(s.move_words(move)[rng.random() < 0.08], *move, room=room)


def some_batch(s, rng, room):
    """A batch, mostly a short one; a third are refused."""
    count = rng.choice((0, 1, 1, 2, 2, 3, 4, 6, rng.choice((17, 63, 64, 65))))
    fault = (rng.choice(KIND_NUMBERS), rng.choice((1, max(1, count // 2), max(1, count)))) if rng.random() < 0.35 else None
    s.batch(some_lines(rng, s.table, max(count, 1 if fault else 0), rng.random() < 0.45, fault), room)


# ---------------------------------------------------------- another K

EVERY_STEP = 1, 1, 2, 2, 3, 3, 4, 4, 1, 3, 1, 4, 2, 4, 3, 2, 1            # from each K to each, itself too, once


def make_over(s, rng, limit):
    # the tables worked by hand with as many moves as there may be are asked the same as those below, which have more states
    worked(s, [game for game in reference.OVER_GAMES if not game[0].startswith("over-moves")])
    for given in (True, False):
        every_step(s, given)
    for kinds in range(2, MOST_KINDS + 1):
        over_full(s, rng, kinds)
    while limit - s.size_in_bytes() > 1000:     # room for a load and a batch
        random_over(s, rng, limit)


def every_step(s, given):
    """From each K to each, with lists that are too short for the new one, just long enough or longer, and with K's that there
    are not. given: each kind that none carries is given to a state at once, so that there is a round."""
    size = 3
    s.load(size, 0, of_kinds(1, [0] if given else []), [0, 1, 1, 2, 2, 0], want="round" if given else "none")
    for old, new in zip(EVERY_STEP, EVERY_STEP[1:]):
        verdict = "round" if given and new <= old else "none"
        for room in sorted({0, min(size * old, size * new - 1), size * new - 1}):
            s.kinds(new, room, want=11)
        for kinds in (0, 5, 65535):
            s.kinds(kinds, (0, LENT)[new % 2], want=16)
        s.batch([], want="round" if given else "none")          # all is as it was
        s.kinds(new, (size * new, LENT)[old % 2], want=verdict)
        s.mark(0, new + 1, want=4 if new < MOST_KINDS else 1)
        s.mark(size, new, room=0, want=6)
        if given and new > old:
            s.batch([("mark", kind % size, kind) for kind in range(old + 1, new + 1)], size * new - 1, want=(11, 0))
            s.batch([("mark", kind % size, kind) for kind in range(old + 1, new + 1)], want="round")
            s.unmark(new % size, new, want="none")
            s.mark(new % size, new, want="round")
        s.ways(new % size, want=(1, 1))


def over_full(s, rng, kinds):
    """With one kind, one move too many for this K; then just as many as there may be. All states are on a ring."""
    size, count = MOST_STATES // kinds, MOST_MOVES // kinds
    least = size * kinds
    ring = [(t, (t + 1) % size) for t in range(size)]
    *moves, last = ring + distinct_moves(rng, size, count + 1 - size, ring)
    given = [("mark", rng.randrange(size), kind) for kind in range(2, kinds + 1)]
    s.load(size, 0, [0, rng.randrange(size)], flat(moves + [last]), want="round")
    for room in (0, least - 1, least, LENT):
        s.kinds(kinds, room, want=16)
    s.change(*given[-1], want=4)
    s.cut(*last)
    for room in (0, size, least - 1):           # the second is long enough for the old K
        s.kinds(kinds, room, want=11)
    s.change(*given[-1], room=size, want=4)
    s.kinds(kinds, least, want="none")
    s.cut(*moves[size], room=least - 1, want=11)
    s.add(*last, want=9)
    s.batch(given, want="round")
    s.kinds(kinds, LENT, want="round")
    s.batch([("cut", *moves[-1]), ("add", *last), ("add", *moves[-1])], want=(9, 3))
    s.kinds(kinds - 1, want="round")            # now there is room for more
    s.add(*last, want="round")
    s.ways(0, last[0])
    s.kinds(kinds, want=16)
    s.batch([("cut", *moves[-1]), ("add", *moves[-1])], want="round")
    s.cut(*last, want="round")
    s.kinds(kinds, want="none")                 # the last kind was dropped
    s.change(*given[-1], want="round")
    for count, quiet in ((64, True), (40, False)):
        s.batch(some_lines(rng, s.table, count, quiet))
        s.kinds(rng.randint(1, kinds))


def random_over(s, rng, limit):
    """A session as with kinds, which goes over now and then."""
    every = kinds_load(s, rng)
    for _ in range(rng.randint(12, 28)):
        if s.size_in_bytes() + 480 > limit:     # the same, and another K with what follows it
            return
        (some_over if rng.random() < 0.3 else kinds_step)(s, rng, every)


def some_over(s, rng, every):
    """Another K, up, down or the same; some are refused. Behind it often a question, and then mostly marks of the kinds that none
    carries, alone or in a batch; or a move that comes or goes, or a batch without a change."""
    size = s.table.size
    kinds = rng.choice((1, 2, 3, 4) * 4 + (0, 5, 65535))
    room = rng.choice((size * kinds,) * 5 + (LENT, LENT, max(size * kinds - 1, 0), s.table.least_room, 0))
    if s.kinds(kinds, min(room, LENT))[0] == "no":
        return
    some_question(s, rng, 0.3)
    dice, given = rng.random(), given_marks(rng, s.table)
    if given and dice < 0.3:
        s.batch(given)
    elif dice < 0.5:
        for line in given:
            s.change(*line)
    elif dice < 0.8:
        move = rng.choice(s.table.moves if s.table.moves and rng.random() < 0.5 else every)
        s.change(s.move_words(move)[0], *move)
    elif dice < 0.9:
        s.batch([])


# --------------------------------------------------- the shortest round

def make_short(s, rng, limit):
    worked(s, reference.SHORT_GAMES)
    for paying in (1, 3, MOST_STATES):
        hidden_ring(s, rng, paying)
    while limit - s.size_in_bytes() > 1000:     # room for a load and a batch
        random_short(s, rng, limit)


def hidden_ring(s, rng, paying):
    """As many states and moves as there may be, and so many of the states pay. No budget goes so far as to find a round; then some
    moves lead back from a paying state."""
    size = MOST_STATES
    order, moves = long_ring(rng, size, MOST_MOVES)
    pay = sorted(rng.sample(order, paying))
    s.load(size, order[0], pay, flat(moves), want="round")
    at_borders(s, rng, 6)
    _, best, least = s.table.short(MOST_BUDGET)
    assert best > least                         # not found
    for far in (20, 9, 4):
        at = order.index(rng.choice(pay))
        s.cut(*rng.choice(s.table.moves))
        s.add(order[at], order[at - far], want="round")
        at_borders(s, rng, 6)
    s.kinds(2, room=LENT, want=16)
    s.unmark(pay[0])
    s.short(0, MOST_BUDGET)


def at_borders(s, rng, most):
    """Questions at budgets that make a difference, up to so many, and with one look fewer."""
    borders = borders_of(s.table)
    chosen = sorted(rng.sample(borders, min(most, len(borders))))
    s.short(*[border - less for border in chosen for less in (1, 0)], MOST_BUDGET)


def some_short(s, rng):
    """Questions between the calls of a random session."""
    s.short(*some_budgets(rng, s.table, 0, 1, 1, 2, 3))


def random_short(s, rng, limit):
    """A session with one kind, seldom with more for a while. Before it a load may be refused; behind that nothing is asked."""
    size = rng.choice((1, 2, 3, 4, 5, 6, 7, 8, 8, rng.randint(9, 30)))
    size, start, pay, moves = short_game(rng, size)
    every = [(a, b) for a in range(size) for b in range(size)]
    if rng.random() < 0.1:
        s.load(size, start, pay, flat(moves + moves[:1]), want=8 if moves else None)
    s.load(size, start, pay, flat(moves))
    some_short(s, rng)
    for _ in range(rng.randint(8, 24)):
        if s.size_in_bytes() + 520 > limit:     # the longest batch, a change and questions
            return
        dice = rng.random()
        if dice < 0.04:
            s.kinds(rng.randint(1, MOST_KINDS))
        elif dice < 0.4 and s.table.kinds > 1:
            s.kinds(1)
        else:
            kinds_step(s, rng, every)
        some_short(s, rng)


MAKERS = {"games": make_games, "edges": make_edges, "small": make_small, "full": make_full, "batches": make_batches,
          "kinds": make_kinds, "over": make_over, "short": make_short}
PARTS = {"known": ("games", "edges"), "drawn": ("small", "full"), "batches": ("batches",), "kinds": ("kinds",),
         "over": ("over",), "short": ("short",)}                # of each block
assert all(sum(LIMITS[name] for name in names) <= 64000 for names in PARTS.values())


def make(seed, kind):
    """The finished Script of a kind."""
    whole = Script()
    for name in PARTS.get(kind, [kind]):
        part = Script()
        rng = random.Random("%d %s" % (seed, name))
        if name in ("games", "edges"):
            MAKERS[name](part, rng)
        else:
            MAKERS[name](part, rng, LIMITS[name] - 2)
        assert part.size_in_bytes() + 2 <= LIMITS[name], (name, part.size_in_bytes())
        whole.numbers += part.numbers
        whole.calls += part.calls
    whole.numbers.append(0)
    return whole


def script_of(seed, kind):
    """The bytes of a script."""
    if kind == "blocks":
        *most, last = (script_of(seed, part) for part in PARTS)
        return b"".join(script.ljust(BLOCK, b"\0") for script in most) + last
    return make(seed, kind).data()


def counted(answers):
    return dict(sorted(Counter("no %2d" % a[1] if a[0] == "no" else a[0] for a in answers).items()))


def counts(what, answers):
    print("    %s: %d" % (what, len(answers)), counted(answers))


def looks(what, answers):
    done = [a for a in answers if a[0] != "no"]
    print("    %s accepted: kept 0 in %d, spent 0 in %d, both above 0 in %d" % (
        what, sum(a[2] == 0 for a in done), sum(a[1] == 0 for a in done),
        sum(a[1] > 0 and a[2] > 0 for a in done)))
    print("    rounds of length 1: %d, 2: %d, longer: %d" % tuple(
        sum(a[0] == "round" and min(len(a[4]), 3) == n for a in done) for n in (1, 2, 3)))


def batch_stats(calls):
    counts("batches", [call.answer for call in calls])
    looks("batches", [call.answer for call in calls])
    lengths = Counter(min(call.place, 65) for call in calls)
    print("    batches of 0 lines: %d, 1: %d, 63: %d, 64: %d, more: %d" % tuple(lengths[n] for n in (0, 1, 63, 64, 65)))
    places = {(a[1], min(a[2], 65)) for call in calls for a in [call.answer] if a[0] == "no"}
    for number in sorted({number for number, _ in places}):
        print("    no %2d at" % number, *sorted(at for n, at in places if n == number))


def question_stats(calls):
    """Of the questions too what they stand behind."""
    pairs_of = [(before, call) for before, call in zip(calls, calls[1:]) if is_question(call)]
    counts("questions", [call.answer for _, call in pairs_of])
    behind = Counter("a refused " + b.word if b.answer[0] == "no" else b.word for b, _ in pairs_of if not is_question(b))
    print("    they stand behind", dict(sorted(behind.items())))
    short_stats([call.answer[1:] for _, call in pairs_of if call.answer[0] == "short"])
    told_counts = [call.answer[2:] for _, call in pairs_of if call.answer[0] == "ways"]
    print("    most leaving %d, entering %d; both 0 in %d" % (
        *(max((pair[side] for pair in told_counts), default=0) for side in (0, 1)), sum(pair == (0, 0) for pair in told_counts)))


def short_stats(numbers):
    """Of those about the shortest round that are answered with these numbers."""
    print("    best known longer than the least not ruled out in %d; the least 1 in %d, 2 in %d, 3 in %d, more in %d, at most %d" % (
        sum(best > least for best, least in numbers), *(sum(min(least, 4) == n for _, least in numbers) for n in (1, 2, 3, 4)),
        max((least for _, least in numbers), default=0)))


def over_stats(calls):
    """Of another K too from which it is, and what stands behind it."""
    pairs_of = [(call, after) for call, after in zip(calls, calls[1:]) if call.word == "kinds"]
    counts("another K", [call.answer for call in calls if call.word == "kinds"])
    steps = Counter(call.place for call in calls if call.word == "kinds" and call.place)
    print("    from K to K", *["%d-%d: %d" % (*step, count) for step, count in sorted(steps.items())])
    for what, taken in (("accepted", True), ("refused", False)):
        behind = Counter(after.word for call, after in pairs_of if (call.place is not None) == taken)
        print("    behind one that is %s" % what, dict(sorted(behind.items())))


def stats(seed):
    for kind in MAKERS:
        s = make(seed, kind)
        print(kind, "script", len(s.data()), "bytes; output", len(replay(s.data())), "bytes")
        every = [call.answer for call in s.calls if not is_question(call)]
        marks = [call.answer for call in s.calls if call.word in ("mark", "unmark")]
        counts("calls", every)
        counts("those that name a self-move", [call.answer for call in s.calls if call.own])
        counts("marks and unmarks", marks)
        question_stats(s.calls)
        looks("calls", every)
        looks("marks and unmarks", marks)
        over_stats(s.calls)
        batch_stats([call for call in s.calls if call.word == "batch"])
        for word in ("add", "cut"):
            places = Counter(call.place for call in s.calls if call.word == word)
            print("    %s accepted: not come to, of a state on the stem %d, on the round %d, never met %d; come to %d" % (
                word, *[places[place] for place in ("stem", "round", "never met", "come to")]))
        for kinds in range(1, MOST_KINDS + 1):
            counts("calls with K = %d" % kinds, [call.answer for call in s.calls if call.kinds == kinds and not is_question(call)])


def main(args):
    if len(args) == 2 and args[0] == "--stats":
        stats(int(args[1]))
    elif args == ["--replay"]:
        sys.stdout.buffer.write(replay(sys.stdin.buffer.read()))
    elif len(args) == 3 and args[0] == "--expected":
        sys.stdout.buffer.write(replay(script_of(int(args[1]), args[2])))
    elif len(args) == 5 and args[0] == "--write":
        data = script_of(int(args[1]), args[2])
        with open(args[3], "wb") as f:
            f.write(data)
        with open(args[4], "wb") as f:
            f.write(replay(data))
    elif len(args) == 2:
        sys.stdout.buffer.write(script_of(int(args[0]), args[1]))
    else:
        sys.exit(__doc__)


if __name__ == "__main__":
    main(sys.argv[1:])
