#!/usr/bin/env python3
"""Sessions as texts for the program and the archive.

    tests/sessions.py SEED KIND     one random session, to standard output
    tests/sessions.py --write       the stored sessions and their results, by the reference
    tests/sessions.py --check       whether the stored files are those that --write makes, and the reference answers the
                                    games of crates/*/specs/Texts.antt as they are proved

The same seed and kind give the same bytes.
"""

import ast
import functools
import operator
import random
import re
import sys

import common
from common import ROOT, STORED, as_lines, difference, fail, game_a
from batches import KIND_NUMBERS, LENGTHS, NUMBERS, some_lines
from reference import (BATCH_GAMES, CHANGES, FIELDS, GAMES, INSIDE, KIND_GAMES, MARK_GAMES, MOST_BUDGET, MOST_KINDS, MOST_MOVES,
                       MOST_STATES, MOVE_WORDS, OUTSIDE, OVER_GAMES, SELF_GAMES, SHORT_GAMES, UNREACHED_GAMES,
                       WAYS_GAMES, WITH_KIND, Table, answer_text, bench_answer, called, carried, carried_by, change_lines,
                       game_rows, given_marks, in_full, is_question, load_args, load_lines, long_ring, made, of_kinds,
                       plain_search, random_kind, read_line, records, rows_of, short_game, some_budgets, states_of, too_many,
                       up_to_go)


# ------------------------------------------------------------ one text

class Text:
    """Collects lines, and holds the moves present and the marks so that the next line can be about them."""

    def __init__(self, size, start, pays=(), moves=()):
        """pays: the states that pay, or with kinds what carries each, as the reference's games have it."""
        self.size, self.start = size, start
        self.written, carriers = carried(pays)                  # K, or None where the line is left out
        self.kinds = 1 if self.written is None else self.written
        self.rows = game_rows(size, start, pays, moves)
        self.moves = dict.fromkeys(moves)
        self.marks = {(s, kind): None for kind, states in enumerate(carriers, 1) for s in states}
        self.last_cut = None

    @property
    def pays(self):
        """The states that carry kind 1."""
        return [s for s, kind in self.marks if kind == 1]

    def carried(self):
        """The marks of this moment."""
        return of_kinds(self.written, *([s for s, own in self.marks if own == kind] for kind in range(1, MOST_KINDS + 1)))

    def add(self, move):
        self.rows.append("add %d %d" % move)
        if (len(self.moves) + 1) * self.kinds <= MOST_MOVES and max(move) < self.size:
            self.moves.setdefault(move)

    def cut(self, move):
        self.rows.append("cut %d %d" % move)
        if move in self.moves:
            del self.moves[move]
            self.last_cut = move

    def switch(self, state):
        """The state's move to itself comes or goes."""
        (self.cut if (state, state) in self.moves else self.add)((state, state))

    def mark(self, state, *kind):
        """The kind may be left out."""
        self.rows += rows_of(("mark", state, *kind))
        _, *mark = in_full("mark", state, *kind)
        if state < self.size and mark[1] <= self.kinds:
            self.marks.setdefault(tuple(mark))

    def unmark(self, state, *kind):
        self.rows += rows_of(("unmark", state, *kind))
        self.marks.pop(in_full("unmark", state, *kind)[1:], None)

    def turn(self, state):
        """The state's pay comes or goes."""
        (self.unmark if state in self.pays else self.mark)(state)

    def set_kinds(self, kinds):
        """Another K, or the same again. Where it is taken, the marks of kinds above it are gone."""
        self.rows += rows_of(("kinds", kinds))
        if not too_many(self.size, kinds, self.moves):
            self.written = self.kinds = kinds
            self.marks = {(s, kind): None for s, kind in self.marks if kind <= kinds}

    def ways(self, state):
        """A question; it changes nothing."""
        self.rows.append("ways %d" % state)

    def data(self):
        return as_bytes(self.rows)


def as_bytes(rows):
    """Rows as lines: bytes as they are, texts with tabs for spaces."""
    return b"".join(r + b"\n" if isinstance(r, bytes) else as_lines([r]) for r in rows)


def some_move(rng, size):
    """Any move; one in ten, and more in a small game, leads from a state to itself."""
    source = rng.randrange(size)
    return source, source if rng.random() < 0.1 else rng.randrange(size)


def some_moves(rng, size, count):
    moves = {}
    while len(moves) < count:
        moves[some_move(rng, size)] = None
    return list(moves)


def refused_change(rng, text):
    """A change that names a state outside, a present move to be added or an absent one to be cut, a paying state to be
    marked or another to be unmarked."""
    state = rng.randrange(text.size)
    outside = rng.choice((text.size, text.size + 1, 512, 65535))
    kind = rng.randrange(7)
    if kind == 0:
        rng.choice((text.add, text.cut))(rng.choice(((state, outside), (outside, state), (outside, outside))))
    elif kind == 1:
        (text.add if (state, state) in text.moves else text.cut)((state, state))
    elif kind == 2 and text.moves:
        text.add(rng.choice(list(text.moves)))
    elif kind == 3:
        rng.choice((text.mark, text.unmark))(outside)
    elif kind == 4 and text.pays:
        text.mark(rng.choice(list(text.pays)))
    elif kind == 5:
        (text.mark if state in text.pays else text.unmark)(state)
    else:
        move = some_move(rng, text.size)
        if move not in text.moves:
            text.cut(move)


def turned(rng, text):
    """A state's pay comes or goes: mostly that of one that pays, seldom that of the start state, where nothing is kept."""
    dice = rng.random()
    if dice < 0.5 and text.pays:
        text.turn(rng.choice(list(text.pays)))
    else:
        text.turn(text.start if dice > 0.92 else rng.randrange(text.size))


def changes(rng, text, count, wanted, closing):
    """Random changes that keep about `wanted` moves present. closing() gives a move that may close a round."""
    closed = []
    for _ in range(count):
        dice = rng.random()
        if rng.random() < 0.25:
            turned(rng, text)
        elif dice < 0.12:
            refused_change(rng, text)
        elif dice < 0.15:
            text.rows.append(rng.choice(HOSTILE))
        elif dice < 0.19:
            text.switch(rng.randrange(text.size))
        elif dice < 0.28 and text.last_cut:
            text.add(text.last_cut)            # cut and added again: newest now
        elif dice < 0.46:
            closed.append(closing())
            text.add(closed[-1])
        elif dice < 0.65 and closed:
            text.cut(closed.pop(rng.randrange(len(closed))))
        elif text.moves and rng.random() < (0.35 if len(text.moves) < wanted else 0.65):
            text.cut(rng.choice(list(text.moves)))
        else:
            text.add(some_move(rng, text.size))
    return text


# ------------------------------------------------------- lines to refuse

NUMBERS_TO_READ = [b"", b"0", b"00", b"01", b"1", b"9", b"511", b"512", b"513", b"9999", b"65535", b"65536", b"99999",
                   b"100000", b"000001", b"4294967296", b"18446744073709551617", b" 1", b"1 ", b"+1", b"-1", b"0x1",
                   b"1\r", b"1\0", b"\x001", b"1.0", b"\xd9\xa1", b"\xff", b":", b"/"]


def distorted(line):
    """A right line, and what becomes of it. Where a kind may follow, one that there never is does."""
    fields = line.split(b"\t")
    more = b"\t5" if fields[0] in WITH_KIND and len(fields) == 2 else b"\t1"
    yield from [line, line.upper(), line.title(), b"\t" + line, b" " + line, line + b"\t", line + b"\t\t", line + b" ",
                line + b"\r", line + b"\0", b"\0" + line, line + more, line + b"\t1\t1", b"\t".join(fields[:-1]),
                line.replace(b"\t", b" "), line.replace(b"\t", b"\t\t"), line.replace(b"\t", b"\x0b"), fields[0]]
    for at in range(1, len(fields)):
        yield from (b"\t".join(fields[:at] + [n] + fields[at + 1:]) for n in NUMBERS_TO_READ)
    for length in (31, 32, 33):                # with one field too long, one field too many, one long word
        yield from [line.ljust(length, b"1"), (line + b"\t").ljust(length, b"1"), line.ljust(length, b"\t")]


def hostile_lines():
    right = [b"game\t2\t0", b"pay\t1", b"move\t0\t1", b"go", b"add\t0\t1", b"cut\t0\t1", b"mark\t0", b"unmark\t1",
             b"end", b"begin"]
    lines = [b"", b" ", b"\t", b"\t\t", b"\t\t\t", b"\r", b"\0", b"\xff\xfe", b"x", b"game", b"kinds",
             b"why", b"g", b"ad", b"begi", b"beginn", b"en", b"ends", b"endbegin", b"begin\tend", b"addd\t0\t1",
             b"add\t0\t1add\t0\t1", b"-", b"#", b"\xef\xbb\xbfgo"]
    lines += [one for line in right for one in distorted(line)]
    lines += [b"x" * length for length in (31, 32, 33, 64, 1000)]
    # Last, so that what was drawn from the others stays as it was.
    lines += [*distorted(b"ways\t0"), b"way\t0", b"wayss\t0", b"ways0", b"ways\tways", b"short", b"all", b"sheet"]
    return list(dict.fromkeys(lines))


def kind_lines():
    """The same about kinds, apart from the others, so that what was drawn from those stays as it was."""
    lines = [one for line in (b"kinds\t2", b"pay\t1\t2", b"mark\t0\t2", b"unmark\t1\t2") for one in distorted(line)]
    named = b"0\t1", b"0\t3", b"0\t4", b"2\t3", b"2\t1", b"512\t2"
    lines += [word + b"\t" + one for word in sorted(WITH_KIND) for one in named]
    lines += [b"kind\t2", b"kindss\t2", b"kinds2", b"kinds\tkinds", b"kinds\t1", b"kinds\t3", b"kinds\t4", b"kinds\t5",
              b"add\t0\t1\t2", b"cut\t0\t1\t2", b"move\t0\t1\t2", b"ways\t0\t2"]
    return list(dict.fromkeys(lines))


def short_lines():
    """And about the shortest round."""
    lines = [*distorted(b"short\t1"), b"shor\t1", b"shorts\t1", b"short1", b"short\tshort", b"short\t65534", b"shortest\t1"]
    return list(dict.fromkeys(lines))


HOSTILE = hostile_lines()
# Those that are 1 inside a batch, and those that are outside one.
NO_CHANGE = [line for line in HOSTILE if read_line(line, INSIDE) is None]
NO_CALL = [line for line in HOSTILE if read_line(line, OUTSIDE) is None]
NO_QUESTION = [line for line in NO_CALL if b"ways" in line.lower()]
STAGES = [b"", b"game\t2\t0\n", b"game\t2\t0\npay\t1\n", b"game\t2\t0\npay\t1\nmove\t1\t0\n",
          b"game\t2\t0\npay\t1\nmove\t1\t0\ngo\n", b"game\t2\t0\npay\t1\nmove\t1\t0\ngo\nbegin\nadd\t0\t0\n"]
BEHIND = [b"go\n"] * 4 + [b"", b"cut\t0\t0\nend\n"]
BEFORE_GO = 4                                  # how many of these are places before `go`
ENDING = b"ways\t0\nadd\t0\t1\nunmark\t1\nways\t1\ncut\t0\t1"
KIND_HOSTILE = kind_lines()
KIND_NO_CHANGE = [line for line in KIND_HOSTILE if read_line(line, INSIDE) is None]      # outside a batch some are another K
TWO_KINDS = b"game\t2\t0\nkinds\t2\n"
KIND_STAGES = [b"game\t2\t0\n", TWO_KINDS, TWO_KINDS + b"pay\t1\t2\n", TWO_KINDS + b"pay\t1\t2\nmove\t1\t0\n",
               TWO_KINDS + b"pay\t1\t2\nmove\t1\t0\ngo\n", TWO_KINDS + b"pay\t1\t2\nmove\t1\t0\ngo\nbegin\nadd\t0\t0\n"]
KIND_ENDING = b"ways\t0\nadd\t0\t1\nmark\t0\nmark\t0\t2\nunmark\t1\t2\nunmark\t1\ncut\t0\t1"
SHORT_HOSTILE = short_lines()
NO_SHORT = [line for line in SHORT_HOSTILE if read_line(line, OUTSIDE) is None]
SHORT_STAGES = [stage.replace(b"move\t1\t0\n", b"move\t1\t0\nmove\t0\t1\n") for stage in STAGES]        # with a round
SHORT_ENDING = b"short\t0\nshort\t1\nadd\t0\t0\nmark\t0\nshort\t1\nshort\t2\nkinds\t2\nshort\t2\nkinds\t1\nshort\t65535\ncut\t0\t1"


def staged(places=len(STAGES)):
    """Each hostile line at each of the first places of a small session, with lines behind it that show what became of it; and
    those about kinds in one with two of them; and those about the shortest round in one that has one, and with two kinds."""
    sorts = ((HOSTILE + [b"x" * 70000, b"add\t0\t1\n" * 9000], STAGES, ENDING), (KIND_HOSTILE, KIND_STAGES, KIND_ENDING),
             (SHORT_HOSTILE, SHORT_STAGES, SHORT_ENDING), (SHORT_HOSTILE, KIND_STAGES, KIND_ENDING))
    for lines, stages, ending in sorts:
        for line in lines:
            for before, behind in list(zip(stages, BEHIND))[:places]:
                yield before + line + b"\n" + behind + ending


# ------------------------------------------------------- random sessions

def small(rng):
    size = rng.choice((1, 2, 3, 3, 4, 4, 5, 6, 7, 8))
    wanted = min(size * size, int(size * rng.uniform(0.5, 2.2)))
    density = rng.choice((0.15, 0.3, 0.5, 0.8))
    pays = [s for s in range(size) if rng.random() < density]
    text = Text(size, rng.randrange(size), pays, some_moves(rng, size, wanted))
    return changes(rng, text, rng.randint(20, 80), wanted, lambda: some_move(rng, size)).data()


def onward(rng, size, moves, count):
    """A game whose moves lead on in a hidden order, or from a state, seldom a paying one, to itself; and a closing(): a move
    that leads back in that order, or from a state to itself."""
    order = rng.sample(range(size), size)
    pays = rng.sample(range(size), rng.randint(1, max(1, size // 16)))
    spared = pays if rng.random() < 0.8 else []
    some = {}
    while len(some) < moves:
        at = rng.randrange(size)
        dice = rng.random()
        far = 0 if dice < 0.1 else rng.randint(1, 12 if dice < 0.9 else size)
        source, target = order[at], order[min(size - 1, at + far)]
        if source != target or source not in spared:
            some[source, target] = None

    def closing():
        at = rng.randrange(size)
        return order[at], order[max(0, at - (rng.randint(1, 12) if rng.random() < 0.8 else 0))]
    text = Text(size, order[0], pays, list(some))
    return changes(rng, text, count, moves, closing).data()


def mid(rng):
    size = rng.randint(16, 96)
    return onward(rng, size, rng.randint(size, 3 * size), 60)


def full(rng):
    return onward(rng, 512, rng.randint(2040, 2048), 50)


def chain(rng, count=60):
    """A walk through all 512 states, some with a move to themselves; its last state leads back, to near or far, or to
    itself, or not at all. The state that pays stops to do so, and others do for a while."""
    order = rng.sample(range(512), 512)
    moves = list(zip(order, order[1:]))
    pays = order[rng.choice((0, 1, 255, 510, 511))]
    own = [(s, s) for s in rng.sample(order, rng.choice((0, 20, 512))) if s != pays]
    text = Text(512, order[0], [pays], rng.sample(moves + own, len(moves + own)))

    def closing():
        return order[511], order[rng.choice((0, 511, rng.randrange(512), rng.randrange(512)))]
    for _ in range(count):
        dice = rng.random()
        back = [m for m in text.moves if m[0] == order[511]]
        broken = [m for m in moves if m not in text.moves]
        if rng.random() < 0.25:
            others = [s for s in text.pays if s != pays]
            text.turn(rng.choice([pays, rng.choice(order)] + 2 * others))
        elif broken and dice < 0.6:
            text.add(broken[0])
        elif back and dice < 0.3:
            text.cut(rng.choice(back))
        elif dice < 0.75:
            text.add(closing())
        elif dice < 0.87:
            text.switch(rng.choice((pays, rng.choice(order))))
        else:
            text.cut(rng.choice(moves[rng.choice((0, 300, 500)):]))
    return text.data()


def stem_game(rng, size):
    """A line of states to one that pays and leads back. Before the move that leads along it, a state of the line has some
    to states off it or met by then; behind it some to any; or none behind, so that its last move leads along."""
    order = rng.sample(range(size), size)
    length = rng.randint(size // 2 + 1, size)
    line, off = order[:length], order[length:]

    def few(targets):
        return rng.choices(targets, k=rng.choice((0, 0, 1, 2)))
    rows = {s: few(off + line[:1]) for s in off}
    for at, target in enumerate(line[1:]):
        rows[line[at]] = few(off + line[:at + 1]) + [target] + few(order)
    rows[line[-1]] = few(off + line[:1]) + [rng.choice(line)] + few(order)
    targets = {s: iter(dict.fromkeys(row)) for s, row in rows.items()}
    sources = [s for s, row in rows.items() for _ in dict.fromkeys(row)]
    moves = [(s, next(targets[s])) for s in rng.sample(sources, len(sources))]
    return Text(size, line[0], sorted({line[-1], *rng.sample(line, rng.choice((0, 0, 1)))}), moves), line


def repaired(rng, text, line):
    """The line leads on again to a state that pays and leads back."""
    broken = [move for move in zip(line, line[1:]) if move not in text.moves]
    if broken:
        text.add(broken[0])
    elif line[-1] not in text.pays:
        text.mark(line[-1])
    else:
        text.add((line[-1], rng.choice(line)))


def by_run(rng, text, run):
    """A change of a sort that the run which it finds decides; mostly of a move that this run has not come to."""
    def to_any(states):
        return rng.choice(states), rng.randrange(text.size)
    done, looked = set(run.finished), set(run.looks)
    unfinished = [s for s in run.met_after if s not in done]
    unmet = [s for s in range(text.size) if s not in run.met_after]
    behind = [move for move in text.moves if move[0] in run.met_after and move not in looked]
    walk = run.stem + run.round
    dice = rng.random()
    if dice < 0.28 and behind:
        text.cut(rng.choice(behind))
    elif dice < 0.52 and unfinished:
        text.add(to_any(unfinished))
    elif dice < 0.66 and unmet:
        there = [move for move in text.moves if move[0] in unmet]
        if there and rng.random() < 0.5:
            text.cut(rng.choice(there))
        else:
            text.add(to_any(unmet))
    elif dice < 0.76:
        text.add(to_any(run.finished[-1:] if rng.random() < 0.5 else run.finished))       # the last is the one that pays
    elif dice < 0.92 and looked:
        along = list(zip(walk, walk[1:]))
        move = rng.choice(along if along and rng.random() < 0.6 else run.looks)
        text.cut(move)
        if rng.random() < 0.5:
            text.add(move)                     # newest now: the last of its row, and what was behind it is before it
    else:
        text.turn(rng.choice(unfinished if unfinished and rng.random() < 0.7 else run.finished))


def stems(rng, size=None, count=40):
    """A long walk, and moves that the search comes to and does not come to, with marks and refused lines between them."""
    size = size or rng.choice((rng.randint(6, 12), rng.randint(6, 12), rng.randint(13, 64), rng.randint(65, 511), 512))
    text, line = stem_game(rng, size)
    for _ in range(count):
        run = plain_search(size, text.start, [s in text.pays for s in range(size)], list(text.moves))
        dice = rng.random()
        if dice < 0.06:
            refused_change(rng, text)
        elif dice < 0.09:
            text.rows.append(rng.choice(("", "go", "end", "add 0", "mark 0 0")))
        elif not run.found and dice < 0.7:
            repaired(rng, text, line)
        else:
            by_run(rng, text, run)
    return text.data()


class Beside:
    """A text with the reference's table beside it, so that the next lines can be about what the table holds."""

    def __init__(self, text):
        self.text, self.table = text, Table()
        self.table.load(*load_args(text.size, text.start, text.carried(), text.moves), MOST_STATES)
        self.named = []                        # the states of the last change or batch, which the next question may be about

    def send(self, *call):
        self.text.rows += rows_of(call)
        if not is_question(call):              # it changes nothing
            made(self.table, call, MOST_STATES)
        if call[0] in ("add", "cut", "mark", "unmark", "batch"):
            lines = call[1] if call[0] == "batch" else [call]
            self.named = [state for line in lines if isinstance(line, tuple) for state in states_of(*line)]

    def write(self, line):
        """A line that is no change: another K, or else it gets 1."""
        read = read_line(line, {b"kinds"})
        self.send(*("kinds", *read[1]) if read else ("line", line))

    def ask(self, rng, hub):
        """A question: about a state that the last change or batch names, about the hub or any, or about one outside."""
        dice, size = rng.random(), self.table.size
        if dice < 0.5 and self.named:
            state = rng.choice(self.named)
        elif dice < 0.92:
            state = hub if dice < 0.7 else rng.randrange(size)
        else:
            state = rng.choice((size, size + 1, 511, 512, 65535))
        self.send("ways", state)

    def ask_short(self, rng, *counts):
        """So many questions about the shortest round, one of these counts of them."""
        for budget in some_budgets(rng, self.table, *counts):
            self.send("short", budget)


def with_moves(text, more, count):
    """The game with these moves too, and so many in all."""
    return Text(text.size, text.start, text.carried(), list(dict.fromkeys([*text.moves, *more]))[:count])


def batch_game(rng, size):
    """A game for batches: with a line of states to one that pays, or any. Of the largest some are full, or nearly."""
    if size < 4 or rng.random() < 0.25:
        wanted = min(size * size, int(size * rng.uniform(0.5, 2.2)))
        return Text(size, rng.randrange(size), [rng.randrange(size)], some_moves(rng, size, wanted))
    text, _ = stem_game(rng, size)
    if size == MOST_STATES and rng.random() < 0.6:
        text = with_moves(text, some_moves(rng, size, MOST_MOVES), MOST_MOVES - rng.choice((0, 0, 1, 5)))
    return text


def no_change(rng):
    """A line that gets 1 inside a batch."""
    words = "begin", "go", "game 2 0", "pay 0", "move 0 0", "", "ways 0", "sheet", "end ", "x" * 33
    return rng.choice(words if rng.random() < 0.5 else NO_CHANGE)


def numbers_for(table):
    """What a line may be refused with."""
    return NUMBERS if table.kinds == 1 else KIND_NUMBERS


def batch_of(rng, table):
    """The lines of a batch, of each length; a third are refused, with each number at each place, and of these some have
    more lines behind it that nobody looks at."""
    count = rng.choice(LENGTHS + 4 * (rng.randint(3, 8), rng.randint(9, 62)))
    fault = None
    if rng.random() < 0.35:
        count = max(1, count)
        full = MOST_MOVES // table.kinds
        numbers = numbers_for(table) if len(table.moves) < full - 8 or rng.random() < 0.5 else (9,)
        fault = rng.choice(numbers), rng.choice((1, (count + 1) // 2, count, min(count, 64), min(count, 65)))
    lines = some_lines(rng, table, count, rng.random() < 0.5, fault)
    if fault and rng.random() < 0.4:
        lines += [None] * rng.choice((1, 2, 70))
    return [no_change(rng) if line is None else line for line in lines]


def unended(rng, table):
    """A batch that the input ends in, at any of its lines, with and without a last newline; or its `end` lacks that."""
    rows = rows_of(("batch", batch_of(rng, table)))
    whole = as_bytes(rows[:rng.choice((1, 2, len(rows) - 1, rng.randint(1, len(rows))))])
    behind = rng.choice((b"", b"e", b"en", b"end", b"end\t", b"end\r\n", b"\n", b"add\t0"))
    return whole[:-1] if rng.random() < 0.3 else whole + behind


def line_alone(rng, session, refused=0.2):
    """A change outside a batch. This share of them is refused, or an unreadable line."""
    fault = (rng.choice(numbers_for(session.table)), 1) if rng.random() < refused else None
    for line in some_lines(rng, session.table, 1, rng.random() < 0.4, fault):
        session.send(*line or ("line", rng.choice(NO_CALL)))


def batches(rng, size=None, count=None):
    """Batches, and changes alone and unreadable lines between them. Seldom the input ends inside a batch."""
    sizes = 1, 2, rng.randint(3, 5), rng.randint(3, 8), rng.randint(6, 12), rng.randint(13, 64), rng.randint(65, 511), 512
    session = Beside(batch_game(rng, size or rng.choice(sizes)))
    for _ in range(count or rng.randint(3, 12)):
        session.send("batch", batch_of(rng, session.table))
        for _ in range(rng.choice((0, 0, 1, 3))):
            line_alone(rng, session)
    return session.text.data() + (unended(rng, session.table) if rng.random() < 0.2 else b"")


def star_game(rng, size):
    """A game in which one state, the hub, has moves to most states and from most, itself among them. Of the largest some are
    full, or nearly."""
    def most():
        share = rng.choice((0.3, 0.9, 1, 1))
        return [s for s in range(size) if rng.random() < share]
    hub = rng.randrange(size)
    others = MOST_MOVES if size == MOST_STATES and rng.random() < 0.6 else min(size, size * size // 2)
    moves = dict.fromkeys([(hub, s) for s in most()] + [(s, hub) for s in most()] + some_moves(rng, size, others))
    moves = list(moves)[:MOST_MOVES - rng.choice((0, 0, 1, 5))]
    start, pays = rng.choice((hub, rng.randrange(size))), rng.sample(range(size), rng.randint(0, min(size, 3)))
    return Text(size, start, pays, rng.sample(moves, len(moves))), hub


def spoke(rng, session, hub):
    """A move from the hub or to it comes or goes."""
    other = rng.randrange(session.table.size)
    move = rng.choice(((hub, other), (other, hub)))
    session.send("cut" if move in session.table.moves else "add", *move)


def questions(rng, size=None, count=None):
    """Questions between changes, batches, refused lines and unreadable ones. Half the games have a hub."""
    sizes = 1, 2, rng.randint(3, 5), rng.randint(3, 8), rng.randint(6, 12), rng.randint(13, 64), rng.randint(65, 511), 512
    size = size or rng.choice(sizes)
    text, hub = star_game(rng, size) if rng.random() < 0.5 else (batch_game(rng, size), rng.randrange(size))
    session = Beside(text)
    for _ in range(count or rng.randint(6, 20)):
        for _ in range(rng.choice((0, 1, 1, 2, 4))):
            session.ask(rng, hub)
        dice = rng.random()
        if dice < 0.2:
            session.send("batch", batch_of(rng, session.table))
        elif dice < 0.45:
            spoke(rng, session, hub)
        elif dice < 0.5:
            session.send("line", rng.choice(NO_QUESTION))
        else:
            line_alone(rng, session)
    for _ in range(3):
        session.ask(rng, hub)
    return session.text.data() + (unended(rng, session.table) if rng.random() < 0.1 else b"")


# ------------------------------------------------------- several kinds

def some_carried(rng, kinds, states):
    """Which of these states carry each kind: one or two, some or all, seldom none. In many games one carries several kinds."""
    def some():
        dice = rng.random()
        if dice < 0.05:
            return []
        if dice < 0.6:
            return rng.sample(states, min(len(states), rng.choice((1, 1, 2))))
        share = rng.choice((0.1, 0.3, 0.7, 1))
        return [s for s in states if rng.random() < share]
    carriers = [set(some()) for _ in range(kinds)]
    if rng.random() < 0.4:
        one = rng.choice(states)
        for own in rng.sample(carriers, rng.randint(1, kinds)):
            own.add(one)
    return of_kinds(kinds, *map(sorted, carriers))


def kind_game(rng, size, kinds):
    """A game with so many kinds: a ring of states in a hidden order, with moves beside it; a line of them to one that leads back;
    or any. Of the largest some are full, or nearly."""
    most, dice = MOST_MOVES // kinds, rng.random()
    if size >= 4 and dice < 0.3:
        text, states = stem_game(rng, size)
        start, moves = text.start, list(text.moves)
    else:
        states = rng.sample(range(size), size)
        start = states[0]
        moves = list(zip(states, states[1:] + states[:1])) if dice < 0.8 else []
        moves += some_moves(rng, size, int(min(size, most - size) * rng.uniform(0.1, 1)))
    if size == MOST_STATES // kinds and rng.random() < 0.6:
        moves += some_moves(rng, size, most)
    moves = list(dict.fromkeys(moves))[:most - rng.choice((0, 0, 1, 5))]
    return Text(size, start, some_carried(rng, kinds, states), rng.sample(moves, len(moves)) if rng.random() < 0.5 else moves)


def kind_turned(rng, session):
    """A mark comes or goes, mostly that of a state of the walk; kind 1 may be left out."""
    table = session.table
    kind, walk = random_kind(rng, table), table.run.stem + table.run.round
    state = rng.choice(walk if walk and rng.random() < 0.6 else range(table.size))
    session.send("unmark" if table.marks[kind - 1][state] else "mark", state, *[kind] if kind > 1 or rng.random() < 0.5 else [])


def any_kind(rng, session):
    """A mark or an unmark of any kind, such as there never are among them, and of any state or one outside."""
    state = rng.choice((rng.randrange(session.table.size), rng.randrange(session.table.size), session.table.size, 65535))
    session.send(rng.choice(("mark", "unmark")), state, rng.choice((0, 1, 2, 3, 4, 5, 65535)))


def on_walk(rng, session):
    """A move that leaves a state of the walk comes or goes. Of such a state some copies may have finished and some not."""
    table = session.table
    state = rng.choice(table.run.stem + table.run.round or list(table.run.met_after))
    there = [move for move in table.moves if move[0] == state]
    if there and rng.random() < 0.5:
        session.send("cut", *rng.choice(there))
    else:
        move = state, rng.randrange(table.size)
        session.send("cut" if move in table.moves else "add", *move)


def kind_batch(rng, session):
    """A batch; of its lines that are no change half are about kinds."""
    def some(line):
        return line if isinstance(line, tuple) or rng.random() < 0.5 else rng.choice(KIND_NO_CHANGE)
    session.send("batch", [some(line) for line in batch_of(rng, session.table)])


def refused_kinds(rng):
    """A load with kinds and one or two faults: of K, of the line's place, of a kind or a state that is paid for, of the counts of
    states and moves, and such as a load without kinds can have."""
    most = rng.randint(1, MOST_KINDS)
    size, moves = rng.randint(1, 8), [(0, 0)]
    start, pays, row = 0, ["pay 0", "pay 0 %d" % most], "kinds %d" % most
    for fault in rng.choices(range(9), k=rng.randint(1, 2)):
        if fault == 0:
            row = "kinds %d" % rng.choice((0, 5, 6, 65535))
        elif fault == 1:
            row = rng.choice(("kinds", "kinds 65536", "kinds 01", "kinds %d 1" % most, "pay 0|kinds %d" % most, row + "|" + row))
        elif fault == 2:
            pays.append("pay 0 %d" % rng.choice((0, most + 1, 5)))
        elif fault == 3:
            pays.append("pay %d %d" % (rng.choice((size, 511, 512)), rng.randint(1, MOST_KINDS)))
        elif fault == 4:
            size = MOST_STATES // most + rng.choice((0, 1))
        elif fault == 5:
            size = max(size, 64)
            moves = some_moves(rng, 64, MOST_MOVES // most + rng.choice((0, 1, 1, 2)))
        elif fault == 6:
            start = size
        else:
            moves.append((0, size) if fault == 7 else moves[0])
    rows = ["game %d %d" % (size, start), *row.split("|"), *pays, *("move %d %d" % move for move in moves), "go", "add 0 0", "mark 0"]
    return as_bytes(rows)


def kind_question(rng, session):
    session.ask(rng, session.table.start)


def kind_line(rng, session):
    """A line or a batch of a session with kinds; seldom another K."""
    dice = rng.random()
    if dice < 0.1:
        kind_batch(rng, session)
    elif dice < 0.16:
        kind_question(rng, session)
    elif dice < 0.19:
        session.write(rng.choice(KIND_NO_CHANGE))
    elif dice < 0.25:
        any_kind(rng, session)
    elif dice < 0.5:
        kind_turned(rng, session)
    elif dice < 0.75:
        on_walk(rng, session)
    else:
        line_alone(rng, session)


def kinds(rng, size=None, count=None, most=None):
    """1 to 4 kinds, K written, and changes of all sorts with batches, questions, refused and unreadable lines between them, seldom
    another K; or a load that is mostly refused. size, most: that of the game and K, or drawn."""
    if not size and rng.random() < 0.12:
        return refused_kinds(rng)
    most = most or rng.randint(1, MOST_KINDS)
    largest = MOST_STATES // most
    ranges = (1, 1), (2, 2), (2, 4), (3, 8), (3, 8), (6, 12), (13, 64), (65, largest), (largest, largest)
    sizes = [rng.randint(*one) for one in ranges]
    session = Beside(kind_game(rng, size or rng.choice(sizes), most))
    for _ in range(count or rng.randint(8, 28)):
        kind_line(rng, session)
    return session.text.data() + (unended(rng, session.table) if rng.random() < 0.1 else b"")


def over_game(rng, size, left_out):
    """A game with 1 to 4 kinds; of those with one, half leave the line out, or all do. The larger ones have as many states as there
    may be with this K or one above it, or one more, and most of them as many moves, or one more."""
    first = 1 if left_out else rng.randint(1, min(MOST_KINDS, MOST_STATES // (size or 1)))
    limit = rng.randint(first, MOST_KINDS)
    largest = min(MOST_STATES // limit + rng.choice((0, 1)), MOST_STATES // first)
    ranges = (1, 1), (2, 4), (3, 8), (3, 8), (6, 12), (13, 64), (46, 64), (largest, largest), (largest, largest)
    size = size or rng.choice([rng.randint(*one) for one in ranges])
    text = kind_game(rng, size, first)
    if size >= 46 and rng.random() < 0.6:
        most = min(MOST_MOVES // limit + rng.choice((0, 0, 1)), MOST_MOVES // first)
        text = with_moves(text, some_moves(rng, size, most), most)
    left_out = left_out or first == 1 and rng.random() < 0.5
    return Text(size, text.start, text.pays, list(text.moves)) if left_out else text


def batch_with(rng, session, row, *numbers):
    """A batch with this row somewhere in it, with a number from one to another, where it is no change."""
    lines = batch_of(rng, session.table)
    lines.insert(rng.randint(0, len(lines)), row % rng.randint(*numbers))
    session.send("batch", lines)


def over_batch(rng, session):
    batch_with(rng, session, "kinds %d", 0, MOST_KINDS + 1)


def other_kinds(rng, session, among=(1, 2, 3, 4) * 4 + (0, 5, 65535)):
    """Another K or the same again, one of these; such as there never are among them. Behind it lines that show what became of the
    session: marks of the kinds that none carries, alone or as a batch, so that there are rounds again; or a move of the walk, a
    mark of any kind, a batch, a question."""
    session.send("kinds", rng.choice(among))
    given = given_marks(rng, session.table)
    if given and rng.random() < 0.5:
        for call in given if rng.random() < 0.4 else [("batch", given)]:
            session.send(*call)
    else:
        rng.choice((on_walk, on_walk, on_walk, any_kind, kind_batch, over_batch, kind_question, kind_line))(rng, session)


def over(rng, size=None, count=None, left_out=False):
    """A session that goes over to another K now and then, at any place among lines and batches as those with kinds have them. Some
    end without their last newline, or inside a batch. left_out: it has one kind at first, and no line for it."""
    session = Beside(over_game(rng, size, left_out))
    for _ in range(count or rng.randint(8, 24)):
        (other_kinds if rng.random() < 0.3 else kind_line)(rng, session)
    text = session.text.data()
    return text[:-1] if rng.random() < 0.2 else text + (unended(rng, session.table) if rng.random() < 0.1 else b"")


# ------------------------------------------------- the shortest round

def shortest_game(rng, size):
    """A game whose walk often goes a longer way than it need; or, of the larger ones, one whose rounds are all long, some of them
    with four moves a state, and some in which all states pay."""
    if size < 13 or rng.random() < 0.3:
        return Text(*short_game(rng, size))
    order, moves = long_ring(rng, size, rng.choice((2, 4)) * size)
    return Text(size, order[0], sorted(rng.sample(order, rng.choice((1, 3, size // 4, size)))), moves)


def repaid(rng, session):
    """A state that can be reached comes to pay, or a move leads back to one that does."""
    table = session.table
    met = list(table.run.met_after)
    paying = [s for s in met if table.pays[s]]
    move = rng.choice(met), rng.choice(paying or met)
    if paying and move not in table.moves:
        session.send("add", *move)
    else:
        kind_turned(rng, session)


def shorter(rng, session):
    """A move comes or goes that leads from a state of the round to another of it, seldom to itself."""
    states = session.table.run.round
    move = tuple(rng.sample(states, 2)) if len(states) > 1 and rng.random() < 0.9 else (states[0], states[0])
    session.send("cut" if move in session.table.moves else "add", *move)


def shortest(rng, size=None, count=None):
    """Questions about the shortest round between changes, batches, refused lines and unreadable ones. Some sessions have several
    kinds for a while. Some end without their last newline, or inside a batch."""
    ranges = (1, 1), (2, 2), (3, 5), (3, 8), (3, 8), (6, 12), (6, 12), (9, 24), (13, 64), rng.choice(((65, 511), (512, 512)))
    session = Beside(shortest_game(rng, size or rng.randint(*rng.choice(ranges))))
    for _ in range(count or rng.randint(6, 20)):
        session.ask_short(rng, 0, 1, 1, 2, 4)
        dice, table = rng.random(), session.table
        if dice < 0.04:
            session.send("line", rng.choice(NO_SHORT))
        elif dice < 0.07:
            batch_with(rng, session, "short %d", 0, MOST_BUDGET)
        elif dice < 0.17:
            session.send("batch", batch_of(rng, table))
        elif dice < 0.21:
            session.send("kinds", rng.randint(0, MOST_KINDS))
        elif table.kinds > 1 and dice < 0.5:
            session.send("kinds", 1)
        elif not table.run.found and dice < 0.85:
            repaid(rng, session)
        elif table.run.found and dice < 0.6:
            shorter(rng, session)
        else:
            rng.choice((on_walk, kind_turned, line_alone, line_alone))(rng, session)
    session.ask_short(rng, 3)
    text = session.text.data()
    return text[:-1] if rng.random() < 0.2 else text + (unended(rng, session.table) if rng.random() < 0.1 else b"")


def twins(rng):
    """A random text with one kind at first and no line for it; the same with `kinds 1` behind `game`; and this with kind 1 written
    where it is left out. All three are answered alike."""
    makers = small, small, mid, stems, batches, questions, refused, many, shortest, functools.partial(over, left_out=True)
    first, *rest = lines = common.lines_of(rng.choice(makers)(rng))
    written = [first, b"kinds\t1\n"]
    return [b"".join(rows) for rows in (lines, written + rest, written + [with_kind(line) for line in rest])]


def with_kind(line):
    """The line with kind 1 written where it may be and is left out."""
    row, end = (line[:-1], line[-1:]) if line.endswith(b"\n") else (line, b"")
    left_out = read_line(row, WITH_KIND) and row.count(b"\t") == 1
    return row + b"\t1" + end if left_out else line


def fresh_twins(seed, count):
    """So many of them: what to call them, and the texts."""
    for i in range(count):
        yield "SEED=%d, twins %d" % (seed, i), twins(random.Random("%d twins %d" % (seed, i)))


def hostile(rng):
    """A small session with unreadable lines among its lines, mostly behind `go`."""
    lines = common.lines_of(small(rng))
    go = lines.index(b"go\n")
    first = 0 if rng.random() < 0.3 else go + 1
    for _ in range(rng.randint(1, 12)):
        lines.insert(rng.randint(min(first, len(lines)), len(lines)), rng.choice(HOSTILE + SHORT_HOSTILE) + b"\n")
    return b"".join(lines)


def refused(rng):
    """A load with one or two faults."""
    size = rng.randint(1, 8)
    moves = some_moves(rng, size, rng.randint(0, size))
    start, pays = rng.randrange(size), [rng.randrange(size)]
    for _ in range(rng.randint(1, 2)):
        fault = rng.randrange(6)
        at = rng.randint(0, len(moves))
        if fault == 0:
            size = rng.choice((0, 513, 65535))
        elif fault == 1:
            start = rng.choice((size, size + 1, 512, 65535))
        elif fault == 2:
            pays.append(rng.choice((size, 511)) if size < 512 else 511)
        elif fault == 3:
            moves.insert(at, rng.choice(((0, size), (size, 0), (65535, 65535))))
        elif fault == 4:
            moves.insert(at, (0, 0))
            moves.insert(rng.randint(0, len(moves)), (0, 0))
        elif moves:
            moves.insert(at, rng.choice(moves))
    text = Text(size, start, pays)
    text.rows[-1:] = ["move %d %d" % m for m in moves]
    text.rows += ["go", "add 0 1", "mark 0", "ways 0", "add 1 0", "add 0 0", "ways 0", "short 9"]
    return text.data()


def ended(rng):
    """A session that ends anywhere: before `go`, within a line, without the last newline."""
    text = rng.choice((small, hostile, refused, batches, questions, kinds, over, shortest))(rng)
    return text[:rng.randrange(len(text))]


def many(rng):
    """About 2,048 `move` lines, with or without faults."""
    size = rng.choice((64, 512))
    moves = some_moves(rng, size, rng.randint(2046, 2050))
    for _ in range(rng.choice((0, 0, 1))):
        moves[rng.randrange(len(moves))] = rng.choice(((0, 0), (size, 1), (size, size), moves[5], moves[-1]))
    text = Text(size, rng.randrange(size), rng.sample(range(size), rng.choice((0, 3))), moves)
    for _ in range(6):
        text.add(rng.choice(moves))
        text.add(some_move(rng, size))
        text.cut(some_move(rng, size))
        text.cut(rng.choice(moves))
        state = rng.randrange(size)
        rng.choice((text.add, text.cut))((state, state))
        rng.choice((text.mark, text.unmark))(state)
        text.ways(state)
        turned(rng, text)
    return text.data()


KINDS = {make.__name__: make for make in (small, mid, full, chain, stems, batches, questions, hostile, refused, ended, many,
                                          kinds, over, shortest)}


def session(seed, kind):
    return KINDS[kind](random.Random("%s %s" % (seed, kind)))


def fresh(seed, counts):
    """So many random sessions of each kind: what to call one, and its text."""
    for kind, count in counts.items():
        for i in range(count):
            name = "%d.%d" % (seed, i)
            yield "SEED=%d, %s %s" % (seed, kind, name), session(name, kind)


def accepted(seed, counts):
    """The same without those whose load is refused."""
    return (one for one in fresh(seed, counts) if answer_text(up_to_go(one[1])).startswith(b"game\t"))


def as_left(data):
    """The game that a session's changes and other K's lead to, those of a batch taken one by one, as a text that loads it."""
    lines = [line for line in (read_line(line, FIELDS) for line in records(data)) if line]
    (_, (size, start)), go = lines[0], lines.index((b"go", []))
    text = Text(size, start, of_kinds(next((args[0] for word, args in lines[:go] if word == b"kinds"), None)),
                [tuple(args) for word, args in lines[:go] if word == b"move"])
    for _, args in (line for line in lines[:go] if line[0] == b"pay"):
        text.mark(*args)
    inside = False
    for word, args in lines[go + 1:]:
        inside = word != b"end" if inside else word == b"begin"
        if word in (CHANGES if inside else CHANGES | {b"kinds"}):
            word = word.decode()
            called(text, word, *[tuple(args)] if word in MOVE_WORDS else args)
    return Text(size, start, text.carried(), list(text.moves)).data()


def reloaded(data):
    """Of each `kinds` line that a session takes: K before and behind it, how many lines have been answered by then, and a text that
    loads the table as it stands and goes on as the session does."""
    lines, rest, table = common.lines_of(data), iter(records(data)), Table()
    said = len(list(load_lines(rest, table)))
    for line in rest if table.loaded else ():
        before, answers = table.kinds, list(change_lines(line, rest, table))
        if read_line(line, {b"kinds"}) and not answers[0].startswith(b"no\t"):
            load = as_bytes(game_rows(table.size, table.start, carried_by(table), table.moves))
            yield (before, table.kinds), said, load + b"".join(lines[len(lines) - operator.length_hint(rest):])
        said += len(answers)


# ------------------------------------------------------- stored sessions

def known(game):
    """A game of the reference with its changes."""
    _, size, pays, moves, _, calls = game
    text = Text(size, 0, pays, moves)
    text.rows += [row for call in calls for row in rows_of(call[:-1])]
    return text.data()


def full_table(rows, last=()):
    """64 states and 2,048 moves, these the last of them; then these rows."""
    moves = [(a, b) for a in range(64) for b in range(64) if a != b][:MOST_MOVES - len(last)]
    text = Text(64, 0, [63, 0], moves + list(last))
    text.rows += rows
    return text.data()


def self_moves(pays, others, rows):
    """512 states, each with a move to itself, and these other moves; then these rows."""
    text = Text(MOST_STATES, 0, pays, [(s, s) for s in range(MOST_STATES)] + others)
    text.rows += rows
    return text.data()


def marks(pays, rows):
    """512 states, and through the start state rounds that pass a state at a border of two words; then these rows."""
    moves = [move for s in (63, 64, 511) for move in ((0, s), (s, 0))]
    text = Text(MOST_STATES, 0, pays, moves)
    text.rows += rows
    return text.data()


def longest_walk():
    ring = [(i, (i + 1) % MOST_STATES) for i in range(MOST_STATES)]
    text = Text(MOST_STATES, 0, [511], ring)
    text.rows += ["add 511 510", "cut 511 0", "cut 511 510", "add 511 256", "cut 255 256", "add 255 256", "unmark 511",
                  "mark 300", "mark 255", "cut 511 256", "add 511 0", "unmark 300", "cut 0 1"]
    return text.data()


# What a text behind `go` ends with inside a batch, which then does and prints nothing; and an `end` that just lacks its newline.
OPEN = {"begin": b"begin\n", "begin-bare": b"begin", "line": b"begin\ncut\t0\t1\n", "line-bare": b"begin\ncut\t0\t1",
        "refused": b"begin\ncut\t0\t1\nx\nmark\t9\n", "cut-off": b"begin\ncut\t0\t1\nen", "field": b"begin\ncut\t0\t1\nend\t",
        "not": b"begin\ncut\t0\t1\nend"}


def stored_batches():
    """Name and text of each stored session with batches."""
    for game in BATCH_GAMES:
        yield game[0], known(game)
    for name, behind in OPEN.items():
        yield "batch-open-" + name, STAGES[4] + b"add\t0\t1\n" + behind
    yield "batch-before-go", as_lines(["game 2 0", "begin", "end", "go"])
    yield "batch-hostile-lines", STAGES[4] + as_bytes(row for line in NO_CHANGE for row in ("begin", line, "end")) + b"cut\t0\t1"
    yield "random-batches", session(2845, "batches")
    yield "random-batches-512", batches(random.Random(25), 512, 8)


def stored_questions():
    """The same of those with questions."""
    for game in WAYS_GAMES:
        yield game[0], known(game)
    for at in range(BEFORE_GO):
        yield "ways-before-go-%d" % at, STAGES[at] + b"ways\t0\ngo\n"
    yield "random-questions", session(733, "questions")


def limit_moves(kinds, more=0):
    """As many moves as there may be with so many kinds, or so many more: a ring through as many states as there may be, and moves
    that lead on from each to the next but one, and so on."""
    size = MOST_STATES // kinds
    return [(s, (s + far) % size) for far in range(1, 6) for s in range(size)][:MOST_MOVES // kinds + more]


def limit_rows(kinds):
    """Changes of such a table, where there is room for one move and for none."""
    size = MOST_STATES // kinds
    last = size - 1
    away, back = ("%s %d %d" % (word, *limit_moves(kinds)[-1]) for word in ("cut", "add"))
    return ["add 0 0", "add 0 1", "cut 0 0", away, "add 0 0", back, "cut 0 1", "add 0 1", back,
            "begin", "cut 0 0", back, "add 0 0", "end", "begin", "cut 0 0", back, "end", "add 0 0",
            "unmark 0 %d" % kinds, "mark 0 %d" % kinds, "unmark 0", "mark %d %d" % (size, kinds), "ways 0",
            "ways %d" % size, "cut %d 0" % last, "mark 0", "unmark %d %d" % (last, kinds)]


def at_limit(kinds, states=0, moves=0):
    """As many states and moves as there may be with so many kinds, or so many more; and changes."""
    size = MOST_STATES // kinds
    text = Text(size + states, 0, of_kinds(kinds, *[[0, size - 1]] * kinds), limit_moves(kinds, moves))
    text.rows += limit_rows(kinds)
    return text.data()


def kind_limits():
    """Name and text of sessions at the limits for each K, and with one state or one move more."""
    for most in range(1, MOST_KINDS + 1):
        for name, more in (("", {}), ("-state", {"states": 1}), ("-move", {"moves": 1})):
            yield "kinds-limit-%d%s" % (most, name), at_limit(most, **more)


def deep_layers(kinds, turned=False):
    """As many states and moves as there may be with so many kinds. State 0 carries them all, so that each lap of the ring is one
    in the next layer: the outer search goes through every layered state, and then the inner one does, from state 0. The others'
    last move leads on, or turned their first; the rest lead to states of the same lap that are met by then."""
    size = MOST_STATES // kinds
    back = [(s, s - far) for far in range(4) for s in range(far + 1, size)]
    moves = back[:MOST_MOVES // kinds - size] + [(s, (s + 1) % size) for s in range(size)]
    return Text(size, 0, of_kinds(kinds, *[[0]] * kinds), moves[::-1] if turned else moves)


# Texts in which `kinds` stands out of place or behind `go`, or is refused for what stands before or behind it.
KIND_TEXTS = {
    "before-game": ["kinds 2", "game 2 0", "go"],
    "behind-pay": ["game 2 0", "pay 0", "kinds 2", "go"],
    "behind-move": ["game 2 0", "move 0 1", "kinds 2", "go"],
    "twice": ["game 2 0", "kinds 2", "kinds 2", "go"],
    "behind-go": ["game 2 0", "kinds 2", "pay 0", "pay 1 2", "move 0 1", "move 1 0", "go", "kinds 2", "kinds 1", "cut 0 1"],
    "without-go": ["game 2 0", "kinds 9", "pay 0 4", "move 9 9"],
    "kind-5": ["game 2 0", "kinds 5", "pay 0 5", "go"],
    "kind-0": ["game 2 0", "kinds 2", "pay 0 0", "go"],
    "start-outside": ["game 2 2", "kinds 5", "pay 2 4", "move 9 9", "go"],
    "no-states": ["game 0 0", "kinds 0", "pay 0", "go"],
    "line-2049": ["game 2 0", "kinds 9"] + ["move 0 1"] * (MOST_MOVES + 1) + ["go"],
    "65536": ["game 2 0", "kinds 65536", "go"],
    "doubles": ["game 3 0", "kinds 2", "pay 1", "pay 1 1", "pay 1 2", "pay 1 2", "pay 2 2", "go", "unmark 1", "unmark 1"],
}


def stored_kinds():
    """The same of those with kinds."""
    for game in KIND_GAMES:
        yield game[0], known(game)
    for name, rows in KIND_TEXTS.items():
        yield "kinds-" + name, as_lines(rows)
    yield from (one for one in kind_limits() if one[0][-1].isdigit())          # those beyond are among the games
    in_batches = as_bytes(row for line in KIND_NO_CHANGE for row in ("begin", line, "end"))
    yield "kinds-hostile-lines", KIND_STAGES[4] + as_bytes(KIND_HOSTILE) + KIND_ENDING
    yield "kinds-hostile-batches", KIND_STAGES[4] + in_batches + KIND_ENDING
    for most, size, count, seed in ((2, 6, 60, 41), (3, 5, 60, 81), (4, 4, 60, 63), (4, 128, 16, 20)):
        yield "kinds-random-%d-%d" % (most, size), kinds(random.Random(seed), size, count, most)


def over_limit(kinds):
    """As many states as there may be with this K, but one kind, and one move too many if there can be: this K is taken when that is
    cut, and none above it. Then changes there, and each K below, from which this one is taken again."""
    size, newest = MOST_STATES // kinds, limit_moves(kinds, 1)[-1]
    text = Text(size, 0, [0, size - 1], limit_moves(kinds, kinds > 1))
    this, above, mark = "kinds %d" % kinds, "kinds %d" % (kinds + 1), "mark 0 %d" % kinds
    text.rows += [this, mark, "cut %d %d" % newest, above, this, "begin"]
    text.rows += ["mark %d %d" % (s, kind) for kind in range(2, kinds + 1) for s in (0, size - 1)]
    text.rows += ["end", above, *limit_rows(kinds)]
    for below in range(kinds - 1, 0, -1):
        text.rows += ["kinds %d" % below, this, mark, "ways 0"]
    return text.data()


def over_limits():
    """Name and text of sessions that go over to each K at its limits."""
    for most in range(1, MOST_KINDS + 1):
        yield "over-limit-%d" % most, over_limit(most)


def stored_over():
    """The same of those that go over to another K."""
    for game in OVER_GAMES:
        yield game[0], known(game)
    yield from over_limits()
    for size, count, seed in ((3, 48, 98), (5, 48, 156), (8, 48, 149), (64, 16, 39), (128, 16, 89), (171, 16, 55)):
        yield "over-random-%d" % size, over(random.Random(seed), size, count)


def stored_short():
    """The same of those with questions about the shortest round."""
    for game in SHORT_GAMES:
        yield game[0], known(game)
    for at in range(BEFORE_GO):
        yield "short-before-go-%d" % at, STAGES[at] + b"short\t0\ngo\n"
    yield "short-hostile-lines", SHORT_STAGES[4] + as_bytes(SHORT_HOSTILE) + SHORT_ENDING
    in_batches = as_bytes(row for line in SHORT_HOSTILE for row in ("begin", line, "end"))
    yield "short-hostile-batches", SHORT_STAGES[4] + in_batches + SHORT_ENDING
    for size, count, seed in ((3, 40, 33), (5, 40, 135), (8, 40, 140), (40, 24, 105), (200, 12, 57)):
        yield "short-random-%d" % size, shortest(random.Random(seed), size, count)


def stored_edges():
    """The same at the limits of states, moves and marks, and with loads that are refused."""
    yield "states-512", as_lines(["game 512 0", "pay 511", "move 0 511", "go", "add 511 0", "add 512 0", "cut 511 0"])
    yield "states-513", as_lines(["game 513 0", "pay 511", "move 0 511", "go", "add 511 0"])
    yield "start-511", as_lines(["game 512 511", "pay 511", "move 511 0", "move 0 511", "go", "cut 0 511", "add 0 511",
                                 "add 511 510", "cut 511 0"])
    yield "start-512", as_lines(["game 512 512", "pay 511", "go", "add 511 0"])
    yield "moves-2048", full_table(["add 0 1", "add 63 62", "cut 63 62", "cut 0 1", "add 63 62", "add 0 1", "cut 5 6",
                                    "add 5 6", "add 5 6", "add 63 0"])
    yield "moves-2049", full_table([]).replace(b"go\n", b"move\t63\t62\ngo\nadd\t0\t1\n")
    yield "self-move-2048", full_table(
        ["add 0 1", "add 63 63", "add 63 62", "add 62 62", "cut 63 62", "cut 62 62", "cut 63 63", "add 62 62", "add 63 63",
         "cut 0 1", "add 63 63", "add 0 1", "cut 62 62", "add 0 1", "add 0 1", "cut 5 6", "add 5 6", "add 64 64",
         "unmark 63", "unmark 0", "mark 64", "mark 1", "add 63 62", "cut 63 63", "add 0 0", "mark 63", "add 63 63"], [(63, 63)])
    yield "self-move-2049", full_table([], [(63, 63)]).replace(b"go\n", b"move\t62\t62\ngo\nadd\t0\t1\n")
    yield "self-moves-512", self_moves(
        [255, 511], [],
        ["add 0 511", "cut 511 511", "add 511 511", "add 511 511", "cut 0 0", "cut 0 0", "add 512 512", "cut 255 255",
         "add 511 255", "add 255 255", "cut 511 511", "add 255 0", "add 0 0"])
    yield "same-move-2049", as_lines(["game 1 0"] + ["move 0 0"] * (MOST_MOVES + 1) + ["go", "mark 0"])
    yield "marks-none-of-512", marks(
        [], ["unmark 511", "mark 511", "mark 511", "mark 64", "mark 63", "unmark 64", "unmark 63", "mark 0", "unmark 511",
             "unmark 0", "unmark 0", "mark 512", "unmark 512", "mark 575", "mark 65535", "unmark 65535", "mark 65536",
             "unmark 65536", "mark 510", "add 510 0", "add 0 510", "cut 511 0", "unmark 510", "mark 62", "mark 65"])
    yield "marks-all-of-512", marks(
        range(MOST_STATES), ["mark 0", "mark 63", "mark 64", "mark 511", "mark 512", "unmark 512", "unmark 65535", "unmark 63",
                             "unmark 65", "unmark 0", "unmark 64", "unmark 511", "unmark 511", "mark 64", "mark 0", "mark 511",
                             "unmark 64"])
    yield "longest-walk", longest_walk()
    yield "hostile-lines", STAGES[4] + as_bytes(line for line in HOSTILE if line != b"begin") + b"cut\t0\t1"
    yield "refused-4", as_lines(["game 2 1", "pay 2", "move 0 0", "move 0 0", "move 9 9", "go", "add 0 1"])
    yield "refused-6", as_lines(["game 2 1", "move 0 1", "move 0 1", "move 0 0", "move 9 9", "go", "add 0 1"])
    yield "refused-8", as_lines(["game 2 1", "move 0 1", "move 1 0", "move 0 1", "go", "add 0 1"])
    yield "self-move-twice", as_lines(["game 2 1", "move 0 0", "move 1 0", "move 0 0", "go", "add 0 1"])
    yield "ends-before-go", as_lines(["game 513 600", "pay 511", "move 0 0", "move 0 0"])


def stored():
    """Name and text of each stored session."""
    for game in GAMES:
        yield "game-" + game[0].lower(), known(game)
    for game in SELF_GAMES + MARK_GAMES + UNREACHED_GAMES:
        yield game[0], known(game)
    yield from stored_batches()
    yield from stored_questions()
    yield from stored_kinds()
    yield from stored_over()
    yield from stored_short()
    yield from stored_edges()
    yield "random-small", session(752, "small")
    yield "random-mid", session(668, "mid")
    yield "random-mid-changes", session(247, "mid")
    yield "random-full", session(25, "full")
    yield "random-chain", chain(random.Random(54), 16)
    yield "random-stems", session(1028, "stems")
    yield "random-stems-512", stems(random.Random(65), 512, 16)


SEPARATOR = b"\x1e"                            # parts the texts that crates/texts is run on
BLOCK = 65536                                  # bytes that it reads at a time, and answers before the next
# Six blocks are enough. What moves-2048 asks is asked in self-move-2048 and in batch-full too. same-move-2049 is a shorter text
# for what moves-2049, self-move-2049 and kinds-line-2049 ask. random-stems asks on a walk of 6 states what random-stems-512 asks
# on one of 487, and random-batches on 8 states what random-batches-512 asks. kinds-moves-513 is a shorter text for what
# kinds-moves-683 and kinds-moves-1025 ask, kinds-full-4 for what kinds-full-2 asks, over-moves-4 for what over-moves-2 and
# over-moves-3 ask; and the games kinds-full and kinds-walk stand for the texts at the limits of each K, over-moves and over-walk
# for those that go over to it there. short-ring-362 asks what short-ring-363 asks.
TOO_LONG = {"random-full", "random-chain", "moves-2048", "moves-2049", "self-move-2049", "random-stems-512", "random-batches-512",
            "kinds-line-2049", "kinds-moves-683", "kinds-moves-1025", "kinds-full-2", *(name for name, _ in kind_limits()),
            "over-moves-2", "over-moves-3", *(name for name, _ in over_limits()), "short-ring-363"}
SECOND = {"random-mid-changes", "self-moves-512", "marks-all-of-512", "random-batches"}
THIRD = {"batch-hostile-lines", "random-questions"}


def block_of(name):
    """The place of the block that a text stands in."""
    if name.startswith("short-"):
        return 5
    if name.startswith("over-"):
        return 4
    if name.startswith("kinds-"):
        return 3
    if name in THIRD or name.startswith("ways-"):
        return 2
    return 1 if name in SECOND or name.startswith("batch-") else 0


def blocks():
    """The texts of each block. One that is no line to read fills up each but the last."""
    parted = [[text for name, text in stored() if name not in TOO_LONG and block_of(name) == at] for at in range(6)]
    left = [BLOCK - len(SEPARATOR.join(texts + [b""])) for texts in parted]
    if min(left) <= 32:
        fail("the texts do not fit into their blocks")
    return [texts + [b"x" * length] for texts, length in zip(parted[:-1], left)] + parted[-1:]


def bundle():
    """Input and output of crates/texts: stored sessions, each answer with the number that the call returns."""
    answers = (bench_answer(text, 65536) for texts in blocks() for text in texts)
    return b"".join(map(SEPARATOR.join, blocks())), b"".join(out + b"%d\n" % number for out, number in answers)


def desk_game_a():
    """Game A up to `go`, and one line more, which the desk program does not answer."""
    given, wanted = (common.lines_of(part) for part in game_a())
    return b"".join(given[:given.index(b"go\n") + 2]), b"".join(wanted[:2])


def stored_files():
    """Path and content of each stored file."""
    for name, text in stored():
        yield STORED / (name + ".in"), text
        yield STORED / (name + ".out"), answer_text(text)
    given, wanted = game_a()
    yield ROOT / "crates/monitor/stdin", given
    yield ROOT / "crates/monitor/stdout", wanted
    given, wanted = desk_game_a()
    yield ROOT / "crates/desk/stdin", given
    yield ROOT / "crates/desk/stdout", wanted
    given, wanted = bundle()
    yield ROOT / "crates/texts/stdin", given
    yield ROOT / "crates/texts/stdout", wanted


def proved_games():
    """Text and answers of each game whose answers are proved, as the table of that crate has them."""
    tables = "".join(path.read_text() for path in ROOT.glob("crates/*/specs/Texts.antt"))
    rows = re.findall(r'dialogue ("[^"]*")\s*\(((?:[^"()]|"[^"]*")*)\)', tables)
    if not rows or len(rows) != tables.count('dialogue "'):
        fail("a row of the proved games cannot be read")
    for sent, written in rows:
        yield [b"".join(ast.literal_eval(s).encode() for s in re.findall(r'"[^"]*"', part)) for part in (sent, written)]


def write():
    for path, content in stored_files():
        path.write_bytes(content)


def check():
    files = dict(stored_files())
    if answer_text(files[ROOT / "crates/monitor/stdin"]) != files[ROOT / "crates/monitor/stdout"]:
        fail("the reference does not answer Game A as document 01 does")
    for sent, written in proved_games():
        if answer_text(sent) != written:
            fail("the reference does not answer a game as it is proved", *difference(written, answer_text(sent)))
    wrong = [p for p, content in files.items() if not p.exists() or p.read_bytes() != content]
    wrong += [p for p in STORED.iterdir() if p not in files]
    if wrong:
        fail("not as tests/sessions.py --write makes them:", *wrong)


def main(args):
    if args == ["--write"]:
        write()
    elif args == ["--check"]:
        check()
    elif len(args) == 2 and args[1] in KINDS:
        sys.stdout.buffer.write(session(args[0], args[1]))
    else:
        sys.exit(__doc__ + "\nKIND is one of " + ", ".join(KINDS))


if __name__ == "__main__":
    main(sys.argv[1:])
