#!/usr/bin/env python3
"""The plain table with its plain search, and the lines on the lead.

Written from the papers alone. After every accepted call the whole search is
run afresh on the table; nothing is remembered from one run to the next. A move
from a state to itself is taken like any other; there is no refusal 7. A state's
pay is turned on and off by `mark` and `unmark`. Where a move comes or goes, the
search is also run on the table as it was: what that run had not come to keeps
every look. A batch of changes is done as a whole, with one answer, or not at all.
A question about a state counts, over the moves present, those that leave it and
those that enter it; another looks for the shortest round as far as a budget of
looks goes. Both change nothing.

With several kinds of pay in use, 1 to K, the search runs on K layers of the game.
A move out of a state that carries its layer's kind lands in the next layer, and
from the last in the first. The table, the walk and the counts of a question are
those of the plain game; looks and lengths count the layered states. A session
goes over to another K between two changes, without a reload.

For the examiner's desk there is the search as candidates learn it, by procedures
that call each other, for a game that is loaded and not changed.

    python3 reference.py --selftest      run the tests of this file
    python3 reference.py < text          answer a whole input text
    python3 reference.py --desk < text   the same as the examiner's desk
"""

import functools
import itertools
import random
import sys
from collections import Counter, namedtuple

MOST_STATES = 512
MOST_MOVES = 2048
MOST_CHANGES = 64      # in a batch
MOST_KINDS = 4
MOST_BUDGET = 65535
WORDS = 8              # for the marks of each kind
MOVE_WORDS = "add", "cut"      # of changes that name a move; the others name a state and a kind


# ---------------------------------------------------------------- the search

class Run:
    """What one run of the plain search leaves behind."""

    def __init__(self):
        self.looks = []       # the moves looked at, in the order taken
        self.met_after = {}   # state -> count of looks before its meeting;
                              # the states stand in the order of meeting
        self.finished = []    # the states whose last outer move was taken and, if
                              # that move met its target, the target completed
        self.found = False
        self.stem = []
        self.round = []
        self.layered = None   # of a run that is told in plain states: that on the layers


def targets_of(size, moves):
    """Of each state the targets of its moves, oldest first."""
    targets = [[] for _ in range(size)]
    for a, b in moves:
        targets[a].append(b)
    return targets


def plain_search(size, start, pays, moves):
    """pays: a list of size truth values; moves: pairs, oldest first."""
    run = Run()
    targets = targets_of(size, moves)
    open_path = []
    is_open = [False] * size
    marked = [False] * size                   # inner marks; they stay

    def look(a, b):
        run.looks.append((a, b))

    def inner_search(seed):
        """The target on the open path and the inner path, or None."""
        marked[seed] = True
        path = [seed]
        left = [iter(targets[seed])]
        while path:
            target = next(left[-1], None)
            if target is None:                # the last move was taken
                path.pop()
                left.pop()
                continue
            look(path[-1], target)
            if is_open[target]:
                return target, path
            if not marked[target]:
                marked[target] = True
                path.append(target)
                left.append(iter(targets[target]))
        return None

    def meet(state):
        run.met_after[state] = len(run.looks)
        open_path.append(state)
        is_open[state] = True
        moves_left.append(iter(targets[state]))

    moves_left = []                           # one for each open state
    meet(start)
    while open_path:
        state = open_path[-1]
        target = next(moves_left[-1], None)
        if target is not None:
            look(state, target)
            if target not in run.met_after:
                meet(target)
            continue
        # after its last move
        run.finished.append(state)
        if pays[state]:
            stop = inner_search(state)
            if stop is not None:
                h, inner_path = stop
                at = open_path.index(h)
                run.found = True
                run.stem = open_path[:at]
                run.round = open_path[at:] + inner_path[1:]
                break
        open_path.pop()
        is_open[state] = False
        moves_left.pop()

    assert len(run.looks) <= 2 * len(moves)
    return run


def in_layers(size, start, marks, moves):
    """The game that is searched where kinds are in use. marks: for each of them a list of size truth values, and so
    many layers are there. State s of layer l, counted from 0, has the number l * size + s. What a move's source
    carries decides where it lands."""
    kinds = len(marks)
    pays = marks[0] + [False] * (size * (kinds - 1))
    landing = [[(layer + 1) % kinds if carries else layer for carries in own] for layer, own in enumerate(marks)]
    copies = [(layer * size + a, landing[layer][a] * size + b) for a, b in moves for layer in range(kinds)]
    return size * kinds, start, pays, copies


def layered_search(size, start, marks, moves):
    """The run on the layers, told in plain states: a state is met with the first of its copies, it has finished where one
    of them has, and a move is looked at where it is in any layer. With one kind the two are the same."""
    layered = plain_search(*in_layers(size, start, marks, moves))
    run = Run()
    run.layered = layered
    run.looks = [(a % size, b % size) for a, b in layered.looks]
    for state, count in layered.met_after.items():
        run.met_after.setdefault(state % size, count)
    run.found = layered.found
    run.finished, run.stem, run.round = ([s % size for s in states] for states in (layered.finished, layered.stem, layered.round))
    return run


def not_come_to(run, word, move):
    """Whether this run, the one before an add or a cut, had come to the move in no layer."""
    if word == "cut":
        return move not in run.looks
    return move[0] not in run.finished


def keeps_all(run, word, *named):
    """Whether this change of a batch leaves every look of the run before the batch."""
    if word in MOVE_WORDS:
        return not_come_to(run, word, named)
    return named[0] not in run.met_after


# ------------------------------------------------------- the shortest round

def reached_from(start, targets):
    """The states that a run of zero or more moves leads to. This is not counted."""
    reached, left = {start}, [start]
    while left:
        new = set(targets[left.pop()]) - reached
        reached |= new
        left += new
    return reached


def looks_around(targets, state, length):
    """A breadth-first search over the states fewer than so many moves away from this one, a state's moves oldest first. Of each
    look, as it is taken, whether it comes back. What was seen before is looked at, and not searched again."""
    seen, away = {state}, [state]
    for _ in range(length):
        further = []
        for source in away:
            for target in targets[source]:
                yield target == state
                if target not in seen:
                    seen.add(target)
                    further.append(target)
        away = further


def shortest_round(targets, paying, budget):
    """Where there is a round: the smallest length that so many looks do not rule out, and whether one of that length is found.
    paying: the reachable paying states in rising order. Each search begins anew. The stop is before the look that would be one
    too many; what needs no look is done."""
    looks = 0
    for length in itertools.count(1):
        for state in paying:
            for comes_back in looks_around(targets, state, length):
                if looks == budget:
                    return length, False
                looks += 1
                if comes_back:
                    return length, True


# --------------------------------------------- the search on the examiner's desk

# Two procedures for each state of the open path, and two for each of the inner search's path.
sys.setrecursionlimit(max(sys.getrecursionlimit(), 4 * MOST_STATES + 1000))


class TextbookSearch:
    """The search as candidates learn it, for a table without history. One procedure visits a state, the other goes
    through its moves, and each calls the other; the inner search is a second such pair. Each hands back the walk, as
    stem and round, or None where there is none. A state is visited in a layer, from 1: it is a pair of both. marks: for
    each kind in use a list of size truth values."""

    def __init__(self, size, start, marks, moves):
        self.marks = marks
        self.moves = {state: [] for state in range(size)}     # that leave a state, oldest first
        for a, b in moves:
            self.moves[a].append(b)
        self.met, self.marked = set(), set()
        self.open_path, self.inner_path = [], []
        self.looks = []                                       # source and target of each, in the order taken
        walk = self.visit((start, 1))
        self.found = walk is not None
        self.stem, self.round = ([state for state, _ in part] for part in walk or ([], []))

    def carries(self, visited):
        """Whether the state carries the kind of the layer."""
        state, layer = visited
        return self.marks[layer - 1][state]

    def targets(self, source):
        """Of its moves, oldest first, one look each."""
        state, layer = source
        if self.carries(source):
            layer = 1 if layer == len(self.marks) else layer + 1
        for target in self.moves[state]:
            self.looks.append((source, (target, layer)))
            yield target, layer

    def visit(self, state):
        self.met.add(state)
        self.open_path.append(state)
        walk = self.go_through_moves(state)
        if walk is None and state[1] == 1 and self.carries(state):
            walk = self.inner_visit(state)
        self.open_path.pop()
        return walk

    def go_through_moves(self, state):
        for target in self.targets(state):
            walk = None if target in self.met else self.visit(target)
            if walk is not None:
                return walk
        return None

    def inner_visit(self, state):
        self.marked.add(state)
        self.inner_path.append(state)
        walk = self.inner_go_through_moves(state)
        self.inner_path.pop()
        return walk

    def inner_go_through_moves(self, state):
        for target in self.targets(state):
            if target in self.open_path:
                stem = self.open_path[:self.open_path.index(target)]
                return stem, self.open_path[len(stem):] + self.inner_path[1:]
            walk = None if target in self.marked else self.inner_visit(target)
            if walk is not None:
                return walk
        return None


# ----------------------------------------------------------------- the table

def in_full(word, *named):
    """A change with its kind, which is 1 if left out."""
    return (word, *named) if len(named) == 2 else (word, *named, 1)


def states_of(word, *named):
    """The states that a change names; a mark may name a kind besides."""
    return named if word in MOVE_WORDS else named[:1]


def no_kind(word, _, kind):
    """Whether this change, in full, names a kind that there never is: no line with it can be read."""
    return word not in MOVE_WORDS and not 1 <= kind <= MOST_KINDS


def too_many(size, kinds, moves):
    """Of a K, at a load and behind it: 16 for the K itself, or for so many states or moves with it."""
    fits = 1 <= kinds <= MOST_KINDS and size * kinds <= MOST_STATES and len(moves) * kinds <= MOST_MOVES
    return 0 if fits else 16


def too_short(room, size, kinds):
    """Of every call: 11 for the list lent for the walk."""
    return 11 if room < size * kinds else 0


class Table:
    """N, the start state, K, the marks of each of four kinds and the moves present, oldest first.

    Answers: ("no", n), ("none", spent, kept)
    or ("round", spent, kept, stem, round); of a batch ("no", n, position) too;
    of a question about a state ("ways", state, leaving, entering) or ("no", 6);
    of one about the shortest round ("short", best, least), ("none",) or ("no", 17).
    """

    def __init__(self):
        self.loaded = False
        self.run = None       # the last run: that on the table as it is

    def load(self, size, start, kinds, words, numbers, room):
        """words: eight for each of four kinds, those of kind 1 first."""
        assert len(words) == WORDS * MOST_KINDS and 0 <= min(words) <= max(words) < 1 << 64
        self.loaded = False
        self.run = None
        marks = bits_of(words)
        number = self._load_refusal(size, start, kinds, marks, numbers, room)
        if number:
            return ("no", number)
        self.loaded = True
        self.size = size
        self.start = start
        self.kinds = kinds
        self.marks = [[bits >> s & 1 == 1 for s in range(size)] for bits in marks]
        self.moves = pairs(numbers)
        return self._answer(None)

    def add(self, a, b, room):
        return self._alone("add", a, b, room)

    def cut(self, a, b, room):
        return self._alone("cut", a, b, room)

    def mark(self, state, *kind_and_room):
        """The kind may be left out."""
        return self._alone("mark", state, *kind_and_room)

    def unmark(self, state, *kind_and_room):
        return self._alone("unmark", state, *kind_and_room)

    def _alone(self, word, *numbers):
        """A change outside a batch: what it names, and the room."""
        self._need_session()
        *named, room = numbers
        change = in_full(word, *named)
        number = 1 if no_kind(*change) else self._refusal(*change) or self._room_refusal(room)
        if number:
            return ("no", number)
        spared = word in MOVE_WORDS and not_come_to(self._search(), word, change[1:])
        self._make(*change)
        return self._answer(change[1:2], spared)

    def batch(self, lines, room):
        """lines: changes, each a word and what it names, and None for a line that is no change.
        A refusal tells the position of its line too, from 1; that of the lent list, tried ahead of them, is 0."""
        self._need_session()
        number = self._room_refusal(room)
        if number:
            return ("no", number, 0)
        changes = [line and in_full(*line) for line in lines]
        held, before = (list(self.moves), [list(marks) for marks in self.marks]), self._search()
        for position, change in enumerate(changes, 1):
            number = self._line_refusal(change, position)
            if number:
                self.moves, self.marks = held
                return ("no", number, position)
            self._make(*change)
        spared = all(keeps_all(before, *change) for change in changes)
        return self._answer([change[1] for change in changes], spared)

    def set_kinds(self, kinds, room):
        """Another K, or the same again: the line `kinds` of a session. Marks of the kinds up to it stay, those above are
        dropped for good, and the moves hold their order. It is answered as a load is, and all that follows as behind one; what
        is refused leaves the old K. The lent list is held against the new one."""
        self._need_session()
        number = too_many(self.size, kinds, self.moves) or too_short(room, self.size, kinds)
        if number:
            return ("no", number)
        self.kinds = kinds
        self.marks[kinds:] = [[False] * self.size for _ in range(kinds, MOST_KINDS)]
        return self._answer(None)

    def ways(self, state):
        """How many of the moves present leave the state, and how many enter it: one that does both counts in both.
        Nothing is written, so no list is lent, and nothing changes."""
        self._need_session()
        if state >= self.size:
            return ("no", 6)
        return ("ways", state, sum(a == state for a, _ in self.moves), sum(b == state for _, b in self.moves))

    def short(self, budget):
        """The length of the best round known and the smallest that is not ruled out, by so many looks; nothing changes, and these
        looks are neither spent nor kept. Both are the shortest length if such a round is found, or else the first is that
        of the present walk's round."""
        self._need_session()
        if self.kinds > 1:
            return ("no", 17)
        if not self.run.found:
            return ("none",)
        least, found = shortest_round(*self.searched_for_rounds(), budget)
        return ("short", least if found else len(self.run.round), least)

    def searched_for_rounds(self):
        """The targets of each state's moves, and the reachable paying states."""
        targets = targets_of(self.size, self.moves)
        reached = reached_from(self.start, targets)
        return targets, [s for s in range(self.size) if self.pays[s] and s in reached]

    @property
    def pays(self):
        """The marks of kind 1."""
        return self.marks[0]

    @property
    def least_room(self):
        """How many entries the list lent for the walk must have."""
        return self.size * self.kinds

    def _line_refusal(self, change, position):
        if change is None or no_kind(*change):
            return 1
        return 15 if position > MOST_CHANGES else self._refusal(*change)

    def _refusal(self, word, state, other):
        """Of a change: 4 for its kind, 6 for the states that it names, then its own numbers."""
        if word in MOVE_WORDS:
            return self._move_refusal(word, (state, other))
        if other > self.kinds:
            return 4
        if state >= self.size:
            return 6
        carried = self.marks[other - 1][state]
        if word == "mark":
            return 13 if carried else 0
        return 0 if carried else 14

    def _move_refusal(self, word, move):
        if max(move) >= self.size:
            return 6
        if word == "cut":
            return 0 if move in self.moves else 10
        return 8 if move in self.moves else 9 if (len(self.moves) + 1) * self.kinds > MOST_MOVES else 0

    def _room_refusal(self, room):
        return too_short(room, self.size, self.kinds)

    def _need_session(self):
        if not self.loaded:
            raise RuntimeError("a call that needs a session, and there is none")

    def _make(self, word, state, other):
        if word == "add":
            self.moves.append((state, other))
        elif word == "cut":
            self.moves.remove((state, other))
        else:
            self.marks[other - 1][state] = word == "mark"

    def _load_refusal(self, size, start, kinds, marks, numbers, room):
        if size == 0 or size > MOST_STATES:
            return 2
        if start >= size:
            return 3
        if any(bits >> (size if kind <= kinds else 0) for kind, bits in enumerate(marks, 1)):
            return 4
        if len(numbers) % 2 == 1 or len(numbers) > 2 * MOST_MOVES:
            return 5
        moves = pairs(numbers)
        number = too_many(size, kinds, moves)
        if number:
            return number
        if any(n >= size for n in numbers):
            return 6
        if len(set(moves)) < len(moves):
            return 8
        return too_short(room, size, kinds)

    def _search(self):
        return layered_search(self.size, self.start, self.marks[:self.kinds], self.moves)

    def _answer(self, named, spared=False):
        """named: the states that the changed moves leave, or whose marks changed; None after a load and for another K.
        spared: the run before the changes had come to none of them."""
        self.run = run = self._search()
        count = len(run.looks)
        if named is None:
            kept = 0
        elif spared:
            kept = count
        else:
            kept = min(run.met_after.get(s, count) for s in named)
        spent = count - kept
        if not run.found:
            return ("none", spent, kept)
        return ("round", spent, kept, run.stem, run.round)


class DeskTable(Table):
    """The table on the examiner's desk: for a load and nothing else."""

    def _search(self):
        return TextbookSearch(self.size, self.start, self.marks[:self.kinds], self.moves)


def bits_of(words):
    """The marks of each kind as one number: bit s is that of state s."""
    each = [words[at:at + WORDS] for at in range(0, len(words), WORDS)]
    return [sum(word << (64 * at) for at, word in enumerate(own)) if any(own) else 0 for own in each]


def pairs(numbers):
    return list(zip(numbers[0::2], numbers[1::2]))


def words_of(*carriers):
    """The words with the marks of the states that carry each kind, from kind 1 on."""
    words = [0] * (WORDS * MOST_KINDS)
    for at, states in enumerate(carriers):
        for s in states:
            words[WORDS * at + s // 64] |= 1 << (s % 64)
    return words


# --------------------------------------------------------- lines on the lead

LONGEST_INPUT = 4294967295
FIELDS = {b"game": [3], b"kinds": [2], b"pay": [2, 3], b"move": [3], b"go": [1], b"add": [3], b"cut": [3], b"mark": [2, 3],
          b"unmark": [2, 3], b"begin": [1], b"end": [1], b"ways": [2], b"short": [2]}       # how many there may be
BEHIND = {b"game": {b"kinds", b"pay", b"move", b"go"}, b"kinds": {b"pay", b"move", b"go"}, b"pay": {b"pay", b"move", b"go"},
          b"move": {b"move", b"go"}}           # the words that may follow, up to `go`
CHANGES = {b"add", b"cut", b"mark", b"unmark"}
QUESTIONS = {b"ways", b"short"}
OUTSIDE = CHANGES | QUESTIONS | {b"begin", b"kinds"}   # behind `go`, outside a batch
INSIDE = CHANGES | {b"end"}                    # inside one; `kinds` and the questions are no changes
WITH_KIND = {b"pay", b"mark", b"unmark"}       # name a state and, if it is not left out, a kind


def records(data):
    if len(data) > LONGEST_INPUT:
        data = data[:data.rfind(b"\n", 0, LONGEST_INPUT) + 1]
    lines = data.split(b"\n")
    if lines[-1] == b"":          # nothing behind the last newline: no record
        lines.pop()
    return lines


def read_number(field, most):
    """The number, or None for a bad one."""
    if len(field) > 5 or not field.isdigit():        # with no digits it is none
        return None
    if len(field) > 1 and field[:1] == b"0":
        return None
    number = int(field)
    return number if number <= most else None


def read_line(line, allowed):
    """(word, numbers), or None where the line cannot be read. A kind that is left out is among the numbers."""
    if len(line) > 32:
        return None
    fields = line.split(b"\t")
    word = fields[0]
    if word not in allowed or len(fields) not in FIELDS[word]:
        return None
    if word in WITH_KIND and len(fields) == 2:
        fields.append(b"1")
    most = [511 if word == b"pay" else 65535, MOST_KINDS if word in WITH_KIND else 65535]
    numbers = [read_number(*field) for field in zip(fields[1:], most)]
    if None in numbers or word in WITH_KIND and numbers[1] == 0:
        return None
    return word, numbers


def answer_line(answer):
    if answer[0] == "round":
        word, spent, kept, stem, round_ = answer
        answer = [word, spent, kept, len(stem), len(round_)] + stem + round_
    return "\t".join(str(x) for x in answer).encode() + b"\n"


def answer_lines(data):
    """The output lines for a whole input text, one after the other."""
    lines = iter(records(data))
    table = Table()
    yield from load_lines(lines, table)
    if table.loaded:
        for line in lines:
            yield from change_lines(line, lines, table)


def load_lines(lines, table):
    """The output up to and with that of the load."""
    allowed = {b"game"}
    kinds, pay, numbers = 1, set(), []
    for line in lines:
        word, args = read_line(line, allowed) or (None, None)
        if word is None:
            yield answer_line(("no", 1))
            return
        allowed = BEHIND.get(word)
        if word == b"game":
            size, start = args
        elif word == b"kinds":
            kinds, = args
        elif word == b"pay":
            pay.add(tuple(args))
        elif word == b"move":
            if len(numbers) == 2 * MOST_MOVES:
                yield answer_line(("no", 5))
                return
            numbers += args
        else:
            carriers = [[state for state, own in pay if own == kind] for kind in range(1, MOST_KINDS + 1)]
            answer = table.load(size, start, kinds, words_of(*carriers), numbers, MOST_STATES)
            if table.loaded:
                yield answer_line(("game", size, len(numbers) // 2, len({state for state, _ in pay})))
            yield answer_line(answer)
            return


def change_lines(line, rest, table):
    """The output for one line behind the load, or for a batch, whose other lines are taken from the rest."""
    word, args = read_line(line, OUTSIDE) or (None, None)
    if word is None:
        yield answer_line(("no", 1))
    elif word == b"begin":
        batch = batch_lines(rest)
        if batch is not None:
            yield answer_line(table.batch(batch, MOST_STATES))
    else:
        lent = [] if word in QUESTIONS else [MOST_STATES]
        yield answer_line(called(table, word.decode(), *args, *lent))


def called(table, word, *args):
    """The call that a word stands for, made. What `kinds` names is held by the table, so its call has another name."""
    return getattr(table, "set_kinds" if word == "kinds" else word)(*args)


def is_question(call):
    """Whether this call, a word and what it names, is one. No list is lent for it."""
    return call[0].encode() in QUESTIONS


def batch_lines(lines):
    """The lines up to `end` as Table.batch takes them, or None where the input ends before."""
    batch = []
    for line in lines:
        word, args = read_line(line, INSIDE) or (None, None)
        if word == b"end":
            return batch
        batch.append(None if word is None else (word.decode(), *args))
    return None


def answer_text(data):
    return b"".join(answer_lines(data))


def desk_text(data):
    """The output of the desk program, which reads up to and with `go` and no further."""
    return b"".join(load_lines(iter(records(data)), DeskTable()))


def up_to_go(data):
    """The text cut behind its first line `go`, or whole where it has none."""
    at = (b"\n" + data).find(b"\ngo\n")
    return data if at < 0 else data[:at + len(b"go\n")]


def bench_answer(data, output_length):
    """What a bench program gets: the bytes written and the number returned."""
    limit = min(output_length, 65536)
    written = b""
    for line in answer_lines(data):
        if len(written) + len(line) > limit:
            return written, 2 * len(written) + 1
        written += line
    return written, 2 * len(written)


# --------------------------------------------------------------- known games

# Of a game with kinds: K, or None where the line is left out, and for each kind, from 1, the states that carry it.
Carried = namedtuple("Carried", "kinds carriers")


def of_kinds(kinds, *carriers):
    return Carried(kinds, carriers)


def carried(pay):
    """Where a game has a list of paying states, they carry kind 1, and the line is left out."""
    return pay if isinstance(pay, Carried) else of_kinds(None, pay)


def load_args(size, start, pay, moves):
    """The arguments of a load but for the room."""
    kinds, carriers = carried(pay)
    return size, start, 1 if kinds is None else kinds, words_of(*carriers), flat(moves)


# name, N, paying states, moves, answer of the load, changes with answers;
# start is 0 everywhere.
C_MOVES = [(0, 1), (1, 0)]
F_MOVES = [(0, 1), (1, 2), (2, 1)]
GAMES = [
    ("A", 4, [2], [(0, 1), (1, 2)], ("none", 2, 0), [
        ("add", 2, 1, ("round", 2, 2, [0], [1, 2])),
        ("add", 2, 3, ("round", 3, 2, [0], [1, 2])),
        ("cut", 1, 2, ("none", 0, 1)),
        ("cut", 1, 2, ("no", 10)),
        ("add", 2, 0, ("none", 0, 1)),
    ]),
    ("B", 1, [], [], ("none", 0, 0), []),
    ("C", 2, [1], C_MOVES, ("round", 3, 0, [], [0, 1]), []),
    ("D", 2, [0], C_MOVES, ("round", 4, 0, [], [0, 1]), []),
    ("E", 2, [], C_MOVES, ("none", 2, 0), []),
    ("F", 3, [0], F_MOVES, ("none", 6, 0), []),
    ("G", 3, [1], [(1, 2), (2, 1)], ("none", 0, 0), []),
    ("H", 3, [1, 2], [(0, 1), (0, 2), (1, 0), (2, 0)],
     ("round", 3, 0, [], [0, 1]), [
        ("cut", 0, 1, ("round", 3, 0, [], [0, 2])),
        ("add", 0, 1, ("round", 0, 3, [], [0, 2])),
    ]),
    ("I", 3, [0, 1], F_MOVES, ("round", 5, 0, [0], [1, 2]), []),
]

# The same for moves from a state to itself, worked by hand.
SELF_GAMES = [
    ("self-alone", 1, [0], [(0, 0)], ("round", 2, 0, [], [0]), [
        ("cut", 0, 0, ("none", 0, 0)),
        ("cut", 0, 0, ("no", 10)),
        ("add", 0, 0, ("round", 2, 0, [], [0])),
        ("add", 0, 0, ("no", 8)),
        ("add", 0, 1, ("no", 6)),
        ("cut", 1, 1, ("no", 6)),
    ]),
    ("self-none", 1, [], [(0, 0)], ("none", 1, 0), [
        ("cut", 0, 0, ("none", 0, 0)),
        ("add", 0, 0, ("none", 1, 0)),
    ]),
    ("self-stem", 3, [2], [(0, 0), (0, 1), (1, 2), (2, 1)],
     ("round", 5, 0, [0], [1, 2]), [
        ("cut", 0, 0, ("round", 4, 0, [0], [1, 2])),
        ("add", 0, 0, ("round", 0, 4, [0], [1, 2])),
        ("cut", 2, 1, ("none", 1, 2)),
    ]),
    ("self-round", 3, [2], [(0, 1), (1, 1), (1, 2), (2, 0)],
     ("round", 5, 0, [], [0, 1, 2]), [
        ("cut", 1, 1, ("round", 3, 1, [], [0, 1, 2])),
        ("add", 2, 2, ("round", 3, 2, [], [0, 1, 2])),
        ("cut", 2, 0, ("round", 2, 2, [0, 1], [2])),
        ("add", 2, 0, ("round", 3, 2, [0, 1], [2])),
    ]),
    ("self-inner", 2, [0], [(0, 1), (1, 1), (1, 0)],
     ("round", 6, 0, [], [0, 1]), [
        ("cut", 1, 0, ("none", 3, 1)),
        ("add", 0, 0, ("round", 6, 0, [], [0])),
    ]),
    ("self-longer", 3, [0, 1], [(0, 0), (0, 1), (1, 2), (2, 1)],
     ("round", 6, 0, [0], [1, 2]), [
        ("cut", 2, 1, ("round", 2, 3, [], [0])),
        ("cut", 0, 0, ("none", 4, 0)),
        ("add", 2, 2, ("none", 4, 2)),
        ("add", 1, 1, ("round", 6, 1, [0], [1])),
    ]),
    ("self-newest", 3, [1, 2], [(0, 1), (0, 2), (1, 1), (2, 2)],
     ("round", 3, 0, [0], [1]), [
        ("cut", 0, 1, ("round", 3, 0, [0], [2])),
        ("add", 0, 1, ("round", 0, 3, [0], [2])),
        ("cut", 2, 2, ("round", 3, 1, [0], [1])),
        ("add", 2, 2, ("round", 2, 1, [0], [2])),
    ]),
    ("self-unmet", 2, [1], [(0, 0), (1, 1)], ("none", 1, 0), [
        ("cut", 1, 1, ("none", 0, 1)),
        ("add", 1, 1, ("none", 0, 1)),
        ("cut", 0, 0, ("none", 0, 0)),
        ("add", 0, 1, ("round", 3, 0, [0], [1])),
        ("add", 0, 0, ("round", 0, 3, [0], [1])),
        ("cut", 1, 1, ("none", 1, 1)),
    ]),
    ("self-moves", 3, [1], [(0, 1), (1, 1), (1, 2)],
     ("round", 4, 0, [0], [1]), [
        ("add", 1, 1, ("no", 8)),
        ("cut", 1, 1, ("none", 2, 1)),
        ("cut", 1, 1, ("no", 10)),
        ("add", 2, 2, ("none", 3, 2)),
        ("add", 1, 1, ("round", 6, 1, [0], [1])),
        ("add", 3, 3, ("no", 6)),
        ("cut", 3, 3, ("no", 6)),
        ("cut", 0, 0, ("no", 10)),
        ("add", 0, 0, ("round", 0, 7, [0], [1])),
        ("add", 0, 0, ("no", 8)),
        ("cut", 0, 1, ("none", 1, 0)),
        ("cut", 1, 1, ("none", 0, 1)),
        ("cut", 0, 0, ("none", 0, 0)),
    ]),
]

# The same for states whose pay is turned on and off, worked by hand. Such a call names one state.
MARK_GAMES = [
    # the state that makes Game A's round; then states of the stem and of the round, and one never met
    ("mark-a", 4, [2], [(0, 1), (1, 2)], ("none", 2, 0), [
        ("add", 2, 1, ("round", 2, 2, [0], [1, 2])),
        ("unmark", 2, ("none", 1, 2)),
        ("unmark", 2, ("no", 14)),
        ("mark", 2, ("round", 2, 2, [0], [1, 2])),
        ("mark", 2, ("no", 13)),
        ("mark", 0, ("round", 4, 0, [0], [1, 2])),
        ("unmark", 0, ("round", 4, 0, [0], [1, 2])),
        ("mark", 1, ("round", 3, 1, [0], [1, 2])),
        ("unmark", 2, ("round", 3, 2, [0], [1, 2])),
        ("mark", 4, ("no", 6)),
        ("unmark", 65535, ("no", 6)),
        ("mark", 3, ("round", 0, 5, [0], [1, 2])),
        ("unmark", 3, ("round", 0, 5, [0], [1, 2])),
    ]),
    # a state never met, and then a move to it
    ("mark-unmet", 3, [], [(0, 1), (2, 0)], ("none", 1, 0), [
        ("mark", 2, ("none", 0, 1)),
        ("add", 1, 2, ("round", 3, 1, [], [0, 1, 2])),
        ("unmark", 2, ("none", 1, 2)),
        ("cut", 1, 2, ("none", 0, 1)),
        ("unmark", 1, ("no", 14)),
        ("mark", 1, ("none", 0, 1)),            # met, but by the last look
        ("mark", 0, ("none", 2, 0)),
        ("unmark", 1, ("none", 1, 1)),
    ]),
    # the start state, alone and beside another
    ("mark-start", 2, [1], C_MOVES, ("round", 3, 0, [], [0, 1]), [
        ("mark", 0, ("round", 3, 0, [], [0, 1])),
        ("unmark", 1, ("round", 3, 1, [], [0, 1])),
        ("unmark", 0, ("none", 2, 0)),
        ("unmark", 0, ("no", 14)),
        ("mark", 0, ("round", 4, 0, [], [0, 1])),
        ("mark", 0, ("no", 13)),
        ("mark", 1, ("round", 2, 1, [], [0, 1])),
        ("mark", 2, ("no", 6)),
        ("unmark", 2, ("no", 6)),
    ]),
    # a state that had left the open path before the stop makes another round the first to be found
    ("mark-other", 3, [2], [(0, 1), (0, 2), (1, 0), (2, 0)], ("round", 5, 0, [], [0, 2]), [
        ("mark", 1, ("round", 2, 1, [], [0, 1])),
        ("unmark", 2, ("round", 0, 3, [], [0, 1])),
        ("unmark", 1, ("none", 3, 1)),
        ("mark", 2, ("round", 2, 3, [], [0, 2])),
        ("mark", 0, ("round", 5, 0, [], [0, 2])),
        ("unmark", 2, ("round", 3, 3, [], [0, 1])),
    ]),
    # states that had left it, and whose own inner search finds nothing
    ("mark-done", 4, [3], [(0, 1), (1, 2), (0, 3), (3, 2), (3, 0)], ("round", 7, 0, [], [0, 3]), [
        ("mark", 1, ("round", 7, 1, [], [0, 3])),
        ("mark", 2, ("round", 6, 2, [], [0, 3])),
        ("unmark", 1, ("round", 6, 1, [], [0, 3])),
        ("unmark", 3, ("none", 2, 3)),
        ("mark", 0, ("round", 10, 0, [], [0, 3])),
        ("unmark", 2, ("round", 8, 2, [], [0, 3])),
    ]),
    # the inner marks of one paying state spare looks to the next, and go with its mark
    ("mark-inner", 5, [1], [(0, 1), (1, 2), (2, 3), (0, 4), (4, 2), (4, 0)], ("none", 8, 0), [
        ("mark", 4, ("round", 4, 6, [], [0, 4])),
        ("unmark", 1, ("round", 8, 1, [], [0, 4])),
        ("mark", 3, ("round", 6, 3, [], [0, 4])),
        ("mark", 2, ("round", 7, 2, [], [0, 4])),
        ("unmark", 4, ("none", 2, 5)),
        ("unmark", 2, ("none", 4, 2)),
    ]),
    # stem and round; a mark between an add and a cut changes the round found
    ("mark-stem", 4, [3], [(0, 1), (1, 2), (2, 3), (3, 2)], ("round", 5, 0, [0, 1], [2, 3]), [
        ("mark", 1, ("round", 4, 1, [0, 1], [2, 3])),
        ("mark", 2, ("round", 3, 2, [0, 1], [2, 3])),
        ("mark", 0, ("round", 5, 0, [0, 1], [2, 3])),
        ("unmark", 3, ("round", 3, 3, [0, 1], [2, 3])),
        ("unmark", 2, ("none", 6, 2)),
        ("unmark", 1, ("none", 7, 1)),
        ("add", 3, 0, ("round", 7, 3, [], [0, 1, 2, 3])),
        ("mark", 2, ("round", 5, 2, [0, 1], [2, 3])),
        ("cut", 3, 2, ("round", 3, 3, [], [0, 1, 2, 3])),
        ("unmark", 0, ("round", 6, 0, [], [0, 1, 2, 3])),
        ("unmark", 2, ("none", 2, 2)),
    ]),
    # states with a move to themselves
    ("mark-self", 3, [], [(0, 1), (1, 1), (1, 2), (2, 2)], ("none", 4, 0), [
        ("mark", 1, ("round", 4, 1, [0], [1])),
        ("mark", 2, ("round", 2, 3, [0, 1], [2])),
        ("unmark", 1, ("round", 4, 1, [0, 1], [2])),
        ("cut", 2, 2, ("none", 0, 3)),
        ("unmark", 2, ("none", 0, 3)),
        ("mark", 2, ("none", 0, 3)),
        ("mark", 0, ("none", 6, 0)),
        ("add", 0, 0, ("round", 8, 0, [], [0])),
        ("mark", 3, ("no", 6)),
    ]),
    # a game's only state; without its move nothing is spent and nothing kept
    ("mark-alone", 1, [], [(0, 0)], ("none", 1, 0), [
        ("mark", 0, ("round", 2, 0, [], [0])),
        ("mark", 0, ("no", 13)),
        ("cut", 0, 0, ("none", 0, 0)),
        ("unmark", 0, ("none", 0, 0)),
        ("unmark", 0, ("no", 14)),
        ("mark", 0, ("none", 0, 0)),
        ("mark", 1, ("no", 6)),
        ("unmark", 1, ("no", 6)),
        ("add", 0, 0, ("round", 2, 0, [], [0])),
        ("unmark", 0, ("none", 1, 0)),
    ]),
    # the last states of one word and the first of the next; two paying states of one word
    ("mark-words", 66, [62, 63], [(0, 63), (63, 64), (64, 63), (0, 62), (62, 0)], ("round", 5, 0, [0], [63, 64]), [
        ("mark", 64, ("round", 2, 2, [0], [63, 64])),
        ("unmark", 63, ("round", 3, 1, [0], [63, 64])),
        ("unmark", 64, ("round", 4, 2, [], [0, 62])),
        ("unmark", 63, ("no", 14)),
        ("mark", 62, ("no", 13)),
        ("unmark", 62, ("none", 1, 4)),
        ("mark", 63, ("round", 4, 1, [0], [63, 64])),
        ("mark", 62, ("round", 0, 5, [0], [63, 64])),
        ("mark", 0, ("round", 5, 0, [0], [63, 64])),
        ("mark", 65, ("round", 0, 5, [0], [63, 64])),
        ("mark", 66, ("no", 6)),
        ("unmark", 127, ("no", 6)),
        ("unmark", 63, ("round", 5, 1, [], [0, 62])),
        ("unmark", 62, ("round", 6, 4, [], [0, 62])),
        ("unmark", 0, ("none", 5, 0)),
        ("unmark", 65, ("none", 0, 5)),
    ]),
    # marks among moves that come and go
    ("mark-moves", 4, [], [(0, 1), (1, 2)], ("none", 2, 0), [
        ("add", 2, 3, ("none", 1, 2)),
        ("mark", 2, ("none", 2, 2)),
        ("add", 3, 1, ("round", 3, 3, [0], [1, 2, 3])),
        ("mark", 3, ("round", 2, 3, [0], [1, 2, 3])),
        ("cut", 2, 3, ("none", 0, 2)),
        ("unmark", 3, ("none", 0, 2)),
        ("add", 2, 3, ("round", 4, 2, [0], [1, 2, 3])),
        ("cut", 0, 1, ("none", 0, 0)),
        ("unmark", 2, ("none", 0, 0)),
        ("mark", 1, ("none", 0, 0)),
        ("add", 0, 1, ("round", 7, 0, [0], [1, 2, 3])),
    ]),
]

# The same for moves that the run before had not come to, worked by hand.
UNREACHED_GAMES = [
    # moves before, at and behind the one that leads along the stem, of two states
    ("unreached-behind", 5, [3], [(0, 4), (0, 1), (0, 2), (1, 4), (1, 3), (1, 2), (3, 1), (2, 0)],
     ("round", 6, 0, [0], [1, 3]), [
        ("cut", 0, 2, ("round", 0, 6, [0], [1, 3])),
        ("cut", 1, 2, ("round", 0, 6, [0], [1, 3])),
        ("cut", 2, 0, ("round", 0, 6, [0], [1, 3])),        # of a state never met
        ("add", 1, 2, ("round", 0, 6, [0], [1, 3])),
        ("add", 0, 2, ("round", 0, 6, [0], [1, 3])),
        ("add", 0, 2, ("no", 8)),
        ("cut", 2, 0, ("no", 10)),
        ("cut", 1, 4, ("round", 3, 2, [0], [1, 3])),        # before
        ("cut", 1, 3, ("none", 2, 2)),                      # at
        ("add", 1, 3, ("round", 4, 2, [0], [1, 3])),        # now 1 2 stands before it
        ("cut", 0, 2, ("round", 0, 6, [0], [1, 3])),
        ("cut", 0, 4, ("round", 5, 0, [0], [1, 3])),
        ("cut", 0, 1, ("none", 0, 0)),
    ]),
    # the paying state at the end of the open path has finished; so has a state without moves that was met
    ("unreached-tip", 4, [2], [(0, 1), (1, 2), (2, 1)], ("round", 4, 0, [0], [1, 2]), [
        ("add", 2, 3, ("round", 3, 2, [0], [1, 2])),
        ("add", 3, 0, ("round", 2, 4, [0], [1, 2])),
        ("add", 2, 0, ("round", 5, 2, [0], [1, 2])),
        ("cut", 2, 1, ("round", 5, 2, [], [0, 1, 2, 3])),
        ("add", 2, 1, ("round", 6, 2, [], [0, 1, 2, 3])),
        ("cut", 3, 0, ("round", 4, 3, [], [0, 1, 2])),
        ("cut", 2, 3, ("round", 3, 2, [], [0, 1, 2])),
        ("cut", 2, 0, ("round", 2, 2, [0], [1, 2])),
    ]),
    # an added move of that state makes another round; the state is then one whose last move leads along the open path
    ("unreached-new-tip", 4, [2, 3], [(0, 1), (1, 2), (2, 1), (3, 0)], ("round", 4, 0, [0], [1, 2]), [
        ("cut", 3, 0, ("round", 0, 4, [0], [1, 2])),
        ("add", 3, 0, ("round", 0, 4, [0], [1, 2])),
        ("add", 2, 3, ("round", 4, 2, [], [0, 1, 2, 3])),
        ("add", 2, 0, ("round", 0, 6, [], [0, 1, 2, 3])),
        ("add", 2, 2, ("round", 0, 6, [], [0, 1, 2, 3])),
        ("cut", 2, 2, ("round", 0, 6, [], [0, 1, 2, 3])),
        ("cut", 2, 0, ("round", 0, 6, [], [0, 1, 2, 3])),
        ("add", 3, 1, ("round", 3, 4, [], [0, 1, 2, 3])),
        ("cut", 3, 0, ("round", 2, 4, [0], [1, 2, 3])),
        ("cut", 2, 3, ("round", 2, 2, [0], [1, 2])),
    ]),
    # the paying state with a move to itself
    ("unreached-self", 3, [1], [(0, 1), (1, 1), (0, 2)], ("round", 3, 0, [0], [1]), [
        ("cut", 0, 2, ("round", 0, 3, [0], [1])),
        ("add", 0, 0, ("round", 0, 3, [0], [1])),
        ("add", 1, 2, ("round", 3, 1, [0], [1])),
        ("add", 1, 0, ("round", 4, 1, [0], [1])),
        ("cut", 1, 1, ("round", 4, 1, [], [0, 1])),
        ("add", 1, 1, ("round", 5, 1, [], [0, 1])),
        ("add", 2, 2, ("round", 6, 2, [], [0, 1])),         # of a state that has left the open path
        ("cut", 0, 0, ("round", 0, 8, [], [0, 1])),
        ("cut", 1, 1, ("round", 6, 1, [], [0, 1])),         # no inner look, but an outer one
    ]),
    # the start state is the one that pays, alone on the open path, and then is not
    ("unreached-start", 2, [0], [(0, 0)], ("round", 2, 0, [], [0]), [
        ("add", 0, 1, ("round", 3, 0, [], [0])),
        ("add", 1, 0, ("round", 2, 2, [], [0])),
        ("add", 1, 1, ("round", 3, 2, [], [0])),
        ("mark", 1, ("round", 3, 2, [], [0, 1])),
        ("cut", 0, 0, ("round", 4, 0, [], [0, 1])),
        ("add", 0, 0, ("round", 0, 4, [], [0, 1])),         # its only move leads along the open path
        ("cut", 0, 0, ("round", 0, 4, [], [0, 1])),
        ("unmark", 1, ("round", 4, 1, [], [0, 1])),
        ("add", 0, 0, ("round", 6, 0, [], [0, 1])),
    ]),
    # with no round every state that was met has finished, and all its moves were looked at
    ("unreached-none", 4, [1], [(0, 1), (1, 2), (3, 0)], ("none", 3, 0), [
        ("add", 0, 2, ("none", 4, 0)),
        ("add", 2, 2, ("none", 4, 2)),
        ("cut", 3, 0, ("none", 0, 6)),
        ("add", 3, 3, ("none", 0, 6)),
        ("cut", 0, 2, ("none", 5, 0)),
        ("cut", 2, 2, ("none", 1, 2)),
        ("add", 2, 1, ("round", 3, 2, [0], [1, 2])),
        ("add", 0, 3, ("round", 0, 5, [0], [1, 2])),
        ("cut", 1, 2, ("none", 2, 1)),
        ("add", 1, 2, ("round", 4, 1, [0], [1, 2])),
        ("cut", 0, 3, ("round", 0, 5, [0], [1, 2])),
    ]),
    # states that have left the open path, with moves and without; one of them comes to lie on the walk
    ("unreached-left", 5, [3], [(0, 1), (1, 2), (0, 3), (3, 0), (0, 4)], ("round", 5, 0, [], [0, 3]), [
        ("add", 0, 2, ("round", 0, 5, [], [0, 3])),
        ("add", 4, 0, ("round", 0, 5, [], [0, 3])),
        ("add", 2, 4, ("round", 5, 2, [], [0, 3])),
        ("add", 1, 3, ("round", 6, 1, [], [0, 1, 3])),
        ("cut", 0, 3, ("round", 0, 7, [], [0, 1, 3])),      # looked at by the run before the last
        ("add", 1, 4, ("round", 0, 7, [], [0, 1, 3])),
        ("cut", 2, 4, ("round", 3, 2, [], [0, 1, 3])),
        ("cut", 1, 4, ("round", 0, 5, [], [0, 1, 3])),
        ("add", 2, 1, ("round", 4, 2, [], [0, 1, 3])),
        ("cut", 1, 3, ("none", 5, 1)),
        ("cut", 3, 0, ("none", 0, 6)),
    ]),
    # one after another, and then one that matters
    ("unreached-again", 6, [4], [(0, 1), (1, 2), (2, 3), (3, 4), (4, 2)], ("round", 6, 0, [0, 1], [2, 3, 4]), [
        ("add", 3, 5, ("round", 0, 6, [0, 1], [2, 3, 4])),
        ("add", 2, 5, ("round", 0, 6, [0, 1], [2, 3, 4])),
        ("add", 1, 5, ("round", 0, 6, [0, 1], [2, 3, 4])),
        ("add", 0, 5, ("round", 0, 6, [0, 1], [2, 3, 4])),
        ("add", 0, 4, ("round", 0, 6, [0, 1], [2, 3, 4])),
        ("cut", 1, 5, ("round", 0, 6, [0, 1], [2, 3, 4])),
        ("add", 1, 5, ("round", 0, 6, [0, 1], [2, 3, 4])),
        ("add", 5, 4, ("round", 0, 6, [0, 1], [2, 3, 4])),
        ("cut", 2, 3, ("round", 4, 2, [0, 1], [2, 5, 4])),
        ("cut", 3, 5, ("round", 0, 6, [0, 1], [2, 5, 4])),
        ("cut", 1, 5, ("round", 0, 6, [0, 1], [2, 5, 4])),
        ("add", 2, 3, ("round", 0, 6, [0, 1], [2, 5, 4])),
        ("cut", 2, 5, ("round", 4, 2, [0, 1], [2, 3, 4])),
        ("cut", 0, 1, ("round", 8, 0, [0, 5], [4, 2, 3])),
        ("add", 5, 0, ("round", 0, 8, [0, 5], [4, 2, 3])),
        ("cut", 0, 4, ("round", 0, 8, [0, 5], [4, 2, 3])),
        ("add", 2, 0, ("round", 6, 3, [0, 5], [4, 2, 3])),  # on the round, but by the inner search: it has finished
        ("cut", 2, 0, ("round", 5, 3, [0, 5], [4, 2, 3])),
    ]),
    # marks of states that have not finished are counted as before
    ("unreached-marks", 4, [3], [(0, 1), (1, 2), (2, 3), (3, 2), (1, 3)], ("round", 5, 0, [0, 1], [2, 3]), [
        ("mark", 1, ("round", 4, 1, [0, 1], [2, 3])),
        ("add", 1, 0, ("round", 0, 5, [0, 1], [2, 3])),
        ("unmark", 1, ("round", 4, 1, [0, 1], [2, 3])),
        ("mark", 0, ("round", 5, 0, [0, 1], [2, 3])),
        ("cut", 1, 3, ("round", 0, 5, [0, 1], [2, 3])),
        ("mark", 2, ("round", 3, 2, [0, 1], [2, 3])),
        ("unmark", 3, ("round", 3, 3, [0, 1], [2, 3])),
        ("add", 2, 0, ("round", 5, 2, [0, 1], [2, 3])),
        ("unmark", 0, ("round", 7, 0, [0, 1], [2, 3])),
        ("add", 3, 3, ("round", 5, 3, [0, 1], [2, 3])),
        ("add", 0, 2, ("round", 0, 8, [0, 1], [2, 3])),
        ("unmark", 2, ("none", 6, 2)),
        ("mark", 0, ("round", 14, 0, [], [0, 1, 2])),
        ("add", 0, 3, ("round", 15, 0, [], [0, 1, 2])),
        ("add", 3, 0, ("round", 13, 3, [], [0, 1, 2, 3])),
        ("cut", 1, 0, ("round", 14, 1, [], [0, 1, 2, 3])),
    ]),
    # refused changes between
    ("unreached-refused", 3, [2], [(0, 1), (1, 2), (2, 0), (1, 0)], ("round", 4, 0, [], [0, 1, 2]), [
        ("cut", 1, 1, ("no", 10)),
        ("add", 1, 0, ("no", 8)),
        ("cut", 1, 0, ("round", 0, 4, [], [0, 1, 2])),
        ("cut", 1, 0, ("no", 10)),
        ("mark", 2, ("no", 13)),
        ("unmark", 1, ("no", 14)),
        ("add", 1, 3, ("no", 6)),
        ("cut", 3, 3, ("no", 6)),
        ("add", 1, 1, ("round", 0, 4, [], [0, 1, 2])),
        ("add", 1, 1, ("no", 8)),
        ("mark", 3, ("no", 6)),
        ("add", 1, 0, ("round", 0, 4, [], [0, 1, 2])),
        ("cut", 2, 0, ("none", 2, 2)),
        ("add", 2, 0, ("round", 2, 2, [], [0, 1, 2])),
        ("cut", 1, 1, ("round", 0, 4, [], [0, 1, 2])),
    ]),
    # whole branches before the move that leads along the stem; then the walk leads through one of them
    ("unreached-branch", 7, [6], [(0, 1), (1, 2), (2, 1), (0, 3), (3, 4), (3, 6), (6, 3), (4, 2), (5, 0), (3, 5), (0, 5)],
     ("round", 9, 0, [0], [3, 6]), [
        ("cut", 2, 1, ("round", 6, 2, [0], [3, 6])),
        ("add", 2, 5, ("round", 8, 2, [0], [3, 6])),
        ("cut", 3, 5, ("round", 0, 10, [0], [3, 6])),
        ("cut", 0, 5, ("round", 0, 10, [0], [3, 6])),
        ("add", 5, 6, ("round", 9, 3, [0, 1], [2, 5, 6, 3, 4])),
        ("add", 3, 0, ("round", 7, 6, [0, 1], [2, 5, 6, 3, 4])),
        ("add", 5, 1, ("round", 0, 13, [0, 1], [2, 5, 6, 3, 4])),
        ("cut", 0, 3, ("round", 0, 13, [0, 1], [2, 5, 6, 3, 4])),
        ("cut", 2, 5, ("none", 0, 2)),                      # looked at, and yet nothing is spent
        ("add", 0, 3, ("round", 8, 0, [0], [3, 6])),
    ]),
    # states never met, then met, then never met again
    ("unreached-unmet", 4, [1, 3], [(0, 1), (1, 0), (2, 3)], ("round", 3, 0, [], [0, 1]), [
        ("add", 3, 2, ("round", 0, 3, [], [0, 1])),
        ("add", 2, 2, ("round", 0, 3, [], [0, 1])),
        ("cut", 2, 3, ("round", 0, 3, [], [0, 1])),
        ("add", 2, 3, ("round", 0, 3, [], [0, 1])),
        ("mark", 2, ("round", 0, 3, [], [0, 1])),
        ("unmark", 2, ("round", 0, 3, [], [0, 1])),
        ("add", 0, 2, ("round", 0, 3, [], [0, 1])),
        ("cut", 1, 0, ("round", 5, 1, [0], [2, 3])),
        ("add", 1, 0, ("round", 2, 1, [], [0, 1])),
        ("cut", 3, 2, ("round", 0, 3, [], [0, 1])),
        ("cut", 0, 2, ("round", 0, 3, [], [0, 1])),
        ("cut", 0, 1, ("none", 0, 0)),
        ("add", 0, 1, ("round", 3, 0, [], [0, 1])),
    ]),
    # a last move to a state that was met before, not completed; a last move that met its target
    ("unreached-last", 5, [3], [(0, 1), (1, 2), (2, 1), (1, 3), (3, 1)], ("round", 6, 0, [0], [1, 3]), [
        ("add", 2, 0, ("round", 5, 2, [0], [1, 3])),
        ("add", 1, 0, ("round", 0, 7, [0], [1, 3])),
        ("add", 0, 0, ("round", 0, 7, [0], [1, 3])),
        ("cut", 1, 3, ("none", 5, 1)),
        ("add", 1, 3, ("round", 7, 1, [0], [1, 3])),
        ("cut", 1, 0, ("round", 6, 1, [0], [1, 3])),
        ("cut", 0, 0, ("round", 0, 7, [0], [1, 3])),
        ("add", 3, 4, ("round", 3, 5, [0], [1, 3])),
        ("add", 4, 4, ("round", 2, 7, [0], [1, 3])),
        ("cut", 4, 4, ("round", 1, 7, [0], [1, 3])),
    ]),
]

# The same for batches, worked by hand. A batch's call has a list of changes; a text in it stands for a line that is no
# change, with spaces for tabs. ("line", text, answer) is such a line outside a batch: it makes no call.
BACK_1 = [("add", 1, 1), ("cut", 1, 1)]
BACK_0 = [("add", 0, 0), ("cut", 0, 0)]
FULL_MOVES = [(a, b) for a in range(32, 64) for b in range(64)]       # 2,048; none leaves the start state
BATCH_GAMES = [
    # one with no change keeps every look: with none and with a round
    ("batch-empty", 4, [2], [(0, 1), (1, 2)], ("none", 2, 0), [
        ("batch", [], ("none", 0, 2)),
        ("batch", [], ("none", 0, 2)),
        ("add", 2, 1, ("round", 2, 2, [0], [1, 2])),
        ("batch", [], ("round", 0, 4, [0], [1, 2])),
        ("add", 2, 3, ("round", 3, 2, [0], [1, 2])),
        ("batch", [], ("round", 0, 5, [0], [1, 2])),
        ("cut", 1, 2, ("none", 0, 1)),
        ("batch", [], ("none", 0, 1)),
    ]),
    ("batch-alone", 1, [], [], ("none", 0, 0), [
        ("batch", [], ("none", 0, 0)),
        ("batch", [("mark", 0), ("add", 0, 0)], ("round", 2, 0, [], [0])),
        ("batch", [], ("round", 0, 2, [], [0])),
        ("batch", [("unmark", 0), ("cut", 0, 0), ("add", 0, 0), ("mark", 0), ("cut", 0, 0)], ("none", 0, 0)),
        ("batch", [("cut", 0, 1)], ("no", 6, 1)),
    ]),
    # Game A in batches of one
    ("batch-a", 4, [2], [(0, 1), (1, 2)], ("none", 2, 0), [
        ("batch", [("add", 2, 1)], ("round", 2, 2, [0], [1, 2])),
        ("batch", [("add", 2, 3)], ("round", 3, 2, [0], [1, 2])),
        ("batch", [("cut", 1, 2)], ("none", 0, 1)),
        ("batch", [("cut", 1, 2)], ("no", 10, 1)),
        ("batch", [("add", 2, 0)], ("none", 0, 1)),
    ]),
    # none of the moves had been come to; with one change that had, the others count too
    ("batch-spared", 5, [3], [(0, 4), (0, 1), (0, 2), (1, 4), (1, 3), (1, 2), (3, 1), (2, 0)],
     ("round", 6, 0, [0], [1, 3]), [
        ("batch", [("cut", 0, 2), ("cut", 1, 2), ("add", 1, 0), ("add", 0, 3), ("cut", 2, 0), ("add", 2, 2), ("mark", 2)],
         ("round", 0, 6, [0], [1, 3])),
        ("batch", [("cut", 1, 0), ("add", 1, 0)], ("round", 0, 6, [0], [1, 3])),
        ("batch", [("mark", 4)], ("round", 5, 1, [0], [1, 3])),
        ("batch", [("cut", 0, 3), ("cut", 1, 4)], ("round", 5, 0, [0], [1, 3])),    # 1 4 alone would keep two
        ("batch", [("add", 1, 2), ("add", 3, 3)], ("round", 4, 2, [0], [1, 3])),    # 3 3 alone would keep three
        ("batch", [("cut", 1, 2), ("cut", 1, 0)], ("round", 0, 6, [0], [1, 3])),
    ]),
    # marks of states never met, beside moves of such states, and beside a mark of one that was met
    ("batch-unmet", 5, [1], [(0, 1), (1, 0), (2, 3), (3, 4)], ("round", 3, 0, [], [0, 1]), [
        ("batch", [("mark", 2), ("mark", 3), ("unmark", 2)], ("round", 0, 3, [], [0, 1])),
        ("batch", [("mark", 4), ("unmark", 3), ("add", 3, 3), ("cut", 2, 3)], ("round", 0, 3, [], [0, 1])),
        ("batch", [("mark", 2), ("mark", 0)], ("round", 3, 0, [], [0, 1])),
        ("batch", [("unmark", 2), ("unmark", 1)], ("round", 3, 1, [], [0, 1])),
        ("batch", [("unmark", 0), ("mark", 2), ("cut", 1, 0)], ("none", 1, 0)),
        ("batch", [("mark", 3), ("unmark", 4), ("add", 4, 4)], ("none", 0, 1)),
        ("batch", [("mark", 1), ("add", 4, 1)], ("none", 0, 1)),                    # 1 is met by the last look
        ("batch", [("add", 1, 4), ("mark", 4)], ("round", 4, 1, [0, 1], [4])),
        ("batch", [("mark", 0), ("unmark", 0)], ("round", 5, 0, [0, 1], [4])),
    ]),
    # of all sorts; the round found changes
    ("batch-mixed", 3, [1, 2], [(0, 1), (0, 2), (1, 0), (2, 0)], ("round", 3, 0, [], [0, 1]), [
        ("batch", [("cut", 0, 1), ("add", 0, 1)], ("round", 3, 0, [], [0, 2])),
        ("batch", [("add", 2, 2), ("cut", 0, 1)], ("round", 4, 0, [], [0, 2])),
        ("batch", [("unmark", 2), ("mark", 0)], ("round", 5, 0, [], [0, 2])),
        ("batch", [("mark", 2), ("cut", 2, 0), ("add", 2, 1)], ("round", 4, 1, [], [0, 2, 1])),
        ("batch", [("unmark", 1), ("add", 0, 1), ("cut", 1, 0)], ("round", 4, 0, [0], [2])),
    ]),
    # a refused one does nothing; the changes behind it find the table as it was
    ("batch-refused", 4, [3], [(0, 1), (1, 2), (2, 3), (3, 2)], ("round", 5, 0, [0, 1], [2, 3]), [
        ("batch", [("cut", 2, 3), ("unmark", 3), ("cut", 2, 3), ("add", 0, 0)], ("no", 10, 3)),
        ("cut", 2, 3, ("none", 0, 2)),
        ("mark", 3, ("no", 13)),
        ("batch", [("add", 2, 3), ("mark", 3)], ("no", 13, 2)),
        ("add", 2, 3, ("round", 3, 2, [0, 1], [2, 3])),
        ("batch", [("add", 0, 4)], ("no", 6, 1)),
        ("batch", [("add", 0, 3), ("add", 0, 3)], ("no", 8, 2)),
        ("batch", [("mark", 0), ("unmark", 0), ("unmark", 0), ("mark", 9)], ("no", 14, 3)),
        ("batch", [("add", 0, 3), ("cut", 0, 3), ("cut", 0, 3), "x"], ("no", 10, 3)),
        ("batch", [("add", 0, 3), ("unmark", 4)], ("no", 6, 2)),
        ("batch", [], ("round", 0, 5, [0, 1], [2, 3])),
        ("batch", [("add", 0, 3), ("mark", 1), ("cut", 0, 3), "", ("mark", 1)], ("no", 1, 4)),
        ("mark", 1, ("round", 4, 1, [0, 1], [2, 3])),
        ("add", 0, 3, ("round", 0, 5, [0, 1], [2, 3])),
        ("batch", [("cut", 0, 3)], ("round", 0, 5, [0, 1], [2, 3])),
    ]),
    # nor does a refused one change the order of the moves
    ("batch-order", 3, [1, 2], [(0, 1), (0, 2), (1, 0), (2, 0)], ("round", 3, 0, [], [0, 1]), [
        ("batch", [("cut", 0, 1), ("add", 0, 1), ("add", 0, 1)], ("no", 8, 3)),
        ("mark", 0, ("round", 3, 0, [], [0, 1])),
        ("batch", [("cut", 0, 1), "x"], ("no", 1, 2)),
        ("unmark", 0, ("round", 3, 0, [], [0, 1])),
        ("batch", [("cut", 0, 1), ("add", 0, 1)], ("round", 3, 0, [], [0, 2])),
        ("batch", [("cut", 0, 2), ("add", 0, 2), ("cut", 0, 2), ("cut", 0, 2)], ("no", 10, 4)),
        ("batch", [("mark", 0), ("unmark", 0)], ("round", 3, 0, [], [0, 2])),
    ]),
    # there and back: at states of the stem, at the paying state and at one without moves, which have finished
    ("batch-back", 4, [2], [(0, 1), (1, 2), (2, 1), (0, 3)], ("round", 4, 0, [0], [1, 2]), [
        ("batch", [("add", 0, 2), ("cut", 0, 2)], ("round", 0, 4, [0], [1, 2])),
        ("batch", [("cut", 0, 3), ("add", 0, 3)], ("round", 0, 4, [0], [1, 2])),
        ("batch", [("cut", 0, 1), ("add", 0, 1)], ("round", 5, 0, [0], [1, 2])),    # newest now
        ("batch", [("add", 2, 3), ("cut", 2, 3)], ("round", 2, 3, [0], [1, 2])),
        ("batch", [("cut", 2, 1), ("add", 2, 1)], ("round", 2, 3, [0], [1, 2])),
        ("batch", [("add", 3, 0), ("cut", 3, 0)], ("round", 4, 1, [0], [1, 2])),
        ("batch", [("cut", 1, 2), ("add", 1, 2)], ("round", 3, 2, [0], [1, 2])),
        ("batch", [("add", 1, 0), ("cut", 1, 0)], ("round", 0, 5, [0], [1, 2])),
        ("batch", [("unmark", 2), ("mark", 2)], ("round", 2, 3, [0], [1, 2])),
        ("batch", [("add", 1, 0), ("add", 1, 0)], ("no", 8, 2)),
        ("batch", [("cut", 1, 2), ("cut", 1, 2)], ("no", 10, 2)),
        ("cut", 2, 1, ("none", 0, 3)),
        ("batch", [("add", 2, 1), ("cut", 2, 1)], ("none", 0, 3)),
        ("batch", [("add", 0, 0), ("cut", 0, 0)], ("none", 3, 0)),
        ("batch", [("mark", 0), ("unmark", 0)], ("none", 3, 0)),
        ("batch", [("mark", 3), ("unmark", 3)], ("none", 2, 1)),
    ]),
    # 63, 64, 65 and more lines
    ("batch-64", 2, [1], C_MOVES, ("round", 3, 0, [], [0, 1]), [
        ("batch", BACK_1 * 32, ("round", 2, 1, [], [0, 1])),
        ("batch", BACK_0 * 32, ("round", 0, 3, [], [0, 1])),
        ("batch", BACK_0 * 31 + BACK_1, ("round", 3, 0, [], [0, 1])),
        ("batch", BACK_1 * 32 + [("add", 1, 1)], ("no", 15, 65)),
        ("batch", BACK_1 * 32 + [("add", 1, 0)], ("no", 15, 65)),
        ("batch", BACK_1 * 32 + [("cut", 2, 65535)], ("no", 15, 65)),
        ("batch", BACK_1 * 32 + [("mark", 1), "x"], ("no", 15, 65)),
        ("batch", BACK_1 * 32 + ["x"], ("no", 1, 65)),
        ("batch", BACK_1 * 32 + ["begin", ("unmark", 0)], ("no", 1, 65)),
        ("batch", BACK_1 * 31 + [("add", 1, 1), ("add", 1, 1)], ("no", 8, 64)),
        ("batch", BACK_1 * 31 + [("add", 1, 1), ("add", 1, 1)] + ["x"] * 6, ("no", 8, 64)),
        ("batch", BACK_1 * 31 + [("add", 1, 1), "x", ("add", 1, 1)], ("no", 1, 64)),
        ("batch", BACK_1 * 31 + ["add 1"] + BACK_1 * 3, ("no", 1, 63)),
        ("batch", ["add 1"] + BACK_1 * 34, ("no", 1, 1)),
        ("batch", BACK_1 * 35, ("no", 15, 65)),
        ("batch", [], ("round", 0, 3, [], [0, 1])),
        ("batch", BACK_1 * 31 + [("add", 1, 1)], ("round", 3, 1, [], [0, 1])),
        ("batch", BACK_1[::-1] * 32, ("round", 3, 1, [], [0, 1])),
        ("batch", [("unmark", 1), ("mark", 1)] * 31 + [("unmark", 1), ("cut", 1, 1)], ("none", 1, 1)),
    ]),
    # one after another
    ("batch-again", 5, [4], [(0, 1), (1, 2)], ("none", 2, 0), [
        ("batch", [("add", 2, 3), ("add", 3, 4), ("add", 4, 2)], ("round", 4, 2, [0, 1], [2, 3, 4])),
        ("batch", [("add", 0, 2), ("add", 1, 3), ("add", 3, 2)], ("round", 0, 6, [0, 1], [2, 3, 4])),
        ("batch", [("cut", 1, 2), ("unmark", 4), ("mark", 3)], ("round", 8, 1, [0, 1], [3, 4, 2])),
        ("batch", [("cut", 0, 2), ("add", 1, 0), ("add", 0, 4)], ("round", 0, 9, [0, 1], [3, 4, 2])),
        ("batch", [("cut", 3, 4), ("cut", 3, 2), ("mark", 0)], ("round", 9, 0, [], [0, 1])),
        ("batch", [], ("round", 0, 9, [], [0, 1])),
        ("batch", [("unmark", 0), ("unmark", 3)], ("none", 6, 0)),
        ("batch", [("mark", 3), ("mark", 2)], ("none", 5, 2)),
    ]),
    # words out of place, and lines inside that are no change
    ("batch-lines", 2, [1], C_MOVES, ("round", 3, 0, [], [0, 1]), [
        ("line", "end", ("no", 1)),
        ("line", "begin 1", ("no", 1)),
        ("add", 0, 0, ("round", 0, 3, [], [0, 1])),
        ("line", "end", ("no", 1)),
        ("batch", ["begin"], ("no", 1, 1)),
        ("batch", [("cut", 0, 0), "begin", ("cut", 0, 0)], ("no", 1, 2)),
        ("line", "end", ("no", 1)),
        ("line", "", ("no", 1)),
        ("cut", 0, 0, ("round", 0, 3, [], [0, 1])),
        ("batch", ["end "], ("no", 1, 1)),
        ("batch", ["end 1"], ("no", 1, 1)),
        ("batch", [("add", 0, 0), ("cut", 0, 0), "END"], ("no", 1, 3)),
        ("batch", [("add", 0, 0), "go"], ("no", 1, 2)),
        ("batch", ["game 2 0"], ("no", 1, 1)),
        ("batch", ["pay 0"], ("no", 1, 1)),
        ("batch", ["move 0 0"], ("no", 1, 1)),
        ("batch", [""], ("no", 1, 1)),
        ("batch", ["", ""], ("no", 1, 1)),
        ("batch", [("mark", 0), "x" * 33, ("mark", 0)], ("no", 1, 2)),
        ("batch", [("mark", 0), ("unmark", 0), "mark 0 1 1"], ("no", 1, 3)),
        ("batch", ["add 0", ("add", 0, 2)], ("no", 1, 1)),
        ("batch", [("add", 0, 65535), "add 0 65536"], ("no", 6, 1)),
        ("batch", ["ways 0"], ("no", 1, 1)),
        ("batch", ["kinds 1"], ("no", 1, 1)),
        ("batch", [], ("round", 0, 3, [], [0, 1])),
    ]),
    # a full table: a cut makes room for one add
    ("batch-full", 64, [0, 1], FULL_MOVES, ("none", 0, 0), [
        ("batch", [("add", 0, 1)], ("no", 9, 1)),
        ("batch", [("add", 32, 0)], ("no", 8, 1)),
        ("batch", [("cut", 32, 0), ("add", 0, 1), ("add", 0, 2)], ("no", 9, 3)),
        ("batch", [("cut", 32, 0), ("add", 32, 0), ("add", 0, 1)], ("no", 9, 3)),
        ("batch", [("cut", 32, 0), ("add", 0, 1), ("add", 0, 1)], ("no", 8, 3)),
        ("batch", [("cut", 32, 0), ("add", 0, 1), ("add", 0, 64)], ("no", 6, 3)),
        ("batch", [("cut", 0, 1), ("add", 0, 1)], ("no", 10, 1)),
        ("batch", [("cut", 32, 0), ("add", 32, 0)], ("none", 0, 0)),
        ("batch", [("cut", 32, 0), ("add", 0, 1), ("cut", 32, 1), ("add", 1, 0)], ("round", 3, 0, [], [0, 1])),
        ("add", 0, 2, ("no", 9)),
        ("batch", [("add", 0, 2)], ("no", 9, 1)),
        ("batch", [("cut", 33, 0), ("add", 0, 33), ("cut", 33, 1), ("add", 33, 0)], ("round", 0, 3, [], [0, 1])),
        ("batch", [("cut", 1, 0), ("cut", 0, 33)], ("none", 2, 0)),
        ("batch", [("add", 0, 2), ("add", 1, 0), ("add", 0, 3)], ("no", 9, 3)),
        ("batch", [("add", 0, 2), ("add", 1, 0)], ("round", 3, 0, [], [0, 1])),
    ]),
]

SINGLES = GAMES + SELF_GAMES + MARK_GAMES + UNREACHED_GAMES


def asked(*counts):
    """Questions with their answers: of each the state, how many moves leave it and how many enter it."""
    return [("ways", state, ("ways", state, leaving, entering)) for state, leaving, entering in counts]


def outside(*states):
    """Questions about states that the game has not."""
    return [("ways", state, ("no", 6)) for state in states]


# A hub, the start state, with a move to each of 512 states and one from each; the others in a ring, each with a move to the
# next and one to the next but one; and three of these with a move to themselves: 2,048. As long as no state pays, the
# search looks at each move once. It meets state s of the ring after 2s looks: at the hub's own move and at its next, then
# along the ring at the move to the hub and at the one to the next.
HUB_MOVES = [(0, s) for s in range(512)] + [(s, 0) for s in range(1, 512)]
HUB_MOVES += [(s, s % 511 + 1) for s in range(1, 512)] + [(s, (s + 1) % 511 + 1) for s in range(1, 512)]
HUB_MOVES += [(1, 1), (300, 300), (511, 511)]
TO_HUB = [(s, 0) for s in range(1, 65)]
# The same for questions, worked by hand. Such a call names one state.
WAYS_GAMES = [
    # Game A, with questions before and behind each of its lines
    ("ways-a", 4, [2], [(0, 1), (1, 2)], ("none", 2, 0), [
        *asked((0, 1, 0), (1, 1, 1), (2, 0, 1), (3, 0, 0)),
        ("add", 2, 1, ("round", 2, 2, [0], [1, 2])),
        *asked((2, 1, 1), (1, 1, 2), (0, 1, 0), (3, 0, 0)),
        ("add", 2, 3, ("round", 3, 2, [0], [1, 2])),
        *asked((2, 2, 1), (3, 0, 1), (1, 1, 2)),
        ("cut", 1, 2, ("none", 0, 1)),
        *asked((1, 0, 2), (2, 2, 0)),
        ("cut", 1, 2, ("no", 10)),
        *asked((1, 0, 2), (2, 2, 0)),
        ("add", 2, 0, ("none", 0, 1)),
        *asked((2, 3, 0), (0, 1, 1), (1, 0, 2), (3, 0, 1)),
        *outside(4, 5, 65535),
    ]),
    # a game's only state
    ("ways-alone", 1, [], [], ("none", 0, 0), [
        *asked((0, 0, 0)),
        *outside(1),
        ("add", 0, 0, ("none", 1, 0)),
        *asked((0, 1, 1), (0, 1, 1)),
        ("cut", 0, 0, ("none", 0, 0)),
        *asked((0, 0, 0)),
        ("mark", 0, ("none", 0, 0)),
        *asked((0, 0, 0)),
        ("add", 0, 0, ("round", 2, 0, [], [0])),
        *asked((0, 1, 1)),
        *outside(1, 511, 512, 65535),
        ("unmark", 0, ("none", 1, 0)),
        *asked((0, 1, 1)),
    ]),
    # a move from a state to itself counts once on each side
    ("ways-self", 2, [0], [(0, 0), (0, 1)], ("round", 3, 0, [], [0]), [
        *asked((0, 2, 1), (1, 0, 1)),
        ("add", 1, 1, ("round", 2, 2, [], [0])),
        *asked((1, 1, 2), (0, 2, 1)),
        ("add", 1, 1, ("no", 8)),
        *asked((1, 1, 2)),
        ("cut", 0, 0, ("none", 4, 0)),
        *asked((0, 1, 0), (1, 1, 2)),
        ("cut", 0, 0, ("no", 10)),
        *asked((0, 1, 0)),
        ("cut", 1, 1, ("none", 1, 1)),
        *asked((1, 0, 1), (0, 1, 0)),
        ("add", 0, 0, ("round", 4, 0, [], [0])),
        *asked((0, 2, 1), (1, 0, 1)),
    ]),
    # what is refused leaves the counts
    ("ways-refused", 3, [1], [(0, 1), (1, 2), (2, 0)], ("round", 5, 0, [], [0, 1, 2]), [
        *asked((0, 1, 1), (1, 1, 1), (2, 1, 1)),
        ("add", 0, 1, ("no", 8)),
        *asked((0, 1, 1), (1, 1, 1)),
        ("cut", 0, 2, ("no", 10)),
        *asked((0, 1, 1), (2, 1, 1)),
        ("add", 0, 3, ("no", 6)),
        ("add", 3, 0, ("no", 6)),
        ("cut", 3, 1, ("no", 6)),
        ("cut", 1, 3, ("no", 6)),
        *asked((0, 1, 1), (1, 1, 1)),
        *outside(3),
        ("mark", 1, ("no", 13)),
        ("unmark", 0, ("no", 14)),
        *asked((1, 1, 1), (0, 1, 1)),
        ("cut", 2, 0, ("none", 1, 2)),
        *asked((2, 0, 1), (0, 1, 0)),
        ("cut", 2, 0, ("no", 10)),
        *asked((2, 0, 1), (0, 1, 0)),
        ("add", 2, 0, ("round", 3, 2, [], [0, 1, 2])),
        *asked((2, 1, 1), (0, 1, 1)),
    ]),
    # marks do not matter
    ("ways-marks", 3, [], [(0, 1), (1, 2), (2, 2)], ("none", 3, 0), [
        *asked((1, 1, 1), (2, 1, 2)),
        ("mark", 2, ("round", 2, 2, [0, 1], [2])),
        *asked((2, 1, 2), (1, 1, 1)),
        ("mark", 1, ("round", 3, 1, [0, 1], [2])),
        *asked((1, 1, 1)),
        ("mark", 1, ("no", 13)),
        *asked((1, 1, 1)),
        ("batch", [("unmark", 1), ("unmark", 2), ("mark", 0)], ("none", 6, 0)),
        *asked((0, 1, 0), (1, 1, 1), (2, 1, 2)),
        ("unmark", 2, ("no", 14)),
        *asked((2, 1, 2)),
    ]),
    # states never met
    ("ways-unmet", 4, [1], [(0, 1), (1, 0), (2, 3), (3, 2)], ("round", 3, 0, [], [0, 1]), [
        *asked((2, 1, 1), (3, 1, 1)),
        ("add", 3, 3, ("round", 0, 3, [], [0, 1])),
        *asked((3, 2, 2), (2, 1, 1)),
        ("cut", 2, 3, ("round", 0, 3, [], [0, 1])),
        *asked((2, 0, 1), (3, 2, 1)),
        ("add", 2, 1, ("round", 0, 3, [], [0, 1])),
        *asked((2, 1, 1), (1, 1, 2)),
        ("add", 0, 2, ("round", 0, 3, [], [0, 1])),            # behind the move that leads along the walk
        *asked((0, 2, 1), (2, 1, 2)),
        ("mark", 2, ("round", 0, 3, [], [0, 1])),
        *asked((2, 1, 2)),
        ("unmark", 2, ("round", 0, 3, [], [0, 1])),
        *asked((2, 1, 2)),
        ("cut", 0, 1, ("round", 4, 0, [], [0, 2, 1])),
        *asked((0, 1, 1), (1, 1, 1), (2, 1, 2), (3, 2, 1)),
    ]),
    # batches: empty, refused at the last line or before, there and back, and done
    ("ways-batch", 4, [3], [(0, 1), (1, 2), (2, 3), (3, 2)], ("round", 5, 0, [0, 1], [2, 3]), [
        *asked((0, 1, 0), (1, 1, 1), (2, 1, 2), (3, 1, 1)),
        ("batch", [], ("round", 0, 5, [0, 1], [2, 3])),
        *asked((2, 1, 2)),
        ("batch", [("cut", 2, 3), ("unmark", 3), ("cut", 2, 3), ("add", 0, 0)], ("no", 10, 3)),
        *asked((2, 1, 2), (3, 1, 1), (0, 1, 0)),
        ("batch", [("add", 0, 3), ("add", 1, 3), ("add", 3, 3), "x"], ("no", 1, 4)),
        *asked((3, 1, 1), (0, 1, 0), (1, 1, 1)),
        ("batch", [("cut", 0, 1), ("cut", 1, 2), ("add", 0, 2), ("add", 0, 2)], ("no", 8, 4)),
        *asked((0, 1, 0), (1, 1, 1), (2, 1, 2)),
        ("batch", [("add", 0, 3), ("cut", 0, 3)], ("round", 0, 5, [0, 1], [2, 3])),
        *asked((0, 1, 0), (3, 1, 1)),
        ("batch", [("cut", 2, 3), ("add", 2, 3)], ("round", 3, 2, [0, 1], [2, 3])),
        *asked((2, 1, 2), (3, 1, 1)),
        ("batch", [("add", 0, 3), ("add", 1, 3), ("add", 3, 3), ("cut", 1, 2)], ("round", 7, 0, [0, 1], [3, 2])),
        *asked((0, 2, 0), (1, 1, 1), (2, 1, 1), (3, 2, 4)),
        ("batch", [("mark", 0), ("unmark", 0), ("mark", 4)], ("no", 6, 3)),
        *asked((3, 2, 4)),
        ("batch", [("cut", 3, 3), ("cut", 0, 3), ("cut", 1, 3), ("cut", 2, 3)], ("none", 1, 0)),
        *asked((3, 1, 0), (0, 1, 0), (1, 0, 1), (2, 0, 1)),
    ]),
    # a question inside a batch is no change, and lines that are no question
    ("ways-lines", 2, [], C_MOVES, ("none", 2, 0), [
        *asked((0, 1, 1)),
        ("batch", ["ways 0"], ("no", 1, 1)),
        ("batch", [("add", 0, 0), "ways 0", ("cut", 0, 1)], ("no", 1, 2)),
        *asked((0, 1, 1), (1, 1, 1)),
        ("batch", [("add", 0, 0), ("cut", 0, 0), "ways 65535"], ("no", 1, 3)),
        ("line", "ways", ("no", 1)),
        ("line", "ways ", ("no", 1)),
        ("line", "ways 0 ", ("no", 1)),
        ("line", "ways 0 1", ("no", 1)),
        ("line", "ways 00", ("no", 1)),
        ("line", "ways 65536", ("no", 1)),
        ("line", "Ways 0", ("no", 1)),
        ("line", "way 0", ("no", 1)),
        *outside(2, 9999, 65535),
        ("line", "end", ("no", 1)),
        *asked((1, 1, 1), (0, 1, 1)),
        ("batch", [("add", 0, 0)], ("none", 3, 0)),
        *asked((0, 2, 2), (1, 1, 1)),
    ]),
    # the last states of the largest games
    ("ways-511", 511, [], [(0, 510), (510, 510)], ("none", 2, 0), [
        *asked((510, 1, 2), (509, 0, 0), (0, 1, 0)),
        *outside(511, 512, 65535),
    ]),
    ("ways-512", 512, [], [(0, 511), (511, 510), (510, 511)], ("none", 3, 0), [
        *asked((511, 1, 2), (510, 1, 1), (509, 0, 0), (0, 1, 0)),
        *outside(512, 513, 1023, 65535),
        ("cut", 511, 510, ("none", 0, 1)),
        *asked((511, 0, 2), (510, 1, 0)),
        ("add", 510, 510, ("none", 0, 1)),
        *asked((510, 2, 1), (511, 0, 2)),
    ]),
    # the hub of 512 states on a full table
    ("ways-hub", 512, [], HUB_MOVES, ("none", 2048, 0), [
        *asked((0, 512, 512), (1, 4, 4), (2, 3, 3), (300, 4, 4), (511, 4, 4)),
        *outside(512, 65535),
        ("add", 5, 0, ("no", 8)),
        ("add", 5, 5, ("no", 9)),
        *asked((0, 512, 512), (5, 3, 3)),
        ("cut", 9, 0, ("none", 2029, 18)),
        *asked((0, 512, 511), (9, 2, 3)),
        ("cut", 9, 0, ("no", 10)),
        *asked((0, 512, 511), (9, 2, 3)),
        ("cut", 0, 0, ("none", 2046, 0)),                       # a look fewer before each meeting from here on
        *asked((0, 511, 510)),
        ("add", 9, 0, ("none", 2030, 17)),
        *asked((0, 511, 511), (9, 3, 3)),
        ("add", 0, 0, ("none", 2048, 0)),                       # the hub's newest now
        *asked((0, 512, 512)),
        ("cut", 0, 5, ("none", 2047, 0)),
        *asked((0, 511, 512), (5, 3, 2)),
        ("add", 5, 5, ("none", 2039, 9)),
        *asked((5, 4, 3), (0, 511, 512)),
        ("add", 0, 5, ("no", 9)),
        *asked((0, 511, 512), (5, 4, 3)),
        ("batch", [("cut", 5, 5), ("add", 0, 5)], ("none", 2048, 0)),
        *asked((0, 512, 512), (5, 3, 3)),
        ("batch", [("cut", 0, 1), ("cut", 1, 0), ("cut", 1, 1), ("add", 1, 0), ("add", 0, 1), ("add", 0, 1)], ("no", 8, 6)),
        *asked((0, 512, 512), (1, 4, 4)),
        ("batch", [("cut", *move) for move in TO_HUB], ("none", 1983, 1)),
        *asked((0, 512, 448), (1, 3, 4), (64, 2, 3), (65, 3, 3)),
        ("batch", [("add", *move) for move in TO_HUB] + [("cut", 0, 0)], ("no", 15, 65)),
        *asked((0, 512, 448), (1, 3, 4)),
        ("batch", [("add", *move) for move in TO_HUB], ("none", 2047, 1)),
        *asked((0, 512, 512), (1, 4, 4), (64, 3, 3)),
        ("mark", 0, ("round", 2114, 0, [], list(range(66)))),   # the ring's first 64 have their move to the hub last now
        *asked((0, 512, 512), (65, 3, 3)),
        ("unmark", 0, ("none", 2048, 0)),
        *asked((0, 512, 512)),
    ]),
]

# The same for kinds of pay, worked by hand. s.l is state s in layer l. A move out of it lands in the next layer where s
# carries kind l, and in layer 1 from the last. The looks stand in their order, with a bar where an inner search begins.
# A mark's call has the kind behind the state, or leaves kind 1 out.
def full_of_kinds(kinds):
    """A full table: one more move, times K, is above 2,048. None of the moves leaves a state below 32."""
    return ("kinds-full-%d" % kinds, 64, of_kinds(kinds, [0], *[[1]] * (kinds - 1)), FULL_MOVES[:MOST_MOVES // kinds],
            ("none", 0, 0), [
        ("add", 0, 1, ("no", 9)),
        ("add", 32, 0, ("no", 8)),
        ("add", 0, 64, ("no", 6)),
        ("cut", 0, 1, ("no", 10)),
        ("cut", 32, 0, ("none", 0, 0)),
        ("add", 0, 1, ("none", 2, 0)),                          # 0.1>1.2 | 0.1>1.2
        ("add", 1, 0, ("no", 9)),
        ("batch", [("add", 1, 0)], ("no", 9, 1)),
        ("cut", 32, 1, ("none", 0, 2)),
        # 0.1>1.2 1.2>0.3 0.3>1.3 and so on to 1.K>0.1, two for each layer but the first, and the same once more
        ("add", 1, 0, ("round", 4 * kinds - 5, 1, [], [0, 1] * (kinds - 1))),
        ("add", 0, 2, ("no", 9)),
        ("batch", [("cut", 33, 0), ("add", 2, 0), ("add", 2, 1)], ("no", 9, 3)),
        ("batch", [("cut", 33, 0), ("add", 2, 0)], ("round", 0, 4 * kinds - 4, [], [0, 1] * (kinds - 1))),
        ("add", 33, 0, ("no", 9)),
    ])


def long_walk(kinds):
    """A ring of as many states as there may be. State 0 carries every kind, so that each lap is one in the next layer, but
    for the first look: 0.1>1.2 1.2>2.2 and so on to 0.2>1.3, and at last from the last state in layer 1 to 0.1; then the
    inner search goes the same way. The last state is first met in layer 2."""
    size = MOST_STATES // kinds
    all_of_it, last = ("round", 2 * size * kinds, 0, [], list(range(size)) * kinds), size - 1
    ring = [(s, (s + 1) % size) for s in range(size)]
    return ("kinds-walk-%d" % size, size, of_kinds(kinds, *[[0]] * kinds), ring, all_of_it, [
        # without the last kind the search comes round in the last layer: K - 1 laps and the look behind them, twice
        ("unmark", 0, kinds, ("none", 2 * (kinds - 1) * size + 2, 0)),
        ("mark", 0, kinds, all_of_it),
        ("cut", last, 0, ("none", last, last)),
        ("add", last, 0, ("round", 2 * size * kinds - last, last, *all_of_it[3:])),
        # now the last state leaves the last layer in place of state 0: a lap fewer
        ("mark", last, kinds, ("round", 2 * size * (kinds - 1) - last, last, [], list(range(size)) * (kinds - 1))),
        *outside(size, 65535),
        *asked((last, 1, 1), (0, 1, 1)),
    ])


BACK_KIND = [("mark", 1, 1), ("unmark", 1, 1)]
RING_3 = [(0, 1), (1, 2), (2, 0)]
TWICE_3 = [], [0, 1, 2, 0, 1, 2]
RING_4 = [(0, 1), (1, 2), (2, 3), (3, 0)]
KIND_GAMES = [
    # a state for each of two kinds; marks that make and unmake the round
    ("kinds-two", 2, of_kinds(2, [0], [1]), C_MOVES, ("round", 4, 0, [], [0, 1]), [   # 0.1>1.2 1.2>0.1 | 0.1>1.2 1.2>0.1
        ("unmark", 1, 2, ("none", 5, 1)),                       # 0.1>1.2 1.2>0.2 0.2>1.2 | 0.1>1.2 1.2>0.2 0.2>1.2
        ("unmark", 1, 2, ("no", 14)),
        ("unmark", 1, 1, ("no", 14)),                           # 13 and 14 look at the kind named only
        ("unmark", 1, ("no", 14)),
        ("mark", 0, ("no", 13)),
        ("mark", 0, 1, ("no", 13)),
        ("unmark", 0, 2, ("no", 14)),
        ("mark", 1, 2, ("round", 3, 1, [], [0, 1])),
        ("mark", 1, 2, ("no", 13)),
        ("mark", 1, 1, ("round", 3, 1, [], [0, 1])),            # 1.1 is not met, but 1.2 is
        ("mark", 1, ("no", 13)),
        ("unmark", 0, ("round", 7, 0, [], [0, 1, 0, 1])),       # 0.1>1.1 1.1>0.2 0.2>1.2 1.2>0.1 | 1.1>0.2 0.2>1.2 1.2>0.1
        ("unmark", 1, ("none", 1, 1)),                          # 0.1>1.1 1.1>0.1
        ("mark", 0, 2, ("none", 2, 0)),
        ("mark", 1, 1, ("round", 4, 1, [0], [1, 0])),           # 0.1>1.1 1.1>0.2 0.2>1.1 | 1.1>0.2 0.2>1.1
    ]),
    # the start state is passed in layer 1 and again in layer 2: the walk repeats it
    ("kinds-repeated", 2, of_kinds(2, [1], [0]), C_MOVES,
     ("round", 5, 0, [0], [1, 0]), [                            # 0.1>1.1 1.1>0.2 0.2>1.1 | 1.1>0.2 0.2>1.1
        # 0.1>1.1 1.1>0.2 0.2>1.1 1.1>1.2 1.2>0.2 1.2>1.2 | 1.1>0.2 0.2>1.1
        ("add", 1, 1, ("round", 7, 1, [0], [1, 0])),
        ("cut", 1, 0, ("none", 4, 1)),                          # 0.1>1.1 1.1>1.2 1.2>1.2 | 1.1>1.2 1.2>1.2
        ("mark", 1, 2, ("round", 4, 1, [0], [1, 1])),           # 0.1>1.1 1.1>1.2 1.2>1.1 | 1.1>1.2 1.2>1.1
        ("unmark", 0, 2, ("round", 5, 0, [0], [1, 1])),
        ("add", 0, 0, ("round", 0, 5, [0], [1, 1])),            # 0.1 has not finished, 0.2 is not met
        ("cut", 0, 0, ("round", 0, 5, [0], [1, 1])),
        ("cut", 0, 1, ("none", 0, 0)),
    ]),
    # one state that carries all kinds
    ("kinds-several", 1, of_kinds(3, [0], [0], [0]), [(0, 0)],
     ("round", 6, 0, [], [0, 0, 0]), [                          # 0.1>0.2 0.2>0.3 0.3>0.1 | 0.1>0.2 0.2>0.3 0.3>0.1
        ("unmark", 0, 2, ("none", 4, 0)),                       # 0.1>0.2 0.2>0.2 | 0.1>0.2 0.2>0.2
        ("unmark", 0, 2, ("no", 14)),
        ("mark", 0, 3, ("no", 13)),
        ("mark", 0, 4, ("no", 4)),
        ("mark", 1, 4, ("no", 4)),
        ("mark", 1, 3, ("no", 6)),
        ("mark", 0, 2, ("round", 6, 0, [], [0, 0, 0])),
        ("unmark", 0, ("none", 1, 0)),                          # 0.1>0.1
        *asked((0, 1, 1)),
        ("mark", 0, 1, ("round", 6, 0, [], [0, 0, 0])),
        ("unmark", 0, 3, ("none", 6, 0)),                       # 0.1>0.2 0.2>0.3 0.3>0.3 | 0.1>0.2 0.2>0.3 0.3>0.3
        ("cut", 0, 0, ("none", 0, 0)),
        *asked((0, 0, 0)),
        ("mark", 0, 3, ("none", 0, 0)),
        ("add", 0, 0, ("round", 6, 0, [], [0, 0, 0])),
    ]),
    # every state carries every kind. 0.1>1.2 1.2>2.1 2.1>0.2 0.2>1.1 1.1>2.2 2.2>0.1 | 1.1>2.2 2.2>0.1; so 1.1 and 2.2 have
    # finished, and the other four have not
    ("kinds-all", 3, of_kinds(2, [0, 1, 2], [0, 1, 2]), RING_3, ("round", 8, 0, *TWICE_3), [
        ("add", 0, 0, ("round", 0, 8, *TWICE_3)),               # neither 0.1 nor 0.2 has finished
        # 1.2 has not finished, but 1.1 has: 1.1>0.2 comes in behind 2.2>0.1. The first copy of 1 that is met is 1.2
        ("add", 1, 0, ("round", 8, 1, *TWICE_3)),
        ("cut", 1, 0, ("round", 7, 1, *TWICE_3)),               # looked at in layer 1, and not in layer 2
        ("add", 2, 1, ("round", 7, 2, *TWICE_3)),               # 2.1 has not finished, but 2.2 has: 2.2>1.1 comes in
        ("cut", 2, 1, ("round", 6, 2, *TWICE_3)),               # looked at in layer 2, and not in layer 1
        ("cut", 0, 0, ("round", 0, 8, *TWICE_3)),               # in neither
        # 0.1>1.2 1.2>2.1 2.1>0.2 0.2>1.1 1.1>2.1 | 2.1>0.2 0.2>1.1 1.1>2.1
        ("unmark", 1, 1, ("round", 7, 1, [0, 1], [2, 0, 1])),
        ("mark", 1, 1, ("round", 7, 1, *TWICE_3)),
        ("batch", [("add", 0, 2), ("add", 0, 0)], ("round", 0, 8, *TWICE_3)),
        ("batch", [("cut", 0, 2), ("add", 2, 2), ("cut", 2, 2)], ("round", 8, 0, *TWICE_3)),      # 2.2 has finished
        ("batch", [("add", 2, 2), ("cut", 2, 2)], ("round", 6, 2, *TWICE_3)),
        ("batch", [("cut", 0, 0)], ("round", 0, 8, *TWICE_3)),
    ]),
    # a kind that no state carries, and then one does
    ("kinds-none", 2, of_kinds(2, [0, 1], []), C_MOVES,
     ("none", 6, 0), [                                          # 0.1>1.2 1.2>0.2 0.2>1.2 | 0.1>1.2 1.2>0.2 0.2>1.2
        ("mark", 1, 2, ("round", 3, 1, [], [0, 1])),            # 0.1>1.2 1.2>0.1 | 0.1>1.2 1.2>0.1
        ("unmark", 1, 2, ("none", 5, 1)),
        ("mark", 0, 2, ("round", 5, 0, [0, 1], [0, 1])),        # 0.1>1.2 1.2>0.2 0.2>1.1 1.1>0.2 | 1.1>0.2
        ("unmark", 0, ("round", 5, 0, [0], [1, 0])),            # 0.1>1.1 1.1>0.2 0.2>1.1 | 1.1>0.2 0.2>1.1
        ("unmark", 1, ("none", 1, 1)),                          # 0.1>1.1 1.1>0.1
        ("unmark", 0, 2, ("none", 2, 0)),
    ]),
    # kind 1 on one closed run and kind 2 on another that it leads to.
    # 0.1>1.2 1.2>0.2 0.2>1.2 1.2>2.2 2.2>3.2 3.2>2.1 2.1>3.1 3.1>2.1, and the inner search takes the same eight
    ("kinds-split", 4, of_kinds(2, [0], [3]), [(0, 1), (1, 0), (1, 2), (2, 3), (3, 2)], ("none", 16, 0), [
        # the eight, with 3.1>0.1 and 3.2>0.1 at the end; then the eight and 3.1>0.1, while 0.2 has left the inner path
        ("add", 3, 0, ("round", 14, 5, [], [0, 1, 2, 3, 2, 3])),
        ("cut", 3, 0, ("none", 11, 5)),                         # 3 is first met in layer 2
        ("mark", 1, 2, ("round", 6, 1, [], [0, 1])),            # 0.1>1.2 1.2>0.1 1.2>2.1 2.1>3.1 3.1>2.1 | 0.1>1.2 1.2>0.1
        ("unmark", 1, 2, ("none", 15, 1)),
        # 0.1>1.2 1.2>0.2 0.2>1.2 1.2>2.2 2.2>3.2 3.2>2.1 2.1>3.1 3.1>2.2 | 3.1>2.2
        ("mark", 3, ("round", 4, 5, [0, 1], [2, 3, 2, 3])),
        ("cut", 1, 2, ("none", 5, 1)),                          # 0.1>1.2 1.2>0.2 0.2>1.2 | 0.1>1.2 1.2>0.2 0.2>1.2
        ("unmark", 3, 2, ("none", 0, 6)),                       # no copy of 3 is met now
        ("mark", 2, 1, ("none", 0, 6)),
    ]),
    # a closed run with both kinds that nothing leads to, and then something does
    ("kinds-apart", 4, of_kinds(2, [2], [3]), [(0, 1), (2, 3), (3, 2)], ("none", 1, 0), [            # 0.1>1.1
        ("add", 1, 2, ("round", 5, 1, [0, 1], [2, 3])),         # 0.1>1.1 1.1>2.1 2.1>3.2 3.2>2.1 | 2.1>3.2 3.2>2.1
        ("mark", 0, 2, ("round", 6, 0, [0, 1], [2, 3])),
        ("add", 1, 0, ("round", 0, 6, [0, 1], [2, 3])),         # 1.1 has not finished, 1.2 is not met
        ("add", 3, 1, ("round", 4, 3, [0, 1], [2, 3])),         # 3.2>1.1 behind 3.2>2.1
        ("cut", 3, 2, ("round", 3, 3, [0], [1, 2, 3])),         # 0.1>1.1 1.1>2.1 2.1>3.2 3.2>1.1 | 2.1>3.2 3.2>1.1
        # 0.1>1.1 1.1>2.1 2.1>3.2 3.2>1.2 1.2>2.2 2.2>3.2 1.2>0.2 0.2>1.1
        # | 2.1>3.2 3.2>1.2 1.2>2.2 2.2>3.2 1.2>0.2 0.2>1.1
        ("unmark", 3, 2, ("round", 11, 3, [0], [1, 2, 3, 1, 0])),
    ]),
    # states of which no copy is met: every look is kept
    ("kinds-unmet", 4, of_kinds(2, [0], [1]), [(0, 1), (1, 0), (2, 3)], ("round", 4, 0, [], [0, 1]), [
        ("mark", 2, 2, ("round", 0, 4, [], [0, 1])),
        ("mark", 3, ("round", 0, 4, [], [0, 1])),
        ("add", 3, 2, ("round", 0, 4, [], [0, 1])),
        ("cut", 2, 3, ("round", 0, 4, [], [0, 1])),
        ("unmark", 2, 2, ("round", 0, 4, [], [0, 1])),
        ("batch", [("mark", 2, 1), ("mark", 2, 2), ("unmark", 3, 1), ("add", 2, 0)], ("round", 0, 4, [], [0, 1])),
        ("batch", [("mark", 3, 2), ("unmark", 1, 2)], ("none", 5, 1)),    # 0.1>1.2 1.2>0.2 0.2>1.2 | 0.1>1.2 1.2>0.2 0.2>1.2
        # 0.1>1.2 1.2>0.2 0.2>1.2 1.2>2.2 2.2>0.1 | 0.1>1.2 1.2>0.2 0.2>1.2 1.2>2.2 2.2>0.1
        ("add", 1, 2, ("round", 9, 1, [], [0, 1, 2])),
        ("unmark", 2, 1, ("round", 6, 4, [], [0, 1, 2])),       # 2.1 is not met, 2.2 is
        # the first five, 2.2>3.1 3.1>2.1 2.1>0.1 2.1>3.1 | the last five
        ("add", 2, 3, ("round", 10, 4, [], [0, 1, 2])),
    ]),
    # three kinds; states that are first met in layer 2 or 3
    ("kinds-three", 4, of_kinds(3, [0], [1], [3]), RING_4,
     ("round", 8, 0, [], [0, 1, 2, 3]), [                       # 0.1>1.2 1.2>2.3 2.3>3.3 3.3>0.1 | the same four
        ("mark", 2, 1, ("round", 6, 2, [], [0, 1, 2, 3])),
        ("mark", 3, 2, ("round", 5, 3, [], [0, 1, 2, 3])),
        ("mark", 2, 3, ("round", 6, 2, [], [0, 1, 2, 3])),      # 0.1>1.2 1.2>2.3 2.3>3.1 3.1>0.1 | the same
        # 0.1>1.2 1.2>2.2 2.2>3.2 3.2>0.3 0.3>1.3 1.3>2.3 2.3>3.1 3.1>0.1 | the same
        ("unmark", 1, 2, ("round", 15, 1, [], [0, 1, 2, 3, 0, 1, 2, 3])),
        ("cut", 2, 3, ("none", 2, 2)),                          # 0.1>1.2 1.2>2.2 | 0.1>1.2 1.2>2.2
        ("add", 2, 3, ("round", 14, 2, [], [0, 1, 2, 3, 0, 1, 2, 3])),
        # the first eight, 3.1>3.1 3.2>3.3 3.3>0.1 3.3>3.1 | the last eight
        ("add", 3, 3, ("round", 17, 3, [], [0, 1, 2, 3, 0, 1, 2, 3])),
        ("mark", 0, 4, ("no", 4)),
        ("mark", 4, 4, ("no", 4)),
        ("mark", 4, 3, ("no", 6)),
    ]),
    # four kinds on two states
    ("kinds-four", 2, of_kinds(4, [0], [1], [0], [1]), C_MOVES,
     ("round", 8, 0, [], [0, 1, 0, 1]), [                       # 0.1>1.2 1.2>0.3 0.3>1.4 1.4>0.1 | the same four
        ("cut", 1, 0, ("none", 1, 1)),                          # 0.1>1.2 | 0.1>1.2
        ("add", 1, 0, ("round", 7, 1, [], [0, 1, 0, 1])),
        # 0.1>1.2 1.2>0.3 0.3>1.3 1.3>0.4 0.4>1.4 1.4>0.1 | the same six
        ("batch", [("unmark", 0, 3), ("mark", 1, 3)], ("round", 12, 0, [], [0, 1, 0, 1, 0, 1])),
        ("batch", BACK_KIND, ("round", 11, 1, [], [0, 1, 0, 1, 0, 1])),
        ("unmark", 1, 4, ("none", 11, 1)),                      # the last of the six is 1.4>0.4
        ("mark", 1, 4, ("round", 11, 1, [], [0, 1, 0, 1, 0, 1])),
        ("mark", 1, 4, ("no", 13)),
        ("mark", 2, 4, ("no", 6)),                              # no kind is above K
        ("mark", 2, 5, ("no", 1)),
        ("unmark", 0, ("none", 2, 0)),                          # 0.1>1.1 1.1>0.1
        # 0.1>1.1 1.1>0.2 0.2>1.2 1.2>0.3 0.3>1.3 1.3>0.4 0.4>1.4 1.4>0.1 | the same but for the first
        ("mark", 1, ("round", 14, 1, [], [0, 1, 0, 1, 0, 1, 0, 1])),
    ]),
    # a stem; one copy of the start state is open while the other is not met, and then has finished
    ("kinds-stem", 3, of_kinds(2, [1], [2]), F_MOVES,
     ("round", 5, 0, [0], [1, 2]), [                            # 0.1>1.1 1.1>2.2 2.2>1.1 | 1.1>2.2 2.2>1.1
        ("add", 0, 2, ("round", 0, 5, [0], [1, 2])),
        # 0.1>1.1 1.1>2.2 2.2>1.1 1.1>0.2 0.2>1.2 1.2>2.2 1.2>0.2 0.2>2.2 | 1.1>2.2 2.2>1.1
        ("add", 1, 0, ("round", 9, 1, [0], [1, 2])),
        ("cut", 0, 2, ("round", 9, 0, [0], [1, 2])),            # 0.1>2.1 was not looked at, 0.2>2.2 was
        ("add", 0, 2, ("round", 10, 0, [0], [1, 2])),           # 0.1 has not finished, 0.2 has
        # 0.1>1.1 1.1>2.2 2.2>1.1 1.1>0.2 0.2>1.1 0.2>2.1 2.1>1.1 | 1.1>2.2 2.2>1.1
        ("mark", 0, 2, ("round", 9, 0, [0], [1, 2])),
        # 0.1>1.1 1.1>2.2 1.1>0.2 0.2>1.1 0.2>2.1 | 1.1>2.2 1.1>0.2 0.2>1.1
        ("cut", 2, 1, ("round", 6, 2, [0], [1, 0])),
        ("unmark", 1, ("none", 3, 1)),                          # 0.1>1.1 1.1>2.1 1.1>0.1 0.1>2.1
    ]),
    # the numbers of marks, in their order: 1 for a kind that there never is, 4 for one above K, then 6, then 13 and 14
    ("kinds-numbers", 2, of_kinds(2, [0], [1]), C_MOVES, ("round", 4, 0, [], [0, 1]), [
        *[(word, state, kind, ("no", 1)) for word in ("mark", "unmark") for state in (0, 2) for kind in (0, 5, 65535)],
        *[(word, state, kind, ("no", 4)) for word in ("mark", "unmark") for state in (0, 2, 65535) for kind in (3, 4)],
        *[(word, state, kind, ("no", 6)) for word in ("mark", "unmark") for state in (2, 65535) for kind in (1, 2)],
        ("mark", 2, ("no", 6)),
        ("batch", [("mark", 2, 3)], ("no", 4, 1)),
        ("batch", [("mark", 2, 2)], ("no", 6, 1)),
        ("batch", [("mark", 2, 5)], ("no", 1, 1)),
        ("batch", BACK_KIND + [("unmark", 0, 0)], ("no", 1, 3)),
        ("batch", BACK_KIND + [("unmark", 0, 4)], ("no", 4, 3)),
        ("batch", BACK_KIND + [("unmark", 0, 2)], ("no", 14, 3)),
        ("batch", BACK_KIND + [("mark", 0)], ("no", 13, 3)),
        ("batch", BACK_KIND + [("mark", 0, 2), ("mark", 1, 2)], ("no", 13, 4)),
        ("batch", BACK_KIND * 32, ("round", 3, 1, [], [0, 1])),
        ("batch", BACK_KIND * 32 + [("mark", 9, 3)], ("no", 15, 65)),
        ("batch", BACK_KIND * 32 + [("mark", 9, 5)], ("no", 1, 65)),
        ("batch", BACK_KIND * 32 + [("unmark", 1, 0), "x"], ("no", 1, 65)),
        ("batch", [], ("round", 0, 4, [], [0, 1])),
    ]),
    # lines out of place, and such as cannot be read
    ("kinds-lines", 2, of_kinds(2, [0], [1]), C_MOVES, ("round", 4, 0, [], [0, 1]), [
        *[("line", row, ("no", 1)) for row in ("kinds", "kinds 2 ", "pay 0 2", "mark 0 ", "mark 0 2 ", "mark 0 2 2", "mark 0 02",
                                               "mark 0 +2", "mark 0  2", "mark  2", "unmark 1 2\r", "unmark 1 65536",
                                               "unmark 1 10", "mark", "add 0 1 1", "cut 0 1 1", "ways 0 1", "Kinds 2")],
        ("batch", ["kinds 2"], ("no", 1, 1)),
        ("batch", [("mark", 0, 2), "kinds 2", ("mark", 0, 2)], ("no", 1, 2)),
        ("batch", [("mark", 0, 2), ("unmark", 0, 2), "unmark 0 2 1"], ("no", 1, 3)),
        ("batch", ["pay 0 2"], ("no", 1, 1)),
        ("batch", ["mark 0 "], ("no", 1, 1)),
        ("mark", 0, 2, ("round", 4, 0, [], [0, 1])),
    ]),
    # the `game` line counts the states that carry any kind: here three
    ("kinds-any", 4, of_kinds(3, [0, 1], [1, 3], [3]), [], ("none", 0, 0), [
        ("unmark", 1, 2, ("none", 0, 0)),
        ("unmark", 0, 3, ("no", 14)),
        ("mark", 0, 3, ("none", 0, 0)),
    ]),
    # Game A with `kinds 1` written, and a game without the line: marks of kind 1, and of others
    ("kinds-one", 4, of_kinds(1, [2]), [(0, 1), (1, 2)], ("none", 2, 0), [
        ("add", 2, 1, ("round", 2, 2, [0], [1, 2])),
        ("add", 2, 3, ("round", 3, 2, [0], [1, 2])),
        ("mark", 2, 2, ("no", 4)),
        ("mark", 4, 2, ("no", 4)),
        ("mark", 4, 1, ("no", 6)),
        ("mark", 2, 1, ("no", 13)),
        ("cut", 1, 2, ("none", 0, 1)),
        ("cut", 1, 2, ("no", 10)),
        ("add", 2, 0, ("none", 0, 1)),
        ("unmark", 2, 1, ("none", 0, 1)),
    ]),
    ("kinds-left-out", 2, [1], C_MOVES, ("round", 3, 0, [], [0, 1]), [
        ("mark", 0, 2, ("no", 4)),
        ("unmark", 9, 4, ("no", 4)),
        ("mark", 9, 1, ("no", 6)),
        ("mark", 1, 1, ("no", 13)),
        ("mark", 0, 0, ("no", 1)),
        ("mark", 0, 5, ("no", 1)),
        ("unmark", 1, 1, ("none", 1, 1)),
        ("unmark", 1, ("no", 14)),
        ("mark", 1, ("round", 2, 1, [], [0, 1])),
        ("batch", [("unmark", 1, 1), ("mark", 1), ("mark", 0, 1)], ("round", 3, 0, [], [0, 1])),
        ("batch", [("unmark", 0), ("mark", 0, 2)], ("no", 4, 2)),
    ]),
    # loads that are refused: 4 comes before 16, and 16 before 6 and 8
    ("kinds-0", 2, of_kinds(0), C_MOVES, ("no", 16), []),
    ("kinds-0-paid", 2, of_kinds(0, [0]), C_MOVES, ("no", 4), []),              # every kind is above K
    ("kinds-5", 2, of_kinds(5, [0], [1], [0], [1]), C_MOVES, ("no", 16), []),   # and none is
    ("kinds-5-outside", 2, of_kinds(5, [], [], [], [2]), C_MOVES, ("no", 4), []),
    ("kinds-65535", 2, of_kinds(65535), [], ("no", 16), []),
    ("kinds-above", 2, of_kinds(2, [0], [1], [0]), C_MOVES, ("no", 4), []),
    ("kinds-outside", 2, of_kinds(2, [0], [2]), C_MOVES, ("no", 4), []),
    ("kinds-missing", 2, of_kinds(None, [], [0]), C_MOVES, ("no", 4), []),
    ("kinds-4-first", 257, of_kinds(2, [0], [257]), [(0, 257)], ("no", 4), []),
    ("kinds-16-before-6", 2, of_kinds(5, [0]), [(0, 1), (0, 1), (0, 2)], ("no", 16), []),
    ("kinds-16-before-8", 257, of_kinds(2, [0], [1]), [(0, 1), (0, 1)], ("no", 16), []),
    ("kinds-6-behind-16", 256, of_kinds(2, [0], [1]), [(0, 1), (0, 1), (0, 256)], ("no", 6), []),
    ("kinds-8-behind-16", 256, of_kinds(2, [0], [1]), [(0, 1), (0, 1)], ("no", 8), []),
    *[("kinds-states-%d" % (size + 1), size + 1, of_kinds(kinds, [0], [size]), [(0, size), (size, 0)], ("no", 16), [])
      for kinds, size in ((2, 256), (3, 170), (4, 128))],
    *[("kinds-moves-%d" % (count + 1), 64, of_kinds(kinds), FULL_MOVES[:count + 1], ("no", 16), [])
      for kinds, count in ((2, 1024), (3, 682), (4, 512))],
    *[full_of_kinds(kinds) for kinds in (2, 3, 4)],
    *[long_walk(kinds) for kinds in (2, 3, 4)],
]

# The same for sessions that go over to another K, worked by hand. Such a call has the K: ("kinds", K, answer). The list lent
# for it is as long as the new K needs. It keeps no look, and what follows is held against the run on the new K.
def over_moves(kinds):
    """A table with one move too many for this K, until one is cut. None of them leaves a state below 32."""
    return ("over-moves-%d" % kinds, 64, [0], FULL_MOVES[:MOST_MOVES // kinds + 1], ("none", 0, 0), [
        ("kinds", kinds, ("no", 16)),
        ("mark", 1, kinds, ("no", 4)),
        ("cut", 32, 0, ("none", 0, 0)),
        ("kinds", kinds, ("none", 0, 0)),
        ("add", 32, 0, ("no", 9)),
        ("batch", [("add", 0, 1)], ("no", 9, 1)),
        ("mark", 1, kinds, ("none", 0, 0)),
        ("batch", [("cut", 32, 1), ("add", 0, 1)], ("none", 2, 0)),     # 0.1>1.2 | 0.1>1.2
        ("add", 1, 0, ("no", 9)),
        ("kinds", 1, ("none", 2, 0)),
        ("add", 1, 0, ("round", 3, 1, [], [0, 1])),                     # 0.1>1.1 1.1>0.1 | 0.1>1.1 1.1>0.1
        ("kinds", kinds, ("no", 16)),
        ("batch", [("cut", 33, 0)], ("round", 0, 4, [], [0, 1])),
        ("kinds", kinds, ("none", 6, 0)),                               # 0.1>1.2 1.2>0.2 0.2>1.2 | 0.1>1.2 1.2>0.2 0.2>1.2
        # as on the full tables above
        ("batch", [("mark", 1, kind) for kind in range(2, kinds + 1)], ("round", 4 * kinds - 5, 1, [], [0, 1] * (kinds - 1))),
        ("add", 33, 0, ("no", 9)),
        ("kinds", kinds, ("round", 4 * kinds - 4, 0, [], [0, 1] * (kinds - 1))),
    ])


def over_walk(kinds):
    """The ring of as many states as there may be with this K, first with one kind, which state 0 carries."""
    size = MOST_STATES // kinds
    lap, laps, last = list(range(size)), 2 * size * kinds, size - 1
    return ("over-walk-%d" % size, size, [0], [(s, (s + 1) % size) for s in lap], ("round", 2 * size, 0, [], lap), [
        ("kinds", kinds + 1, ("no", 16)),
        ("kinds", kinds, ("none", 2 * size + 2, 0)),                    # a lap from 0.1 to 0.2 and 0.2>1.2, twice
        ("kinds", kinds + 1, ("no", 16)),
        ("batch", [("mark", 0, kind) for kind in range(2, kinds + 1)], ("round", laps, 0, [], lap * kinds)),
        ("batch", [], ("round", 0, laps, [], lap * kinds)),
        ("kinds", kinds, ("round", laps, 0, [], lap * kinds)),
        ("cut", last, 0, ("none", last, last)),
        ("add", last, 0, ("round", laps - last, last, [], lap * kinds)),
        ("kinds", kinds + 1, ("no", 16)),
        ("kinds", 1, ("round", 2 * size, 0, [], lap)),
        ("mark", last, ("round", 2, last, [], lap)),                    # the ring, and the last state's move once more
        ("kinds", kinds, ("none", 2 * size + 2, 0)),
        *asked((last, 1, 1), (0, 1, 1)),
        *outside(size, size * kinds),
    ])


def over_states(kinds):
    """One state too many for this K, and not for the one below."""
    last = MOST_STATES // kinds
    alone = "round", 4, 0, [], [0, last]                                # 0.1>last.1 last.1>0.1 | 0.1>last.1 last.1>0.1
    below = alone if kinds == 2 else ("none", 6, 0)                     # 0.1>last.2 last.2>0.2 0.2>last.2 | the same
    return ("over-states-%d" % (last + 1), last + 1, [0], [(0, last), (last, 0)], alone, [
        *[("kinds", above, ("no", 16)) for above in range(kinds, 7)],
        ("mark", 0, 2, ("no", 4)),
        ("kinds", kinds - 1, below),
        ("kinds", kinds, ("no", 16)),
        ("mark", last, kinds, ("no", 4)),
        ("kinds", 1, alone),
    ])


OVER_GAMES = [
    # up and down: what was carried above the K is carried by nobody when that K comes again
    ("over-two", 2, [0], C_MOVES, ("round", 4, 0, [], [0, 1]), [
        ("mark", 1, 2, ("no", 4)),
        ("kinds", 2, ("none", 6, 0)),                           # 0.1>1.2 1.2>0.2 0.2>1.2 | 0.1>1.2 1.2>0.2 0.2>1.2
        ("mark", 1, 2, ("round", 3, 1, [], [0, 1])),            # 0.1>1.2 1.2>0.1 | 0.1>1.2 1.2>0.1
        ("kinds", 1, ("round", 4, 0, [], [0, 1])),              # 0.1>1.1 1.1>0.1 | 0.1>1.1 1.1>0.1
        ("unmark", 1, 2, ("no", 4)),
        ("kinds", 2, ("none", 6, 0)),
        ("unmark", 1, 2, ("no", 14)),
        ("kinds", 2, ("none", 6, 0)),                           # the same again
        ("kinds", 3, ("none", 6, 0)),                           # the same looks: nothing leaves layer 2
        ("mark", 1, 3, ("none", 5, 1)),
        ("mark", 1, 2, ("round", 7, 1, [], [0, 1, 0, 1])),      # 0.1>1.2 1.2>0.3 0.3>1.3 1.3>0.1 | the same four
        ("kinds", 4, ("none", 12, 0)),                          # 0.1>1.2 1.2>0.3 0.3>1.3 1.3>0.4 0.4>1.4 1.4>0.4 | the same six
        # 0.1>1.2 1.2>0.3 0.3>1.3 1.3>0.4 0.4>1.1 1.1>0.1 | the same six
        ("mark", 0, 4, ("round", 12, 0, [], [0, 1, 0, 1, 0, 1])),
        ("kinds", 2, ("round", 4, 0, [], [0, 1])),
        ("kinds", 4, ("none", 8, 0)),                           # 0.1>1.2 1.2>0.3 0.3>1.3 1.3>0.3 | the same four
        ("unmark", 1, 3, ("no", 14)),
        ("unmark", 0, 4, ("no", 14)),
        ("kinds", 3, ("none", 8, 0)),
        ("kinds", 1, ("round", 4, 0, [], [0, 1])),
    ]),
    # each step from three kinds: those up to the K stay
    ("over-three", 4, of_kinds(3, [0], [1], [3]), RING_4,
     ("round", 8, 0, [], [0, 1, 2, 3]), [                       # 0.1>1.2 1.2>2.3 2.3>3.3 3.3>0.1 | the same four
        ("kinds", 2, ("round", 8, 0, [], [0, 1, 2, 3])),        # 0.1>1.2 1.2>2.1 2.1>3.1 3.1>0.1 | the same four
        ("unmark", 3, 3, ("no", 4)),
        ("mark", 4, 3, ("no", 4)),
        ("mark", 4, 2, ("no", 6)),
        ("unmark", 3, 2, ("no", 14)),
        ("mark", 1, 2, ("no", 13)),
        ("kinds", 3, ("none", 12, 0)),                          # 0.1>1.2 1.2>2.3 2.3>3.3 3.3>0.3 0.3>1.3 1.3>2.3 | the same six
        ("mark", 3, 3, ("round", 5, 3, [], [0, 1, 2, 3])),
        # 0.1>1.2 1.2>2.3 2.3>3.3 3.3>0.4 0.4>1.4 1.4>2.4 2.4>3.4 3.4>0.4 | the same eight
        ("kinds", 4, ("none", 16, 0)),
        ("mark", 2, 4, ("round", 14, 2, [], [0, 1, 2, 3, 0, 1, 2, 3])),   # the last two are 2.4>3.1 3.1>0.1
        ("kinds", 1, ("round", 8, 0, [], [0, 1, 2, 3])),
        ("kinds", 4, ("none", 10, 0)),                          # 0.1>1.2 1.2>2.2 2.2>3.2 3.2>0.2 0.2>1.2 | the same five
        ("mark", 2, 4, ("none", 8, 2)),                         # it had been dropped
        ("kinds", 2, ("none", 10, 0)),
    ]),
    # a game's only state
    ("over-alone", 1, [0], [(0, 0)], ("round", 2, 0, [], [0]), [
        ("kinds", 4, ("none", 4, 0)),                           # 0.1>0.2 0.2>0.2 | 0.1>0.2 0.2>0.2
        # 0.1>0.2 0.2>0.3 0.3>0.4 0.4>0.1 | the same four
        ("batch", [("mark", 0, 2), ("mark", 0, 3), ("mark", 0, 4)], ("round", 8, 0, [], [0, 0, 0, 0])),
        ("kinds", 3, ("round", 6, 0, [], [0, 0, 0])),
        ("kinds", 2, ("round", 4, 0, [], [0, 0])),
        ("kinds", 1, ("round", 2, 0, [], [0])),
        ("kinds", 4, ("none", 4, 0)),
        ("mark", 0, 3, ("none", 4, 0)),
        ("mark", 0, 2, ("none", 8, 0)),                         # 0.1>0.2 0.2>0.3 0.3>0.4 0.4>0.4 | the same four
        ("kinds", 3, ("round", 6, 0, [], [0, 0, 0])),
        ("cut", 0, 0, ("none", 0, 0)),
        ("kinds", 4, ("none", 0, 0)),
        ("add", 0, 0, ("none", 8, 0)),
        ("kinds", 1, ("round", 2, 0, [], [0])),
        ("unmark", 0, ("none", 1, 0)),
        ("kinds", 2, ("none", 1, 0)),                           # 0.1>0.1
    ]),
    # refused: the session runs on with its old K, its marks and its run
    ("over-refused", 2, of_kinds(2, [0], [1]), C_MOVES, ("round", 4, 0, [], [0, 1]), [
        *[("kinds", kinds, ("no", 16)) for kinds in (0, 5, 6, 255, 512, 65535)],
        ("batch", [], ("round", 0, 4, [], [0, 1])),
        ("mark", 0, 3, ("no", 4)),
        ("mark", 1, 2, ("no", 13)),
        ("kinds", 0, ("no", 16)),
        ("unmark", 1, 2, ("none", 5, 1)),
        ("kinds", 5, ("no", 16)),
        ("mark", 1, 2, ("round", 3, 1, [], [0, 1])),
        ("kinds", 65535, ("no", 16)),
        ("add", 0, 0, ("round", 7, 0, [], [0, 1])),             # 0.1>1.2 1.2>0.1 0.1>0.2 0.2>1.2 0.2>0.2 | 0.1>1.2 1.2>0.1
        ("cut", 0, 0, ("round", 4, 0, [], [0, 1])),
        ("kinds", 3, ("none", 8, 0)),                           # 0.1>1.2 1.2>0.3 0.3>1.3 1.3>0.3 | the same four
        ("add", 0, 1, ("no", 8)),
        ("cut", 0, 0, ("no", 10)),
        ("add", 0, 2, ("no", 6)),
        ("mark", 2, 4, ("no", 4)),
        ("mark", 2, 3, ("no", 6)),
        ("mark", 1, 2, ("no", 13)),
        ("unmark", 1, 3, ("no", 14)),
        ("batch", [("mark", 1, 3), ("mark", 1, 3)], ("no", 13, 2)),
        ("batch", [("add", 0, 0), ("mark", 1, 4)], ("no", 4, 2)),
        ("kinds", 4, ("none", 8, 0)),
        ("kinds", 2, ("round", 4, 0, [], [0, 1])),
    ]),
    # Game A, with other K's between its lines
    ("over-a", 4, [2], [(0, 1), (1, 2)], ("none", 2, 0), [
        ("kinds", 1, ("none", 2, 0)),
        ("add", 2, 1, ("round", 2, 2, [0], [1, 2])),
        ("kinds", 1, ("round", 4, 0, [0], [1, 2])),
        ("kinds", 1, ("round", 4, 0, [0], [1, 2])),
        ("add", 2, 3, ("round", 3, 2, [0], [1, 2])),
        # 0.1>1.1 1.1>2.1 2.1>1.2 1.2>2.2 2.2>1.2 2.2>3.2 2.1>3.2 | the last five
        ("kinds", 2, ("none", 12, 0)),
        # 0.1>1.1 1.1>2.1 2.1>1.2 1.2>2.1 2.1>3.2 | 2.1>1.2 1.2>2.1
        ("mark", 1, 2, ("round", 6, 1, [0, 1], [2, 1])),
        ("cut", 1, 2, ("none", 0, 1)),
        ("kinds", 1, ("none", 1, 0)),
        ("cut", 1, 2, ("no", 10)),
        ("add", 2, 0, ("none", 0, 1)),
    ]),
    # the moves hold the order in which they came, through every K: 02 10 20 01, and then 10 20 01 02
    ("over-order", 3, [1, 2], [(0, 1), (0, 2), (1, 0), (2, 0)], ("round", 3, 0, [], [0, 1]), [
        ("cut", 0, 1, ("round", 3, 0, [], [0, 2])),
        ("add", 0, 1, ("round", 0, 3, [], [0, 2])),
        ("kinds", 1, ("round", 3, 0, [], [0, 2])),
        # 0.1>2.1 2.1>0.2 0.2>2.2 2.2>0.2 0.2>1.2 1.2>0.2 | the last five | 0.1>1.1 1.1>0.2 | 1.1>0.2
        ("kinds", 2, ("none", 14, 0)),
        ("mark", 0, 2, ("round", 6, 0, [0, 2], [0, 1])),        # 0.1>2.1 2.1>0.2 0.2>2.1 0.2>1.1 1.1>0.2 | 1.1>0.2
        ("kinds", 1, ("round", 3, 0, [], [0, 2])),
        ("cut", 0, 2, ("round", 3, 0, [], [0, 1])),
        ("add", 0, 2, ("round", 0, 3, [], [0, 1])),
        ("kinds", 1, ("round", 3, 0, [], [0, 1])),
        ("kinds", 2, ("none", 14, 0)),                          # as before, with 1 and 2 in each other's place
        ("mark", 0, 2, ("round", 6, 0, [0, 1], [0, 2])),
    ]),
    # a move that the run on one kind had not come to, and that on two kinds had: as in the game where every state carries all.
    # There 1.1 and 2.2 have finished, and with one kind 2 alone
    ("over-spared-1", 3, of_kinds(2, [0, 1, 2], [0, 1, 2]), RING_3, ("round", 8, 0, *TWICE_3), [
        ("kinds", 1, ("round", 4, 0, [], [0, 1, 2])),           # 0.1>1.1 1.1>2.1 2.1>0.1 | 2.1>0.1
        ("add", 1, 0, ("round", 0, 4, [], [0, 1, 2])),
        ("kinds", 2, ("none", 10, 0)),                          # 0.1>1.2 1.2>2.2 2.2>0.2 0.2>1.2 1.2>0.2 | the same five
        # 0.1>1.2 1.2>2.1 2.1>0.2 0.2>1.1 1.1>2.2 2.2>0.1 1.1>0.2 | 1.1>2.2 2.2>0.1
        ("batch", [("mark", 0, 2), ("mark", 1, 2), ("mark", 2, 2)], ("round", 9, 0, *TWICE_3)),
        ("kinds", 2, ("round", 9, 0, *TWICE_3)),
        ("cut", 1, 0, ("round", 7, 1, *TWICE_3)),
        ("kinds", 2, ("round", 8, 0, *TWICE_3)),
        ("add", 0, 0, ("round", 0, 8, *TWICE_3)),
        ("kinds", 1, ("round", 4, 0, [], [0, 1, 2])),
        ("batch", [("add", 1, 0), ("add", 1, 1)], ("round", 0, 4, [], [0, 1, 2])),
        ("cut", 0, 0, ("round", 0, 4, [], [0, 1, 2])),
        ("batch", [("cut", 1, 1), ("cut", 1, 0), ("add", 0, 2)], ("round", 0, 4, [], [0, 1, 2])),
        ("add", 2, 2, ("round", 3, 2, [], [0, 1, 2])),          # 0.1>1.1 1.1>2.1 2.1>0.1 2.1>2.1 | 2.1>0.1
    ]),
    # and the other way round: with two kinds 2.2 is on the open path, with one 2 has left it
    ("over-spared-2", 3, of_kinds(2, [0, 1], [2]), F_MOVES,
     ("round", 5, 0, [0, 1], [2, 1]), [                         # 0.1>1.2 1.2>2.2 2.2>1.1 1.1>2.2 | 1.1>2.2
        ("add", 2, 2, ("round", 0, 5, [0, 1], [2, 1])),
        ("kinds", 1, ("round", 6, 0, [0], [1, 2])),             # 0.1>1.1 1.1>2.1 2.1>1.1 2.1>2.1 | 1.1>2.1 2.1>1.1
        ("cut", 2, 2, ("round", 3, 2, [0], [1, 2])),
        ("add", 2, 2, ("round", 4, 2, [0], [1, 2])),
        # 0.1>1.2 1.2>2.2 2.2>1.2 2.2>2.2 | the same four
        ("kinds", 2, ("none", 8, 0)),
        ("cut", 2, 2, ("none", 4, 2)),
        ("mark", 2, 2, ("round", 3, 2, [0, 1], [2, 1])),
        ("kinds", 2, ("round", 5, 0, [0, 1], [2, 1])),
        ("batch", [("add", 2, 2), ("add", 0, 2)], ("round", 0, 5, [0, 1], [2, 1])),
        ("kinds", 2, ("round", 5, 0, [0, 1], [2, 1])),
        ("batch", [("cut", 2, 2), ("cut", 0, 2)], ("round", 0, 5, [0, 1], [2, 1])),
        ("kinds", 1, ("round", 5, 0, [0], [1, 2])),
        ("batch", [("add", 2, 2)], ("round", 4, 2, [0], [1, 2])),
    ]),
    # states that no run meets: every look is kept, and their marks come under the same rule
    ("over-unmet", 4, [0], [(0, 1), (1, 0), (2, 3)], ("round", 4, 0, [], [0, 1]), [
        ("kinds", 2, ("none", 6, 0)),
        ("mark", 2, 2, ("none", 0, 6)),
        ("mark", 1, 2, ("round", 3, 1, [], [0, 1])),
        ("batch", [("mark", 3, 2), ("add", 3, 2), ("cut", 2, 3)], ("round", 0, 4, [], [0, 1])),
        ("kinds", 1, ("round", 4, 0, [], [0, 1])),
        ("mark", 3, ("round", 0, 4, [], [0, 1])),
        ("kinds", 3, ("none", 6, 0)),
        ("unmark", 2, 2, ("no", 14)),
        ("unmark", 3, 2, ("no", 14)),
        ("unmark", 3, ("none", 0, 6)),
        *asked((2, 0, 1), (3, 1, 0), (0, 1, 1)),
        *outside(4, 12),
    ]),
    # among batches and questions; inside a batch it is no change
    ("over-batch", 4, [3], [(0, 1), (1, 2), (2, 3), (3, 2)], ("round", 5, 0, [0, 1], [2, 3]), [
        *[("batch", [row], ("no", 1, 1)) for row in ("kinds 1", "kinds 2", "kinds 0", "kinds 5", "kinds", "kinds 65536")],
        ("batch", [("mark", 1), "kinds 2", ("mark", 1)], ("no", 1, 2)),
        ("batch", [("mark", 1), ("mark", 1, 2), "kinds 2"], ("no", 4, 2)),
        ("batch", BACK_KIND * 32 + ["kinds 1"], ("no", 1, 65)),
        ("mark", 1, 2, ("no", 4)),
        # 0.1>1.1 1.1>2.1 2.1>3.1 3.1>2.2 2.2>3.2 3.2>2.2 | the last three
        ("kinds", 2, ("none", 9, 0)),
        ("batch", [], ("none", 0, 9)),
        # 0.1>1.1 1.1>2.2 2.2>3.1 3.1>2.2 | 3.1>2.2
        ("batch", [("mark", 1), ("mark", 2, 2)], ("round", 4, 1, [0, 1], [2, 3])),
        ("batch", [("add", 0, 3), ("add", 1, 3), ("add", 2, 0)], ("round", 0, 5, [0, 1], [2, 3])),
        *asked((0, 2, 1), (1, 2, 1), (2, 2, 2), (3, 1, 3)),
        ("kinds", 1, ("round", 5, 0, [0, 1], [2, 3])),          # 0.1>1.1 1.1>2.1 2.1>3.1 3.1>2.1 | 3.1>2.1
        *asked((0, 2, 1), (1, 2, 1), (2, 2, 2), (3, 1, 3)),
        ("batch", [("cut", 0, 3), ("cut", 1, 3), ("cut", 2, 0)], ("round", 0, 5, [0, 1], [2, 3])),
        ("batch", [("unmark", 3), "kinds 2", ("mark", 3)], ("no", 1, 2)),
        ("kinds", 2, ("none", 7, 0)),                           # 0.1>1.1 1.1>2.2 2.2>3.2 3.2>2.2 | 1.1>2.2 2.2>3.2 3.2>2.2
        *asked((0, 1, 0), (2, 1, 2)),
        *outside(4, 7, 8),
        ("batch", [("mark", 3, 2), ("mark", 3, 3)], ("no", 4, 2)),
        ("batch", [("mark", 3, 2), ("unmark", 3, 2), ("mark", 2, 2)], ("round", 3, 2, [0, 1], [2, 3])),
        ("batch", BACK_KIND[::-1] * 32, ("round", 4, 1, [0, 1], [2, 3])),
    ]),
    # lines that cannot be read, and K's that there are not
    ("over-lines", 2, [1], C_MOVES, ("round", 3, 0, [], [0, 1]), [
        *[("line", row, ("no", 1)) for row in ("kinds", "kinds ", "kinds 65536", "kinds 99999", "kinds 100000", "kinds 01",
                                               "kinds 02", "kinds 00", "kinds 1 1", "kinds 2 ", "kinds  2", "kinds +2",
                                               "kinds -1", "kinds 2\r", "kinds 2\0", "kinds x", " kinds 2", "Kinds 2", "KINDS 2",
                                               "kind 2", "kindss 2")],
        ("mark", 0, 2, ("no", 4)),
        *[("kinds", kinds, ("no", 16)) for kinds in (0, 5, 9, 10, 9999, 65535)],
        ("kinds", 1, ("round", 3, 0, [], [0, 1])),
        ("kinds", 2, ("none", 7, 0)),                           # 0.1>1.1 1.1>0.2 0.2>1.2 1.2>0.2 | 1.1>0.2 0.2>1.2 1.2>0.2
        ("line", "pay 0 2", ("no", 1)),
        ("line", "kinds 1 ", ("no", 1)),
        ("mark", 0, 2, ("round", 5, 0, [0], [1, 0])),           # 0.1>1.1 1.1>0.2 0.2>1.1 | 1.1>0.2 0.2>1.1
    ]),
    # with 512 states, and with 2,048 moves, there is one kind and no more
    ("over-512", 512, [511], [(0, 511), (511, 0)], ("round", 3, 0, [], [0, 511]), [
        *[("kinds", kinds, ("no", 16)) for kinds in (2, 3, 4, 0)],
        ("kinds", 1, ("round", 3, 0, [], [0, 511])),
        ("unmark", 511, ("none", 1, 1)),
        ("kinds", 1, ("none", 2, 0)),
    ]),
    ("over-2048", 64, [0, 1], FULL_MOVES, ("none", 0, 0), [
        *[("kinds", kinds, ("no", 16)) for kinds in (2, 3, 4, 5)],
        ("kinds", 1, ("none", 0, 0)),
        ("add", 0, 1, ("no", 9)),
        ("batch", [("cut", 32, 0), ("add", 0, 1), ("cut", 32, 1), ("add", 1, 0)], ("round", 3, 0, [], [0, 1])),
        ("kinds", 2, ("no", 16)),
        ("kinds", 1, ("round", 3, 0, [], [0, 1])),
    ]),
    *[over_moves(kinds) for kinds in (2, 3, 4)],
    *[over_walk(kinds) for kinds in (2, 3, 4)],
    *[over_states(kinds) for kinds in (2, 3, 4)],
]

# The same for questions about the shortest round, worked by hand. Such a call has the budget: ("short", B, answer). The looks
# stand in their order, with a bar where the search of the next paying state begins, a dash for one without moves and a
# semicolon where the next length begins.
def afforded(walk, ends, found=None):
    """Questions about one table with their answers, at and beside each budget that makes a difference. walk: the length of the
    present walk's round; ends: the looks up to the end of length 1, of length 2 and so on, of which there is no round; found:
    the look that finds one of the next length, or None where no budget goes so far. Of many ends some are taken."""
    borders = {0, *ends[:3], *ends[-1:], found or 0, MOST_BUDGET}
    for budget in sorted({border + beside for border in borders for beside in (-1, 0, 1)}):
        if 0 <= budget <= MOST_BUDGET:
            yield "short", budget, within(budget, walk, ends, found)


def within(budget, walk, ends, found):
    """The answer for one of these budgets."""
    if found is not None and budget >= found:
        return "short", len(ends) + 1, len(ends) + 1
    return "short", walk, 1 + sum(end <= budget for end in ends)


def at_any_price(*answer):
    """Questions that have this answer for every budget."""
    return [("short", budget, answer) for budget in (0, 1, 2, 100, MOST_BUDGET)]


def ring_ends(count):
    """On a ring that has one paying state, length L takes L looks."""
    return [length * (length + 1) // 2 for length in range(1, count + 1)]


# A ring of 359 states, of which 0 pays, and another way from 0 to 1 by state 359. The walk goes that way, so that its round has
# 360. Length 1 takes two looks, length L two more than on the ring; and one more where a state that has a move to itself is
# fewer than L moves away.
WAY_ROUND = [(0, 359), (359, 1)] + [(s, (s + 1) % 359) for s in range(359)]
WAY_ROUND_WALK = [], [0, 359, *range(1, 359)]


def way_round_ends(own):
    """Where this state has the move to itself."""
    return [end + 2 * length - 1 + max(0, length - own) for length, end in enumerate(ring_ends(358), 1)]


# As many states and moves as there may be: each state leads to the next four, and all of them pay. For length 1 a search takes 4
# looks, and for each length more it takes 16 more, at the moves of four states more.
NEXT_FOUR = [(s, (s + far) % 512) for far in range(1, 5) for s in range(512)]


BAD_SHORT = ("short", "short ", "short 65536", "short 99999", "short 100000", "short 01", "short 00", "short 1 2", "short 1 ",
             "short  1", "short +1", "short -1", "short 1\r", "short 1\0", "short x", "short 1.0", " short 1", "\0short 1",
             "short\v1", "Short 1", "SHORT 1", "shor 1", "shorts 1", "short1", "short" + " " * 30 + "1")   # cannot be read


def turned_back(old, new):
    """The last state's newest move is to lead here now."""
    return "batch", [("cut", 511, old), ("add", 511, new)], ("round", 5, 511, [], list(range(512)))


SHORT_GAMES = [
    # Game A, with questions between its lines
    ("short-a", 4, [2], [(0, 1), (1, 2)], ("none", 2, 0), [
        *at_any_price("none"),
        ("add", 2, 1, ("round", 2, 2, [0], [1, 2])),
        ("short", 0, ("short", 2, 1)),
        ("short", 1, ("short", 2, 2)),
        *afforded(2, [1], 3),                                   # 2>1; 2>1 1>2
        ("add", 2, 3, ("round", 3, 2, [0], [1, 2])),
        ("short", 1, ("short", 2, 1)),
        *afforded(2, [2], 5),                                   # 2>1 2>3; 2>1 2>3 1>2
        ("cut", 1, 2, ("none", 0, 1)),
        *at_any_price("none"),
        ("cut", 1, 2, ("no", 10)),
        ("short", 5, ("none",)),
        ("add", 2, 0, ("none", 0, 1)),
        *at_any_price("none"),
    ]),
    # a game's only state
    ("short-alone", 1, [], [], ("none", 0, 0), [
        *at_any_price("none"),
        ("add", 0, 0, ("none", 1, 0)),
        *at_any_price("none"),
        ("mark", 0, ("round", 2, 0, [], [0])),
        *at_any_price("short", 1, 1),                           # 0>0, found or not
        ("cut", 0, 0, ("none", 0, 0)),
        *at_any_price("none"),
    ]),
    # closed runs that pass no paying state, and such as nothing leads to
    ("short-none", 5, [0, 3], F_MOVES + [(3, 4), (4, 3), (3, 3)], ("none", 6, 0), [
        *at_any_price("none"),
        ("add", 2, 2, ("none", 6, 2)),
        *at_any_price("none"),
        ("unmark", 0, ("none", 4, 0)),
        *at_any_price("none"),
        ("add", 2, 3, ("round", 8, 2, [0, 1, 2], [3, 4])),      # 0>1 1>2 2>1 2>2 2>3 3>4 4>3 3>3 | 3>4 4>3
        *afforded(2, [], 2),                                    # 3>4 3>3
    ]),
    # moves from a state to itself: length 1, while the walk's round has two
    ("short-self", 3, [0, 1], [(0, 1), (1, 2), (2, 1), (0, 0)], ("round", 5, 0, [0], [1, 2]), [
        ("short", 1, ("short", 2, 1)),
        ("short", 2, ("short", 1, 1)),
        *afforded(2, [], 2),                                    # 0>1 0>0
        ("cut", 0, 0, ("round", 0, 5, [0], [1, 2])),
        *afforded(2, [2], 6),                                   # 0>1 | 1>2; 0>1 1>2 | 1>2 2>1
        ("add", 1, 1, ("round", 5, 1, [0], [1, 2])),
        *afforded(2, [], 3),                                    # 0>1 | 1>2 1>1
        ("add", 0, 0, ("round", 0, 6, [0], [1, 2])),
        *afforded(2, [], 2),                                    # 0>1 0>0
        ("unmark", 0, ("round", 6, 0, [0], [1, 2])),
        *afforded(2, [], 2),                                    # 1>2 1>1
        ("cut", 1, 2, ("round", 2, 1, [0], [1])),
        *at_any_price("short", 1, 1),                           # 1>1, as long as the walk's
        ("unmark", 1, ("none", 2, 1)),
        *at_any_price("none"),
    ]),
    # the walk's round is the shortest: found or not, it is the best known, and the second number tells what is ruled out
    ("short-walk", 4, [0, 3], RING_4, ("round", 5, 0, [], [0, 1, 2, 3]), [
        # 0>1 | 3>0; 0>1 1>2 | 3>0 0>1; 0>1 1>2 2>3 | 3>0 0>1 1>2; 0>1 1>2 2>3 3>0
        *[("short", budget, ("short", 4, least)) for budget, least in ((0, 1), (1, 1), (2, 2), (5, 2), (6, 3), (11, 3), (12, 4),
                                                                       (13, 4), (15, 4), (16, 4), (17, 4), (MOST_BUDGET, 4))],
        *afforded(4, [2, 6, 12], 16),
        ("unmark", 0, ("round", 5, 0, [], [0, 1, 2, 3])),
        *afforded(4, [1, 3, 6], 10),                            # 3>0; 3>0 0>1; 3>0 0>1 1>2; 3>0 0>1 1>2 2>3
    ]),
    # rounds of the same length past several paying states, of which the run has met the first alone
    ("short-ties", 5, [2, 3, 4], [(0, 1), (1, 2), (2, 0), (0, 3), (3, 0), (0, 4), (4, 0)], ("round", 4, 0, [], [0, 1, 2]), [
        *afforded(3, [3], 10),                                  # 2>0 | 3>0 | 4>0; 2>0 0>1 0>3 0>4 | 3>0 0>1 0>3
        ("cut", 0, 3, ("round", 0, 4, [], [0, 1, 2])),          # nothing leads to 3 now
        *afforded(3, [2], 8),                                   # 2>0 | 4>0; 2>0 0>1 0>4 | 4>0 0>1 0>4
        ("add", 0, 3, ("round", 0, 4, [], [0, 1, 2])),          # newest now
        *afforded(3, [3], 11),                                  # 2>0 | 3>0 | 4>0; 2>0 0>1 0>4 0>3 | 3>0 0>1 0>4 0>3
        ("unmark", 3, ("round", 0, 4, [], [0, 1, 2])),
        *afforded(3, [2], 9),                                   # 2>0 | 4>0; 2>0 0>1 0>4 0>3 | 4>0 0>1 0>4
        ("mark", 1, ("round", 3, 1, [], [0, 1, 2])),
        *afforded(3, [3], 12),                                  # 1>2 | 2>0 | 4>0; 1>2 2>0 | 2>0 0>1 0>4 0>3 | 4>0 0>1 0>4
        ("mark", 0, ("round", 4, 0, [], [0, 1, 2])),
        *afforded(3, [6], 11),                                  # 0>1 0>4 0>3 | 1>2 | 2>0 | 4>0; 0>1 0>4 0>3 1>2 4>0
    ]),
    # paying states that nothing leads to, with moves to themselves; and then something does
    ("short-unreached", 6, [1, 3, 5], [(1, 1), (0, 2), (2, 3), (3, 0), (1, 0), (5, 5), (5, 0)], ("round", 4, 0, [], [0, 2, 3]), [
        *afforded(3, [1, 3], 6),                                # 3>0; 3>0 0>2; 3>0 0>2 2>3
        ("add", 0, 1, ("round", 0, 4, [], [0, 2, 3])),          # the run does not come to it
        *afforded(3, [], 1),                                    # 1>1
        ("cut", 1, 1, ("round", 0, 4, [], [0, 2, 3])),
        *afforded(3, [2], 5),                                   # 1>0 | 3>0; 1>0 0>2 0>1
        ("cut", 0, 1, ("round", 0, 4, [], [0, 2, 3])),
        *afforded(3, [1, 3], 6),
        ("mark", 4, ("round", 0, 4, [], [0, 2, 3])),
        *afforded(3, [1, 3], 6),
        ("add", 3, 4, ("round", 3, 2, [], [0, 2, 3])),          # it has no moves
        *afforded(3, [2, 5], 9),                                # 3>0 3>4 | -; 3>0 3>4 0>2 | -; 3>0 3>4 0>2 2>3
        ("batch", [("cut", 3, 4), ("add", 0, 4), ("add", 4, 5)], ("round", 4, 0, [], [0, 2, 3])),
        *afforded(3, [], 3),                                    # 3>0 | 4>5 | 5>5
    ]),
    # paying states without moves before, between and behind the others: what needs no look is done when the looks are used up
    ("short-bare", 7, [1, 2, 4, 6], [(0, 1), (0, 2), (2, 3), (3, 0), (0, 4), (4, 0), (0, 6)], ("round", 6, 0, [], [0, 2, 3]), [
        *afforded(3, [2], 8),                                   # - | 2>3 | 4>0 | -; - | 2>3 3>0 | 4>0 0>1 0>2 0>4
        ("cut", 4, 0, ("round", 0, 6, [], [0, 2, 3])),
        ("short", 1, ("short", 3, 2)),                          # 4 and 6 have no moves
        *afforded(3, [1, 3], 7),                                # - | 2>3 | - | -; - | 2>3 3>0 | - | -; - | 2>3 3>0 0>1 0>2
        ("add", 3, 3, ("round", 4, 3, [], [0, 2, 3])),
        *afforded(3, [1, 4], 9),                                # 2>3; 2>3 3>0 3>3; 2>3 3>0 3>3 0>1 0>2
        ("add", 4, 6, ("round", 0, 7, [], [0, 2, 3])),
        *afforded(3, [2, 6], 11),                               # 2>3 | 4>6; 2>3 3>0 3>3 | 4>6; 2>3 3>0 3>3 0>1 0>2
    ]),
    # a state that was seen is looked at and not searched again: 3 by way of 1 and of 2, and 2 from itself
    ("short-seen", 5, [0], [(0, 1), (0, 2), (1, 3), (2, 3), (3, 4), (2, 4), (4, 0)], ("round", 11, 0, [], [0, 1, 3, 4]), [
        *afforded(4, [2, 7], 14),                               # 0>1 0>2; 0>1 0>2 1>3 2>3 2>4; 0>1 0>2 1>3 2>3 2>4 3>4 4>0
        ("add", 1, 0, ("round", 11, 1, [], [0, 1, 3, 4])),
        *afforded(4, [2], 6),                                   # 0>1 0>2; 0>1 0>2 1>3 1>0
        ("cut", 1, 0, ("round", 10, 1, [], [0, 1, 3, 4])),
        ("add", 2, 2, ("round", 7, 5, [], [0, 1, 3, 4])),
        *afforded(4, [2, 8], 16),                               # as at first, with 2>2 behind each 2>4
        ("add", 3, 2, ("round", 11, 2, [], [0, 1, 3, 4])),
        *afforded(4, [2, 8], 17),                               # and in length 3 with 3>2 behind 3>4
    ]),
    # the walk goes the longer way; a move that is cut and added again is the newest, and looked at last
    ("short-order", 4, [0], [(0, 1), (1, 3), (3, 0), (1, 0)], ("round", 7, 0, [], [0, 1, 3]), [
        *afforded(3, [1], 4),                                   # 0>1; 0>1 1>3 1>0
        ("cut", 1, 3, ("round", 3, 1, [], [0, 1])),
        *afforded(2, [1], 3),                                   # 0>1; 0>1 1>0
        ("add", 1, 3, ("round", 5, 1, [], [0, 1])),
        *afforded(2, [1], 3),
        ("cut", 1, 0, ("round", 5, 1, [], [0, 1, 3])),
        *afforded(3, [1, 3], 6),                                # 0>1; 0>1 1>3; 0>1 1>3 3>0
        ("add", 1, 2, ("round", 6, 1, [], [0, 1, 3])),
        ("add", 1, 0, ("round", 7, 1, [], [0, 1, 3])),
        *afforded(3, [1], 5),                                   # 0>1; 0>1 1>3 1>2 1>0
    ]),
    # the last states of one word and the first of the next, and the last of all
    ("short-words", 512, [2, 63, 64, 511], RING_3 + [(0, 511), (0, 64), (0, 63), (63, 0), (64, 0), (511, 0)],
     ("round", 4, 0, [], [0, 1, 2]), [
        # 2>0 | 63>0 | 64>0 | 511>0; 2>0 0>1 0>511 0>64 0>63 | 63>0 0>1 0>511 0>64 0>63
        *afforded(3, [4], 14),
        ("unmark", 63, ("round", 0, 4, [], [0, 1, 2])),
        *afforded(3, [3], 12),                                  # the second search ends with 0>64
        ("unmark", 64, ("round", 0, 4, [], [0, 1, 2])),
        *afforded(3, [2], 10),                                  # with 0>511
        ("mark", 510, ("round", 0, 4, [], [0, 1, 2])),
        *afforded(3, [2], 10),
        ("unmark", 511, ("round", 0, 4, [], [0, 1, 2])),
        *afforded(3, [1, 6], 12),                               # 2>0; 2>0 0>1 0>511 0>64 0>63; these and 1>2
    ]),
    # among batches; inside one it is no change
    ("short-batch", 4, [3], RING_4, ("round", 5, 0, [], [0, 1, 2, 3]), [
        *afforded(4, [1, 3, 6], 10),                            # 3>0; 3>0 0>1; 3>0 0>1 1>2; 3>0 0>1 1>2 2>3
        ("batch", [], ("round", 0, 5, [], [0, 1, 2, 3])),
        ("short", 6, ("short", 4, 4)),
        ("batch", ["short 6"], ("no", 1, 1)),
        ("batch", [("add", 0, 3), "short 0", ("add", 1, 3)], ("no", 1, 2)),
        ("batch", [("add", 0, 3), ("add", 1, 3), ("add", 1, 3)], ("no", 8, 3)),
        ("batch", [("mark", 1), ("unmark", 1)] * 32 + ["short 65535"], ("no", 1, 65)),
        *afforded(4, [1, 3, 6], 10),
        ("batch", [("add", 0, 3), ("add", 1, 3)], ("round", 0, 5, [], [0, 1, 2, 3])),
        *afforded(4, [1], 4),                                   # 3>0; 3>0 0>1 0>3
        ("batch", [("cut", 0, 3), ("mark", 1)], ("round", 5, 0, [], [0, 1, 2, 3])),
        # 1>2 1>3 | 3>0; 1>2 1>3 2>3 3>0 | 3>0 0>1; 1>2 1>3 2>3 3>0 0>1
        *afforded(4, [3, 9], 14),
        ("batch", [("unmark", 1), ("unmark", 3), ("mark", 0), ("cut", 2, 3)], ("round", 8, 0, [], [0, 1, 3])),
        *afforded(3, [1, 4], 8),                                # 0>1; 0>1 1>2 1>3; 0>1 1>2 1>3 3>0
        ("batch", [("cut", 3, 0), ("add", 3, 3)], ("none", 5, 3)),
        *at_any_price("none"),
    ]),
    # with several kinds in use there is no such question, whether there is a round or none
    ("short-kinds", 2, of_kinds(2, [0], [1]), C_MOVES, ("round", 4, 0, [], [0, 1]), [
        *at_any_price("no", 17),
        ("unmark", 1, 2, ("none", 5, 1)),
        *at_any_price("no", 17),
        ("line", "short", ("no", 1)),
        ("line", "short 65536", ("no", 1)),
        ("batch", ["short 1"], ("no", 1, 1)),
        ("kinds", 1, ("round", 4, 0, [], [0, 1])),
        *afforded(2, [1], 3),                                   # 0>1; 0>1 1>0
        ("add", 0, 0, ("round", 5, 0, [], [0, 1])),
        *afforded(2, [], 2),                                    # 0>1 0>0
        ("kinds", 5, ("no", 16)),
        *afforded(2, [], 2),
        ("kinds", 2, ("none", 10, 0)),                          # 0.1>1.2 1.2>0.2 0.2>1.2 0.2>0.2 0.1>0.2 | the same five
        *at_any_price("no", 17),
        ("kinds", 0, ("no", 16)),
        ("short", 3, ("no", 17)),
        *[step for kinds in (3, 4) for step in (("kinds", kinds, ("none", 10, 0)), ("short", 3, ("no", 17)))],
        ("kinds", 1, ("round", 5, 0, [], [0, 1])),
        *afforded(2, [], 2),
        ("unmark", 0, ("none", 3, 0)),
        *at_any_price("none"),
        ("kinds", 2, ("none", 3, 0)),
        *at_any_price("no", 17),
    ]),
    # lines that cannot be read
    ("short-lines", 2, [1], C_MOVES, ("round", 3, 0, [], [0, 1]), [
        *[("line", row, ("no", 1)) for row in BAD_SHORT],
        *afforded(2, [1], 3),                                   # 1>0; 1>0 0>1
        *[("short", budget, ("short", 2, 2)) for budget in (9, 10, 511, 512, 9999, 10000, 65534, 65535)],
        ("cut", 0, 1, ("none", 0, 0)),
        *at_any_price("none"),
    ]),
    # rings: that of 362 states is not found, though all shorter ones are ruled out; of 363 not even these are
    *[("short-ring-%d" % size, size, [0], [(s, (s + 1) % size) for s in range(size)], ("round", 2 * size, 0, [], list(range(size))),
       [*afforded(size, ring_ends(361))]) for size in (362, 363)],
    # found with the last look that there can be; and with one look more it is not
    ("short-last-look", 360, [0], WAY_ROUND + [(161, 161)], ("round", 722, 0, *WAY_ROUND_WALK), [
        *afforded(360, way_round_ends(161), 65535),
        ("cut", 161, 161, ("round", 559, 162, *WAY_ROUND_WALK)),
        ("add", 160, 160, ("round", 561, 161, *WAY_ROUND_WALK)),
        *afforded(360, way_round_ends(160)),
    ]),
    # a full table
    ("short-full", 512, list(range(512)), NEXT_FOUR, ("round", 516, 0, [], list(range(512))), [
        *afforded(512, [2048, 12288, 30720, 57344]),
        turned_back(3, 507),                                    # 2,048; 20 for each of 507, and 20 from 507
        *afforded(512, [2048], 12208),
        turned_back(507, 503),                                  # 12,288; 36 for each of 503, and 36 from 503
        *afforded(512, [2048, 12288], 30432),
        # for length 3 the searches from 508, 509 and 510 see 499 besides, and that from 511 four states behind it; 52 for each of
        # 499, and 52 from 499
        turned_back(503, 499),
        *afforded(512, [2048, 12288, 30748], 56748),
    ]),
]

WORKED = SINGLES + BATCH_GAMES + WAYS_GAMES + KIND_GAMES + OVER_GAMES + SHORT_GAMES

# N, paying states, moves; and, worked by hand, the looks, with a bar where an inner search begins and where it ends
# without success; stem and round, if there are any. Start is 0. With kinds, those that carry each are parted by a comma, and
# behind a look stands the layer that it is taken in.
LOOKS = [
    (4, "2", "01 12", "01 12", None),                                   # Game A
    (1, "", "", "", None),                                              # B, and so on
    (2, "1", "01 10", "01 10 | 10", ([], [0, 1])),
    (2, "0", "01 10", "01 10 | 01 10", ([], [0, 1])),
    (2, "", "01 10", "01 10", None),
    (3, "0", "01 12 21", "01 12 21 | 01 12 21 |", None),
    (3, "1", "12 21", "", None),
    (3, "12", "01 02 10 20", "01 10 | 10", ([], [0, 1])),
    (3, "12", "02 10 20 01", "02 20 | 20", ([], [0, 2])),               # Game H at its end
    (3, "01", "01 12 21", "01 12 21 | 12 21", ([0], [1, 2])),           # Game I
    (1, "0", "00", "00 | 00", ([], [0])),
    # the marks of one inner search spare the next a look
    (5, "14", "01 12 23 04 42 40", "01 12 23 | 12 23 | 04 42 40 | 42 40", ([], [0, 4])),
    # a closed run of the inner search off the open path is no round
    (4, "0", "03 01 31 13 30", "03 31 13 30 01 | 03 31 13 30", ([], [0, 3])),
    # of the inner search's path 5 is no part at the stop
    (6, "2", "01 12 25 23 34 41", "01 12 25 23 34 41 | 25 23 34 41", ([0], [1, 2, 3, 4])),
    # 1 has left the open path, marked and not
    (4, "13", "01 12 03 31", "01 12 | 12 | 03 31 | 31 |", None),
    (4, "3", "01 12 03 31", "01 12 03 31 | 31 12 |", None),
    # the games of two kinds above as they are loaded, and some more
    (2, "0,1", "01 10", "01.1 10.2 | 01.1 10.2", ([], [0, 1])),
    (2, "1,0", "01 10", "01.1 10.1 01.2 | 10.1 01.2", ([0], [1, 0])),
    (3, "012,012", "01 12 20", "01.1 12.2 20.1 01.2 12.1 20.2 | 12.1 20.2", ([], [0, 1, 2, 0, 1, 2])),
    (2, "01,", "01 10", "01.1 10.2 01.2 | 01.1 10.2 01.2 |", None),
    (2, ",01", "01 10", "01.1 10.1", None),
    (4, "0,3", "01 10 12 23 32", "01.1 10.2 01.2 12.2 23.2 32.2 23.1 32.1 | 01.1 10.2 01.2 12.2 23.2 32.2 23.1 32.1 |", None),
    (4, "0,3", "01 10 12 23 32 30", "01.1 10.2 01.2 12.2 23.2 32.2 23.1 32.1 30.1 30.2 "
     "| 01.1 10.2 01.2 12.2 23.2 32.2 23.1 32.1 30.1", ([], [0, 1, 2, 3, 2, 3])),
    # two inner searches: what the first has marked spares the second a look
    (4, "02,1", "01 12 23 03", "01.1 12.2 23.1 | 23.1 | 03.1 | 01.1 12.2 03.1 |", None),
    (1, "0,0,0", "00", "00.1 00.2 00.3 | 00.1 00.2 00.3", ([], [0, 0, 0])),
    (2, "0,1,0,1", "01 10", "01.1 10.2 01.3 10.4 | 01.1 10.2 01.3 10.4", ([], [0, 1, 0, 1])),
]


def made(table, call, room):
    """A call of these tables, made: its answer. A line outside a batch that is no change makes none, and gets 1."""
    word, *named = call
    if word == "line":
        return ("no", 1)
    if is_question(call):
        return called(table, *call)
    if word == "batch":
        named = [[line if isinstance(line, tuple) else None for line in named[0]]]
    return called(table, word, *named, room)


def least_room(table, call):
    """How many entries the list lent for such a call must have: for another K as many as that needs."""
    return table.size * call[1] if call[0] == "kinds" else table.least_room


def rows_of(call):
    """The lines of such a call, with spaces for tabs."""
    word, *named = call
    if word == "line":
        return named
    if word == "batch":
        return ["begin", *(" ".join(map(str, line)) if isinstance(line, tuple) else line for line in named[0]), "end"]
    return [" ".join(map(str, call))]


def flat(moves):
    return [n for move in moves for n in move]


# -------------------------------------------------------------- tests of this

def free_round_reachable(size, start, pays, moves):
    """By brute force: the closure of "one or more moves lead from a to b"."""
    leads = [[False] * size for _ in range(size)]
    for a, b in moves:
        leads[a][b] = True
    for k in range(size):
        for a in range(size):
            for b in range(size):
                if leads[a][k] and leads[k][b]:
                    leads[a][b] = True
    return any(pays[p] and leads[p][p] and (p == start or leads[start][p])
               for p in range(size))


def parts_left(roots, ways):
    """For each of these roots that is not gone through by then: what a walk from it leaves, in the order of leaving."""
    seen = set()
    for root in roots:
        if root in seen:
            continue
        seen.add(root)
        part, path = [], [(root, iter(ways[root]))]
        while path:
            state, left = path[-1]
            target = next((t for t in left if t not in seen), None)
            if target is None:
                part.append(state)
                path.pop()
            else:
                seen.add(target)
                path.append((target, iter(ways[target])))
        yield part


def round_in_parts(size, start, marks, moves):
    """Whether there is a free round, without layers: one of the strongly connected parts of what the start leads to has a
    move inside and, for each kind in use, a state that carries it."""
    onward, back = ([[] for _ in range(size)] for _ in range(2))
    for a, b in moves:
        onward[a].append(b)
    reached, = parts_left([start], onward)
    for a in reached:
        for b in onward[a]:
            back[b].append(a)
    for part in map(set, parts_left(reached[::-1], back)):
        inside = any(b in part for a in part for b in onward[a])
        if inside and all(any(own[s] for s in part) for own in marks):
            return True
    return False


# What the recursive search tells, each state as a pair with its layer: the looks; the outer ones, each with the count of looks
# before it; the states met, likewise; those whose loop over the outer moves was left; the open path at the end; the walk, if
# there is one.
Told = namedtuple("Told", "looks outer met done path walk")


class Stop(Exception):
    """Ends the recursive search at a round."""


@functools.lru_cache(maxsize=4)
def told_search(size, start, marks, moves):
    """The steps of the paper once more, by recursion, sharing nothing. What it tells of the last few games is kept at hand."""
    met, path, marked, looks, inner, walk = {}, [], set(), [], [], []
    outer, done = {}, []

    def steps(s):
        state, layer = s
        for a, b in moves:
            if a == state:
                yield s, (b, layer % len(marks) + 1 if marks[layer - 1][a] else layer)

    def meet(s):
        met[s] = len(looks)
        path.append(s)
        for step in steps(s):
            outer[step] = len(looks)
            looks.append(step)
            if step[1] not in met:
                meet(step[1])
        done.append(s)
        if s[1] == 1 and marks[0][s[0]]:
            search_inside(s)
        path.pop()

    def search_inside(s):
        marked.add(s)
        inner.append(s)
        for step in steps(s):
            looks.append(step)
            if step[1] in path:
                i = path.index(step[1])
                walk.append((path[:i], path[i:] + inner[1:]))
                raise Stop
            if step[1] not in marked:
                search_inside(step[1])
        inner.pop()

    try:
        meet((start, 1))
    except Stop:
        pass
    return Told(looks, outer, met, done, path, walk)


def in_use(table):
    """What a search takes: the marks of the kinds in use, and the moves."""
    return table.size, table.start, table.marks[:table.kinds], table.moves


def told_of(table):
    size, start, marks, moves = in_use(table)
    return told_search(size, start, tuple(map(tuple, marks)), tuple(moves))


def first_met(told, state):
    """The count of looks before any copy of the state is met, or of all."""
    return min((count for (s, _), count in told.met.items() if s == state), default=len(told.looks))


def is_met(told, state):
    return any(s == state for s, _ in told.met)


def spared_in(told, word, a, b):
    """For each layer whether the search had not come to the move there, by other signs than those of not_come_to: the outer
    looks alone, and the open path at the end, of which the last state alone has taken its last move."""
    layers = range(1, MOST_KINDS + 1)
    if word == "cut":
        looked = {layer for (s, layer), (t, _) in told.outer if (s, t) == (a, b)}
        return [layer not in looked for layer in layers]
    return [(a, layer) not in told.met or (a, layer) in told.path[:-1] for layer in layers]


def spared_by(told, word, a, b):
    return all(spared_in(told, word, a, b))


def pays_again(table):
    """By brute force: whether a reachable paying state has a move to itself."""
    reached, before = {table.start}, 0
    while before < len(reached):
        before = len(reached)
        reached |= {b for a, b in table.moves if a in reached}
    return any(table.pays[s] and (s, s) in table.moves for s in reached)


def paired(size, number):
    """A state of the plain search's layers as a pair with its layer, from 1."""
    return number % size, number // size + 1


def same_search(size, start, marks, moves, run=None):
    """The run of the plain search, with which the textbook search agrees in verdict, walk and looks. run: that of a table."""
    run, search = run or layered_search(size, start, marks, moves), TextbookSearch(size, start, marks, moves)
    assert search.looks == [(paired(size, a), paired(size, b)) for a, b in run.layered.looks], (size, start, marks, moves)
    assert (search.found, search.stem, search.round) == (run.found, run.stem, run.round), (size, start, marks, moves)
    assert run.found == round_in_parts(size, start, marks, moves), (size, start, marks, moves)
    check_walk(run, size, start, marks, moves)
    return run


def check_walk(run, size, start, marks, moves):
    """The walk is a run of present moves from the start into the round and once along it, and the round passes every kind.
    No layered state occurs twice in it, and at each move there are at most two looks in each layer."""
    assert all(count <= 2 for count in Counter(run.layered.looks).values())
    assert len(run.looks) <= 2 * len(moves) * len(marks)
    states, layered = run.stem + run.round, run.layered.stem + run.layered.round
    assert len(states) == len(set(layered)) <= size * len(marks) and run.found == bool(run.round)
    if run.found:
        assert states[0] == start
        assert set(zip(states, states[1:] + run.round[:1])) <= set(moves)
        assert all(any(own[s] for s in run.round) for own in marks)


def check_textbook(table):
    same_search(*in_use(table), table.run)


def check_run(table):
    check_textbook(table)
    run, told = table.run, told_of(table)
    def pair(number):
        return paired(table.size, number)
    layered = run.layered
    assert told.looks == [(pair(a), pair(b)) for a, b in layered.looks]
    assert list(told.met.items()) == [(pair(s), count) for s, count in layered.met_after.items()]
    assert told.done == list(map(pair, layered.finished))
    assert told.walk == ([(list(map(pair, layered.stem)), list(map(pair, layered.round)))] if run.found else [])
    assert [(run.stem, run.round)] == [tuple([s for s, _ in part] for part in walk) for walk in told.walk or [([], [])]]
    assert run.met_after == {s: first_met(told, s) for s, _ in told.met}
    assert all(told.outer[move] <= at for at, move in enumerate(told.looks))    # an inner look follows an outer one
    assert [s for s in told.met if s not in told.done] == told.path[:-1]        # unfinished at a stop
    assert run.found == bool(told.path)
    if table.kinds == 1:
        assert run.found == free_round_reachable(table.size, table.start, table.pays, table.moves)


def check_table(table):
    """As much as there is time for: the whole of a full table takes too long."""
    (check_run if table.size <= 8 else check_textbook)(table)


def check_change(table, before, word, named, answer):
    """An accepted change. before: the recursive search on the table that it found; named: its states."""
    check_run(table)
    now = told_of(table)
    kept = first_met(now, named[0])
    if word in MOVE_WORDS:
        spared = spared_by(before, word, *named)
        assert spared == (now.looks == before.looks)     # the new run is the old one there, and only there
        if spared:
            assert now == before                         # in verdict and walk too
            kept = len(now.looks)
    check_counts(table, before, kept, answer)


def check_counts(table, before, kept, answer):
    """An accepted change or batch that must keep so many looks."""
    now = told_of(table)
    count = len(now.looks)
    assert answer[1:3] == (count - kept, kept)
    assert before.looks[:kept] == now.looks[:kept]       # up to there both runs are one and the same
    assert again(table)[1] == (answer[0], count, 0, *answer[3:])


def again(table):
    """Another table that holds the same, by a load with the marks of this moment; and the answer of that load."""
    other = Table()
    return other, other.load(*load_args(table.size, table.start, carried_by(table), table.moves), table.least_room)


def carried_by(table):
    """The marks of this moment, as the games worked by hand have theirs."""
    return of_kinds(table.kinds, *([s for s in range(table.size) if own[s]] for own in table.marks))


def check_batch(table, before, lines, answer):
    """An accepted batch. before: the recursive search on the table that it found."""
    check_run(table)
    now = told_of(table)
    if all(spared_by(before, *line) if line[0] in MOVE_WORDS else not is_met(before, line[1]) for line in lines):
        assert now == before
        kept = len(now.looks)
    else:                                                # up to the first look that leads to a copy of a named state
        named = {line[1] for line in lines}
        leads = (at for at, (_, (target, _)) in enumerate(now.looks, 1) if target in named)
        kept = 0 if table.start in named else next(leads, len(now.looks))
        assert kept == min(first_met(now, s) for s in named)
    check_counts(table, before, kept, answer)


def one_by_one(table, lines):
    """What a batch of these lines must be refused with, or else the last answer of its changes made alone; None if there
    are none."""
    answer = None
    for position, line in enumerate(lines, 1):
        if line is None or line[0] not in MOVE_WORDS and line[2:] and line[2] not in (1, 2, 3, 4):
            return ("no", 1, position)
        if position > 64:
            return ("no", 15, position)
        answer = getattr(table, line[0])(*line[1:], table.least_room)
        if answer[0] == "no":
            return (*answer, position)
    return answer


def batched(table, lines, room):
    """A batch held against its changes made alone."""
    before, run = told_of(table), table.run
    singles, first = again(table)
    untouched, _ = again(table)
    alone = one_by_one(singles, lines) or first
    answer = table.batch(lines, room)
    if room < table.least_room or alone[0] == "no":
        assert answer == (("no", 11, 0) if room < table.least_room else alone)
        assert (table.run, table.moves, table.marks) == (run, untouched.moves, untouched.marks)
        return answer
    assert (table.moves, table.marks) == (singles.moves, singles.marks)
    assert (answer[0], sum(answer[1:3]), *answer[3:]) == (alone[0], sum(alone[1:3]), *alone[3:])
    assert len(lines) != 1 or answer == alone
    check_batch(table, before, lines, answer)
    return answer


def switch(table, word, state, room, kind=1):
    """A mark or an unmark, its number and the table that it leaves held against the list of refusals."""
    there = {(s, own) for own in (1, 2, 3, 4) for s in range(table.size) if table.marks[own - 1][s]}
    moves, run, before = list(table.moves), table.run, told_of(table)
    faults = [(1, kind not in (1, 2, 3, 4)), (4, kind > table.kinds), (6, state >= table.size),
              (13, word == "mark" and (state, kind) in there), (14, word == "unmark" and (state, kind) not in there),
              (11, room < table.size * table.kinds)]
    number = next((n for n, holds in faults if holds), 0)
    answer = getattr(table, word)(state, kind, room)
    if number:
        assert answer == ("no", number) and table.run is run
    else:
        there ^= {(state, kind)}
        check_change(table, before, word, (state,), answer)
    assert table.marks == [[(s, own) in there for s in range(table.size)] for own in (1, 2, 3, 4)] and table.moves == moves
    return answer


def moved(table, word, a, b, room):
    """An add or a cut with its counts: the answer, and what the run before it had to do with the move."""
    before = told_of(table)
    answer = getattr(table, word)(a, b, room)
    if answer[0] == "no":
        check_run(table)
        return answer, "refused"
    check_change(table, before, word, (a, b), answer)
    return answer, sort_of(before, word, a, b)


def held(table):
    """All that a table holds, to be compared with later."""
    return table.size, table.start, table.kinds, [list(own) for own in table.marks], list(table.moves)


def gone_over(table, kinds, room):
    """Another K: its number held against the list of refusals, what it leaves and its answer against a load with the marks up to
    that K and the moves in their order. The answer, and the table of that load in a list, which is empty if it is refused."""
    before, run = held(table), table.run
    size, start, _, marks, moves = before
    faults = [(16, kinds not in (1, 2, 3, 4) or size * kinds > 512 or len(moves) * kinds > 2048), (11, room < size * kinds)]
    number = next((n for n, holds in faults if holds), 0)
    answer = table.set_kinds(kinds, room)
    if number:
        assert answer == ("no", number) and table.run is run and held(table) == before
        return answer, []
    carriers = [[s for s in range(size) if own[s]] for own in marks[:kinds]]
    fresh = Table()
    assert answer == fresh.load(*load_args(size, start, of_kinds(kinds, *carriers), moves), room) and answer[2] == 0
    assert held(table) == held(fresh) == (size, start, kinds, marks[:kinds] + [[False] * size] * (4 - kinds), moves)
    check_table(table)
    return answer, [fresh]


def tried(table, call, room):
    """A call with all that must hold of it: its answer, and the table that another K was held against in a list."""
    word, *named = call
    if word == "kinds":
        return gone_over(table, *named, room)
    if word == "batch":
        return batched(table, *named, room), []
    if word in MOVE_WORDS:
        return moved(table, *call, room)[0], []
    if word in ("mark", "unmark"):
        state, *kind = named
        return switch(table, word, state, room, *kind), []
    return made(table, call, room), []


def in_step(table, others, call, room):
    """The same of a session, with others beside it: each was loaded where the session went over, answers every later call alike
    and is left alike."""
    answer, fresh = tried(table, call, room)
    for other in others:
        assert made(other, call, room) == answer and held(other) == held(table), (held(table), call)
    others += fresh
    return answer


def sort_of(before, word, a, b):
    """What the search had to do with a move. Where it had come to it in one layer, it may not have in another, in which the
    state that it leaves was met all the same."""
    if not is_met(before, a):
        return "never met"
    spared = spared_in(before, word, a, b)
    if all(spared):
        return "not come to"
    not_in = [layer for layer, holds in enumerate(spared, 1) if holds and (a, layer) in before.met]
    return "come to" if not not_in else "not in layer 1" if 1 in not_in else "not in a later layer"


def test_games():
    for name, size, pay, moves, first, calls in WORKED:
        rows = game_rows(size, 0, pay, moves)
        table = Table()
        loaded = lines = loaded_lines(table, name, size, pay, moves, first)
        if table.loaded:
            check_table(table)
        for *call, answer in calls:
            got = worked_call(table, call)
            assert got == answer, (name, call, got)
            if not is_question(call):
                check_table(table)
            rows += rows_of(call)
            lines += answer_line(answer)
        text = as_text("|".join(rows))
        assert answer_text(text + b"\n") == lines, name
        assert answer_text(text) == lines, name
        assert desk_hears(text) == loaded, name
        if not isinstance(pay, Carried):                           # `kinds 1`, written, changes nothing
            assert answer_text(as_text("|".join(rows[:1] + ["kinds 1"] + rows[1:]))) == lines, name


def worked_call(table, call):
    """A call of the games worked by hand, with a list that is just long enough. Another K is tried with one entry less before."""
    room = least_room(table, call)
    if call[0] != "kinds":
        return made(table, call, room)
    gone_over(table, *call[1:], max(room - 1, 0))
    return gone_over(table, *call[1:], room)[0]


def loaded_lines(table, name, size, pay, moves, first):
    """The game is loaded with this first answer, which its lines tell too: these."""
    args = load_args(size, 0, pay, moves)
    got = table.load(*args, size * args[2])
    assert got == first, (name, got)
    if not table.loaded:
        return answer_line(first)
    count = len({s for states in carried(pay).carriers for s in states})
    return answer_line(("game", size, len(moves), count)) + answer_line(first)


def game_rows(size, start, pay, moves):
    """The lines that load a game, with spaces for tabs."""
    kinds, carriers = carried(pay)
    rows = ["game %d %d" % (size, start)] + ([] if kinds is None else ["kinds %d" % kinds])
    rows += [pay_row(kinds, kind, state) for kind, states in enumerate(carriers, 1) for state in states]
    return rows + ["move %d %d" % m for m in moves] + ["go"]


def pay_row(kinds, kind, state):
    """Kind 1 is left out, but where K is written it stands behind every other state."""
    left_out = kind == 1 and (kinds is None or state % 2 == 0)
    return "pay %d" % state if left_out else "pay %d %d" % (state, kind)


def as_text(rows):
    return rows.replace(" ", "\t").replace("|", "\n").encode()


def says(given, wanted):
    """The box answers so, and the desk the first two lines of it: a load has no more, and other lines no answer there."""
    given, wanted = as_text(given), as_text(wanted)
    got = answer_text(given)
    assert got == wanted, (given, got)
    assert desk_hears(given) == first_two(wanted), (given, wanted)


def desk_hears(text):
    """The desk's output for a text: the box's for the text up to its `go`, and the first two lines of that for all of it."""
    got, heard, cut = desk_text(text), answer_text(text), up_to_go(text)
    assert got == first_two(heard) == (heard if cut == text else answer_text(cut)), (text, got)
    return got


def first_two(output):
    return b"".join(output.splitlines(True)[:2])


def test_game_a_as_printed():
    given = "game 4 0|pay 2|move 0 1|move 1 2|go|add 2 1|add 2 3|cut 1 2|cut 1 2|add 2 0|"
    wanted = ("game 4 2 1|none 2 0|round 2 2 1 2 0 1 2|round 3 2 1 2 0 1 2|"
              "none 0 1|no 10|none 0 1|")
    says(given, wanted)
    given, wanted = as_text(given), as_text(wanted)
    assert bench_answer(given, 65536) == (wanted, 2 * len(wanted))
    assert bench_answer(given, len(wanted)) == (wanted, 2 * len(wanted))
    assert bench_answer(given, len(wanted) - 1) == (wanted[:-9], 2 * len(wanted[:-9]) + 1)
    assert bench_answer(given, 10) == (b"", 1)
    assert bench_answer(given, 11) == (wanted[:11], 23)
    assert bench_answer(b"", 0) == (b"", 0)


def test_lines():
    says("", "")
    says("|", "no 1|")
    says("game 513 0", "")
    says("game 513 0||go", "no 1|")
    says("game 513 0|go", "no 2|")
    says("game 0 0|go", "no 2|")
    says("game 2 2|go|add 0 1", "no 3|")
    says("game 2 0|pay 511", "")
    says("game 2 0|pay 511|go", "no 4|")
    says("game 2 0|pay 512|go", "no 1|")
    says("game 2 0|move 0 2|go", "no 6|")
    says("game 2 0|move 2 2|go", "no 6|")
    says("game 2 0|move 1 1|move 0 2|go", "no 6|")
    says("game 2 0|move 1 1|move 1 1|move 0 2|go", "no 6|")
    says("game 2 0|move 1 1|go", "game 2 1 0|none 0 0|")
    says("game 2 1|move 1 1|go", "game 2 1 0|none 1 0|")
    says("game 2 1|pay 1|move 1 1|go", "game 2 1 1|round 2 0 0 1 1|")
    says("game 2 0|move 0 1|move 0 1|move 1 1|go", "no 8|")
    says("game 2 0|move 1 1|move 0 1|move 1 1|go", "no 8|")
    says("game 2 0|move 0 1|move 0 1|go", "no 8|")
    says("game 1 0|pay 0|move 0 0|go", "game 1 1 1|round 2 0 0 1 0|")
    says("game 1 0|move 0 0|go", "game 1 1 0|none 1 0|")
    says("game 2 0|pay 1|pay 1|go", "game 2 0 1|none 0 0|")
    for bad in ("pay 1|game 2 0", "go", "add 0 1", "game 2", "game 2 0 ", "game 2  0",
                "game 02 0", "game 2 00", "game 65536 0", "game 100000 0", "Game 2 0",
                "game 2 +0", "game 2 0\r", "game 2 0\0", " game 2 0", "game"):
        says(bad + "|go", "no 1|")
    for bad in ("game 2 0", "move 0 1|pay 1", "cut 0 1", "go ", "go\r", "pay 1|kinds 1"):
        says("game 2 0|" + bad + "|go", "no 1|")
    says("game 65535 65535|go", "no 2|")
    head, heard = "game 2 0|go|", "game 2 0 0|none 0 0|"
    says(head + "add 0 1|go|pay 1|move 0 1||add 0 01|add  1|add 0 1 |add 0|cut 65536 0|cut 0 1",
         heard + "none 1 0|" + "no 1|" * 9 + "none 0 0|")
    says(head + "add 0 2|add 2 2|cut 65535 0|cut 2 2|cut 0 0|cut 0 1|add 1 1|add 1 1|add 0 0|cut 1 1",
         heard + "no 6|no 6|no 6|no 6|no 10|no 10|none 0 0|no 8|none 1 0|none 0 1|")
    says(head + "x" * 32 + "|" + "x" * 33 + "|" + "x" * 1000, heard + "no 1|" * 3)
    full = [(a, b) for a in range(64) for b in range(64)][:2047] + [(63, 63)]
    load = "game 64 0|" + "".join("move %d %d|" % m for m in full)
    search = plain_search(64, 0, [False] * 64, full)
    said = "game 64 2048 0|none %d 0|" % len(search.looks)
    says(load + "go|add 0 1|add 63 63|add 63 62|add 62 62|cut 62 62|",
         said + "no 8|no 8|no 9|no 9|no 10|")
    says(load + "move 63 62|go", "no 5|")
    says(load + "move 62 62|go", "no 5|")
    says(load + "move 63 63|go", "no 5|")
    says(load + "move 9999 62|go", "no 5|")
    says(load + "move 62|go", "no 1|")
    says(load.replace("game 64 0", "game 64 64") + "move 63 62|go", "no 5|")
    says(load.replace("game 64 0", "game 64 64") + "go", "no 3|")


# What may stand where a line names one state, and the number that it gets in a game of three.
REFUSED_STATES = (("511", 6), ("512", 6), ("9999", 6), ("65535", 6), ("65536", 1), ("99999", 1), ("100000", 1), ("000000", 1),
                  ("00", 1), ("01", 1), ("", 1), ("-1", 1), ("+1", 1), ("1\r", 1), ("1\0", 1), ("1 ", 1), (" 1", 1), ("1 5", 1),
                  ("0 1 2", 1), ("x", 1))


def test_mark_lines():
    head, heard = "game 3 0|pay 1|move 0 1|move 1 0|go|", "game 3 2 1|round 3 0 0 2 0 1|"
    says(head + "unmark 1|mark 1|mark 2|unmark 2|mark 0|unmark 0",
         heard + "none 1 1|round 2 1 0 2 0 1|" + "round 0 3 0 2 0 1|" * 2 + "round 3 0 0 2 0 1|" * 2)
    says(head + "mark 1|unmark 0|unmark 2|mark 3|unmark 3|unmark 1|unmark 1|mark 1",
         heard + "no 13|no 14|no 14|no 6|no 6|none 1 1|no 14|round 2 1 0 2 0 1|")
    for (number, refusal), word in itertools.product(REFUSED_STATES, ("mark", "unmark")):
        says(head + "%s %s|unmark 1" % (word, number), heard + "no %d|none 1 1|" % refusal)
    for bad in ("mark", "unmark", "Mark 0", "MARK 0", "marks 0", "mar 0", "unMark 1", "un mark 1", "unmarked 1",
                "mark\v0", "\0mark 0", " mark 0", "pay 0", "mark" + " " * 40 + "0"):
        says(head + bad + "|unmark 1", heard + "no 1|none 1 1|")
    for word, at in itertools.product(("mark 0", "unmark 1", "mark 9", "unmark 9"), range(5)):
        rows = head.split("|")[:at] + [word, "go", "cut 0 1"]
        says("|".join(rows), "no 1|")           # misplaced before `go`
    says("game 1 0|pay 0|go|unmark 0|mark 0|mark 0", "game 1 0 1|none 0 0|none 0 0|none 0 0|no 13|")


def test_refusals():
    t, none = Table(), words_of()
    mark = words_of([2])
    cases = [   # each has every later fault of the load too
        (2, (0, 0, 1, mark, [9, 9, 9], 0)), (2, (513, 600, 1, mark, [9, 9, 9], 0)),
        (3, (2, 2, 1, mark, [9, 9, 9], 0)), (4, (2, 1, 1, mark, [9, 9, 9], 0)),
        (5, (2, 1, 1, none, [9, 9, 9], 0)), (5, (2, 1, 1, none, [9] * 4098, 0)),
        (6, (2, 1, 1, none, [0, 1, 0, 1, 1, 1, 0, 2], 0)),
        (6, (2, 1, 1, none, [1, 1, 1, 1, 2, 2], 0)),
        (8, (2, 1, 1, none, [0, 1, 0, 1, 1, 1], 0)), (8, (2, 1, 1, none, [1, 1, 0, 1, 1, 1], 0)),
        (11, (2, 1, 1, none, [0, 1], 1)), (11, (2, 1, 1, none, [1, 1], 1)),
    ]
    for number, args in cases:
        assert t.load(*args) == ("no", number), (number, args)
        assert not t.loaded
    full = [(a, b) for a in range(4, 512) for b in range(4, 9)][:2048]
    assert full[0] == (4, 4)
    assert t.load(512, 511, 1, none, flat(full), 512)[0] == "none"
    assert t.add(512, 512, 0) == t.add(0, 512, 0) == ("no", 6)
    assert t.cut(512, 512, 0) == t.cut(512, 0, 0) == ("no", 6)
    assert t.add(4, 4, 0) == t.add(4, 5, 0) == ("no", 8)
    assert t.add(511, 511, 0) == t.add(511, 0, 0) == ("no", 9)
    assert t.cut(511, 511, 0) == t.cut(511, 0, 0) == ("no", 10)
    assert t.cut(4, 4, 511) == t.cut(4, 5, 511) == ("no", 11) and t.moves == full
    assert t.cut(4, 4, 512)[0] == "none" and t.moves == full[1:]
    assert t.add(4, 4, 511) == t.add(511, 0, 511) == ("no", 11) and t.moves == full[1:]
    assert t.add(4, 4, 512)[0] == "none" and t.moves == full[1:] + full[:1]
    assert t.cut(4, 5, 512)[0] == "none" and t.moves == full[2:] + full[:1]
    assert t.add(511, 511, 512) == ("none", 1, 0)
    assert t.moves == full[2:] + full[:1] + [(511, 511)]
    for state in (512, 513, 65535):
        assert t.mark(state, 0) == t.unmark(state, 0) == t.mark(state, 512) == ("no", 6)
    for state in (0, 63, 64, 511):
        assert t.unmark(state, 0) == t.unmark(state, 512) == ("no", 14)
        assert t.mark(state, 0) == t.mark(state, 511) == ("no", 11) and not t.pays[state]
        assert t.mark(state, 512)[0] == ("round" if state == 511 else "none") and t.pays[state]
        assert t.mark(state, 0) == t.mark(state, 512) == ("no", 13)
        assert t.unmark(state, 0) == t.unmark(state, 511) == ("no", 11) and t.pays[state]
    assert t.unmark(511, 600) == ("none", 1, 0) and [s for s in range(512) if t.pays[s]] == [0, 63, 64]


def test_every_call():
    """Up to two moves between up to two states, with every fault: 7 never comes. The other
    numbers do, but for 9, which needs a full table."""
    heard = set()
    pays = [], [0], [1], [0, 1], [2]
    lists = [list(n) for count in range(6) for n in itertools.product(range(3), repeat=count)]
    for size, start, pay, numbers in itertools.product(range(3), range(3), pays, lists):
        for room in range(3):
            t = Table()
            heard.add(t.load(size, start, 1, words_of(pay), numbers, room)[:2])
        if not t.loaded:
            continue
        check_run(t)
        for a, b, room in itertools.product(range(3), range(3), (0, 2)):
            for word in ("cut", "cut", "add", "add"):
                heard.add(moved(t, word, a, b, room)[0][:2])
        for state, room, word in itertools.product(range(4), range(4), ("mark", "mark", "unmark", "unmark")):
            heard.add(switch(t, word, state, room)[:2])
    assert {number for word, number in heard if word == "no"} == {2, 3, 4, 5, 6, 8, 10, 11, 13, 14}


def random_load(rng, table, most, kinds=None):
    """A random game of up to so many states; with one kind, or with so many and each of them carried by none, some or all."""
    size = rng.randint(1, most)
    every = [(a, b) for a in range(size) for b in range(size)]
    rng.shuffle(every)
    moves = every[:rng.randint(0, min(len(every), (4 if kinds else 2) * size))]
    pay = random_carried(rng, size, kinds) if kinds else [s for s in range(size) if rng.random() < 0.35]
    return table.load(*load_args(size, rng.randrange(size), pay, moves), size * (kinds or 1))


def ring_load(rng, table, most, kinds):
    """A random game of up to so many states: a ring that has all kinds, and further moves."""
    size = rng.randint(2, most)
    moves = list(dict.fromkeys([(s, (s + 1) % size) for s in range(size)]
                               + [(rng.randrange(size), rng.randrange(size)) for _ in range(size)]))
    rng.shuffle(moves)
    carriers = [sorted({rng.randrange(size) for _ in range(rng.choice((1, 1, 2, size)))}) for _ in range(kinds)]
    return table.load(*load_args(size, 0, of_kinds(kinds, *carriers), moves), size * kinds)


def random_carried(rng, size, kinds):
    """Each kind is carried by few states, by many or by all, seldom by none; in some games one state carries all kinds."""
    shares = [0 if rng.random() < 0.06 else rng.choice((0.2, 0.35, 0.6, 1)) for _ in range(kinds)]
    one = {rng.randrange(size)} if rng.random() < 0.3 else set()
    return of_kinds(kinds, *(sorted(one | {s for s in range(size) if rng.random() < share}) for share in shares))


def random_kind(rng, table):
    return 1 if table.kinds == 1 else rng.randint(1, table.kinds)


def given_marks(rng, table):
    """For each kind in use that none carries a mark of some state."""
    bare = [kind for kind, own in enumerate(table.marks[:table.kinds], 1) if not any(own)]
    return [("mark", rng.randrange(table.size), kind) for kind in bare]


def random_switch(rng, table):
    """A mark or an unmark that is accepted, or one time in eight any."""
    state, kind = rng.randrange(table.size), random_kind(rng, table)
    if rng.random() < 0.125:
        word, state, room = rng.choice(("mark", "unmark")), rng.randint(0, table.size), rng.randint(0, table.least_room)
        kind = kind if table.kinds == 1 else rng.choice((0, 1, 2, 3, 4, 5, 65535))
    else:
        word, room = "unmark" if table.marks[kind - 1][state] else "mark", table.least_room
    return word, switch(table, word, state, room, kind)


def random_move(rng, table):
    """A move that comes or goes."""
    every = [(a, b) for a in range(table.size) for b in range(table.size)]
    move = rng.choice(table.moves if table.moves and rng.random() < 0.3 else every)
    word = "cut" if move in table.moves else "add"
    answer, sort = moved(table, word, *move, table.least_room)
    return word, sort, answer


def test_random():
    rng = random.Random(7)
    seen = Counter()

    def heard(t, what, answer):
        seen[what, answer[0]] += 1
        if answer[0] == "no":
            return
        seen[what, "kept" if answer[2] else "kept 0", "spent" if answer[1] else "spent 0"] += 1
        if pays_again(t):
            assert answer[0] == "round", (t.size, t.start, t.pays, t.moves)
            seen["length 1" if len(answer[4]) == 1 else "another"] += 1

    for _ in range(2000):
        t = Table()
        heard(t, "load", random_load(rng, t, 8))
        check_run(t)
        for _ in range(12):
            what, call = rng.choice((("switch", random_switch), ("move", random_move)))
            heard(t, what, call(rng, t)[-1])
    for what in ("switch", "move"):
        assert min(seen[what, "none"], seen[what, "round"]) > 3000, seen
        for kept, spent in itertools.product(("kept", "kept 0"), ("spent", "spent 0")):
            assert seen[what, kept, spent] > 500, seen
    assert min(seen["length 1"], seen["another"], seen["switch", "no"]) > 700, seen


def test_lines_of_states():
    """Random changes where a line of states leads to one that pays and leads back. Of each sort there are many."""
    rng = random.Random(9)
    seen = Counter()
    for _ in range(800):
        size = rng.randint(3, 9)
        line = [(s, s + 1) for s in range(size - 1)] + [(size - 1, rng.randrange(size))]
        others = [(rng.randrange(size), rng.randrange(size)) for _ in range(size)]
        moves = list(dict.fromkeys(line + others))
        rng.shuffle(moves)
        t = Table()
        t.load(*load_args(size, 0, [size - 1, rng.randrange(size)], moves), size)
        for _ in range(10):
            *sort, answer = rng.choice((random_move, random_move, random_move, random_switch))(rng, t)
            seen[(*sort, answer[0])] += 1
    for word in ("add", "cut"):
        for sort, verdict in itertools.product(("never met", "come to"), ("round", "none")):
            assert seen[word, sort, verdict] > 150, seen
        assert seen[word, "not come to", "round"] > 400, seen
        assert seen[word, "not come to", "none"] == 0       # with no round all that was met had been finished
    assert min(seen["mark", "round"], seen["unmark", "round"]) > 150, seen


def test_there_and_back():
    """A mark and an unmark of one state leave the table and its run as they were."""
    rng = random.Random(8)
    for _ in range(500):
        t = Table()
        random_load(rng, t, 6)
        before = t.run.looks
        for state in range(t.size):
            words = ("unmark", "mark") if t.pays[state] else ("mark", "unmark")
            first, second = (switch(t, word, state, t.size) for word in words)
            assert t.run.looks == before and first[2] <= len(before) and second[2] <= sum(first[1:3])


def test_batch_lines():
    head, heard = "game 3 0|pay 1|move 0 1|move 1 0|go|", "game 3 2 1|round 3 0 0 2 0 1|"
    for row in ("begin", "end", "begin|end"):             # misplaced before `go`
        for at in range(5):
            says("|".join(head.split("|")[:at] + [row, "go", "end"]), "no 1|")
    says(head + "begin|cut 0 1|add 0 2|end|begin|end|cut 0 1", heard + "none 1 0|none 0 1|no 10|")
    # an input that ends inside a batch, refused by then or not, prints nothing for it
    rows = ["begin", "cut 0 1", "add 0 1", "add 0 1", "", "x", "mark 9", "begin", "end "]
    for count in range(1, len(rows) + 1):
        for ending in ("", "|", "|e", "|end ", "|end\r", "|END|"):
            says(head + "mark 2|" + "|".join(rows[:count]) + ending, heard + "round 0 3 0 2 0 1|")
    says(head + "begin|mark 0|begin|end", heard + "no 1 2|")
    says(head + "begin|mark 0|begin|end|end|unmark 0", heard + "no 1 2|no 1|no 14|")
    says(head + "begin 1|mark 2|end|end ", heard + "no 1|round 0 3 0 2 0 1|no 1|no 1|")
    says(head + "begin|" + "mark 2|unmark 2|" * 32 + "end|begin|" + "mark 2|unmark 2|" * 32 + "mark 9|x|end",
         heard + "round 0 3 0 2 0 1|no 15 65|")
    for bad in ("begin ", "begin\r", "begin\0", " begin", "Begin", "BEGIN", "begin 0", "begi", "begins", "begin x", "end",
                "end ", "end\r", "end 1", "End", "END", " end", "ends", "en", "begin" + " " * 30, "x" * 33):
        says(head + bad + "|unmark 1", heard + "no 1|none 1 1|")
        if bad != "end":
            says(head + "begin|mark 2|" + bad + "|unmark 1|end|mark 2", heard + "no 1 2|round 0 3 0 2 0 1|")
    # the only line of a batch is that of its end
    given = as_text(head + "begin|unmark 0|end|cut 0 1")
    wanted = as_text(heard + "no 14 1|none 0 0|")
    at = len(as_text(heard + "no 14 1|"))
    assert bench_answer(given, at) == (wanted[:at], 2 * at + 1)
    assert bench_answer(given, at - 1) == (as_text(heard), 2 * len(heard) + 1)
    assert bench_answer(given, 65536) == (wanted, 2 * len(wanted))


def test_batch_numbers():
    """Each number at each place, and with it more behind; on a full table, of which no search meets more than the start."""
    t = Table()
    t.load(*load_args(64, 0, [0, 1], FULL_MOVES), 64)
    back = [("mark", 3), ("unmark", 3)] * 32
    cases = ((1, None), (6, ("add", 0, 64)), (6, ("cut", 64, 64)), (6, ("mark", 65535)), (6, ("unmark", 64)),
             (8, ("add", 32, 0)), (9, ("add", 0, 1)), (10, ("cut", 0, 1)), (13, ("mark", 0)), (14, ("unmark", 2)))
    for (number, line), ahead in itertools.product(cases, (0, 1, 2, 31, 62, 63, 64)):
        wanted = number if ahead < 64 or line is None else 15
        for behind in ([], [None], [line] * 3, [("mark", 5)] * 5, back):
            lines = back[:ahead] + [line] + behind
            assert t.batch(lines, 64) == ("no", wanted, ahead + 1)
            assert t.batch(lines, 63) == t.batch([], 63) == t.batch(lines, 0) == ("no", 11, 0)
    assert t.moves == FULL_MOVES and t.pays == [True, True] + [False] * 62
    assert t.batch([], 64) == t.batch(back, 600) == ("none", 0, 0)
    for lines in ([], [None], [("mark", 0)]):
        needs_session("batch", lines, 600)


def random_lines(rng, table, count):
    """So many changes that are accepted one after another. In some batches the run before had come to none of them."""
    moves, there, run = set(table.moves), [list(own) for own in table.marks], table.run
    marks = list(range(table.size))
    any_move = [(a, b) for a in marks for b in marks]
    if rng.random() < 0.4:
        unmet = [s for s in marks if s not in run.met_after]
        quiet = [m for m in any_move if m not in run.looks and (m[0] not in run.finished or m in moves)]
        if quiet:
            marks, any_move = unmet, quiet
    lines = []
    while len(lines) < count:
        if marks and rng.random() < 0.3:
            state, kind = rng.choice(marks), random_kind(rng, table)
            own = there[kind - 1]
            lines.append(("unmark" if own[state] else "mark", state) + (() if kind == 1 else (kind,)))
            own[state] = not own[state]
        else:
            here = [m for m in any_move if m in moves]
            move = rng.choice(here if here and rng.random() < 0.5 else any_move)
            lines.append(("cut" if move in moves else "add", *move))
            moves ^= {move}
    return lines


def spoilt(rng, table, lines):
    """The same with one line more that is refused, or may be."""
    state = rng.randint(0, table.size)
    line = rng.choice((None, ("mark", state), ("unmark", state), ("add", state, 0), ("cut", state, state), ("cut", 0, state)))
    if table.kinds > 1 and rng.random() < 0.5:
        line = rng.choice(("mark", "unmark")), state, rng.choice((0, 1, 2, 3, 4, 5, 65535))
    at = rng.randint(0, len(lines))
    return lines[:at] + [line] + lines[at:]


def test_batches():
    rng = random.Random(10)
    seen = Counter()
    for _ in range(900):
        t = Table()
        random_load(rng, t, 8)
        for _ in range(6):
            count = rng.choice((0, 1, 1, 2, 2, 3, 4, 6, 10, rng.choice((20, 63, 64, 65, 66))))
            lines = random_lines(rng, t, count)
            if rng.random() < 0.3:
                lines = spoilt(rng, t, lines)
            random_batch(rng, t, lines, seen)
            if rng.random() < 0.3:
                rng.choice((random_switch, random_move))(rng, t)
    assert all(seen["no", number] > 20 for number in (1, 6, 8, 10, 11, 13, 14, 15)), seen
    for verdict, what in itertools.product(("round", "none"), (("met", "spent"), ("met", "spent 0"), ("unmet", "spent 0"))):
        assert seen[(verdict, *what)] > 100, seen


def random_batch(rng, table, lines, seen):
    """A batch with a list that is seldom too short, and what came of it."""
    least = table.least_room
    room = rng.randint(0, least) if rng.random() < 0.03 else rng.randint(least, least + 2)
    met = {line[1] for line in lines if line} & set(table.run.met_after)
    answer = batched(table, lines, room)
    if answer[0] == "no":
        seen["no", answer[1]] += 1
    else:
        seen[answer[0], "met" if met else "unmet", "spent" if answer[1] else "spent 0"] += 1


def test_small_batches():
    """Every batch of up to two changes on some small tables, each after each."""
    rng = random.Random(11)
    words = [("add", a, b) for a in range(3) for b in range(2)] + [("cut", a, b) for a in range(2) for b in range(2)]
    words += [("mark", 0), ("mark", 1), ("mark", 2), ("unmark", 0), ("unmark", 1), None]
    for _ in range(25):
        t = Table()
        random_load(rng, t, 2)
        for lines in itertools.chain([()], itertools.product(words, repeat=1), itertools.product(words, repeat=2)):
            batched(again(t)[0], list(lines), t.size)


def test_ways_lines():
    head, heard = "game 3 0|pay 1|move 0 1|move 1 0|go|", "game 3 2 1|round 3 0 0 2 0 1|"
    says(head + "ways 0|ways 2|add 2 2|ways 2|ways 3|add 2 1|ways 2|ways 1|cut 2 2|ways 2",
         heard + "ways 0 1 1|ways 2 0 0|round 0 3 0 2 0 1|ways 2 1 1|no 6|round 0 3 0 2 0 1|ways 2 2 1|ways 1 1 2|"
         "round 0 3 0 2 0 1|ways 2 1 0|")
    for number, refusal in REFUSED_STATES:
        says(head + "ways %s|unmark 1|ways 1" % number, heard + "no %d|none 1 1|ways 1 1 1|" % refusal)
    for bad in ("ways", "Ways 0", "WAYS 0", "way 0", "wayss 0", "ways\v0", "\0ways 0", " ways 0", "ways" + " " * 40 + "0"):
        says(head + bad + "|unmark 1", heard + "no 1|none 1 1|")
    for word, at in itertools.product(("ways 0", "ways 9", "ways"), range(5)):
        says("|".join(head.split("|")[:at] + [word, "go", "ways 0"]), "no 1|")        # misplaced before `go`
    for row in ("ways 0", "ways 9", "ways"):                 # and inside a batch, of which it is no end
        says(head + "begin|%s|end|ways 1" % row, heard + "no 1 1|ways 1 1 1|")
        says(head + "begin|cut 0 1|add 2 1|%s|cut 0 1|end|ways 1|ways 2" % row, heard + "no 1 3|ways 1 1 1|ways 2 0 0|")
        says(head + "ways 1|begin|cut 0 1|" + row, heard + "ways 1 1 1|")
        says(head + "begin|" + "mark 2|unmark 2|" * 32 + row + "|end", heard + "no 1 65|")
    for word in ("all", "why", "sheet"):
        says(head + word + "|ways 0", heard + "no 1|ways 0 1 1|")
    fits_in_part(head + "ways 0|ways 9|ways 2", heard + "ways 0 1 1|no 6|ways 2 0 0|", 3)
    needs_session("ways", 0)


def fits_in_part(given, wanted, count):
    """A bench program hears all that fits: each of the last lines, so many, is left out where one byte is missing for it."""
    given, wanted = as_text(given), as_text(wanted)
    assert bench_answer(given, 65536) == bench_answer(given, len(wanted)) == (wanted, 2 * len(wanted))
    for line in wanted.splitlines(True)[:-count - 1:-1]:
        whole = wanted[:-len(line)]
        assert bench_answer(given, len(wanted) - 1) == (whole, 2 * len(whole) + 1)
        wanted = whole


def needs_session(word, *args):
    """Such a call without a session raises an error."""
    try:
        called(Table(), word, *args)
    except RuntimeError:
        return
    assert False, word + " without a session"


class Tally:
    """The counts of the ways out and in by what is loaded and accepted alone, without a count over the moves present."""

    def __init__(self, moves):
        self.leaving, self.entering = Counter(), Counter()
        for move in moves:
            self.move("add", *move)

    def move(self, word, a, b):
        self.leaving[a] += 1 if word == "add" else -1
        self.entering[b] += 1 if word == "add" else -1

    def heard(self, lines, answer):
        for line in lines if answer[0] != "no" else ():
            if line[0] in MOVE_WORDS:
                self.move(*line)

    def check(self, table):
        """The table answers every question so, and is left as it was."""
        held = table.run, list(table.moves), [list(own) for own in table.marks]
        for s in range(table.size):
            assert table.ways(s) == ("ways", s, self.leaving[s], self.entering[s]), (table.moves, s)
        assert {table.ways(s) for s in (table.size, table.size + 1, 512, 65535)} == {("no", 6)}
        assert sum(self.leaving.values()) == sum(self.entering.values()) == len(table.moves)
        assert held == (table.run, table.moves, table.marks)


def some_call(rng, table):
    """A change alone or a batch, refused or not, as a call; and its lines."""
    alone = rng.random() < 0.6
    count = 1 if alone else rng.choice((0, 1, 2, 3, 5, 10, rng.choice((63, 64, 65))))
    if rng.random() > 0.3:
        lines = random_lines(rng, table, count)
    else:
        lines = spoilt(rng, table, [] if alone else random_lines(rng, table, count))
    if not alone:
        return ("batch", lines), lines
    return lines[0] or ("line", "x"), lines


def test_ways():
    """The counts behind random changes and batches, each load on the same table; some lists are too short."""
    rng = random.Random(13)
    seen = Counter()
    t = Table()
    for _ in range(700):
        assert random_load(rng, t, 8)[0] != "no"
        tally = Tally(t.moves)
        tally.check(t)
        for _ in range(12):
            call, lines = some_call(rng, t)
            answer = made(t, call, rng.choice((t.size, t.size, 600, 0)))
            tally.heard(lines, answer)
            tally.check(t)
            seen[call[0] == "batch", answer[0] == "no"] += 1
    assert len(seen) == 4 and min(seen.values()) > 500, seen


def answered(rows, calls):
    """The output for a game and these calls, as one line for each call, behind those of the load."""
    lines = answer_text(as_text("|".join(rows + [row for call in calls for row in rows_of(call)]))).splitlines(True)
    assert len(lines) == 2 + len(calls)
    return lines[:2], lines[2:]


def questions_matter_not(rng, size, rows, calls):
    """Every other line is answered alike without the questions, with these, and with more at every place."""
    load, plain = answered(rows, [call for call in calls if not is_question(call)])
    more = [some_question(rng, size) for _ in range(2 * len(calls) + 2)]
    sprinkled = more[-2:] + [row for call, *two in zip(calls, more[0::2], more[1::2]) for row in (call, *two)]
    for asking in (calls, sprinkled):
        first, lines = answered(rows, asking)
        assert first == load and [line for call, line in zip(asking, lines) if not is_question(call)] == plain, (rows, asking)


def some_question(rng, size):
    if rng.random() < 0.5:
        return "ways", rng.choice((rng.randrange(size), rng.randrange(size), size, 65535))
    return "short", rng.choice((0, 1, 2, rng.randrange(20), rng.randrange(200), 65535))


def test_questions():
    """Questions between any lines of the games worked by hand and of random sessions leave the other answers as they are."""
    rng = random.Random(14)
    for _, size, pay, moves, first, calls in WORKED:
        if first[0] != "no":
            questions_matter_not(rng, size, game_rows(size, 0, pay, moves), [call[:-1] for call in calls])
    for _ in range(300):
        t = Table()
        random_load(rng, t, 8)
        rows = game_rows(t.size, t.start, [s for s in range(t.size) if t.pays[s]], t.moves)
        questions_matter_not(rng, t.size, rows, [call for call, _ in some_calls(rng, t, 10)])


def some_calls(rng, table, count, draw=some_call):
    """So many calls, each with its answer, made on this table; in a batch a text stands for a line that is no change."""
    for _ in range(count):
        call, *_ = draw(rng, table)
        answer = made(table, call, MOST_STATES)
        yield (call[0], ["x" if line is None else line for line in call[1]]) if call[0] == "batch" else call, answer


def test_looks():
    def two(text):
        return [(int(a), int(b)) for a, b in text.split()]

    def taken(look):
        """A look worked by hand, in layer 1 if none is told."""
        move, _, layer = look.partition(".")
        return *two(move)[0], int(layer or 1)
    for size, pays, moves, looks, walk in LOOKS:
        marks = [[str(s) in own for s in range(size)] for own in pays.split(",")]
        search = TextbookSearch(size, 0, marks, two(moves))
        got = [(a, b, layer) for (a, layer), (b, _) in search.looks]
        assert got == [taken(look) for look in looks.replace("|", "").split()], (moves, search.looks)
        assert search.found == (walk is not None) and (search.stem, search.round) == (walk or ([], [])), (moves, search.round)


def deepest(tip, closed=True):
    """The moves of a game in which the search goes through all 512 states, and the inner search from this state, the only
    one that pays, through all that come behind it. Each state's last move leads on; those before it lead to states met
    by then, and behind the tip to none up to it, which would be a round. The last state closes the round, or not."""
    back = [(s, s - far) for far in range(4) for s in range(far, MOST_STATES) if s < tip or s - far > tip]
    ring = [(s, (s + 1) % MOST_STATES) for s in range(MOST_STATES)]
    return back[:MOST_MOVES - MOST_STATES] + ring[:MOST_STATES - (not closed)]


def test_deepest():
    for tip, closed in itertools.product((0, 1, 255, 510, 511), (True, False)):
        moves, pays = deepest(tip, closed), [s == tip for s in range(MOST_STATES)]
        assert len(moves) == len(set(moves)) == MOST_MOVES - (not closed)
        run = same_search(MOST_STATES, 0, [pays], moves)
        outer = sorted(moves, key=lambda move: move[0])       # a state's in their order
        assert run.looks == outer + [move for move in outer if move[0] >= tip]
        assert (run.stem, run.round) == ([], list(range(MOST_STATES)) if closed else [])
        same_search(MOST_STATES, 0, [pays], moves[::-1])
        text = as_text("|".join(game_rows(MOST_STATES, 0, [tip], moves)))
        line = ("round", len(run.looks), 0, [], run.round) if closed else ("none", len(run.looks), 0)
        assert desk_text(text) == b"game\t512\t%d\t1\n" % len(moves) + answer_line(line)


def random_game(rng, size, count):
    """Start, paying states and up to so many moves of a game. The moves lead on in a hidden order, but for a share, of none
    to half of them, that leads back. Some games have a line through all states, older than the others or among them."""
    order = rng.sample(range(size), size)
    back = rng.choice((0, 0.01, 0.1, 0.5))
    moves = list(zip(order, order[1:])) if rng.random() < 0.6 else []
    for _ in range(count - len(moves)):
        a, b = sorted(rng.choices(range(size), k=2))
        if rng.random() < back:
            moves.append((order[b], order[a]))
        elif a < b:
            moves.append((order[a], order[b]))
    moves = list(dict.fromkeys(moves))
    if rng.random() < 0.5:
        rng.shuffle(moves)
    density = rng.choice((0, 0.01, 0.1, 0.5, 1))
    pay = [s for s in range(size) if s == order[size // 2] or rng.random() < density]
    return order[0] if rng.random() < 0.8 else rng.randrange(size), pay, moves


def test_textbook():
    """Random games of each size. In many there is more than one inner search, and some walks are long."""
    rng = random.Random(12)
    seen = Counter()
    for most, count in ((2, 300), (8, 3000), (40, 400), (511, 60), (512, 60)):
        for _ in range(count):
            size = MOST_STATES if most == MOST_STATES else rng.randint(1, most)
            start, pay, moves = random_game(rng, size, int(size * rng.choice((1, 1.5, 2, 4))))
            run = same_search(size, start, [[s in pay for s in range(size)]], moves)
            seen[most, run.found] += 1
            seen[most, "inner searches"] += len(set(pay) & set(run.finished)) > 1
            seen[most, "walk of 100"] += len(run.stem + run.round) >= 100
            desk_hears(as_text("|".join(game_rows(size, start, pay, moves))))
    for most in (8, 40, 511, 512):
        assert min(seen[most, True], seen[most, False], seen[most, "inner searches"]) >= 15, seen
    assert min(seen[most, "walk of 100"] for most in (511, 512)) >= 5, seen


def test_desk_lines():
    """A text cut off anywhere, and what stands behind a `go`."""
    rows = "game 3 0|pay 1|pay 1|move 0 1|move 1 2|move 2 1|go|"
    text, wanted = as_text(rows), as_text("game 3 3 1|round 5 0 1 2 0 1 2|")
    for at in range(len(text) - 1):
        whole = text[at:at + 1] == b"\n"                      # what stands before is whole lines, the last without its newline
        assert desk_hears(text[:at]) == b"" or not whole
        for more in (b"\n", b"x", b"\ngo\n", b"\n\ngo\n", b"go\n", b"\tgo\n", b"go", b"\r\ngo\n"):
            desk_hears(text[:at] + more)
    for behind in (b"", b"x", b"\n", b"go\n", b"go", text, text[:-1], b"cut\t0\t1\n", b"begin\ncut\t0\t1\nend\n", b"\0" * 99,
                   b"x" * 99999):
        assert desk_hears(text + behind) == wanted
    assert desk_hears(text[:-1]) == wanted                    # the last line lacks its newline
    assert desk_hears(text.replace(b"pay\t1\n", b"pay\t1\n" * 20000)) == wanted
    for row, number in (("pay 3", 4), ("pay 512", 1), ("move 0 1", 1), ("game 3 0", 1), ("x" * 33, 1), ("", 1), ("begin", 1)):
        assert desk_hears(as_text(rows.replace("pay 1", row, 1))) == b"no\t%d\n" % number
    for row, number in (("move 0 3", 6), ("move 0 1", 8), ("pay 1", 1), ("add 0 1", 1), ("move 0 0|" * 2046, 5), ("end", 1)):
        assert desk_hears(as_text(rows.replace("go", row + "|go"))) == b"no\t%d\n" % number
    assert desk_hears(as_text("game 513 0|pay 511")) == b"" and desk_hears(as_text("game 513 0|pay 511|go")) == b"no\t2\n"
    assert desk_hears(as_text("game 3 3|go|go")) == b"no\t3\n"
    assert desk_hears(as_text("game 3 0|go|move 0 1|go")) == as_text("game 3 0 0|none 0 0|")


BAD_KINDS = ("kinds", "kinds ", "kinds 65536", "kinds 100000", "kinds 01", "kinds 00", "kinds 1 1", "kinds 2 ", "kinds  2",
             "kinds +2", "kinds -1", "kinds 2\r", "kinds 2\0", " kinds 2", "Kinds 2", "KINDS 2", "kind 2", "kindss 2",
             "kinds x", "kinds 1.0", "kinds" + " " * 30 + "2", "kinds 2" + " " * 26)       # lines that cannot be read
KINDS_HEAD, KINDS_HEARD = "game 3 0|kinds 2|pay 0|pay 1 2|move 0 1|move 1 0|go|", "game 3 2 2|round 4 0 0 2 0 1|"


def test_kind_lines():
    says(KINDS_HEAD + "unmark 1 2|mark 1 2|mark 2 2|unmark 2 2|mark 0 2|unmark 0 1",
         KINDS_HEARD + "none 5 1|round 3 1 0 2 0 1|" + "round 0 4 0 2 0 1|" * 2 + "round 4 0 0 2 0 1|none 2 0|")
    head = KINDS_HEAD.split("|")
    for at in range(len(head)):                 # `kinds` stands behind `game`, elsewhere only behind `go`
        says("|".join(head[:at] + ["kinds 2"] + head[at:]), KINDS_HEARD + "round 4 0 0 2 0 1|" if at == 7 else "no 1|")
    says("game 3 0|pay 0|kinds 2|go", "no 1|")
    says("game 3 0|move 0 0|kinds 2|go", "no 1|")
    says("kinds 2|game 3 0|go", "no 1|")
    says("game 3 0|kinds 2|kinds 2|go", "no 1|")
    says("game 3 0|kinds 9", "")                # 16 comes with `go`
    says("game 3 0|kinds 9|pay 0 4|move 9 9", "")
    for kinds in ("0", "5", "6", "9", "10", "512", "9999", "65535"):
        says("game 3 0|kinds %s|go" % kinds, "no 16|")
        says("game 3 3|kinds %s|go" % kinds, "no 3|")
        says("game 0 0|kinds %s|go" % kinds, "no 2|")
        says("game 3 0|kinds %s|pay 3 4|go" % kinds, "no 4|")
        says("game 3 0|kinds %s|pay 0 4|move 9 9|go" % kinds, "no 4|" if kinds == "0" else "no 16|")
    for bad in BAD_KINDS:
        says("game 3 0|" + bad + "|go", "no 1|")
    for kinds in "1234":
        says("game 3 0|kinds %s|go" % kinds, "game 3 0 0|none 0 0|")


def test_kind_fields():
    """The kind behind the state."""
    bad = ("0", "5", "9", "10", "65535", "65536", "100000", "01", "02", "00", "", "-1", "+1", "1\r", "1\0", "1 ", " 1", "1 1",
           "x", "2 0")
    for kind, word in itertools.product(bad, ("pay", "mark", "unmark")):
        row = "%s 0 %s" % (word, kind)
        if word == "pay":
            says("game 3 0|kinds 4|" + row + "|go", "no 1|")
            says("game 3 0|" + row + "|go", "no 1|")
        else:
            says(KINDS_HEAD + row + "|unmark 1 2", KINDS_HEARD + "no 1|none 5 1|")
            says(KINDS_HEAD + "begin|" + row + "|end|unmark 1 2", KINDS_HEARD + "no 1 1|none 5 1|")
    # above K, and 511 at most for the state of a `pay` line whatever its kind
    for row, number in (("pay 0 3", 4), ("pay 0 4", 4), ("pay 3 3", 4), ("pay 3 2", 4), ("pay 511 1", 4), ("pay 512 1", 1),
                        ("pay 512 3", 1)):
        says("game 3 0|kinds 2|" + row + "|go", "no %d|" % number)
    for row, number in (("pay 0 1", 0), ("pay 0 2", 4), ("pay 0 4", 4), ("pay 0 5", 1)):
        says("game 3 0|" + row + "|go", "no %d|" % number if number else "game 3 0 1|none 0 0|")
    for row, number in (("mark 0 3", 4), ("mark 3 3", 4), ("mark 65535 4", 4), ("mark 3 2", 6), ("mark 65535 1", 6),
                        ("mark 65536 3", 1), ("mark 0", 13), ("mark 0 1", 13), ("mark 1 2", 13), ("unmark 0 2", 14),
                        ("unmark 1", 14), ("unmark 1 1", 14), ("unmark 3 4", 4), ("unmark 3", 6), ("mark 512 2", 6),
                        ("mark 0 5", 1), ("mark 9 0", 1)):
        says(KINDS_HEAD + row + "|unmark 1 2", KINDS_HEARD + "no %d|none 5 1|" % number)
        says(KINDS_HEAD + "begin|" + row + "|end|unmark 1 2", KINDS_HEARD + "no %d 1|none 5 1|" % number)
    # doubles, and the count of the states that carry any kind
    says("game 3 0|kinds 2|pay 1|pay 1 1|pay 1 2|pay 1 2|pay 2 2|go", "game 3 0 2|none 0 0|")
    says("game 3 0|pay 1|pay 1 1|pay 1|go", "game 3 0 1|none 0 0|")
    # where 15 stands
    back = "mark 2 2|unmark 2 2|" * 32
    for row, number in (("mark 9 3", 15), ("mark 0 1", 15), ("mark 9 5", 1), ("mark 0 0", 1), ("mark 0 65535", 1),
                        ("mark 0 65536", 1)):
        says(KINDS_HEAD + "begin|" + back + row + "|end", KINDS_HEARD + "no %d 65|" % number)


def test_many_lines():
    """The 2,049th `move` line gets 5 as it is read, whatever K is; one too many for K alone gets 16 at `go`."""
    for kinds in range(6):
        head = "game 64 0|kinds %d|" % kinds
        for count in (512, 513, 682, 683, 1024, 1025, 2048):
            load = head + "".join("move %d %d|" % move for move in FULL_MOVES[:count])
            fits = 1 <= kinds <= 4 and count * kinds <= 2048
            says(load + "go", "game 64 %d 0|none 0 0|" % count if fits else "no 16|")
            says(load, "")
            says(load + "pay 0|go", "no 1|")
        says(load + "move 0 1|go", "no 5|")
        says(load + "move 99 99|go", "no 5|")
        says(load + "move 0|go", "no 1|")


def test_kind_loads():
    """The number of a load, held against the list of refusals: states, start, K, marks, moves and room of all sorts."""
    heard = Counter()
    sizes = 0, 1, 2, 3, 128, 129, 170, 171, 256, 257, 512, 513
    lists = [], [0], [0, 0], [0, 0, 0, 0], [0, 600], [0, 600, 0, 600], flat(FULL_MOVES), flat(FULL_MOVES + FULL_MOVES[:1])
    for size, kinds, numbers in itertools.product(sizes, (0, 1, 2, 3, 4, 5, 65535), lists):
        marked = [], [(0, 1)], [(0, 2)], [(0, 4)], [(min(size, 511), 2)]              # state and kind
        for start, marks, short in itertools.product((0, size), marked, (0, 1, size * kinds)):
            room = max(0, size * kinds - short)
            number = load_number(size, start, kinds, marks, numbers, room)
            carriers = [[s for s, own in marks if own == kind] for kind in (1, 2, 3, 4)]
            t = Table()
            answer = t.load(size, start, kinds, words_of(*carriers), numbers, room)
            assert t.loaded == (number == 0) and (answer == ("no", number)) == (number > 0), (size, start, kinds, marks, answer)
            heard[number] += 1
    assert set(heard) == {0, 2, 3, 4, 5, 6, 8, 11, 16}, heard


def load_number(size, start, kinds, marks, numbers, room):
    """What a load is refused with, read from the list; 0 if it is not. marks: pairs of a state and a kind."""
    most = max(Counter(pairs(numbers)).values(), default=0)
    faults = [(2, not 1 <= size <= 512), (3, start >= size), (4, any(s >= size or kind > kinds for s, kind in marks)),
              (5, len(numbers) % 2 or len(numbers) > 4096),
              (16, kinds not in (1, 2, 3, 4) or size * kinds > 512 or len(numbers) // 2 * kinds > 2048),
              (6, any(n >= size for n in numbers)), (8, most > 1), (11, room < size * kinds)]
    return next((number for number, holds in faults if holds), 0)


def test_kind_calls():
    """Every mark and unmark, alone and in a batch, on small tables of each K, with every kind and with lists too short."""
    heard = set()
    kinds_named = 0, 1, 2, 3, 4, 5, 65535
    for kinds in (1, 2, 3, 4):
        t = Table()
        t.load(*load_args(2, 0, of_kinds(kinds, [0], *[[1]] * (kinds - 1)), C_MOVES), 2 * kinds)
        rooms = 0, 2 * kinds - 1, 2 * kinds
        for word, state, kind, room in itertools.product(("mark", "unmark"), (0, 1, 2, 65535), kinds_named, rooms):
            lone, _ = again(t)
            answer = switch(lone, word, state, room, kind)
            heard.add((kinds, answer[1] if answer[0] == "no" else 0))
            batched(again(t)[0], [(word, state, kind)], room)
            batched(again(t)[0], [("add", 0, 0), (word, state, kind), None], room)
            if kind == 1:
                assert getattr(again(t)[0], word)(state, room) == answer               # left out
        for room in range(2 * kinds + 2):
            short = room < 2 * kinds
            for word, a, b in (("add", 0, 0), ("cut", 0, 1)):
                assert (getattr(again(t)[0], word)(a, b, room) == ("no", 11)) == short
            assert (t.batch([], room) == ("no", 11, 0)) == short
            assert (Table().load(*load_args(2, 0, of_kinds(kinds), []), room) == ("no", 11)) == short
    every = {(kinds, number) for kinds in (1, 2, 3, 4) for number in (0, 1, 4, 6, 11, 13, 14)}
    assert heard == every - {(4, 4)}            # with four kinds none is above K


def test_kind_batch_numbers():
    """Each number at each place on a full table of each K."""
    for kinds in (2, 3, 4):
        _, size, pay, moves, _, _ = full_of_kinds(kinds)
        t = Table()
        t.load(*load_args(size, 0, pay, moves), size * kinds)
        assert (len(moves) + 1) * kinds > 2048 >= len(moves) * kinds
        back = [("mark", 3, kinds), ("unmark", 3, kinds)] * 32
        cases = ((1, ("mark", 0, 0)), (1, ("unmark", 99, 5)), (4 if kinds < 4 else 1, ("mark", 99, kinds + 1)),
                 (6, ("mark", 64, kinds)), (8, ("add", 32, 0)), (9, ("add", 0, 1)), (10, ("cut", 0, 1)), (13, ("mark", 1, kinds)),
                 (14, ("unmark", 0, kinds)))
        for (number, line), ahead in itertools.product(cases, (0, 1, 63, 64)):
            wanted = number if ahead < 64 or number == 1 else 15
            assert t.batch(back[:ahead] + [line, None], size * kinds) == ("no", wanted, ahead + 1)
            assert t.batch(back[:ahead] + [line], size * kinds - 1) == ("no", 11, 0)
        assert t.batch([("cut", 32, 0), ("add", 0, 1), ("add", 0, 2)], size * kinds) == ("no", 9, 3)
        assert t.batch([("cut", 32, 0), ("add", 0, 1)], size * kinds)[0] == "none" and len(t.moves) == len(moves)
        assert t.add(0, 2, size * kinds) == ("no", 9) and t.cut(0, 1, size * kinds)[0] == "none"
        assert t.add(0, 2, size * kinds)[0] == "none" and t.add(0, 1, size * kinds) == ("no", 9)


def test_random_kinds():
    """Random games with 1 to 4 kinds, and changes. There are many of each K and of each sort."""
    rng = random.Random(15)
    seen = Counter()
    for at in range(2400):
        t, kinds = Table(), at % 4 + 1
        seen[kinds, random_load(rng, t, 6, kinds)[0]] += 1
        check_run(t)
        for _ in range(9):
            *sort, answer = rng.choice((random_switch, random_move, random_move))(rng, t)
            first = next((layer for s, layer in told_of(t).met if s == t.size - 1), 0)
            seen[kinds, answer[0]] += 1
            seen[kinds, tuple(sort[1:])] += 1
            seen[kinds, "last state first met in layer", first] += 1
            if answer[0] == "round":
                walk = answer[3] + answer[4]
                seen[kinds, "state repeated"] += len(set(walk)) < len(walk)
                seen[kinds, "every layered state"] += len(walk) == t.least_room
            else:
                seen[kinds, "a kind that none carries"] += not all(map(any, t.marks[:kinds]))
    for kinds in (1, 2, 3, 4):
        assert min(seen[kinds, verdict] for verdict in ("none", "round", "no")) > 90, seen
        assert seen[kinds, "a kind that none carries"] > 50 and seen[kinds, "every layered state"] > 5, seen
    for kinds in (2, 3, 4):
        assert min(seen[kinds, "last state first met in layer", layer] for layer in range(kinds + 1)) > 30, seen
        assert seen[kinds, "state repeated"] > 100, seen
        for sort in ("never met", "not come to", "come to", "not in layer 1", "not in a later layer"):
            assert seen[kinds, (sort,)] > 40, seen


def test_kinds_by_layer():
    """Long walks through the layers. Ticket 4's condition often holds in one layer and not in another."""
    rng = random.Random(16)
    seen = Counter()
    for _ in range(1300):
        t = Table()
        ring_load(rng, t, 5, rng.randint(2, 4))
        for _ in range(8):
            *sort, answer = rng.choice((random_move, random_move, random_move, random_switch))(rng, t)
            seen[(*sort, answer[0])] += 1
    for word, sort in itertools.product(("add", "cut"), ("not come to", "come to", "not in layer 1", "not in a later layer")):
        assert seen[word, sort, "round"] > 100, seen


def test_kind_batches():
    rng = random.Random(17)
    seen = Counter()
    for at in range(1000):
        t = Table()
        random_load(rng, t, 5, at % 4 + 1)
        for _ in range(5):
            lines = random_lines(rng, t, rng.choice((0, 1, 1, 2, 2, 3, 4, 6, rng.choice((20, 63, 64, 65)))))
            if rng.random() < 0.35:
                lines = spoilt(rng, t, lines)
            random_batch(rng, t, lines, seen)
            if rng.random() < 0.3:
                rng.choice((random_switch, random_move))(rng, t)
    assert all(seen["no", number] > 8 for number in (1, 4, 6, 8, 10, 11, 13, 14, 15)), seen
    for verdict, what in itertools.product(("round", "none"), (("met", "spent"), ("met", "spent 0"), ("unmet", "spent 0"))):
        assert seen[(verdict, *what)] > 50, seen


def test_kind_texts():
    """Random sessions with kinds as lines are answered as the calls are; the ways are counted over the plain moves; and
    questions at every place change nothing. With one kind the line may be left out."""
    rng = random.Random(18)
    for at in range(240):
        t, kinds = Table(), at % 4 + 1
        first = random_load(rng, t, 6, kinds)
        pay = carried_by(t)
        rows = game_rows(t.size, t.start, pay, t.moves)
        paying = sum(map(any, zip(*t.marks)))
        said = answer_line(("game", t.size, len(t.moves), paying)) + answer_line(first)
        tally = Tally(t.moves)
        calls = []
        for call, answer in some_calls(rng, t, 10):
            calls.append(call)
            tally.heard(call[1] if call[0] == "batch" else [call], answer)
            tally.check(t)
            said += answer_line(answer)
        text = as_text("|".join(rows + [row for call in calls for row in rows_of(call)]))
        assert answer_text(text) == said, text
        assert kinds > 1 or answer_text(text.replace(b"kinds\t1\n", b"")) == said, text
        desk_hears(text)
        questions_matter_not(rng, t.size, rows, calls)


def test_kinds_textbook():
    """Random games of each K, up to as many states and moves as there may be."""
    rng = random.Random(19)
    seen = Counter()
    for most, count in ((8, 1600), (40, 400), (512, 200)):
        for at in range(count):
            kinds = at % 4 + 1
            size = 512 // kinds if most == 512 and rng.random() < 0.5 else rng.randint(1, max(1, most // kinds))
            start, _, moves = random_game(rng, size, min(2048 // kinds, int(size * rng.choice((1, 1.5, 2, 4)))))
            pay = random_carried(rng, size, kinds)
            run = same_search(size, start, [[s in own for s in range(size)] for own in pay.carriers], moves)
            seen[most, kinds, run.found] += 1
            seen[kinds, "walk of 50"] += len(run.stem + run.round) >= 50
            desk_hears(as_text("|".join(game_rows(size, start, pay, moves))))
    for most, kinds in itertools.product((8, 40, 512), (1, 2, 3, 4)):
        assert min(seen[most, kinds, True], seen[most, kinds, False]) >= 3, seen
    assert min(seen[kinds, "walk of 50"] for kinds in (1, 2, 3, 4)) >= 3, seen


def test_over_lines():
    """The line behind `go`, in a batch, and where nothing is read any more."""
    says(KINDS_HEAD + "kinds 1|mark 1 2|kinds 2|unmark 1 2|mark 1 2|kinds 2|kinds 3|kinds 2",
         KINDS_HEARD + "round 4 0 0 2 0 1|no 4|none 6 0|no 14|round 3 1 0 2 0 1|round 4 0 0 2 0 1|none 8 0|round 4 0 0 2 0 1|")
    for row in BAD_KINDS + ("kinds 0", "kinds 5", "kinds 9", "kinds 10", "kinds 171", "kinds 65535"):
        number = 1 if row in BAD_KINDS else 16
        says(KINDS_HEAD + row + "|unmark 1 2|%s|mark 0 3|mark 1 2" % row,
             KINDS_HEARD + "no %d|none 5 1|no %d|no 4|round 3 1 0 2 0 1|" % (number, number))
    for row in BAD_KINDS + ("kinds 0", "kinds 1", "kinds 2", "kinds 4", "kinds 5", "kinds 65535"):
        says(KINDS_HEAD + "begin|%s|end|begin|mark 2|%s|mark 2|end|begin|unmark 9|%s|end|unmark 1 2" % (row, row, row),
             KINDS_HEARD + "no 1 1|no 1 2|no 6 1|none 5 1|")
        says(KINDS_HEAD + "begin|" + "mark 2 2|unmark 2 2|" * 32 + row + "|end|unmark 1 2", KINDS_HEARD + "no 1 65|none 5 1|")
        says(KINDS_HEAD + "kinds 2|begin|mark 2|" + row, KINDS_HEARD + "round 4 0 0 2 0 1|")
    says("game 3 3|go|kinds 2", "no 3|")
    says("game 3 0|kinds 5|go|kinds 2", "no 16|")
    says("game 257 0|kinds 2|go|kinds 1", "no 16|")
    says("game 257 0|go|kinds 2|kinds 1|ways 257", "game 257 0 0|none 0 0|no 16|none 0 0|no 6|")
    # its answer is one line, and the list that the box lends is long enough for every K
    fits_in_part(KINDS_HEAD + "kinds 1|kinds 2", KINDS_HEARD + "round 4 0 0 2 0 1|none 6 0|", 2)


def some_step(rng, table, behind=False):
    """A call of a session that goes over now and then, its lines, and the room. What none carries is often given to some state
    next, so that there are rounds with a larger K too. Directly behind another K there is mostly a change alone."""
    size, least = table.size, table.least_room
    if behind and rng.random() < 0.6:
        line, = random_lines(rng, table, 1)
        return line, [line], least
    dice, given = rng.random(), given_marks(rng, table)
    if dice < 0.25:
        kinds = rng.choice((1, 2, 3, 4) * 3 + (0, 5, 65535))
        room = rng.choice((size * kinds,) * 4 + (max(size * kinds - 1, 0), least, least - 1, 600))
        return ("kinds", kinds), [], room
    if dice < 0.45 and given:
        return ("batch", given), given, least
    return *some_call(rng, table), rng.choice((least, least, least, least, 600, least - 1))


def test_over():
    """Random sessions that go over to each K from each, between changes, batches and questions. Behind it are many changes of
    moves that the run on the new K had come to and that on the old one not, or the other way round."""
    rng = random.Random(20)
    seen = Counter()
    for at in range(480):
        t, others = Table(), []
        (ring_load if at % 3 else random_load)(rng, t, 5, at % 4 + 1)
        tally, earlier = Tally(t.moves), None
        for _ in range(14):
            call, lines, room = some_step(rng, t, earlier is not None)
            old, told = t.kinds, told_of(t)
            answer = in_step(t, others, call, room)
            tally.heard(lines, answer)
            tally.check(t)
            word, verdict = call[0], answer[0]
            if word == "kinds":
                seen[answer if verdict == "no" else (old, t.kinds, verdict)] += 1
            elif word in MOVE_WORDS and earlier and verdict != "no":
                seen["spared", spared_by(earlier, *call), spared_by(told, *call)] += 1
            earlier = told if word == "kinds" and verdict != "no" else None      # of the run on the K before
    for old, new in itertools.product((1, 2, 3, 4), repeat=2):
        assert seen[old, new, "none"] > 10 and (new > old or seen[old, new, "round"] > 10), seen
    assert min(seen["no", 11], seen["no", 16]) > 100, seen
    assert all(seen["spared", before, now] > 10 for before, now in itertools.product((True, False), repeat=2)), seen


def test_over_texts():
    """The same as lines. All behind another K, and its own answer, are those of a text that loads that table, whose `game` line
    alone is more; and questions at every place change nothing."""
    rng = random.Random(21)
    seen = Counter()
    for at in range(160):
        t = Table()
        first = (ring_load if at % 2 else random_load)(rng, t, 6, at % 4 + 1)
        rows, calls = game_rows(t.size, t.start, carried_by(t), t.moves), []
        said, loads = [answer_line(first)], [(rows, 0)]                  # of each load its lines, and how many calls stand before
        for call, answer in some_calls(rng, t, 12, some_step):
            calls.append(call)
            said.append(answer_line(answer))
            if call[0] == "kinds" and answer[0] != "no":
                loads.append((game_rows(t.size, t.start, carried_by(t), t.moves), len(calls)))
                seen[answer[0]] += 1
        for load, count in loads:
            (_, own), others = answered(load, calls[count:])
            assert [own] + others == said[count:], (load, calls[count:])
        questions_matter_not(rng, t.size, rows, calls)
    assert min(seen["round"], seen["none"]) > 60, seen


def test_over_numbers():
    """States and moves at the limits of each K and beyond; every K with lists that are just long enough for it or for the old
    one, and with shorter ones."""
    sized = [(size, [(0, size - 1), (size - 1, 0)]) for size in (2, 128, 129, 170, 171, 256, 257, 512)]
    moved = [(64, FULL_MOVES[:count]) for count in (512, 513, 682, 683, 1024, 1025, 2048)]
    heard = Counter()
    for (size, moves), old in itertools.product([(1, [])] + sized + moved, (1, 2, 3, 4)):
        t = Table()
        if t.load(*load_args(size, 0, of_kinds(old, *[[0, size - 1]] * old), moves), MOST_STATES)[0] == "no":
            continue
        for kinds in (0, 1, 2, 3, 4, 5, 65535):
            least = size * kinds
            for room in {0, max(least - 1, 0), least, size * old - 1, size * old}:
                answer, _ = gone_over(again(t)[0] if room >= least else t, kinds, room)
                heard[old, kinds, answer[1] if answer[0] == "no" else 0] += 1
    for old, kinds in itertools.product((1, 2, 3, 4), repeat=2):
        assert heard[old, kinds, 0] and heard[old, kinds, 11], heard
    needs_session("kinds", 1, 600)


def test_short_lines():
    head, heard = "game 3 0|pay 1|move 0 1|move 1 2|move 2 1|go|", "game 3 3 1|round 5 0 1 2 0 1 2|"
    says(head + "short 0|short 1|short 2|short 3|short 65535|cut 2 1|short 0|short 65535|unmark 1|short 7",
         heard + "short 2 1|" + "short 2 2|" * 4 + "none 1 2|none|none|none 1 1|none|")
    for row in BAD_SHORT:
        says(head + row + "|short 1|unmark 1", heard + "no 1|short 2 2|none 2 1|")
        says(KINDS_HEAD + row + "|unmark 1 2", KINDS_HEARD + "no 1|none 5 1|")       # 1 comes before 17
    for row in ("short 0", "short 9", "short 65535"):
        says(KINDS_HEAD + row + "|unmark 1 2|%s|kinds 1|%s" % (row, row),
             KINDS_HEARD + "no 17|none 5 1|no 17|round 4 0 0 2 0 1|short 2 %d|" % (1 if row == "short 0" else 2))
        says(KINDS_HEAD + "begin|%s|end|unmark 1 2" % row, KINDS_HEARD + "no 1 1|none 5 1|")
    for row, at in itertools.product(("short 0", "short 65535", "short"), range(6)):
        says("|".join(head.split("|")[:at] + [row, "go", "short 1"]), "no 1|")        # misplaced before `go`
    for row in ("short 0", "short 65535", "short", "short 65536"):     # and inside a batch, of which it is no end
        says(head + "begin|%s|end|short 0" % row, heard + "no 1 1|short 2 1|")
        says(head + "begin|add 0 0|add 1 1|%s|add 1 1|end|short 1" % row, heard + "no 1 3|short 2 2|")
        says(head + "short 0|begin|add 1 1|" + row, heard + "short 2 1|")
        says(head + "begin|" + "mark 2|unmark 2|" * 32 + row + "|end", heard + "no 1 65|")
    says("game 2 2|go|short 1", "no 3|")
    fits_in_part(head + "short 1|cut 2 1|short 1|kinds 2|short 1", heard + "short 2 2|none 1 2|none|none 3 0|no 17|", 5)
    needs_session("short", 0)


def moves_away(size, moves):
    """Of each two states how many moves lead from the one to the other at the least, by way of any between; size where none do."""
    far = [[0 if a == b else size for b in range(size)] for a in range(size)]
    for a, b in moves:
        far[a][b] = min(far[a][b], 1)
    for by, a, b in itertools.product(range(size), repeat=3):
        far[a][b] = min(far[a][b], far[a][by] + far[by][b])
    return far


# Of a table with a round: its reachable paying states; the first of them that has a shortest one; the looks up to the end of each
# length that is shorter; the look that finds it.
Bill = namedtuple("Bill", "paying first ends found")


def bill_of(table):
    """By the distances between all states, without a search."""
    size, moves = table.size, table.moves
    far, leaving = moves_away(size, moves), Counter(a for a, _ in moves)
    paying = [s for s in range(size) if table.pays[s] and far[table.start][s] < size]
    back = {s: min((far[b][s] + 1 for a, b in moves if a == s), default=size + 1) for s in paying}
    shortest = min(back.values())

    def looks(state, length):
        return sum(leaving[s] for s in range(size) if far[state][s] < length)
    ends = list(itertools.accumulate(sum(looks(s, length) for s in paying) for length in range(1, shortest)))
    first = next(s for s in paying if back[s] == shortest)
    found = (ends or [0])[-1] + sum(looks(s, shortest) for s in paying if s < first) + looks(first, shortest - 1)
    row = [first]           # the states so many moves away, in the order in which each is seen by the first move that leads to it
    for distance in range(1, shortest):
        leads = [(row.index(a), at, b) for at, (a, b) in enumerate(moves) if a in row and far[first][b] == distance]
        row = list(dict.fromkeys(b for _, _, b in sorted(leads)))
    closing = [b for s in row for a, b in moves if a == s]
    return Bill(paying, first, ends, found + 1 + closing.index(first))


def check_short(table, budgets=None):
    """The answers for these budgets, or for every one that makes a difference; the table is left as it was. The bill, if there is
    a round."""
    before, run = held(table), table.run
    if table.kinds > 1 or not run.found:
        said, bill = {table.short(budget) for budget in budgets or (0, 1, 9, 65535)}, None
        assert said == {("no", 17) if table.kinds > 1 else ("none",)}, (before, said)
    else:
        bill = bill_of(table)
        asked = sorted(budgets or {*range(bill.found + 3), 65535})
        said = [table.short(budget) for budget in asked]
        assert said == [within(budget, len(run.round), bill.ends, bill.found) for budget in asked], (before, said, bill)
        assert all(best >= least for _, best, least in said)
        assert all(now[1] <= earlier[1] and now[2] >= earlier[2] for earlier, now in zip(said, said[1:]))
        borders = [budget for budget, earlier, now in zip(asked[1:], said, said[1:]) if now != earlier]
        assert budgets or borders_of(table) == borders
    assert table.run is run and held(table) == before
    return bill


def short_load(rng, table, most):
    size, *game = short_game(rng, rng.randint(2, most))
    return table.load(*load_args(size, *game), size)


def short_game(rng, size):
    """A game of so many states, with its start, the paying states and the moves, in which the walk's round is often longer than
    the shortest: there is a ring, whose moves are older than others among its states, or not. Some states are bare, some are
    not led to."""
    order = rng.sample(range(size), size)
    ring = order[:rng.randint(1, size)]
    moves = dict.fromkeys(zip(ring, ring[1:] + ring[:1]))
    if rng.random() < 0.2:
        del moves[rng.choice(list(moves))]
    moves.update(dict.fromkeys((rng.choice(ring), rng.choice(order)) for _ in range(rng.randint(0, size))))
    moves.update(dict.fromkeys((rng.choice(order), rng.choice(ring)) for _ in range(rng.choice((0, 0, 1, 2)))))
    moves = list(moves)
    if rng.random() < 0.5:
        rng.shuffle(moves)
    return size, ring[0], sorted({rng.choice(ring), *rng.choices(order, k=rng.choice((0, 1, 2, size)))}), moves


def borders_of(table):
    """The budgets that are answered otherwise than those of one look fewer: at the end of each length that is ruled out, and where
    a round is found that is shorter than the walk's."""
    borders, looks = [], 0
    if table.kinds > 1 or not table.run.found:
        return borders
    targets, paying = table.searched_for_rounds()
    for length in itertools.count(1):
        for comes_back in (back for state in paying for back in looks_around(targets, state, length)):
            looks += 1
            if looks > MOST_BUDGET or comes_back:
                shorter = looks <= MOST_BUDGET and length < len(table.run.round)
                return borders + [looks] if shorter else borders
        borders.append(looks)


def some_budgets(rng, table, *counts):
    """So many, one of these counts, of such as make a difference or are beside them, 0, the most, and any."""
    count = rng.choice(counts)
    borders = count and borders_of(table) or [rng.randrange(20)]
    for _ in range(count):
        near = max(0, rng.choice(borders) + rng.choice((-1, -1, 0, 0, 1)))
        yield min(MOST_BUDGET, rng.choice((near, near, near, near, 0, MOST_BUDGET, rng.randrange(40))))


def long_ring(rng, size, count):
    """The states in a hidden order, and so many moves that lead on in it to one of the next few, round and round: every round is
    long."""
    order = rng.sample(range(size), size)
    moves = dict.fromkeys(zip(order, order[1:] + order[:1]))
    while len(moves) < count:
        at = rng.randrange(size)
        moves[order[at], order[(at + rng.randint(2, 7)) % size]] = None
    return order, rng.sample(list(moves), len(moves))


def short_sorts(table, bill):
    """What a table with a round has to do with the question, for the counts."""
    paying, first, shorter, _ = bill
    leaving = {a for a, _ in table.moves}
    yield "length %d" % min(len(shorter) + 1, 4)
    yield "the walk's is longer" if len(table.run.round) > len(shorter) + 1 else "the walk's is the shortest"
    if sum(table.pays) > len(paying):
        yield "paying and not reached"
    if any(s not in leaving for s in paying):
        yield "paying and bare"
    if any(s not in table.run.met_after for s in paying):
        yield "reached and not met"
    if first != paying[0]:
        yield "not by the first search of its length"


def test_short():
    """Every budget on random tables, and between the changes of random sessions with 1 to 4 kinds."""
    rng = random.Random(22)
    seen = Counter()
    for at in range(3000):
        t = Table()
        (short_load if at % 4 else random_load)(rng, t, 8)
        bill = check_short(t)
        seen.update(short_sorts(t, bill) if bill else ["none"])
    assert len(seen) == 11 and min(seen.values()) > 100, seen
    for at in range(120):
        t = Table()
        random_load(rng, t, 6, at % 4 + 1)
        for call, answer in some_calls(rng, t, 12, some_step):
            check_short(t, {0, 1, 2, 3, rng.randrange(20), rng.randrange(60), 65535})
            seen[t.kinds > 1, t.run.found] += 1
    assert all(seen[several, found] > 100 for several, found in itertools.product((True, False), repeat=2)), seen
    for _ in range(20):
        t = Table()
        short_load(rng, t, 40)
        bill = check_short(t, {0, 65535})
        if bill:
            check_short(t, {budget for *_, budget, _ in afforded(0, bill.ends, bill.found)})


def selftest():
    test_games()
    test_game_a_as_printed()
    test_lines()
    test_mark_lines()
    test_refusals()
    test_every_call()
    test_random()
    test_lines_of_states()
    test_there_and_back()
    test_batch_lines()
    test_batch_numbers()
    test_batches()
    test_small_batches()
    test_ways_lines()
    test_ways()
    test_questions()
    test_looks()
    test_deepest()
    test_textbook()
    test_desk_lines()
    test_kind_lines()
    test_kind_fields()
    test_many_lines()
    test_kind_loads()
    test_kind_calls()
    test_kind_batch_numbers()
    test_random_kinds()
    test_kinds_by_layer()
    test_kind_batches()
    test_kind_texts()
    test_kinds_textbook()
    test_over_lines()
    test_over()
    test_over_texts()
    test_over_numbers()
    test_short_lines()
    test_short()
    print("ok")


if __name__ == "__main__":
    if sys.argv[1:] == ["--selftest"]:
        selftest()
    elif sys.argv[1:] in ([], ["--desk"]):
        answer = desk_text if sys.argv[1:] else answer_text
        sys.stdout.buffer.write(answer(sys.stdin.buffer.read()))
    else:
        sys.exit("usage: reference.py --selftest, or a text on standard input, with --desk or without")
