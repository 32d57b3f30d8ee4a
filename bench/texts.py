"""Texts for the benchmark: a game with about four moves a state, then changes that are all accepted.

Moves lead on in a hidden order, so there is no round, but for a ring with a paying state that nothing leads to. Rounds
come and go with the changes: through moves that lead back past a paying state, or through a move into the ring. Where the
changes are at a stem, the walk along it into the ring is there from the load on, and stays.

For the shortest round: loads of full tables, on which many looks are needed.
"""

import pathlib
import random
import sys

sys.path.insert(0, str(pathlib.Path(__file__).resolve().parent.parent / "tests"))
sys.dont_write_bytecode = True
from common import as_lines, lines_of  # noqa: E402
from reference import MOST_MOVES, MOST_STATES, of_kinds, plain_search  # noqa: E402
from sessions import Text  # noqa: E402

KINDS = {
    "far": "at states that the search meets late",
    "start": "at the start state",
    "random": "at states drawn at random",
    "stem": "at a long stem, moves not come to",
    "mark": "the start state's pay is switched",
}
BATCH = 32          # changes in a batch
PAYING = {"ring": 1, "paying": MOST_STATES, "winding": 8}     # the full tables, and how many of their states pay
WINDS = 64          # states that a move of the table `winding` leads on at most


class Game:
    def __init__(self, rng, size):
        self.rng, self.size = rng, size
        order = rng.sample(range(size), size)
        ring = max(4, size // 16)
        self.order, self.ring = order[:-ring], order[-ring:]
        self.place = {s: i for i, s in enumerate(self.order)}
        pays = rng.sample(self.order[1:], max(2, size // 8)) + [self.ring[0]]
        moves = self.first_moves(list(zip(self.ring, self.ring[1:] + self.ring[:1])), 4 * size - 32)     # room for moves that come
        self.text = Text(size, self.order[0], self.carried(pays), moves)
        self.run = plain_search(size, self.order[0], [s in pays for s in range(size)], moves)
        self.closed = []                        # the moves that may have closed a round; few stand at a time

    def carried(self, pays):
        """What carries pay: of one kind, these states."""
        return pays

    def first_moves(self, ring, count):
        return self.shuffled(self.leading_on(self.order, ring, count))

    def leading_on(self, order, ring, count):
        """The order's moves and the ring's, and more that lead on."""
        moves = dict.fromkeys([*zip(order, order[1:]), *ring])
        while len(moves) < count:
            moves[self.onward(self.rng.choice(order[:-1]))] = None
        return list(moves)

    def shuffled(self, moves):
        return self.rng.sample(moves, len(moves))

    def onward(self, state):
        at = self.place[state]
        far = self.size if self.rng.random() < 0.1 else 12
        return state, self.order[min(len(self.order) - 1, at + self.rng.randint(1, far))]

    def closing(self, state):
        """A move back, or from the start state one into the ring."""
        at = self.place[state]
        if at == 0:
            return state, self.rng.choice(self.ring)
        return state, self.order[max(0, at - self.rng.randint(1, 12))]

    def state(self, kind):
        if kind == "start":
            return self.order[0]
        if kind == "far":
            met = list(self.run.met_after)
            return self.rng.choice(met[-len(met) // 8:])
        return self.rng.choice(self.order)

    def change(self, kind):
        """One accepted change."""
        rng, text, closed = self.rng, self.text, self.closed
        if kind == "mark":
            return text.turn(self.order[0])
        state = self.state(kind)
        last = self.order[-1]
        if closed and rng.random() < 0.35:
            return text.cut(closed.pop(rng.randrange(len(closed))))
        if len(closed) < 3 and rng.random() < 0.5:
            move = self.closing(state)
            if move not in text.moves:
                closed.append(move)
                return text.add(move)
        own = [m for m in text.moves if m[0] == state and m not in closed]
        if own and (len(own) > 4 or state == last or rng.random() < 0.5):
            return text.cut(rng.choice(own))
        move = self.onward(state) if state != last else self.closing(state)
        if move not in text.moves:
            return text.add(move)


class Stem(Game):
    """The first quarter of the order is a stem. Its states lead to states behind it before they lead along it, so the search has
    finished most states when it comes to the ring, and it has not finished those of the stem."""

    def first_moves(self, ring, count):
        stem, rest = self.order[:self.size // 4], self.order[self.size // 4:]
        along = list(zip(stem, stem[1:] + self.ring[:1]))
        aside = dict.fromkeys((s, self.rng.choice(rest)) for s in stem * 2)
        behind = dict.fromkeys((s, self.rng.choice(stem)) for s in stem).keys() - along
        return self.shuffled(self.leading_on(rest, ring, count - 5 * len(stem)) + [*aside]) + along + sorted(behind)

    def change(self, kind):
        """One accepted change: a move that comes behind the one along the stem, or goes from there."""
        rng, text = self.rng, self.text
        state = rng.choice(self.run.stem)
        unseen = [m for m in text.moves if m[0] == state and m not in self.run.looks]
        if len(unseen) > 1:
            return text.cut(rng.choice(unseen))
        move = state, rng.choice(self.order)
        if move not in text.moves:
            return text.add(move)


class Kinded(Game):
    """As many layers as there are kinds; each further kind is carried by an eighth of the states, drawn by itself."""

    def __init__(self, rng, size, kinds):
        self.kinds = kinds
        super().__init__(rng, size)

    def carried(self, pays):
        more = (self.rng.sample(self.order[1:], max(2, self.size // 8)) for _ in range(1, self.kinds))
        return of_kinds(self.kinds, pays, *more)


def in_batches(lines):
    """The same changes in batches."""
    rows = lines_of(lines)
    return b"".join(b"begin\n" + b"".join(rows[at:at + BATCH]) + b"end\n" for at in range(0, len(rows), BATCH))


def text(seed, size, kind, count):
    """Head, up to `go`, and the lines of the changes. The kind `batch` is `random` in batches: same game, same changes, as far
    as a batch is full."""
    if kind == "batch":
        head, lines = text(seed, size, "random", count - count % BATCH)
        return head, in_batches(lines)
    return played((Stem if kind == "stem" else Game)(random.Random("%s %d %s" % (seed, size, kind)), size), kind, count)


def of_layers(seed, size, kinds, count):
    """Head and changes of the kind `mark`, of a game with several kinds of pay: the first kind of the start state is switched."""
    return played(Kinded(random.Random("%s %d %d" % (seed, size, kinds)), size, kinds), "mark", count)


def played(game, kind, count):
    head = len(game.text.rows)
    while len(game.text.rows) < head + count:
        game.change(kind)
    return as_lines(game.text.rows[:head]), as_lines(game.text.rows[head:])


def ring_moves():
    """Each state has moves to the next four."""
    return [(s, (s + far) % MOST_STATES) for s in range(MOST_STATES) for far in (1, 2, 3, 4)]


def winding_moves(rng):
    """Moves that lead on in a hidden order, and one back from its end to its beginning, which every round takes."""
    order = rng.sample(range(MOST_STATES), MOST_STATES)
    moves = dict.fromkeys(zip(order, order[1:] + order[:1]))
    while len(moves) < MOST_MOVES:
        at = rng.randrange(MOST_STATES - 1)
        moves[order[at], order[min(MOST_STATES - 1, at + rng.randint(1, WINDS))]] = None
    return rng.sample(list(moves), MOST_MOVES)


def full_table(seed, kind):
    """The load, up to `go`, of a game with as many states and moves as there may be."""
    rng = random.Random("%s %s" % (seed, kind))
    moves = winding_moves(rng) if kind == "winding" else ring_moves()
    return Text(MOST_STATES, 0, rng.sample(range(MOST_STATES), PAYING[kind]), moves).data()
