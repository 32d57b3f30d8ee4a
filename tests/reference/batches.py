"""Lines of batches for the scripts and the sessions, as Table.batch takes them."""

from reference import MOST_KINDS, MOST_MOVES

LENGTHS = 0, 1, 2, 63, 64, 65, 66
NUMBERS = 1, 6, 8, 9, 10, 13, 14
KIND_NUMBERS = *NUMBERS, 4                      # for a table with several kinds


class Ahead:
    """A table as the earlier lines of a batch leave it, and what the run before the batch had come to."""

    def __init__(self, table):
        run = table.run
        self.size, self.kinds = table.size, table.kinds
        self.most_moves = MOST_MOVES // table.kinds
        self.moves = dict.fromkeys(table.moves)
        self.marks = {(s, kind) for kind, own in enumerate(table.marks, 1) for s in range(table.size) if own[s]}
        self.met, self.looked, finished = list(run.met_after), set(run.looks), set(run.finished)
        self.unmet = [s for s in range(table.size) if s not in run.met_after]
        self.unfinished = [s for s in self.met if s not in finished]
        self.walk = run.stem + run.round
        self.lines = []
        self.done = []                          # of each line that was accepted what takes it back, or does it again

    def some_kind(self, rng):
        return 1 if self.kinds == 1 else rng.randint(1, self.kinds)

    def paying(self):
        """The states that carry any kind."""
        return sorted({state for state, _ in self.marks})

    def pay(self, state, kind):
        """A state's pay of this kind comes or goes."""
        self.lines.append(self.mark_line("unmark" if (state, kind) in self.marks else "mark", state, kind))
        self.marks ^= {(state, kind)}
        self.done.append((self.pay, state, kind))

    def move(self, a, b):
        """A move comes or goes; where there is no room for it, neither."""
        if (a, b) in self.moves:
            del self.moves[a, b]
            self.lines.append(("cut", a, b))
        elif len(self.moves) < self.most_moves:
            self.moves[a, b] = None
            self.lines.append(("add", a, b))
        else:
            return
        self.done.append((self.move, a, b))

    def back(self, rng):
        """An earlier line of the batch is taken back, or done again."""
        turn, *named = rng.choice(self.done)
        turn(*named)

    def mark_line(self, word, state, kind):
        """Kind 1 is left out, but where there are more kinds it stands behind every other state."""
        left_out = kind == 1 and (self.kinds == 1 or state % 2 == 0)
        return (word, state) if left_out else (word, state, kind)


def quiet_line(rng, ahead):
    """A change that the run before the batch had not come to, if one is drawn."""
    dice = rng.random()
    free = ahead.unfinished if ahead.unfinished and rng.random() < 0.7 else ahead.unmet
    if dice < 0.2 and ahead.unmet:
        ahead.pay(rng.choice(ahead.unmet), ahead.some_kind(rng))
    elif dice < 0.6:
        behind = [move for move in ahead.moves if move not in ahead.looked]
        if behind:
            ahead.move(*rng.choice(behind))
    elif free:
        move = rng.choice(free), rng.randrange(ahead.size)
        if move not in ahead.looked:
            ahead.move(*move)


def any_line(rng, ahead):
    """Any change; some take back an earlier one of the batch."""
    dice = rng.random()
    if dice < 0.25:
        states = rng.choice((ahead.walk, ahead.paying(), range(ahead.size)))
        ahead.pay(rng.choice(states or range(ahead.size)), ahead.some_kind(rng))
    elif dice < 0.4 and ahead.done:
        ahead.back(rng)
    elif dice < 0.7 and ahead.moves:
        ahead.move(*rng.choice(list(ahead.moves)))
    else:
        ahead.move(rng.choice(ahead.met if rng.random() < 0.7 else range(ahead.size)), rng.randrange(ahead.size))


def refused_line(rng, ahead, number):
    """A line that gets this number if this table has one, or else a line that is no change."""
    size, state, outside = ahead.size, rng.randrange(ahead.size), rng.choice((ahead.size, ahead.size + 1, 600, 65535))
    drawn = [(rng.randrange(size), rng.randrange(size)) for _ in range(20)]
    absent = [move for move in drawn if move not in ahead.moves]
    lines = {6: [("add", state, outside), ("add", outside, outside), ("cut", outside, state), ("mark", outside), ("unmark", outside)],
             8: [("add", *move) for move in ahead.moves],
             9: [("add", *move) for move in absent if len(ahead.moves) == ahead.most_moves],
             10: [("cut", *move) for move in absent],
             13: [ahead.mark_line("mark", *mark) for mark in sorted(ahead.marks)],
             14: [ahead.mark_line("unmark", s, kind) for s in range(size) for kind in range(1, ahead.kinds + 1)
                  if (s, kind) not in ahead.marks]}.get(number, [])
    if ahead.kinds > 1:
        lines += refused_kinds(ahead.kinds, state, outside).get(number, [])
    return rng.choice(lines) if lines else None


def refused_kinds(kinds, state, outside):
    """More such lines where there are several kinds: with a kind that there never is, with one above K, and marks of each
    kind for a state outside."""
    def both(*named):
        return [("mark", *named), ("unmark", *named)]
    above = range(kinds + 1, MOST_KINDS + 1)
    return {1: [None] + both(state, 0) + both(outside, MOST_KINDS + 1) + both(state, 65535),
            4: [line for kind in above for line in both(state, kind) + both(outside, kind)],
            6: [line for kind in range(1, kinds + 1) for line in both(outside, kind)]}


def filling_line(rng, ahead, left):
    """For a table that is nearly full: the next of so many lines behind which it is to be full, where not any line will do."""
    room = ahead.most_moves - len(ahead.moves)
    state = rng.randrange(ahead.size)
    if room > 64 or left > room + 1:
        any_line(rng, ahead)
    elif left == room + 1:
        ahead.pay(state, ahead.some_kind(rng))
    else:
        move = state, rng.randrange(ahead.size)
        if move not in ahead.moves:
            ahead.move(*move)


def some_lines(rng, table, count, quiet=False, fault=None):
    """So many lines, accepted one after another, or fewer where the table has not that many quiet ones.
    quiet: the run before had come to none of them. fault: a number and the place, from 1, of the line that gets it."""
    ahead = Ahead(table)
    number, place = fault or (None, 0)
    for _ in range(40 * count):
        left = place - 1 - len(ahead.lines)
        if len(ahead.lines) == count:
            break
        if left == 0:
            ahead.lines.append(refused_line(rng, ahead, number))
        elif number == 9 and left > 0:
            filling_line(rng, ahead, left)
        else:
            (quiet_line if quiet else any_line)(rng, ahead)
    return ahead.lines
