"""Families of sources: each makes the source of any number, always the same for the same number."""
from draws import Draws
from hidden import ALL_KINDS, FLAG_KINDS, draw_cells, draw_flow
from program import TRAP
from statements import COLUMNS, OUTCOMES

# Sizes that the numbers of a family go through: (labels, rows of the hidden placement, row bound).
PLACED_SIZES = ((32, 32, 32), (64, 5, 5), (128, 9, 9), (64, 32, 32), (100, 16, 16),
                (48, 4, 4), (128, 32, 32), (96, 7, 7), (24, 2, 2), (128, 16, 16))
SQUEEZED_SIZES = ((64, 8, 5), (32, 8, 3), (96, 16, 8), (64, 16, 6), (128, 12, 9),
                  (48, 8, 4), (96, 8, 7), (80, 32, 8), (128, 16, 10), (128, 32, 24))
TEST_SIZES = ((40, 8, 3), (60, 4, 4), (64, 16, 7), (28, 2, 2), (48, 8, 4),
              (90, 8, 6), (30, 4, 3), (56, 8, 5), (100, 7, 7), (44, 4, 3))
WILD_TESTS = ["iff", "ifc", "ifz", "onpr", "onpx", "onleft", "onright"]
# Labels and row bound of random flows.
WILD_SIZES = ((32, 32), (64, 32), (24, 4), (128, 32), (48, 8), (16, 2), (96, 32), (40, 16), (80, 8), (128, 16))


def source_text(rows, flow, pins=()):
    """A source of one operation; flow is a list of (label, statement, targets), the first label is the start."""
    lines = ["slices 4", f"rows {rows}", f"start {flow[0][0]}"]
    lines += [f"pin {label} {row} {column}" for label, row, column in pins]
    lines += [f"{label}: NOP R0 | {statement} {' '.join(targets)}" for label, statement, targets in flow]
    return "\n".join(lines) + "\n"


def planted(kinds, size, name):
    """A flow over a hidden placement, with a row bound that may be lower than the hidden rows."""
    labels, hidden_rows, rows = size
    draws = Draws.named(name)
    return source_text(rows, draw_flow(draws, draw_cells(draws, labels, hidden_rows), kinds))


def placed(number):
    """A hidden placement of every kind of statement, within the rows that are allowed: it has a placement."""
    size = PLACED_SIZES[number % len(PLACED_SIZES)]
    name = f"placed_n{size[0]}_r{size[1]}_{number}"
    return name, planted(ALL_KINDS, size, name)


def squeezed(number):
    """A hidden placement of every kind of statement, but fewer rows are allowed than it takes."""
    size = SQUEEZED_SIZES[number % len(SQUEEZED_SIZES)]
    name = f"squeezed_n{size[0]}_r{size[1]}_b{size[2]}_{number}"
    return name, planted(ALL_KINDS, size, name)


def tests(number):
    """Dense tests of flags and `goto`, near the bound at which the rows are full."""
    size = TEST_SIZES[number % len(TEST_SIZES)]
    name = f"tests_n{size[0]}_r{size[1]}_b{size[2]}_{number}"
    return name, planted(FLAG_KINDS, size, name)


def wild(number):
    """A random flow, mostly `goto`, with no placement behind it; no two tests share a target, and none has the start."""
    count, rows = WILD_SIZES[number % len(WILD_SIZES)]
    name = f"wild_n{count}_r{rows}_{number}"
    draws = Draws.named(name)
    labels = [f"L{label}" for label in range(count)]
    untested = draws.shuffled(labels[1:])
    gap = (5, 10)[number // 10 % 2]
    return name, source_text(rows, [wild_line(draws, label, labels, untested, gap) for label in labels])


def wild_line(draws, label, labels, untested, gap):
    """A line of a random flow: a `goto`, or once in a gap of lines a test, whose targets come from `untested`."""
    statement = draws.choose(WILD_TESTS)
    kept = kept_outcomes(draws, OUTCOMES[statement])
    if draws.below(gap) > 0 or sum(kept) > len(untested):
        return label, "goto", [draws.choose(labels)]
    return label, statement, [untested.pop() if keep else TRAP for keep in kept]


def kept_outcomes(draws, outcomes):
    """Which outcomes of a test have a label: all of a few; of sixteen each eighth by chance, and one for certain."""
    kept = [outcomes <= 4 or draws.below(8) == 0 for _ in range(outcomes)]
    kept[draws.below(outcomes)] = True
    return kept


def pigeonholes(number):
    """One label more than cells, all in one row, where 0 to 13 of them are pinned."""
    pins = number % 14
    name = f"pigeonholes_p{pins}_{number}"
    draws = Draws.named(name)
    labels = ["A"] + draws.shuffled([f"P{label}" for label in range(1, COLUMNS + 1)])
    columns = draws.shuffled(range(1, COLUMNS))[:pins]
    pinned = [(label, 0, column) for label, column in zip(draws.shuffled(labels[1:]), columns)]
    return name, source_text(1, [(label, "goto", [label]) for label in labels], pinned)


def stars(number):
    """A pinned hub to which one label more goes than there are cells from which a `goto` leads there; some are pinned."""
    rows = 2 + number % 6
    hub = (1 + number % (rows - 1), 1 + number % 15)
    name = f"stars_r{rows}_{number}"
    draws = Draws.named(name)
    cells = [(hub[0], column) for column in range(COLUMNS)] + [(row, hub[1]) for row in range(rows)]
    cells = draws.shuffled([cell for cell in cells if cell != hub])  # the start at row 0, column 0 is none of them
    rays = [f"L{ray}" for ray in range(len(cells) + 1)]
    pinned = 4 + rows + number % 7
    pins = [("H", *hub)] + [(ray, *cell) for ray, cell in zip(draws.shuffled(rays), cells[:pinned])]
    flow = [("S", "goto", ["S"]), ("H", "goto", ["H"])] + [(ray, "goto", ["H"]) for ray in rays]
    return name, source_text(rows, flow, pins)


def pairs(number):
    """Pairs of labels that tests of flags want side by side: as many as the rows hold, or one more."""
    rows = 1 + number // 2 % 10
    count = 2 * rows + number % 2
    name = f"pairs_r{rows}_n{count}_{number}"
    flow = [(f"S{pair}", "iff", [f"T{pair}", f"U{pair}"]) for pair in range(count)]
    ends = [f"{side}{pair}" for pair in range(count) for side in "TU"]
    return name, source_text(rows, flow + [(end, "goto", [end]) for end in Draws.named(name).shuffled(ends)])
