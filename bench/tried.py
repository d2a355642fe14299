"""Large easy sources: 128 labels that fill eight rows in order, most of them pinned there or none of them.

The labels are L0 to L127, and label i belongs at row i div 16, column i mod 16. Pinned are all but each
eighth, or none. A flow goes to a label of the same row, to one of the same column, or by `iff` to the two
labels at columns 2 and 3 of the instruction's half in some row. So there is always a placement. The
operations read and write registers and flags, so that the flow computes something.
"""
from draws import Draws

LABELS = 128
COLUMNS = 16
OPERATIONS = ("ILR R{register}", "ALR R{register}", "INR R{register} FF1", "ADR R{register} STC",
              "LDI AC FF1", "XNR R{register} STZ", "SRA AC FFC", "LMI R{register} FFZ")


def flow_of(draws, label, kind):
    """The flow of an instruction, of one of three kinds."""
    if kind == 0:
        return f"goto L{COLUMNS * (label // COLUMNS) + draws.below(COLUMNS)}"
    if kind == 1:
        return f"goto L{COLUMNS * draws.below(8) + label % COLUMNS}"
    first = COLUMNS * draws.below(8) + 8 * (label // 8 % 2) + 2
    return f"iff L{first} L{first + 1}"


def instruction(draws, label):
    """One line. The draws are made in this order: operation, register, field, kind of flow, target."""
    operation = OPERATIONS[draws.below(len(OPERATIONS))]
    register = draws.below(10)
    field = draws.below(16)
    flow = flow_of(draws, label, draws.below(3))
    return f"L{label}: {operation.format(register=register)} u={field} | {flow}"


def tried_text(number, pinned):
    """The source of a number, whose draws begin with the number itself."""
    draws = Draws(number)
    lines = ["slices 8", "kbus 2", "field u 4 0", "start L0"]
    if pinned:
        lines += [f"pin L{label} {label // COLUMNS} {label % COLUMNS}" for label in range(LABELS) if label % 8 != 7]
    lines += [instruction(draws, label) for label in range(LABELS)]
    return "\n".join(lines) + "\n"


def tried(number):
    """Most labels are pinned."""
    return f"try_{number}", tried_text(number, True)


def tried_free(number):
    """No label is pinned."""
    return f"try_free_{number}", tried_text(number, False)
