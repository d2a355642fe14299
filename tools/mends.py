"""Tries the tables of a page that show what is refused and how it is mended. tools/shown.py runs them, behind a page's commands.

A table with the head `| Line of FILE | Wrong | Prints | Mend |` is about the last command that is shown above it. Each row
puts its wrong line in the place of that line of FILE, runs the command, and compares what is printed with the row, where
`refused` and the file's name may be left out. With the mend in that place nothing may be refused. A table with the head
`| Words | Prints | Mend |` has the program's words in each row. A mend without a code span is advice and is not tried.
"""
import re
from dataclasses import dataclass

LINE_HEAD = re.compile(r"\| Line of `([^`]+)` \| Wrong \| Prints \| Mend \|")
WORDS_HEAD = "| Words | Prints | Mend |"
COMMAND = "    $ "
CELL = re.compile(r"(?<!\\)\|")
REFUSED = re.compile(r"refused |rejected |derived |cannot ")


@dataclass
class Row:
    """A row of such a table: where it stands, the command, the file with the line that is put in, what comes, and the mend."""

    place: int
    command: str
    file: str
    line: int
    wrong: str
    prints: str
    mend: str


def cells_of(row):
    """The cells of a table's row, with `|` for the escaped mark."""
    return [cell.strip().replace("\\|", "|") for cell in CELL.split(row.strip())[1:-1]]


def code_of(cell):
    """The text of a cell that is one code span, or none."""
    return cell[1:-1] if len(cell) > 2 and cell[0] == cell[-1] == "`" and "`" not in cell[1:-1] else None


def row_of(place, cells, command, file):
    """A row of a table about a file, or of words where there is no file."""
    line, wrong, prints, mend = cells if file else ["0", *cells]
    return Row(place, command, file, int(line), code_of(wrong), code_of(prints), code_of(mend))


def rows_of(lines):
    """Yields the rows of all tables of a page that are tried."""
    command, file, inside = None, None, False
    for place, text in enumerate(lines):
        head = LINE_HEAD.fullmatch(text)
        if head or text == WORDS_HEAD:
            file, inside = head[1] if head else None, True
        elif not text.startswith("|"):
            inside = False
            command = text[len(COMMAND):] if text.startswith(COMMAND) else command
        elif inside and not text.startswith("|---"):
            yield row_of(place, cells_of(text), command, file)


def with_line(text, number, line):
    """A text with another line of this number, or with one line more."""
    lines = text.splitlines()
    lines[number - 1:number] = [line]
    return "\n".join(lines) + "\n"


def came_of(row, put_in, folder, run):
    """What is printed with this line in the file, or by these words, as lines; the file is left as it was."""
    if not row.file:
        return run("./buravelo " + put_in, folder)
    file = folder / row.file
    before = file.read_text(encoding="utf-8")
    file.write_text(with_line(before, row.line, put_in), encoding="utf-8")
    try:
        return run(row.command, folder)
    finally:
        file.write_text(before, encoding="utf-8")


def faults_of(row, folder, run):
    """What of a row is not as shown."""
    came = came_of(row, row.wrong, folder, run)
    if came not in ([row.prints], [f"refused {row.prints}"], [f"refused {row.file} {row.prints}"]):
        yield f"shown: {row.prints}, came: {came}"
    mended = came_of(row, row.mend, folder, run) if row.mend else []
    if any(REFUSED.match(line) for line in mended):
        yield f"the mend {row.mend} is refused: {mended}"


def check_rows(lines, folder, run):
    """Tries the rows of a page. Gives how many there are, and (place, row, fault) for each that is not as shown."""
    rows = list(rows_of(lines))
    return len(rows), [(row.place, row.wrong, fault) for row in rows for fault in faults_of(row, folder, run)]
