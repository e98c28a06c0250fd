"""The table of cases, as far as it calls the program: `serve_alone WORD..: TEXT`, and the answer below it; `serve` where the command
has threads."""
import re

TABLE = "crates/service_cases/stdout"
TABLES = (TABLE, "crates/aioc_cases/stdout")

# The commands that have threads.
THREADED = ("run", "sessions")


def read(path):
    with open(path, "rb") as it:
        return it.read().decode("latin-1")


def without_space(text):
    """The text without one space at its front."""
    return text[1:] if text.startswith(" ") else text


def lines_of(text):
    return (text[:-1] if text.endswith("\n") else text).split("\n")


def repeated(piece):
    """What stands for the piece between two backticks."""
    found = re.fullmatch(r"(?s)([0-9]+)([*#])(.*)", piece)
    if not found:
        return bytes.fromhex(piece).decode("latin-1") if re.fullmatch("([0-9A-F]{2})*", piece) else ""
    count, mark, text = int(found[1]), found[2], found[3]
    return text * count if mark == "*" else "".join(text.replace("#", str(number)) for number in range(count))


def expanded(written):
    return "".join(repeated(it) if number % 2 else it for number, it in enumerate(written.split("`")))


class Row:
    """A case of the program: its words, the text as it is written, and the lines of its answer."""

    def __init__(self, words, written):
        self.words, self.written, self.answer = [expanded(it) for it in words], [written], []

    def is_of(self, words, text):
        return self.words == words and "".join(map(expanded, self.written)) == text

    def said(self, sink):
        return [it[len(sink) + 1:] for it in self.answer if it.startswith(f"{sink} ")]

    def code(self):
        return int(self.said("code")[0])


def call_of(words):
    """The call of the program for these words."""
    return "serve" if words and words[0] in THREADED else "serve_alone"


def read_rows():
    rows, row = [], None
    for line in read(TABLE).split("\n"):
        if line.startswith("  ") and row:
            row.answer.append(line[2:])
        elif line.startswith("|") and row:
            row.written.append(without_space(line[1:]) + "`0A`")
        else:
            head, _, text = line.partition(":")
            words = head.split(" ")
            row = Row(words[1:], without_space(text)) if words[0] == call_of(words[1:]) else None
            rows += [row] if row else []
    return rows


def check_input():
    """A table without its answers is what its program of cases reads."""
    problems = []
    for table in TABLES:
        given = table.replace("stdout", "stdin")
        asked = "".join(f"{it}\n" for it in lines_of(read(table)) if not it.startswith("  "))
        problems += [] if asked == read(given) else [f"{given}: it isn't {table} without its answers"]
    return problems


def find(rows, words, text):
    return next((it for it in rows if it.is_of(words, text)), None)


def print_row(words, text, lines):
    """A row for the table; the letters `?` are for the one who works out the answer."""
    print(f"{' '.join([call_of(words), *words])}:")
    for line in lines_of(text):
        print(f"| {line}" if line else "|")
    print("  code ?")
    for line in lines:
        print(f"  {line}")
