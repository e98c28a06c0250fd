"""The rows of the table of cases that call the program: `serve_alone` and `serve`, and the runs and pools that are repeated.

tools/pages/table.py reads the table. What a row says of the top call must hold of the process: its exit code and both texts.
"""
import re

from pages.table import TABLE, expanded, lines_of, read, without_space
from testing.runner import Skipped, Test

CALLS = ("serve_alone", "serve", "each_run", "each_workers")


class Row:
    """A row of the table: the line where it begins, its call, its words, its text and its answer."""

    def __init__(self, number, head, text):
        call, *words = head.split(" ")
        self.number, self.call, self.words = number, call, [expanded(it) for it in words]
        self.written, self.answer = [without_space(text)], []

    def text(self):
        return "".join(map(expanded, self.written))

    def said(self, sink):
        return [it[len(sink) + 1:] for it in self.answer if it.startswith(f"{sink} ")]


def rows():
    """The rows whose call is the program's."""
    row = None
    for number, line in enumerate(lines_of(read(TABLE)), 1):
        if line.startswith("  ") and row:
            row.answer.append(line[2:])
        elif line.startswith("|") and row:
            row.written.append(without_space(line[1:]) + "`0A`")
        elif line and not line.startswith(("#", " ", "|")):
            if row:
                yield row
            head, _, text = line.partition(":")
            row = Row(number, head, text) if head.split(" ")[0] in CALLS else None
    if row:
        yield row


def serve(programs, row):
    if any("\0" in word for word in row.words):
        raise Skipped("no process can be given a word with the byte 0")
    programs.call(row.words, row.text()).expect(int(row.said("code")[0]), row.said("out"), row.said("err"))


def with_trace(text, entries):
    """The bundle with these lines as its trace."""
    return text.encode("latin-1") + b"\ntrace {\n" + entries + b"}\n"


def each_run(programs, row):
    """`run --aux` so many times; `replay` says of each trace that the choreography plays it."""
    count, *words = row.words
    ends = re.fullmatch(r"from 1: code (\d+), replayed with code (\d+)", row.answer[0])
    for _ in range(int(count)):
        ran = programs.call(["run", "--aux", *words], row.text()).expect(int(ends[1]), None, b"")
        programs.call(["replay"], with_trace(row.text(), ran.out)).expect(int(ends[2]), None, b"")


def each_workers(programs, row):
    """Each number of workers prints the first one's text."""
    numbers, *words = row.words
    wanted = re.fullmatch(r"workers \d+: code (\d+), bytes (\d+)", row.answer[0])
    first = None
    for number in numbers.split(","):
        ran = programs.call([*words, "--workers", number], row.text()).expect(int(wanted[1]), first, b"")
        first = ran.out
        if len(first) != int(wanted[2]):
            raise ran.failed(f"it printed {len(first)} bytes, not {wanted[2]}")


def tests(programs):
    actions = {"serve_alone": serve, "serve": serve, "each_run": each_run, "each_workers": each_workers}
    for row in rows():
        action = actions[row.call]
        weight = int(row.words[0]) if row.call == "each_run" else len(row.text()) // 100000
        name = f"case at {TABLE}:{row.number}, {' '.join([row.call, *row.words])}"[:120]
        yield Test(name, lambda row=row, action=action: action(programs, row), weight)
