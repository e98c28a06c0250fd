"""What the examples and the pages show, said by the program itself.

tools/pages/shown.py reads the pages, and tools/pages/named.py says which pages these are; tools/check-pages compares them with
the table of cases.
"""
from pages.named import pages
from pages.shown import Shown, blocks_of_manual, blocks_of_markdown, check_examples, check_page
from pages.table import read
from testing.runner import Failed, Test

MANUAL = "docs/aioc.1"


class Ran(Shown):
    """As `Shown`, where the program is run in place of a look into the table."""

    def __init__(self, programs):
        super().__init__([])
        self.programs = programs

    def add(self, where, words, text, sink, lines):
        self.count += 1
        try:
            ran = self.programs.call(words, text)
            ran.expect(None, *((lines, b"") if sink == "out" else (b"", lines)))
            if (ran.code in (0, 8, 9)) != (sink == "out"):
                raise ran.failed(f"it ended with {ran.code}")
        except Failed as failed:
            self.problems.append((where, failed))

    def results(self, name):
        """A result for each that was shown; a problem that is a text comes from the pages' own reader."""
        failed = []
        for problem in self.problems:
            where, result = problem if isinstance(problem, tuple) else (name, Failed(problem, f"./test {name.split(' ')[0]}"))
            failed.append((where, result))
        return [(name, None)] * max(0, self.count - len(failed)) + failed


def of_examples(programs):
    shown = Ran(programs)
    check_examples(shown)
    return shown.results("examples")


def of_page(programs, page, blocks):
    shown = Ran(programs)
    check_page(shown, page, blocks, f'#!/bin/sh\nexec "{programs.aioc}" "$@"\n')
    return shown.results(page)


def tests(programs):
    yield Test("examples", lambda: of_examples(programs), 50)
    for page in pages():
        yield Test(page, lambda page=page: of_page(programs, page, blocks_of_markdown(read(page))), 50)
    yield Test(MANUAL, lambda: of_page(programs, MANUAL, blocks_of_manual(read(MANUAL))), 50)
