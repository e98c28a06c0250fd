"""Whether the pages keep to the words of the style note in CONTRIBUTING.md, and have no figure that grows old.

A line of a table or a list that shows what not to write has it in quotation marks, which are passed over, as what stands between
backticks or in a block.
"""
import re

from pages.named import pages, text_lines
from pages.table import read

MANUAL = "docs/aioc.1"
# What a page doesn't say, and what it says instead.
WORDS = (
    (r"\b(?:let|lets|letting|lets?) go of\b|\bletting[- ]go\b|\blet go\b", "drop"),
    (r"\bwants? of (?:memory|room)\b", "out of memory"),
    (r"\bwhat is weaker\b|\bis weaker\b", "limitations"),
    (r"\bin letters\b", "plain text"),
    (r"\bedges?\b", "command line"),
    (r"\bkept as\b", "represented as"),
)
MONTHS = "January|February|March|April|May|June|July|August|September|October|November|December"
DATE = re.compile(rf"\b(?:[0-9]{{1,2}} )?(?:{MONTHS}),? (?:[0-9]{{1,2}},? )?20[0-9]{{2}}\b|\b20[0-9]{{2}}(?:-[0-9]{{2}}){{2}}\b")
FIGURE = re.compile(r"\b[0-9][0-9.,]* (?:processor[- ])?(?:milliseconds?|seconds?|minutes?|hours?)\b")


def bare(line):
    """The line without what stands between backticks or in quotation marks."""
    return re.sub(r"(`+)(.+?)\1(?!`)|“[^”]*”|\"[^\"]*\"", " ", line)


def line_problems(line):
    for pattern, instead in WORDS:
        found = re.search(pattern, line, re.I)
        if found:
            yield f"a page says {instead}, not {found[0]}"
    if DATE.search(line):
        yield f"a page has no date: {DATE.search(line)[0]}"
    if FIGURE.search(line):
        yield f"a page has no figure of a machine: {FIGURE.search(line)[0]}"


def check_style():
    return [f"{page}, line {number}: {it}" for page in [*pages(), MANUAL] for number, line in text_lines(read(page))
            for it in line_problems(bare(line))]
