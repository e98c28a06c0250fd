"""Whether the index of rules names definitions, functions and cases that there are.

A row of docs/RULES.md has a rule, its definitions, its functions and a case. A definition or a function is a link to its file,
and the text of the link is its name. A case is a line of a table of cases, or the beginning of one where it ends with `..`.
"""
import os
import re

from pages.table import TABLES, read

PAGE = "docs/RULES.md"
LINK = re.compile(r"\[`(\w+)`\]\(([^)#]+)\)")
HEAD = "| rule | definition | code | case |"


def cells(row):
    """The cells of a row of a table; `\\|` is a bar inside a cell."""
    return [it.replace("\\|", "|").strip() for it in re.split(r"(?<!\\)\|", row)[1:-1]]


def span(cell):
    """The text between the backticks of a cell that has nothing else."""
    found = re.fullmatch(r"(`+)(.+?)\1", cell)
    if not found:
        return None
    text = found[2]
    return text[1:-1] if text[:1] == text[-1:] == " " and "`" in text else text


def has_item(text, name):
    return re.search(rf"(?<!\w){re.escape(name)}(?!\w)", text) is not None


def missing_items(cell, folder):
    """What is wrong with the links of a cell, whose files stand in such a folder of a crate."""
    links = LINK.findall(cell)
    if not links:
        yield "no link to a file"
    for name, target in links:
        path = os.path.normpath(f"docs/{target}")
        if not re.match(rf"crates/\w+/{folder}/", path):
            yield f"`{name}` is no item of a folder {folder}/"
        elif not os.path.isfile(path):
            yield f"there is no file {path}"
        elif not has_item(read(path), name):
            yield f"{path} has no `{name}`"


def case_problem(cell, cases):
    case = span(cell)
    if case is None:
        return "no case in backticks"
    if case.endswith(".."):
        count = sum(it.startswith(case[:-2]) for it in cases)
    else:
        count = cases.count(case)
    return None if count == 1 else f"the case stands {count} times in the tables: {case}"


def rows():
    """The rows of the index, with where they stand."""
    for number, line in enumerate(read(PAGE).split("\n"), 1):
        if line.startswith("| ") and line != HEAD:
            yield f"{PAGE}, line {number}", cells(line)


def count_of_rules():
    return len(list(rows()))


def row_problems(row, cases):
    if len(row) != 4:
        return [f"a row of {len(row)} cells"]
    wrong = case_problem(row[3], cases)
    return [*missing_items(row[1], "specs"), *missing_items(row[2], "src"), *([wrong] if wrong else [])]


def check_rules():
    cases = [line for table in TABLES for line in read(table.replace("stdout", "stdin")).split("\n")]
    if not count_of_rules():
        return [f"{PAGE}: no rules"]
    return [f"{where}: {it}" for where, row in rows() for it in row_problems(row, cases)]
