"""Whether the page of refusals has each line that a person can be told on standard error."""
import re

from pages.table import read

PAGE = "docs/REFUSALS.md"
MESSAGES = "crates/aioc_top/specs/Messages.antt"
REFUSALS = "crates/rule_checks/specs/Texts.antt"
MENDING = "crates/mend/specs/Texts.antt"


def lines():
    """How each line begins. What is refused of a bundle may be refused of a rule too, and that is a line of its own."""
    refusals, mending = read(REFUSALS), read(MENDING)
    found = re.findall(r'codes "([^"]+)"', read(MESSAGES))
    found += [f"refused: too many {it}" for it in re.findall(r'^which_text \w+ = codes "(\w+)"', refusals, re.M)]
    found += [f"refused: {it}" for it in re.findall(r'^mend_refusal_text \w+ = codes "([^"]+)"', mending, re.M)]
    for it in re.findall(r'where_text at \+\+ \(?codes "([^"]+)"', refusals + mending):
        found += [f"refused: {it}", f"refused: rule 0: {it}"]
    return found + [f"refused: rule 0: {it}" for it in re.findall(r'where_text \(place\.Rule n\) \+\+ codes "([^"]+)"', refusals)]


def check_lines():
    page, found = read(PAGE), lines()
    if len(found) < 2:
        return [f"the lines can't be read from {MESSAGES}, {REFUSALS} and {MENDING}"]
    return [f"{PAGE}: the line `{it.strip()}` is missing" for it in found if it not in page]
