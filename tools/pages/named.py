"""Whether the pages name files, items and words of commands that there are.

A link is to lead to a file, to a heading where it has a `#`, and from an item to a source that has it. Text between backticks is
looked at where it is
- a path: it is the end of the path of a file or a folder. Words in capitals, as NAME, stand for any name;
- an identifier with an underscore, with `::`, or of several words in CamelCase: its words stand in the sources, and behind the
  name of a crate in those of that crate;
- words of a command line: the program, or the script of tools/, has this command and these options.
Of blocks only the lines for a shell are looked at: what others show of the program is checked by tools/pages/shown.py.
"""
import functools
import os
import re

from pages.table import read
from pages.words import table_of_commands

# What is made while the program is built, released or proved; and places outside of the repository.
MADE = re.compile(r"/|(?:release|~|https?:)(?:/|$)|(?:.*/)?out(?:/|$)")
NO_SOURCES = ("out", "out-tc", ".git", "__pycache__")
# Identifiers of other tools and of the system, and names that a page makes up.
FOREIGN = {"may_wait", "tests_may", "LD_PRELOAD", "RLIMIT_STACK", "CamelCase"}
# Names of the language's texts that begin like identifiers: added messages, and those of bundles on the pages.
OF_TEXTS = re.compile(r"sq_\w*|[a-z]\d*_[a-z0-9]*")
# Options of programs that a page calls beside `aioc` and the scripts: rt, ./test, the program of pictures, GNU parallel.
OTHER_OPTIONS = {
    "--test", "--only", "--minutes", "--seconds", "--jobs", "--proved", "--mermaid", "--svg", "--help", "--version",
    "--check", "--write", "--trace", "--transferfile", "--return", "--cleanup", "--basefile",
}
PATH = re.compile(r"[\w.*~-]*(?:/[\w.*~-]*)+|[\w*-]+\.(?:antt|rt|md|edit|txt|py|svg|json)")
IDENTIFIER = re.compile(r"[A-Za-z_]\w*(?:::[A-Za-z_]\w*)*")
CAMEL = re.compile(r"[A-Z][a-z0-9]+(?:[A-Z][a-z0-9]*)+")


def pages():
    """The pages of the repository, but for the record of what came when."""
    found = ["README.md", "CONTRIBUTING.md"]
    for top in ("docs", "editors", "crates", "release"):
        for folder, folders, files in os.walk(top):
            folders[:] = [it for it in folders if it not in ("out", "src", "specs", "proofs", "must-fail", "mutants")]
            found += [f"{folder}/{it}" for it in files if it.endswith(".md")]
    return sorted(it for it in found if os.path.isfile(it))


def text_lines(text):
    """The lines of a page outside of its blocks, with their numbers."""
    inside = False
    for number, line in enumerate(text.split("\n"), 1):
        if line.lstrip().startswith("```"):
            inside = not inside
        elif not inside:
            yield number, line


def spans(line):
    """The pieces of a line between backticks."""
    return [it[1].strip() for it in re.findall(r"(`+)(.+?)\1(?!`)", line)]


# ---- files

@functools.lru_cache(None)
def known_paths():
    """The ends of all paths of the repository, from each folder on."""
    ends = set()
    for folder, folders, files in os.walk("."):
        folders[:] = [it for it in folders if it not in NO_SOURCES]
        for name in [*folders, *files]:
            parts = f"{folder}/{name}".split("/")[1:]
            ends.update("/".join(parts[first:]) for first in range(len(parts)))
    return ends


def is_path(text):
    path = text.rstrip("/").removeprefix("./")
    if not path or MADE.match(text) or path in known_paths():
        return True
    open_parts = re.sub(r"[A-Z]{2,}(?:_[A-Z]+)*", "*", path)
    if "*" not in open_parts:
        return False
    pattern = re.compile("[^/]*".join(map(re.escape, open_parts.split("*"))))
    return any(pattern.fullmatch(it) for it in known_paths())


@functools.lru_cache(None)
def anchors(page):
    """The headings of a page as links name them."""
    heads = [re.match(r"#+ (.+)", line) for _, line in text_lines(read(page))]
    plain = [re.sub(r"\[([^\]]*)\]\([^)]*\)", r"\1", it[1]).replace("`", "") for it in heads if it]
    return {re.sub(r"[^\w\- ]", "", it.lower()).replace(" ", "-") for it in plain}


def link_problems(page, line):
    for shown, target in re.findall(r"\[([^\]]*)\]\(([^)\s]+)\)", line):
        if re.match(r"\w+:", target):
            continue
        file, _, heading = target.partition("#")
        path = os.path.normpath(os.path.join(os.path.dirname(page), file)) if file else page
        item = re.fullmatch(r"`(\w+)`", shown)
        if not os.path.exists(path):
            yield f"the link to {target} leads to no file"
        elif heading and path.endswith(".md") and heading not in anchors(path):
            yield f"{path} has no heading for the link to {target}"
        elif item and path.endswith((".antt", ".rt")) and not re.search(rf"\b{item[1]}\b", read(path)):
            yield f"{path} has no `{item[1]}`"


# ---- items

@functools.lru_cache(None)
def words_of(top):
    """The words of the sources below a folder, and the parts of their names."""
    words = set()
    for folder, folders, files in os.walk(top):
        folders[:] = [it for it in folders if it not in NO_SOURCES]
        words.update(re.findall(r"\w+", " ".join([*folders, *files])))
        for file in files:
            if file.endswith((".rt", ".antt", ".edit", ".py", ".txt")) or top in ("tools", ".ci"):
                words.update(re.findall(r"\w+", read(f"{folder}/{file}")))
    return words


@functools.lru_cache(None)
def all_words():
    folders = map(words_of, ("crates", "tools", ".ci", "editors", "completions"))
    return set().union(*folders, re.findall(r"\w+", read("crates.txt")))


def item_problem(text):
    """What is wrong with an identifier."""
    parts = text.split("::")
    if text in FOREIGN or OF_TEXTS.fullmatch(text):
        return None
    missing = [it for it in parts if it not in all_words() and it not in FOREIGN]
    if missing:
        return f"nothing is named `{missing[0]}`" + (f", as in `{text}`" if len(parts) > 1 else "")
    if len(parts) > 1 and os.path.isdir(f"crates/{parts[0]}"):
        lost = [it for it in parts[1:] if it not in words_of(f"crates/{parts[0]}")]
        return f"crates/{parts[0]} has no `{lost[0]}`" if lost else None
    return None


def is_item(text):
    found = IDENTIFIER.fullmatch(text)
    return found is not None and ("_" in text.strip("_") or "::" in text or CAMEL.fullmatch(text) is not None)


# ---- words of a command line

def options_in(text):
    return re.findall(r"(?<![\w-])--[a-z][a-z-]*", text)


@functools.lru_cache(None)
def options_of_scripts():
    files = [f"tools/{it}" for it in os.listdir("tools")]
    return {option for it in files if os.path.isfile(it) for option in options_in(read(it))}


def call_problems(text):
    """What is wrong with the words of a command line, where it is one."""
    commands = table_of_commands()
    words = text.split()
    # (a longer list that begins with `aioc` is one of reserved words)
    program = words[0] == "./aioc" or (words[0] == "aioc" and (len(words) < 4 or "--" in text))
    called = words[1:] if program else words
    if program and called and re.fullmatch("[a-z]+", called[0]) and called[0] not in commands:
        yield f"`aioc` has no command `{called[0]}`"
    elif called and called[0] in commands and (program or len(called) > 1):
        lost = [it for it in options_in(text) if it[2:] not in commands[called[0]]]
        if lost:
            yield f"the command `{called[0]}` has no option `{lost[0]}`"
    elif words[0].startswith("tools/") and os.path.isfile(words[0]):
        lost = [it for it in options_in(text) if it not in read(words[0])]
        if lost:
            yield f"{words[0]} has no option `{lost[0]}`"
    elif len(words) == 1 and options_in(text) == words:
        known = {f"--{option}" for options in commands.values() for option in options}
        if text not in known | options_of_scripts() | OTHER_OPTIONS:
            yield f"no command has an option `{text}`"


def span_problems(text):
    if is_item(text):
        problem = item_problem(text)
        return [problem] if problem else []
    for word in (text.split()[:1] if text.startswith(("tools/", "./", "crates/", "docs/")) else [text]):
        if PATH.fullmatch(word) and re.search(r"\w", word) and not is_path(word):
            return [f"there is no file `{word}`"]
    return list(call_problems(text)) if text.split() else []


def shell_lines(text):
    """The lines of a page that stand in blocks without a kind, or of the shell, and the lines set in by four spaces."""
    kind = None
    for number, line in enumerate(text.split("\n"), 1):
        if line.startswith("```"):
            kind = line[3:].strip() if kind is None else None
        elif kind in ("", "sh") or (kind is None and line.startswith("    ")):
            yield number, line.strip()


def shell_problems(line):
    """What is wrong with a line for the shell: its words up to the first that is the shell's own, and the files that it names."""
    call = re.split(r"[<>|&;()]", line)[0]
    if re.match(r"\./aioc\b(?!-)|tools/", call):
        yield from call_problems(call)
    for path in re.findall(r"(?<![\w/.])(?:\./)?(?:crates|docs|editors|examples|tools)/[\w./-]*\w", line):
        if not is_path(path):
            yield f"there is no file `{path}`"


def check_named():
    if not table_of_commands():
        return []
    problems = []
    for page in pages():
        text = read(page)
        problems += [f"{page}, line {number}: {it}" for number, line in shell_lines(text) for it in shell_problems(line)]
        for number, line in text_lines(text):
            # (the cases of the index are checked as such)
            row = line.startswith("| ") and page == "docs/RULES.md"
            found = [*link_problems(page, line), *(it for text in ([] if row else spans(line)) for it in span_problems(text))]
            problems += [f"{page}, line {number}: {it}" for it in found]
    return problems
