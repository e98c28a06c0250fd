"""The program that explains faults: its stored run, the blocks of docs/EXPLAIN.md, the examples, its statuses, and the forms in which
editors read what it tells."""
import json
import os
import re
import tempfile

from pages.shown import blocks_of_markdown
from testing.runner import Failed, Test

CRATE, PAGE = "crates/aioc_tool", "docs/EXPLAIN.md"
USAGE = ["usage: aioc-tool explain [FILE] [--json] [--trace]", "       aioc-tool format [FILE..] [--check] [--write]"]
SOUND, FAULTY = "aioc { x@a = 1 }\n", "aioc {\n\tx@a = 1;\n\ty@@a = 2\n}\n"
PLACE = "bad.aioc:3:4: error: expected a name, found '@'"

# Words and texts that no diagnostic is told of: the code and the lines of standard error.
OTHERS = (
    ("no word", [], SOUND, 2, USAGE),
    ("an unknown command", ["check"], SOUND, 2, USAGE),
    ("an unknown option", ["explain", "--xml"], SOUND, 2, USAGE),
    ("a word too many", ["explain", "one", "two"], SOUND, 2, USAGE),
    ("--json twice", ["explain", "--json", "--json"], SOUND, 2, USAGE),
    ("--trace twice", ["explain", "--trace", "--trace"], SOUND, 2, USAGE),
    ("a word that is not UTF-8", ["explain", b"\xff"], SOUND, 2, USAGE),
    ("no such file", ["explain", "nowhere.aioc"], SOUND, 2, ["aioc-tool: nowhere.aioc: can't be read"]),
    ("a folder", ["explain", "/"], SOUND, 2, ["aioc-tool: /: can't be read"]),
    ("bytes that are no text", ["explain"], b"aioc \xff", 2, ["aioc-tool: <stdin>: is no text"]),
    ("the byte 0", ["explain"], b"aioc \0", 2, ["aioc-tool: <stdin>: is no text"]),
    ("nothing wrong", ["explain"], SOUND, 0, []),
    ("nothing wrong, as JSON", ["explain", "--json"], SOUND, 0, []),
    ("no trace section", ["explain", "--trace"], SOUND, 0, []),
)

# Scripts of sh, `$1` is the program.
STREAMS = {
    "a folder as standard input": ('"$1" explain < /', 2, ["aioc-tool: <stdin>: can't be read"]),
    "/dev/full as standard error": ('"$1" explain 2> /dev/full', 4, []),
}


def read(path):
    with open(path, "rb") as it:
        return it.read()


def stored(programs):
    words = read(f"{CRATE}/args").decode().split("\n")[:-1]
    code = int(read(f"{CRATE}/status"))
    ran = programs.call(words, read(f"{CRATE}/stdin"), programs.tool)
    ran.expect(code, read(f"{CRATE}/stdout"), None)


def told(programs, folder, lines):
    """What a shell shows of the command in a block of the page."""
    command, wanted = lines[0].removeprefix("$ "), "".join(f"{line}\n" for line in lines[1:]).encode()
    ran = programs.shell(f'cd "$1" && {command}', folder)
    ran.expect(1, b"", wanted)


def of_page(programs):
    results, text = [], read(PAGE).decode()
    with tempfile.TemporaryDirectory(prefix="aioc-explain-") as folder:
        os.symlink(programs.tool, f"{folder}/aioc-tool")
        for number, kind, lines in blocks_of_markdown(text):
            if kind[:1] == ["faulty"]:
                with open(f"{folder}/{kind[1]}", "w", encoding="utf-8") as it:
                    it.write("".join(f"{line}\n" for line in lines))
            elif kind == ["told"]:
                name = f"{PAGE}, line {number}"
                try:
                    told(programs, folder, lines)
                    results.append((name, None))
                except Failed as failed:
                    results.append((name, failed))
    return results


def silent(programs, path):
    """Nothing is wrong with an example, nor with what `upgrade` and `mend` write of it."""
    programs.call(["explain", path], b"", programs.tool).expect(0, b"", b"")
    for command in ("upgrade", "mend"):
        programs.shell('"$1" "$3" < "$4" | "$2" explain', programs.aioc, programs.tool, command, path).expect(0, b"", b"")


def as_accepted(programs, path):
    """Where one token of an example is dropped, nothing is told exactly where `aioc check` accepts the rest."""
    text = read(path)
    for found in list(re.finditer(rb"[A-Za-z_]\w*|\d+|\S", text))[::17]:
        cut = text[:found.start()] + text[found.end():]
        accepted = programs.call(["check"], cut).code == 0
        ran = programs.call(["explain"], cut, programs.tool)
        if (ran.code == 0) != accepted:
            raise ran.failed(f"it ended with {ran.code}, and `aioc check` {'accepts' if accepted else 'refuses'} the text")


def section(entries):
    """A trace section, each entry on a line of its own."""
    return "trace {\n" + "".join(f"{it}\n" for it in entries) + "}\n"


def judged(programs, bundle, entries):
    """The number of the first entry that `replay` says `no` to, or None."""
    ran = programs.call(["replay"], (bundle + section(entries)).encode())
    said = ran.out.decode().split(" ")
    return int(said[1]) if said[0] == "no" else None


def shown_entries(help_line):
    """The entries that a line of help tells; the last may be `..`."""
    _, _, told_there = help_line.partition("it plays here: ")
    return re.split(r", (?=(?:put|take|set|input|pick|scope|add|drop|env) |\.\.$)", told_there) if told_there else []


def check_stray(programs, bundle, entries, dropped):
    """What is told of a trace without one of its entries: exactly where `replay` says no, and of the entry that it names."""
    left = entries[:dropped] + entries[dropped + 1:]
    number = judged(programs, bundle, left)
    ran = programs.call(["explain", "--trace"], (bundle + section(left)).encode(), programs.tool)
    if number is None:
        ran.expect(0, b"", b"")
        return
    ran.expect(1, b"", None)
    first, line, *_, last = ran.err.decode().rstrip("\n").split("\n")
    if first.split(":")[1] != str(bundle.count("\n") + 1 + number) or line != (left + ["}"])[number - 1]:
        raise ran.failed(f"`replay` says no to entry {number}")
    shown = shown_entries(last)
    for entry in shown:
        if entry != ".." and judged(programs, bundle, left[:number - 1] + [entry]) is not None:
            raise ran.failed(f"it tells that `{entry}` is played, and `replay` says no to it")
    if number == dropped + 1 and entries[dropped] not in shown and ".." not in shown:
        raise ran.failed(f"it doesn't tell that `{entries[dropped]}` is played")


def strays(programs, path):
    """The trace of an example is played. Without one of its entries it is told of as `replay` judges it."""
    bundle = read(path).decode() + "\n"
    entries = read(path.replace(".aioc", ".trace")).decode().split("\n")[:-1]
    programs.call(["explain", "--trace"], (bundle + section(entries)).encode(), programs.tool).expect(0, b"", b"")
    for dropped in range(0, len(entries) - 1, 3):
        check_stray(programs, bundle, entries, dropped)


def in_file(programs, words):
    with tempfile.TemporaryDirectory(prefix="aioc-explain-") as folder:
        with open(f"{folder}/bad.aioc", "w", encoding="utf-8") as it:
            it.write(FAULTY)
        return programs.shell(f'cd "$2" && "$1" explain bad.aioc {words}', programs.tool, folder)


def problem_matcher(programs):
    """The regular expression of the problem matcher finds the file, the line and the column."""
    package = json.loads(read("editors/package.json"))
    (pattern,) = [it["pattern"] for it in package["contributes"]["problemMatchers"] if it["name"] == "aioc-tool"]
    ran = in_file(programs, "").expect(1, b"", None)
    matches = [re.search(pattern["regexp"], line) for line in ran.err.decode().split("\n")]
    found = [tuple(it[pattern[key]] for key in ("file", "line", "column", "severity", "message")) for it in matches if it]
    if found != [("bad.aioc", "3", "4", "error", PLACE.partition("error: ")[2])]:
        raise ran.failed(f"the problem matcher finds {found}")


def error_format(programs):
    """The `errorformat` of the file for Vim, by its items, finds the same."""
    (line,) = [it for it in read("editors/aioc-compiler.vim").decode().split("\n") if "errorformat=" in it]
    first = line.partition("errorformat=")[2].split(",")[0].replace("\\ ", " ")
    pattern = re.escape(first).replace("%f", r"(.+?)").replace("%l", r"(\d+)").replace("%c", r"(\d+)").replace("%m", r"(.*)")
    ran = in_file(programs, "").expect(1, b"", None)
    found = [it.groups() for it in (re.fullmatch(pattern, line) for line in ran.err.decode().split("\n")) if it]
    if found != [("bad.aioc", "3", "4", PLACE.partition("error: ")[2])]:
        raise ran.failed(f"the errorformat {first!r} finds {found}")


def carets(programs):
    """The caret stands under the place, behind the tabs of the line."""
    ran = in_file(programs, "").expect(1, b"", None)
    lines = ran.err.decode().split("\n")
    if lines[0] != PLACE or lines[1:3] != ["\ty@@a = 2", "\t  ^"]:
        raise ran.failed(f"the first lines are {lines[:3]}")


def as_json(programs):
    ran = in_file(programs, "--json").expect(1, b"", None)
    found = json.loads(ran.err)
    wanted = {"file": "bad.aioc", "line": 3, "column": 4, "end": 5, "code": "syntax", "message": PLACE.partition("error: ")[2]}
    if {**found, "help": None} != {**wanted, "help": None} or not found["help"]:
        raise ran.failed(f"it told {found}")


def tests(programs):
    if not programs.tool:
        return
    yield Test("explain: the stored run", lambda: stored(programs))
    yield Test(PAGE, lambda: of_page(programs), 40)
    for file in sorted(os.listdir("examples")):
        if file.endswith(".aioc"):
            path = f"examples/{file}"
            yield Test(f"explain: {path}", lambda path=path: silent(programs, path))
            yield Test(f"explain: {path} without a token", lambda path=path: as_accepted(programs, path), 20)
            yield Test(f"explain: the trace of {path}", lambda path=path: strays(programs, path), 20)
    for name, words, text, code, err in OTHERS:
        wanted = code, b"", err
        yield Test(f"explain: {name}", lambda w=words, t=text, it=wanted: programs.call(w, t, programs.tool).expect(*it))
    for name, (script, code, err) in STREAMS.items():
        yield Test(f"explain: {name}",
                   lambda s=script, it=(code, b"", err): programs.shell(s, programs.tool, text=FAULTY).expect(*it))
    for name, action in (("the problem matcher", problem_matcher), ("the errorformat", error_format), ("carets", carets),
                         ("JSON", as_json)):
        yield Test(f"explain: {name}", lambda action=action: action(programs))
