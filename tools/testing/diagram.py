"""The program that draws traces: its stored run, the pictures of the pages, and its statuses as docs/LOOKING.md has them."""
import os
import re

from testing.calls import quoted
from testing.runner import Test

CRATE, PICTURES = "crates/aioc_diagram", "docs/pictures"
USAGE = ["usage: aioc_diagram [--mermaid | --svg]"]
TRACE = "put a -> b hi#0.0 = 1\ntake a -> b hi#0.0 x\nended 2\n"

# Words and texts that aren't drawn: the code and the line.
REFUSED = (
    ("an unknown option", ["--png"], TRACE, 2, USAGE),
    ("a word too many", ["--svg", "--mermaid"], TRACE, 2, USAGE),
    ("a word that is not UTF-8", [b"\xff"], TRACE, 2, USAGE),
    ("1,000,001 entries", [], "add r\n" * 1_000_001, 5, ["too long"]),
    ("a line that is none of a trace", [], "add r\nput\n", 6, ["syntax: line 2"]),
    ("a line behind the last", [], TRACE + "add r\n", 6, ["syntax: line 4"]),
    ("a trace as JSON", [], '{"entries":2,"kind":"ended"}\n', 6, ["syntax: line 1"]),
    ("33 roles", [], "".join(f"set x@r{it} #0.{it} = 1\n" for it in range(33)), 7, ["refused: too many roles"]),
)

# Scripts of sh, `$1` is the program.
STREAMS = {
    "a folder as standard input": ('"$1" < /', 3, ["read fault"]),
    "closed standard input": ('"$1" <&-', 3, ["read fault"]),
    "/dev/full as standard output": ('"$1" > /dev/full', 4, ["write fault"]),
    "/dev/full as standard output of an SVG": ('"$1" --svg > /dev/full', 4, ["write fault"]),
    "a pipe that closes early":
        ('{ yes "add r" | head -n 20000 | "$1"; echo "$?" >&2; } | head -c 10 > /dev/null', 0, ["write fault", "4"]),
    "64 MiB and one byte more": ('head -c 67108865 /dev/zero | tr "\\0" "\\n" | "$1"', 5, ["too long"]),
}


# Traces, and the arrows of their SVG: from where, to where, and whether an arrow arrives. In the second and the last
# the messages are those of no run. The longest label has 12 characters, so lanes are 120 pixels apart.
LINE = re.compile(rb'<line x1="(\d+)" y1="(\d+)" x2="(\d+)" y2="(\d+)"( marker-end="url\(#tip\)")?/>')
CIRCLE = re.compile(rb'<circle class="open" cx="(\d+)" cy="(\d+)" r="4"/>')
ARROWS = (
    ("messages that cross", ["put a -> b hi#0.0 = 1", "put b -> a ho#0.1 = 2", "take a -> b hi#0.0 x", "take b -> a ho#0.1 y"],
     [(120, 70, 240, 130, True), (240, 100, 120, 160, True)]),
    ("messages that are never taken", ["put a -> c hi#0.0 = 1", "take a -> b hi#0.0 x", "put c -> a ho#0.1 = 2"],
     [(120, 70, 180, 79, False), (240, 130, 180, 139, False)]),
    ("a key that is used again",
     ["put a -> b hi#0.0 = 1", "take a -> b hi#0.0 x", "add r", "put a -> b hi#0.0 = 2", "take a -> b hi#0.0 x", "put a -> b hi#0.0 = 3"],
     [(120, 70, 240, 100, True), (120, 160, 240, 190, True), (120, 220, 180, 229, False)]),
    ("a key that is put twice before its take", ["put a -> b hi#0.0 = 1", "put a -> b hi#0.0 = 2", "take a -> b hi#0.0 x"],
     [(120, 70, 240, 130, True), (120, 100, 240, 130, True)]),
)


def read(path):
    with open(path, "rb") as it:
        return it.read()


def stored(programs):
    ran = programs.call([], read(f"{CRATE}/stdin"), programs.diagram)
    ran.expect(0, read(f"{CRATE}/stdout"), b"")


def picture(programs, stem):
    """The picture that pages show is what is drawn of the example's trace, and of what `step` prints."""
    wanted = read(f"{PICTURES}/{stem}.svg")
    programs.call(["--svg"], read(f"examples/{stem}.trace"), programs.diagram).expect(0, wanted, b"")
    script = f'"$1" step < {quoted(os.fsencode(f"examples/{stem}.aioc"))} | "$2" --svg'
    programs.shell(script, programs.aioc, programs.diagram).expect(0, wanted, b"")


def arrows(programs, lines, wanted):
    """The arrows of an SVG go from put to take, and the others end in an open circle."""
    drawn = programs.call(["--svg"], "\n".join([*lines, ""]), programs.diagram).expect(0, None, b"")
    found = [(*map(int, it.groups()[:4]), it[5] is not None) for it in LINE.finditer(drawn.out)]
    circles = [tuple(map(int, it.groups())) for it in CIRCLE.finditer(drawn.out)]
    if found != wanted or circles != [it[2:4] for it in wanted if not it[4]]:
        raise drawn.failed(f"its arrows are {found}, and its open circles {circles}")


def of_streams(programs, script, code, err):
    programs.shell(script, programs.diagram, text=TRACE).expect(code, b"", err)


def every_form(programs, path):
    """Each trace of the examples is drawn in each form."""
    for words in ([], ["--mermaid"], ["--svg"]):
        drawn = programs.call(words, read(path), programs.diagram).expect(0, None, b"")
        front = {"--mermaid": b"sequenceDiagram\n", "--svg": b"<svg "}.get("".join(words), b"")
        if not drawn.out.startswith(front) or not drawn.out.endswith(b"\n"):
            raise drawn.failed(f"it doesn't begin with {front!r}, or doesn't end a line")


def tests(programs):
    yield Test("diagram: the stored run", lambda: stored(programs))
    for file in sorted(os.listdir(PICTURES)):
        stem = file.removesuffix(".svg")
        if stem != file:
            yield Test(f"diagram: {PICTURES}/{file}", lambda stem=stem: picture(programs, stem))
    for file in sorted(os.listdir("examples")):
        if file.endswith(".trace"):
            yield Test(f"diagram: examples/{file}", lambda path=f"examples/{file}": every_form(programs, path))
    for name, lines, wanted in ARROWS:
        yield Test(f"diagram: {name}", lambda lines=lines, it=wanted: arrows(programs, lines, it))
    for name, words, text, code, err in REFUSED:
        wanted = code, b"", err
        yield Test(f"diagram: {name}", lambda w=words, t=text, it=wanted: programs.call(w, t, programs.diagram).expect(*it))
    for name, given in STREAMS.items():
        yield Test(f"diagram: {name}", lambda given=given: of_streams(programs, *given), 30)
