"""What only a process shows: words that aren't UTF-8, standard streams that are closed, full, or no files, the largest text, and
a limit on the address space. The expected statuses and lines are those of docs/LANGUAGE.md.
"""
from testing import memory
from testing.runner import Test

USAGE, READ, WRITE, LONG = ([it] for it in ("usage: aioc COMMAND [OPTIONS]", "read fault", "write fault", "too long"))
HELLO = "aioc { hi: a(1) -> b(x) }"
GREETED = ["put a -> b hi#0.0 = 1", "take a -> b hi#0.0 x", "ended 2"]
LOOP = "aioc { while true @a { x@a = 1 } }"
WRONG_TRACE = HELLO + " trace { take a -> b hi#0.0 x }"
LARGEST = 4_194_304

# Words that are no text in UTF-8, or that are many, or long: each of them is no command.
WORDS = {
    "a word that is not UTF-8": [b"\xff"],
    "a second word that is not UTF-8": [b"step", b"\xff\xfe"],
    "an option that is not UTF-8": [b"step", b"--st\xe9ps", b"5"],
    "a value that is not UTF-8": [b"step", b"--seed=\x80"],
    "a role that is not UTF-8": [b"monitor", b"caf\xe9"],
    "half a letter of UTF-8": [b"run", b"\xc3"],
    "a word that is not UTF-8 behind --": [b"step", b"--", b"\xff"],
    "an empty word": [b""],
    "an empty second word": [b"step", b""],
    "a word of 100,000 bytes": [b"s" * 100_000],
    "20,000 words": [b"step"] * 20_000,
}

# Scripts of sh, `$1` is the program: the code and the line on standard error; nothing is on standard output.
STREAMS = {
    "closed standard input": ('"$1" step <&-', 3, READ),
    "standard input that may not be read": ('"$1" step 0> /dev/null', 3, READ),
    "a folder as standard input": ('"$1" step < /', 3, READ),
    "a folder as standard input of run": ('"$1" run < /', 3, READ),
    "a folder as standard input of sessions": ('"$1" sessions < /', 3, READ),
    "words are judged before the input": ('"$1" stop < /', 2, USAGE),
    "/dev/full as standard output": ('"$1" step > /dev/full', 4, WRITE),
    "/dev/full as standard output of run": ('"$1" run > /dev/full', 4, WRITE),
    "/dev/full as standard output of check": ('"$1" check > /dev/full', 4, WRITE),
    "closed standard output": ('"$1" step >&-', 4, WRITE),
    "standard output that may not be written": ('"$1" step 1< /dev/null', 4, WRITE),
    "an input that never ends": ('"$1" step < /dev/zero', 5, LONG),
    "an empty input": ('"$1" step < /dev/null', 6, ["syntax: byte 0"]),
}

# Words and texts with what they must come to: a row for each code that a text alone brings about.
CODES = (
    (0, ["step"], HELLO, GREETED, []),
    (2, [], HELLO, [], USAGE),
    (5, ["step"], " " * (LARGEST + 1), [], LONG),
    (6, ["step"], "aioc { hi: a(1) -> b(x) ", [], ["syntax: byte 24"]),
    (7, ["step"], "aioc { o: a(1) -> a(x) }", [], ["refused: self message #0.0"]),
    (8, ["step", "--steps", "1"], HELLO, ["put a -> b hi#0.0 = 1", "stopped 1"], []),
    (9, ["replay"], WRONG_TRACE, ["no 1"], []),
)


def filled(length):
    """The bundle, with spaces up to this length."""
    return HELLO + " " * (length - len(HELLO))


def of_streams(programs, script, code, err):
    programs.shell(script, programs.aioc, text=HELLO).expect(code, b"", err)


def reads_nothing(programs):
    """`gen` needs no standard input: it says the same without one."""
    wanted = programs.call(["gen", "1", "5"]).expect(0, None, b"").out
    programs.shell('"$1" gen 1 5 <&-', programs.aioc).expect(0, wanted, b"")
    programs.shell('"$1" gen 1 5 < /', programs.aioc).expect(0, wanted, b"")


def closing_pipe(programs):
    """The reader goes away after ten bytes: a write fault, and no signal."""
    script = '{ "$1" step --steps 20000; echo "$?" >&2; } | head -c 10 > /dev/null'
    programs.shell(script, programs.aioc, text=LOOP).expect(0, b"", [*WRITE, "4"])


def keeps_code(programs):
    """Where standard error takes nothing the code is the same."""
    for sink in ("2> /dev/full", "2>&-"):
        programs.shell(f'"$1" step {sink}', programs.aioc, text="aioc {").expect(6, b"", b"")


def largest(programs):
    """The largest text is read, from a file and from a pipe, and none that has a byte more."""
    for words in (["step"], ["run"], ["step", "--seed", "1"]):
        programs.call(words, filled(LARGEST)).expect(0, GREETED, b"")
        programs.call(words, filled(LARGEST + 1)).expect(5, b"", LONG)
    script = 'head -c "$2" > "$3" && "$1" step < "$3"; code=$?; rm -f "$3"; exit "$code"'
    for length, code, out, err in ((LARGEST, 0, GREETED, b""), (LARGEST + 1, 5, b"", LONG)):
        file = f"{programs.room()}/largest-{length}"
        programs.shell(script, programs.aioc, str(length), file, text=filled(LARGEST + 1)).expect(code, out, err)


def in_pieces(programs):
    """A text that comes in pieces is one text."""
    script = '{ printf "aioc { hi: a(1"; sleep 0.1; printf ") -> b(x"; sleep 0.1; printf ") }"; } | "$1" step'
    programs.shell(script, programs.aioc).expect(0, GREETED, b"")


def without_environment(programs):
    programs.shell('env -i "$1" step', programs.aioc, text=HELLO).expect(0, GREETED, b"")
    programs.shell('cd / && "$1" step', programs.aioc, text=HELLO).expect(0, GREETED, b"")


def by_seed(programs):
    """One seed, one trace."""
    with open("examples/auction.aioc", "rb") as it:
        text = it.read()
    wanted = programs.call(["step", "--seed", "7", "--aux"], text).expect(0, None, b"").out
    for _ in range(5):
        programs.call(["step", "--seed", "7", "--aux"], text).expect(0, wanted, b"")


def by_many_threads(programs):
    """A hundred runs of an example, whose changes come meanwhile: `replay` says of each that the choreography plays it."""
    with open("examples/auction.aioc", "rb") as it:
        text = it.read()
    for _ in range(100):
        ran = programs.call(["run", "--aux"], text).expect(0, None, b"")
        programs.call(["replay"], text + b"\ntrace {\n" + ran.out + b"}\n").expect(0, None, b"")


def tests(programs):
    for name, words in WORDS.items():
        yield Test(f"process: {name}", lambda words=words: programs.call(words, HELLO).expect(2, b"", USAGE))
    for name, given in STREAMS.items():
        yield Test(f"process: {name}", lambda given=given: of_streams(programs, *given))
    for code, words, text, out, err in CODES:
        wanted = code, out, err
        yield Test(f"process: code {code}", lambda w=words, t=text, it=wanted: programs.call(w, t).expect(*it))
    yield Test("process: gen reads nothing", lambda: reads_nothing(programs))
    yield Test("process: a pipe that closes early", lambda: closing_pipe(programs))
    yield Test("process: standard error that takes nothing", lambda: keeps_code(programs))
    yield Test("process: 4 MiB, and one byte more", lambda: largest(programs), 40)
    yield Test("process: a text in pieces", lambda: in_pieces(programs))
    yield Test("process: no environment, another folder", lambda: without_environment(programs))
    yield Test("process: a seed has one trace", lambda: by_seed(programs))
    yield Test("process: run a hundred times, judged by replay", lambda: by_many_threads(programs), 100)
    for name, words, text in memory.BUNDLES:
        yield Test(f"process: little memory for {name}", lambda w=words, t=text: memory.judge(programs, w, t), 60)
