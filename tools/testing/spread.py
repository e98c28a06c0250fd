"""tools/spread-sessions: 3,000 sessions in pieces of several sizes, by several workers, with workers that die, and on two
hosts, always come to one text. That text, and the statuses, are those of docs/LANGUAGE.md. tools/make-sessions makes the
bundles of `gen`.
"""
import os
import re
import shutil
import signal
import subprocess
import sys
import tempfile
import threading
import time

from testing.calls import Call
from testing.hosts import two_hosts
from spreading.engines import Missing, need_parallel
from testing.runner import Failed, Skipped, Test

TOOL, MAKER = "tools/spread-sessions", "tools/make-sessions"
COUNT, STEPS, LARGEST = 3000, "5", 4_194_304
# How long a call of the tool may take, in seconds: in pieces of one session it starts thousands of processes.
PATIENCE = 900
HELLO = "session { aioc { hi: a(1) -> b(x) } }\n"
GREETED = ["session 0", "put a -> b hi#0.0 = 1", "take a -> b hi#0.0 x", "ended 2"]

# Session k is of the kind k modulo 7: its text, and the lines of its answer with at most five steps. K, 2K and 4K stand for
# numbers.
KINDS = (
    ("session { aioc { hi: a(K) -> b(x) } }", ["put a -> b hi#0.0 = K", "take a -> b hi#0.0 x", "ended 2"]),
    ("session{aioc{o:a(1)->a(x)}}", ["refused: self message #0.0"]),
    ("session { aioc { x@a = K; while true @a { x@a = x + x } } }",
     ["set x@a #0.0 = K", "pick a #0.1 true", "set x@a #0.2 = 2K", "pick a #0.1 true", "set x@a #0.2 = 4K", "stopped 5"]),
    ('// } session {"\nsession { // } }\n aioc { x@a = "} session { \\" // \\\\" } /// "{\n}',
     ['set x@a #0.0 = "} session { \\" // \\\\"', "ended 1"]),
    ("session\n{ aioc { p: a(1) -> c(x); q: b(2) -> c(y) } }", ["refused: unlinked #0.0 then #0.1: b"]),
    ("session { version 2 aioc { session: session(K) -> a(session) } env { session = 1; } }",
     ["put session -> a session#0.0 = K", "take session -> a session#0.0 session", "ended 2"]),
    ('session { script { after 0 env k = "{" } aioc { x@a = K } }', ['env k = "{"', "set x@a #0.0 = K", "ended 2"]),
)


def put_in(text, k):
    return text.replace("4K", str(4 * k)).replace("2K", str(2 * k)).replace("K", str(k))


def sessions(count):
    """A text of so many sessions, and its answer."""
    texts, lines = [], []
    for k in range(count):
        text, answer = KINDS[k % len(KINDS)]
        texts.append(put_in(text, k) + "\n" * (k % 3))
        lines += [f"session {k}"] + [put_in(line, k) for line in answer]
    return "".join(texts), lines


class Room:
    """A folder with the text, and programs that die."""

    def __init__(self, programs, count):
        self.programs, self.count = programs, count
        self.text, self.lines = sessions(count)

    def __enter__(self):
        self.folder = tempfile.mkdtemp(prefix="spread-test-")
        with open(f"{self.folder}/text", "w", encoding="ascii") as it:
            it.write(self.text)
        return self

    def __exit__(self, *_):
        shutil.rmtree(self.folder, ignore_errors=True)

    def call(self, *words, program=None, steps=STEPS):
        """The tool's call on the text of the room."""
        words = [TOOL, "--program", program or self.programs.aioc, "--steps", steps, *words, f"{self.folder}/text"]
        called = Call(self.programs, [os.fsencode(os.path.abspath(word) if word == TOOL else word) for word in words], b"")
        piped = {"stdin": subprocess.DEVNULL, "stdout": subprocess.PIPE, "stderr": subprocess.PIPE}
        with subprocess.Popen(called.words, **piped) as child:
            # (the tool ends all that it started where it is told to end, and not where it is killed)
            patience = threading.Timer(PATIENCE, child.terminate)
            patience.start()
            called.out, called.err = child.communicate()
            patience.cancel()
        called.code = child.returncode
        return called

    def program(self, script):
        """A program that keeps its input in the file $kept, does what the script says, and then runs the true one."""
        path = f"{self.folder}/dying"
        with open(path, "w", encoding="utf-8") as it:
            it.write(f'#!/bin/sh\ncd "{self.folder}" || exit 1\nkept=kept.$$\ncat > $kept\n{script}\n')
            it.write(f'exec "{self.programs.aioc}" "$@" < $kept\n')
        os.chmod(path, 0o755)
        return path


def needs_parallel():
    try:
        need_parallel()
    except Missing as missing:
        raise Skipped("GNU parallel isn't here") from missing


def one_text(programs, engine, piece, workers):
    if engine == "parallel":
        needs_parallel()
    with Room(programs, COUNT) as room:
        room.call("--engine", engine, "--piece", piece, "--workers", workers).expect(0, room.lines, b"")


def dies_twice(programs, engine):
    """Each piece's program is killed in the middle of its first two runs; the third answers."""
    if engine == "parallel":
        needs_parallel()
    with Room(programs, 21) as room:
        count = 'run=$(cksum < $kept | tr " " -)\ncount=$(ls -d $run.* 2> /dev/null | wc -l)'
        script = f'{count}\n[ "$count" -ge 2 ] || {{ : > $run.$$; echo session 0; kill -9 $$; }}'
        room.call("--engine", engine, "--piece", "7", program=room.program(script)).expect(0, room.lines, None)


def names_and_resumes(programs, engine):
    """A piece's program dies each time: its sessions are named, the others answered. A later run does that piece alone."""
    if engine == "parallel":
        needs_parallel()
    with Room(programs, 28) as room:
        program = room.program('echo run >> runs\n[ -e healed ] || ! grep -q "a(7)" $kept || { echo session 0; kill -9 $$; }')
        words = ["--engine", engine, "--piece", "7", "--workers", "2", "--joblog", f"{room.folder}/log"]
        cut = room.lines.index("session 7"), room.lines.index("session 14")
        first = room.call(*words, program=program).expect(1, room.lines[:cut[0]] + room.lines[cut[1]:], None)
        if b"no answer to sessions 7 to 13: " not in first.err:
            raise first.failed(f"it doesn't name the sessions: {first.err[-200:]!r}")
        room.call(*words, program=program).expect(2, b"", None)
        open(f"{room.folder}/healed", "w", encoding="ascii").close()
        room.call(*words, "--resume", program=program).expect(0, room.lines, b"")
        with open(f"{room.folder}/runs", encoding="ascii") as it:
            runs = len(it.readlines())
        if runs != 3 + 3 + 1:
            raise first.failed(f"the program ran {runs} times, not 7")


def killed_and_resumed(programs, engine, sent):
    """The tool itself is ended in the middle. What it wrote is a front of the text, and a later run goes on."""
    if engine == "parallel":
        needs_parallel()
    piece, held = COUNT // 30, COUNT // 14 * 7
    with Room(programs, COUNT) as room:
        # (it waits no longer than there is a folder)
        program = room.program(f"while [ ! -e free ] && grep -q 'a({held})' $kept; do sleep 0.2; done 2> /dev/null")
        words = ["--engine", engine, "--piece", str(piece), "--workers", "2", "--joblog", f"{room.folder}/log"]
        command = [TOOL, "--program", program, "--steps", STEPS, *words, f"{room.folder}/text"]
        whole = "".join(f"{line}\n" for line in room.lines)
        front = whole[:whole.index(f"session {held // piece * piece}\n")]
        with open(f"{room.folder}/out", "wb") as out:
            begun = subprocess.Popen(command, stdout=out, stderr=subprocess.DEVNULL)
        until = time.monotonic() + PATIENCE
        while os.path.getsize(f"{room.folder}/out") < len(front) and time.monotonic() < until:
            time.sleep(0.1)
        begun.send_signal(sent)
        ended = begun.wait()
        with open(f"{room.folder}/out", encoding="ascii") as it:
            if it.read() != front:
                raise Failed("what it wrote before it was ended isn't the front of the text", " ".join(command))
        if ended != (-sent if sent == signal.SIGKILL else 128 + sent):
            raise Failed(f"it ended with {ended}", " ".join(command))
        open(f"{room.folder}/free", "w", encoding="ascii").close()
        room.call(*words, "--resume", program=program).expect(0, room.lines, b"")


# Texts that aren't of sessions: what the tool answers, its status, and its line.
OPEN = HELLO + "session { aioc { x@a = 1 }\nsession { aioc { x@a = 1 } }"
FAULTS = {
    "an empty text": ("", [], 6, "there is no session: syntax: byte 0"),
    "a text of comments": ("// none\n ", [], 6, "there is no session: syntax: byte 9"),
    "a bracket that never closes": (OPEN, GREETED, 6, "session 1, from byte 38: a bracket of it never closes: syntax: byte 65"),
    "a wrong choreography": (HELLO + "session { aioc { x@a = } }" + HELLO, GREETED, 6,
                             "session 1, from byte 38: syntax: byte 61"),
    "a byte that may stand nowhere": (HELLO + " $\n" + HELLO, GREETED, 6, "session 1, from byte 39: syntax: byte 39"),
    "a bracket too many": (HELLO + "}" + HELLO, GREETED, 6, "session 1, from byte 38: syntax: byte 38"),
    "a text in quotes that never ends": (HELLO + 'session { aioc { x@a = "} }', GREETED, 6,
                                         "session 1, from byte 38: a bracket of it never closes: syntax: byte 61"),
    "4 MiB in one session, and one byte more": (HELLO + "session { aioc { x@a = 1 } " + " " * (LARGEST - 27) + "}", GREETED, 5,
                                                "session 1, from byte 38: too long: it has 4194305 bytes"),
    "a long session that never closes": (HELLO + "session { aioc { x@a = 1 } " + " " * LARGEST, GREETED, 6,
                                         "session 1, from byte 38: a bracket of it never closes"),
}


def faulty(programs, text, lines, code, line):
    words = ["--engine", "xargs", "--program", programs.aioc]
    for piece in ("1", "1000"):
        ran = programs.call([*words, "--piece", piece], text, program=os.path.abspath(TOOL))
        ran.expect(code, lines, [f"spread-sessions: {line}"])


def between_sessions(programs):
    """Long comments between sessions don't count, and the pieces end before 4 MiB."""
    filled = "session { aioc { x@a = 1 } " + " " * (LARGEST // 2) + "}"
    text = HELLO + "//" + "x" * LARGEST + "\n" + filled + filled
    lines = [line for k in (1, 2) for line in (f"session {k}", "set x@a #0.0 = 1", "ended 1")]
    words = ["--engine", "xargs", "--program", programs.aioc]
    programs.call(words, text, program=os.path.abspath(TOOL)).expect(0, GREETED + lines, b"")


def wrong_words(programs):
    tool = os.path.abspath(TOOL)
    for words in ("--piece 0", "--piece 1001", "--steps 2001", "--engine slurm", "--resume", "--work 3", "one other"):
        programs.call(words.split(), HELLO, program=tool).expect(2, b"", None)
    programs.call(["/nowhere"], program=tool).expect(3, b"", ["spread-sessions: read fault: /nowhere: No such file or directory"])
    programs.shell('"$1" --engine xargs --program "$2" > /dev/full', tool, programs.aioc, text=HELLO).expect(4, b"", None)


def without_parallel(programs):
    """One line says how to get it."""
    script = 'PATH=/nowhere "$1" "$2" --program "$3"'
    ran = programs.shell(script, sys.executable, os.path.abspath(TOOL), programs.aioc, text=HELLO)
    ran.expect(1, b"", None)
    if ran.err.count(b"\n") != 1 or b"apt-get install parallel" not in ran.err:
        raise ran.failed(f"it said {ran.err!r}")


def left_pieces(programs):
    """`--engine none` leaves pieces that another scheduler runs; a later run joins them, and has nothing to run."""
    with Room(programs, 21) as room:
        log = f"{room.folder}/log"
        room.call("--engine", "none", "--piece", "4", "--joblog", log).expect(0, b"", b"")
        script = 'cd "$1" && while read -r name; do sh run 3 "$name"; done < names'
        programs.shell(script, f"{log}.pieces").expect(0, None, b"")
        joined = room.call("--engine", "xargs", "--piece", "4", "--joblog", log, "--resume", program="/bin/false")
        joined.expect(0, room.lines, b"")


def on_two_hosts(programs):
    """Two hosts of this machine, and a third one that isn't there; with the program copied to them too."""
    needs_parallel()
    with two_hosts() as hosts, Room(programs, 42) as room:
        for words in ([], ["--copy"]):
            room.call("--hosts", hosts, "--piece", "7", *words).expect(0, room.lines, None)


def made_as_by_gen(programs):
    """A made session is the bundle of `gen`: as many roles and nodes, and as many entries in its run."""
    for number, size in ((0, 1), (1, 10), (7, 20), (8, 45)):
        words = ["1", "--first", str(number), "--size", str(size)]
        made = programs.call(words, program=os.path.abspath(MAKER)).expect(0, None, b"")
        bundle = made.out.partition(b"\n")[2].rstrip(b"\n")[:-1]
        told = programs.call(["gen", str(number), str(size)]).expect(0, None, b"").out.decode()
        checked = programs.call(["check"], bundle).expect(0, None, b"").out.decode()
        ran = programs.call(["step"], bundle).expect(0, None, b"").out.decode().splitlines()
        wanted = re.search(r"roles (\d+), nodes (\d+), entries (\d+), visible (\d+)", told).groups()
        found = *re.search(r"roles (\d+), nodes (\d+)", checked).groups(), ran[-1].rpartition(" ")[2], str(len(ran) - 1)
        if found != wanted:
            raise made.failed(f"roles, nodes, entries and visible entries are {found}, and those of gen {wanted}")


def tests(programs):
    # (GNU parallel takes twice what xargs takes to start a piece, so the pieces of one session go by xargs)
    for engine, piece, workers in (("xargs", "1", "4"), ("parallel", "7", "4"), ("xargs", "7", "1"), ("parallel", "1000", "1"),
                                   ("parallel", "1000", "4"), ("xargs", "1000", "4")):
        name = f"spread: {COUNT} sessions in pieces of {piece}, {workers} at once, by {engine}"
        yield Test(name, lambda it=(engine, piece, workers): one_text(programs, *it), 80)
    for engine in ("parallel", "xargs"):
        yield Test(f"spread: a program that dies twice, by {engine}", lambda it=engine: dies_twice(programs, it), 20)
        yield Test(f"spread: a program that dies is named, by {engine}", lambda it=engine: names_and_resumes(programs, it), 20)
        for sent in (signal.SIGTERM, signal.SIGKILL):
            name = f"spread: ended by {sent.name} and resumed, by {engine}"
            yield Test(name, lambda it=(engine, sent): killed_and_resumed(programs, *it), 20)
    for name, given in FAULTS.items():
        yield Test(f"spread: {name}", lambda it=given: faulty(programs, *it), 10)
    yield Test("spread: what stands between sessions", lambda: between_sessions(programs), 10)
    yield Test("spread: wrong words and files", lambda: wrong_words(programs))
    yield Test("spread: without GNU parallel", lambda: without_parallel(programs))
    yield Test("spread: pieces for another scheduler", lambda: left_pieces(programs))
    yield Test("spread: two hosts in network namespaces", lambda: on_two_hosts(programs), 60)
    yield Test("spread: made sessions are those of gen", lambda: made_as_by_gen(programs))
