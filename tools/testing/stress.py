"""Small bundles under `run`, on few and on many processors: each call ends soon, with a trace that `replay` approves and in which no
entry of a role comes while a change is due, or out of memory where a request for it was refused.

A bundle is made from a number, and is the same at each call. Five kinds take turns: roles that wait for one another, changes that fall
due near the end, runs that stop while roles wait, thirty-two roles, and a request for memory that is refused to one role or to the
feeder.
"""
import os
import random
import re
import shutil
import subprocess

from testing.calls import Call
from testing.runner import Failed, Skipped, Test

# The seconds that a run may take: one that takes longer waits for ever.
SOON = 30
# What `timeout` answers then.
LATE = 124
# How many processors runs are bound to, as far as the machine has them.
PROCESSORS = (1, 2, 4, 8)
ENDED, STOPPED, NO_MEMORY = 0, 8, 10
# The last request that is refused, in some runs and in others; a run that makes fewer meets no refusal.
REFUSED = (20, 400)
# How many bundles of each kind ./test tries.
FEW = 12
# Refuses the request with one number, of those that all threads but the first make.
REFUSES = r"""
#define _GNU_SOURCE
#include <dlfcn.h>
#include <stdlib.h>
#include <unistd.h>

static long refused = -1;
static _Atomic long calls = 0;

static int is_refused(void) {
    if (gettid() == getpid()) return 0;
    if (refused < 0) refused = atol(getenv("REFUSED_REQUEST"));
    return ++calls == refused;
}

void *malloc(size_t size) {
    static void *(*inner)(size_t);
    if (!inner) inner = dlsym(RTLD_NEXT, "malloc");
    return is_refused() ? NULL : inner(size);
}

void *realloc(void *at, size_t size) {
    static void *(*inner)(void *, size_t);
    if (!inner) inner = dlsym(RTLD_NEXT, "realloc");
    return is_refused() ? NULL : inner(at, size);
}
"""


# ---- bundles

def ring(names, turns, mark):
    """A loop of so many turns whose body passes a number round these roles."""
    hops = [f"{mark}{at}: {one}({mark} + {at}) -> {names[(at + 1) % len(names)]}({mark}{'x' if at + 1 < len(names) else 'y'})"
            for at, one in enumerate(names)]
    leader = names[0]
    return f"({mark}@{leader} = 0; while {mark} < {turns} @{leader} {{ {'; '.join(hops)}; {mark}@{leader} = {mark} + 1 }})"


def roles_of(chance, least, most):
    return [f"r{number}" for number in range(chance.randint(least, most))]


def waiting(chance):
    """Rings side by side over the same roles, each led by another one."""
    names = roles_of(chance, 2, 6)
    rings = []
    for number in range(chance.randint(1, 3)):
        chance.shuffle(names)
        rings.append(ring(list(names), chance.randint(1, 4), "klm"[number]))
    return f"aioc {{ {' | '.join(rings)} }}"


def changing(chance):
    """A loop of scopes over the roles, and what its script may change of it."""
    names = roles_of(chance, 2, 4)
    leader, other = names[0], names[-1]
    body = f"o: {leader}(n) -> {other}(x); p: {other}(x) -> {leader}(y)"
    scope = f"scope @{leader} {{ {body} }} roles {{ {', '.join(names[1:])} }} prop {{ N.k = 1 }}"
    loop = f"n@{leader} = 0; while n < {chance.randint(1, 4)} @{leader} {{ {scope}; n@{leader} = n + 1 }}"
    return f"version 2 aioc {{ {loop} }} env {{ e = 0; }}"


def changes(chance, names, visible):
    """A script whose changes fall due at any time of a run with so many visible entries, and mostly near its end."""
    leader, other = names
    found = []
    dues = (chance.choice((chance.randint(0, visible + 1), visible - chance.randint(0, 2))) for _ in range(chance.randint(1, 5)))
    for due in sorted(dues):
        rule = f"rule r{chance.randint(1, 2)} {{ on {{ N.k == 1 and E.e < 3 }} do {{ q: {leader}(n) -> {other}(z) }} }}"
        change = chance.choice((f"env e = {chance.randint(0, 5)}", f"add {rule}", f"drop r{chance.randint(1, 2)}"))
        found.append((max(0, due), change))
    return found


def many(chance):
    """Thirty-two roles: a ring, pairs that don't know one another, or a choice that all are told of."""
    names = [f"r{number}" for number in range(32)]
    pairs = [f"(o{at}: {names[at]}({at}) -> {names[at + 1]}(x))" for at in range(0, 32, 2)]
    told = "; ".join(f"o{at}: r0({at}) -> {one}(x)" for at, one in enumerate(names) if at)
    return "aioc { " + chance.choice((ring(names, 1, "k"), " | ".join(pairs), f"if true @r0 {{ {told} }} else {{ skip }}")) + " }"


class Run:
    """A run to try: its kind, its bundle, its options, the changes of its script with their numbers, and the request that is refused."""

    def __init__(self, kind, text, words, script=(), refused=0):
        self.kind, self.text, self.words, self.script, self.refused = kind, text, words, script, refused


def steps_of(programs, text):
    """How many entries the run on one thread has, and how many of them are visible."""
    lines = programs.call(["step", "--aux"], text).expect(ENDED, None, b"").out.decode("latin-1").splitlines()[:-1]
    return len(lines), sum(map(is_visible, lines))


def made(programs, number):
    """The run of this number."""
    kind = KINDS[number % len(KINDS)]
    chance = random.Random(f"stress {number}")
    if kind == "waits":
        return Run(kind, waiting(chance), [])
    if kind == "changes":
        text = changing(chance)
        names = re.search(r"o: (\w+)\(n\) -> (\w+)", text).groups()
        script = changes(chance, names, steps_of(programs, text)[1])
        written = " ".join(f"after {due} {change}" for due, change in script)
        return Run(kind, f"{text} script {{ {written} }}", [], [due for due, _ in script])
    if kind == "limits":
        text = waiting(chance)
        return Run(kind, text, ["--steps", str(chance.randint(1, steps_of(programs, text)[0]))])
    if kind == "32 roles":
        return Run(kind, many(chance), [])
    text = chance.choice((waiting, changing, many))(chance)
    return Run(kind, text, [], refused=chance.randint(1, chance.choice(REFUSED)))


KINDS = ("waits", "changes", "limits", "32 roles", "memory")


# ---- runs

def is_visible(line):
    words = line.split(" ")
    return not (words[0] in ("put", "take") and words[4].startswith("!"))


def is_change(line):
    return line.startswith(("add ", "drop ", "env "))


def late_change(lines, script):
    """The first line that a role wrote while a change was due; none where there is no such line."""
    visible, coming = 0, list(script)
    for line in lines:
        if is_change(line):
            coming.pop(0)
        elif coming and coming[0] <= visible:
            return line
        visible += is_visible(line)
    return None


def limit_of(run):
    return int(run.words[1]) if run.words else 20_000


class Stress:
    """Runs of a program, bound to processors. The library refuses a request for memory; it is None where it couldn't be built."""

    def __init__(self, programs):
        for needed in ("taskset", "timeout"):
            if shutil.which(needed) is None:
                raise Skipped(f"there is no {needed} on this machine")
        self.programs = programs
        self.processors = sorted(os.sched_getaffinity(0))
        self.library = self.build()

    def build(self):
        # A library of its own: other kinds are tried at the same time, and each drops its library at its end.
        library = f"{self.programs.room()}/refuses-in-threads-{os.getpid()}-{id(self)}.so"
        if shutil.which("cc") is None:
            return None
        made_it = subprocess.run(["cc", "-shared", "-fPIC", "-O1", "-o", library, "-x", "c", "-", "-ldl"], input=REFUSES, text=True,
                                 check=False, stderr=subprocess.DEVNULL)
        return None if made_it.returncode else library

    def leave(self):
        """Drops the library, which no command needs that repeats a call."""
        if self.library and os.path.exists(self.library):
            os.unlink(self.library)

    def bindings(self):
        """Lists of processors, of each size that the machine has."""
        return [",".join(map(str, self.processors[:count])) for count in PROCESSORS if count <= len(self.processors)]

    def try_run(self, run, binding):
        """Makes the run on these processors, and judges it."""
        if run.refused and not self.library:
            return
        preload = f"export LD_PRELOAD={self.library} REFUSED_REQUEST={run.refused}; " if run.refused else ""
        script = f'{preload}exec timeout -s KILL {SOON} taskset -c {binding} "$@"'
        text = run.text.encode("latin-1")
        ended = self.programs.shell(script, self.programs.aioc, "run", "--aux", *run.words, text=text)
        self.judge(run, ended)

    def judge(self, run, ended):
        if ended.code in (LATE, -9, 137):
            raise ended.failed(f"it hasn't ended after {SOON} seconds")
        if ended.code == NO_MEMORY and run.refused:
            ended.expect(NO_MEMORY, b"", ["out of memory"])
            return
        ended.expect(None, None, b"")
        lines = ended.out.decode("latin-1").splitlines()
        count = len(lines) - 1
        last = f"stopped {count}" if ended.code == STOPPED else f"ended {count}"
        if ended.code not in (ENDED, STOPPED) or lines[-1:] != [last] or (ended.code == STOPPED and count != limit_of(run)):
            raise ended.failed(f"it ended with {ended.code} and the last line {lines[-1:]}")
        visible = sum(map(is_visible, lines[:-1]))
        late = late_change(lines[:-1], run.script)
        if late:
            raise ended.failed(f"a change was due, and yet there came {late!r}")
        self.programs.call(["replay"], run.text.encode("latin-1") + b"\ntrace {\n" + ended.out + b"}\n").expect(0, [f"yes {visible}"], b"")


def of_kind(programs, kind):
    """A few bundles of a kind, on each number of processors."""
    stress = Stress(programs)
    try:
        if kind == "memory" and not stress.library:
            raise Skipped("cc builds no library on this machine")
        for number in range(KINDS.index(kind), FEW * len(KINDS), len(KINDS)):
            run = made(programs, number)
            for binding in stress.bindings():
                stress.try_run(run, binding)
    finally:
        stress.leave()


def tests(programs):
    for kind in KINDS:
        yield Test(f"stress: run, {kind}", lambda it=kind: of_kind(programs, it), 20)
