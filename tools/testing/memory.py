"""A limit on the address space: a call ends with its whole text, or it is refused, with status 10 and nothing on standard output.

`run` isn't among the commands here: it asks for memory in no fixed order, and under a limit its trace may be another one. The tests
of threads.py judge it.
"""
# Limits in KiB: what is surely enough, how near the least one is found, and what a process may need more at another time; and how
# many limits are tried.
ENOUGH, NEAR, SPARE, LIMITS = 4 * 1024 * 1024, 16, 64, 24
LIMITED = 'limit=$1; shift; ulimit -v "$limit" && exec "$@"'
REFUSED = ["out of memory"]

SMALL = "aioc { hi: a(1) -> b(x) }"
MANY_ENTRIES = "aioc { while true @a { o: a(1) -> b(x) } }"
LONG_TRACE = SMALL + " trace { " + "take a -> b hi#0.0 x\n" * 40_000 + "}"
MANY_SESSIONS = "session { aioc { x@a = 1; o: a(x) -> b(y) } } " * 1000
# (no deep text: a stack that can't grow under the limit ends the program by a signal, which no program can answer)
MANY_RULES = SMALL + " rules { " + "rule r { on { N.k == 1 } do { o: a(1) -> b(x); p: b(x) -> a(y) } } " * 2000 + "}"

BUNDLES = (
    ("a long run", ["step", "--steps", "20000"], MANY_ENTRIES),
    ("a long trace", ["replay"], LONG_TRACE),
    ("many rules", ["replay"], MANY_RULES),
    ("a thousand sessions", ["sessions", "--workers", "1"], MANY_SESSIONS),
)


def limited(programs, limit, words, text):
    return programs.shell(LIMITED, str(limit), programs.aioc, *words, text=text)


def least(programs, words, text, code):
    """About the least limit under which the call ends with this code."""
    low, high = 0, ENOUGH
    if limited(programs, high, words, text).code != code:
        raise limited(programs, high, words, text).failed(f"it doesn't end with {code}")
    while high - low > max(NEAR, low // 100):
        middle = (low + high) // 2
        low, high = (low, middle) if limited(programs, middle, words, text).code == code else (middle, high)
    return high


def judge(programs, words, text):
    """Tries limits from where a small bundle runs, below which the program can't begin, up to where this one ends."""
    whole = programs.call(words, text)
    if whole.code not in (0, 8, 9):
        raise whole.failed(f"it ended with {whole.code}")
    # (the least is found once; a little more bears what differs between two beginnings of a process)
    low = least(programs, ["step"], SMALL, 0) + SPARE
    high = max(low, least(programs, words, text, whole.code))
    for limit in sorted({low + (high - low) * number // LIMITS for number in range(LIMITS + 1)}):
        ended = limited(programs, limit, words, text)
        if ended.code == 10:
            ended.expect(10, b"", REFUSED)
        else:
            ended.expect(whole.code, whole.out, b"")
