"""`run` where the system refuses to start threads: each call ends soon, with a trace that `replay` approves or out of memory."""
import os
import shutil
import tempfile

from testing.runner import Skipped, Test

EXAMPLES = ("auction", "buyer-seller", "canary")
# Seconds after which a call that hasn't ended waits for ever.
SOON = 5
# What `timeout` answers then.
LATE = 124
# A user that no other process has: the limit on processes is one of all processes of a user, and holds for none of root's.
USER = 61_234
ORDINARY = f"setpriv --reuid={USER} --regid={USER} --clear-groups --"
LIMITS = {"20,000 KiB of address space": f"--as={20_000 * 1024}", "four processes": "--nproc=4"}


def text_of(example):
    with open(f"examples/{example}.aioc", "rb") as it:
        return it.read()


def judge(programs, program, user, limit, text):
    ended = programs.shell(f'exec timeout {SOON} {user} prlimit {limit} "$1" run --aux', program, text=text)
    if ended.code == LATE:
        raise ended.failed(f"it hasn't ended after {SOON} seconds")
    if ended.code == 10:
        ended.expect(10, b"", ["out of memory"])
        return
    ended.expect(0, None, b"")
    programs.call(["replay"], text + b"\ntrace {\n" + ended.out + b"}\n").expect(0, None, b"")


def by_limit(programs, limit):
    """The examples under a limit, as an ordinary user where root runs the tests."""
    is_root = os.geteuid() == 0
    for needed in ("timeout", "prlimit", *(["setpriv"] if is_root else [])):
        if shutil.which(needed) is None:
            raise Skipped(f"there is no {needed} on this machine")
    if not is_root:
        judge_all(programs, programs.aioc, "", limit)
        return
    # (the user may not come to where the program is; after a failure the copy stays, for the command that repeats the call)
    folder = tempfile.mkdtemp(prefix="aioc-test-")
    os.chmod(folder, 0o755)
    judge_all(programs, shutil.copy(programs.aioc, f"{folder}/aioc"), ORDINARY, limit)
    shutil.rmtree(folder)


def judge_all(programs, program, user, limit):
    for example in EXAMPLES:
        judge(programs, program, user, limit, text_of(example))


def tests(programs):
    for name, limit in LIMITS.items():
        yield Test(f"threads: run with {name}", lambda it=limit: by_limit(programs, it), 20)
