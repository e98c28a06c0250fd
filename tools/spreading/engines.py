"""The programs that run many pieces side by side: GNU parallel, or the xargs of a bare system. Each takes names of pieces on its
standard input, runs the folder's script `run` on each, and tells on its standard output which are answered.
"""
import os
import shutil
import signal
import subprocess
import sys
import time

TRIES = 3


class Missing(Exception):
    """A program that isn't on this machine; the text is one line that says how to get it."""


def need(program, package):
    if not shutil.which(program):
        raise Missing(f"{program} is missing: apt-get install {package}")


def need_parallel():
    """Another program has the name `parallel` too, that of moreutils."""
    how = "GNU parallel is missing: apt-get install parallel (Debian, Ubuntu), or one machine without it: --engine xargs"
    if not shutil.which("parallel"):
        raise Missing(how)
    piped = {"stdin": subprocess.DEVNULL, "stdout": subprocess.PIPE, "stderr": subprocess.DEVNULL}
    said = subprocess.run(["parallel", "--version"], check=False, **piped)
    if b"GNU parallel" not in said.stdout:
        raise Missing(how)


class Parallel:
    """GNU parallel. It tells the pieces in their order, so one that it passes over was lost."""

    keeps_order = True

    def __init__(self, workers=None, hosts=None, joblog=None, copied=(), whole=None):
        need_parallel()
        self.words = ["parallel", "--plain", "--keep-order", "--retries", str(TRIES)]
        self.words += ["--jobs", str(workers)] if workers else []
        self.words += ["--joblog", f"+{joblog}" if os.path.exists(joblog) else joblog] if joblog else []
        self.words += ["--bar", "--total-jobs", str(whole)] if whole is not None else []
        if hosts:
            need("rsync", "rsync")
            # (a folder of its own on each host, since a host may have the same files as this one)
            self.words += ["--sshloginfile", hosts, "--workdir", f".spread-sessions-{os.getpid()}"]
            self.words += ["--transferfile", "{}", "--return", "{}.answer", "--cleanup"]
            self.words += [word for name in ("run", *copied) for word in ("--basefile", name)]
        # (this machine beside others begins in a folder of that name too, inside the one of the pieces)
        self.words.append(f"{'[ -e run ] || cd ..; ' if hosts else ''}sh ./run 1 {{}}")


class Xargs:
    """xargs. It tells the pieces as they are answered or lost."""

    keeps_order = False

    def __init__(self, workers):
        need("xargs", "findutils")
        self.words = ["xargs", "-r", "-n", "1", "-P", str(workers), "sh", "./run", str(TRIES)]


class Running:
    """An engine at work in the folder."""

    def __init__(self, engine, folder):
        piped = {"stdin": subprocess.PIPE, "stdout": subprocess.PIPE}
        # (a session of its own: a signal for this program is handed on once, by `stop`)
        self.process = subprocess.Popen(engine.words, cwd=folder, start_new_session=True, bufsize=0, **piped)
        self.keep_short()

    def keep_short(self):
        """A short pipe: pieces are cut when they are wanted, and no sooner."""
        try:
            import fcntl
            fcntl.fcntl(self.process.stdin, fcntl.F_SETPIPE_SZ, 4096)
        except (ImportError, AttributeError, OSError):
            pass

    def hand(self, name):
        """Hands it a piece; False where it has ended."""
        try:
            self.process.stdin.write(name.encode() + b"\n")
            return True
        except OSError:
            return False

    def close(self):
        try:
            self.process.stdin.close()
        except OSError:
            pass

    def told(self):
        """The lines that it tells: whether the piece was answered, and its number."""
        for line in self.process.stdout:
            lost, _, name = line.rstrip(b"\n").rpartition(b" ")
            number = name.partition(b"-")[0]
            if number.isdigit() and lost in (b"", b"lost"):
                yield not lost, int(number)

    def stop(self):
        """Ends it and all that it runs."""
        # (GNU parallel waits for what it runs at the first signal, and ends it at the second)
        for sent in (signal.SIGTERM, signal.SIGTERM, signal.SIGKILL):
            if self.process.poll() is None:
                self.signal(sent)
                self.wait(3 if sent == signal.SIGTERM else None)
        self.signal(signal.SIGKILL)

    def signal(self, sent):
        try:
            os.killpg(self.process.pid, sent)
        except OSError:
            pass

    def wait(self, seconds):
        until = time.monotonic() + (seconds or 60)
        while self.process.poll() is None and time.monotonic() < until:
            time.sleep(0.05)


def default_workers():
    try:
        return len(os.sched_getaffinity(0))
    except AttributeError:
        return os.cpu_count() or 1


def say(line):
    print(f"spread-sessions: {line}", file=sys.stderr, flush=True)
