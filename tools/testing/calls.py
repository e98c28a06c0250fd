"""Calls of the programs, as a user makes them, each with the command that repeats it."""
import contextlib
import os
import shlex
import signal
import subprocess
import tempfile
import threading

from testing.runner import Failed

# How long a call may take, in seconds; it takes more than one only on a machine that is very busy.
PATIENCE = 120
# A text up to this length stands in the command itself.
SHORT = 300


class Programs:
    """The programs, and a folder for the texts of commands. The tool is None where there is none."""

    def __init__(self, aioc, diagram, tool):
        self.aioc, self.diagram, self.tool = aioc, diagram, tool
        self.folder, self.texts, self.lock = None, 0, threading.Lock()

    def room(self):
        """A folder for files of the tests. It goes where it is empty at the end."""
        with self.lock:
            if self.folder is None:
                self.folder = tempfile.mkdtemp(prefix="aioc-test-")
        return self.folder

    def leave(self):
        """Drops the folder, but for the texts of commands that were told."""
        if self.folder:
            with contextlib.suppress(OSError):
                os.rmdir(self.folder)

    def kept(self, text):
        """The file in which a text is kept for the command that repeats a call."""
        room = self.room()
        with self.lock:
            self.texts += 1
            path = f"{room}/{self.texts}.aioc"
        with open(path, "wb") as it:
            it.write(text)
        return path

    def call(self, words, text=b"", program=None):
        """Runs the program with these words and this text as its standard input."""
        words = [encoded(it) for it in words]
        return Call(self, [os.fsencode(program or self.aioc), *words], encoded(text)).run()

    def shell(self, script, *words, text=b""):
        """Runs a script of sh, in which `$1` and so on are the words."""
        words = [encoded(it) for it in words]
        return Call(self, [b"sh", b"-c", encoded(script), b"sh", *words], encoded(text)).run()


def encoded(it):
    """Bytes of a text whose letters stand for bytes."""
    return it if isinstance(it, bytes) else it.encode("latin-1")


def quoted(word):
    """A word for bash; where it isn't printable ASCII, as `$'..'`."""
    if all(0x20 <= byte < 0x7F for byte in word):
        return shlex.quote(word.decode("ascii"))
    known = {0x0A: "\\n", 0x27: "\\'", 0x5C: "\\\\"}
    return "$'" + "".join(known.get(byte) or (chr(byte) if 0x20 <= byte < 0x7F else f"\\x{byte:02x}") for byte in word) + "'"


class Call:
    """A call of a program: what it was given, and how it ended."""

    def __init__(self, programs, words, text):
        self.programs, self.words, self.text = programs, words, text
        self.code, self.out, self.err = None, b"", b""

    def run(self):
        piped = {"stdin": subprocess.PIPE, "stdout": subprocess.PIPE, "stderr": subprocess.PIPE}
        try:
            # (a session of its own, so that what a script began ends with it)
            begun = subprocess.Popen(self.words, start_new_session=True, **piped)
        except OSError as error:
            raise self.failed(f"it can't be run: {error.strerror}") from error
        try:
            self.out, self.err = begun.communicate(self.text, PATIENCE)
        except subprocess.TimeoutExpired as error:
            raise self.failed(f"it hasn't ended after {PATIENCE} seconds") from error
        finally:
            if begun.poll() is None:
                os.killpg(begun.pid, signal.SIGKILL)
                begun.communicate()
        self.code = begun.returncode
        return self

    def command(self):
        """The command that repeats the call, for bash."""
        words = " ".join(map(quoted, self.words))
        if not self.text:
            return f"{words} < /dev/null"
        if len(self.text) > SHORT or b"\0" in self.text:
            return f"{words} < {shlex.quote(self.programs.kept(self.text))}"
        return f"printf %s {quoted(self.text)} | {words}"

    def failed(self, problem):
        return Failed(problem, self.command())

    def expect(self, code=None, out=None, err=None):
        """The call ended with this code, and wrote these bytes or lines; what is None isn't looked at."""
        if self.code < 0:
            raise self.failed(f"it was ended by signal {-self.code}")
        if code is not None and self.code != code:
            raise self.failed(f"it ended with {self.code}, not {code}; {told(self.err)}")
        for sink, wanted, found in (("standard output", out, self.out), ("standard error", err, self.err)):
            if wanted is not None and bytes_of(wanted) != found:
                raise self.failed(f"{sink}: {difference(bytes_of(wanted), found)}")
        return self


def bytes_of(wanted):
    """The bytes of lines, or of a text."""
    return encoded(wanted if isinstance(wanted, (bytes, str)) else "".join(f"{line}\n" for line in wanted))


def told(err):
    return f"it said {err[:200].decode('latin-1')!r}" if err else "it said nothing"


def difference(wanted, found):
    """The first line in which two texts differ."""
    one, other = wanted.split(b"\n"), found.split(b"\n")
    for number in range(max(len(one), len(other))):
        lines = [it[number][:200].decode("latin-1") if number < len(it) else None for it in (one, other)]
        if one[number:number + 1] != other[number:number + 1]:
            return f"line {number + 1} is {lines[1]!r}, not {lines[0]!r}"
    return "the same"
