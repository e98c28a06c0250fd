"""The folder in which the pieces of a text stand, and the answers to them."""
import fcntl
import hashlib
import os
import re
import shlex
import shutil
import tempfile

HERE = os.path.dirname(os.path.realpath(__file__))
BLOCK = 1 << 20
HEAD = re.compile(rb"\nsession (\d+)(?=\n|\Z)")
SYNTAX = re.compile(rb"syntax: byte (\d+)\n")


class Busy(Exception):
    """Another run uses the folder."""


class Room:
    """A folder. One that is named is there for a later run that goes on; without a name it is gone when the run ends."""

    def __init__(self, path=None):
        self.is_kept = path is not None
        self.path = os.path.realpath(path) if path else tempfile.mkdtemp(prefix="spread-sessions-")
        os.makedirs(self.path, exist_ok=True)
        self.lock = open(f"{self.path}/lock", "wb")
        try:
            fcntl.flock(self.lock, fcntl.LOCK_EX | fcntl.LOCK_NB)
        except OSError as error:
            raise Busy(self.path) from error

    def prepare(self, words):
        """Leaves `run` there, which answers a piece by a program with these words."""
        self.words = words
        with open(f"{HERE}/run-piece", encoding="utf-8") as it:
            script = it.read()
        program = " ".join(map(shlex.quote, words))
        self.write("run", script.replace("$(PROGRAM ", f"$({program} ").encode("utf-8", "surrogateescape"))

    def agree(self, options):
        """Whether the folder was begun with these options; a new one begins with them."""
        try:
            with open(f"{self.path}/options", encoding="utf-8") as it:
                self.begun_with = it.read()
        except OSError:
            self.begun_with = options
            self.write("options", options.encode())
        return self.begun_with == options

    def answers(self):
        """How many pieces have an answer."""
        return sum(name.endswith(".answer") for name in os.listdir(self.path))

    def write(self, name, text):
        """Writes a file apart, and then gives it its name, so that whoever finds the name finds all of it."""
        with open(f"{self.path}/{name}.new", "wb") as it:
            it.write(text)
        os.replace(f"{self.path}/{name}.new", f"{self.path}/{name}")

    def name_of(self, piece, text):
        """The file of a piece: its number, how many sessions it has, and a sum over its text and the words behind the program."""
        summed = hashlib.blake2b(repr(self.words[1:]).encode() + b"\n" + text, digest_size=8)
        return f"{piece.number:08d}-{len(piece)}-{summed.hexdigest()}"

    def answer(self, piece):
        return f"{self.path}/{piece.name}.answer"

    def is_answered(self, piece):
        """Whether each session of the piece has its answer, in order, and the last one its last line."""
        found, end = [], b""
        try:
            with open(self.answer(piece), "rb") as it:
                for block in blocks_of(it):
                    found += [int(number) for number in HEAD.findall(block)]
                    end = block
        except OSError:
            return False
        last = end.rpartition(b"\n")[2]
        return found == list(range(len(piece))) and re.match(rb"(ended|stopped|refused:) ", last) is not None

    def refused_byte(self, piece):
        """The byte of the piece that the program names, where it says that the piece is no text of sessions."""
        try:
            with open(self.answer(piece), "rb") as it:
                found = SYNTAX.fullmatch(it.read(100))
        except OSError:
            return None
        return int(found[1]) if found else None

    def copy_answer(self, piece, out):
        """Writes the answers of the piece, with the numbers that the sessions have in the whole text."""
        with open(self.answer(piece), "rb") as it:
            for block in blocks_of(it):
                numbered = HEAD.sub(lambda head: b"\nsession %d" % (int(head[1]) + piece.first), block)
                out.write(numbered[1:] + b"\n")

    def drop(self, piece, with_answer):
        for path in [f"{self.path}/{piece.name}"] + [self.answer(piece)] * with_answer:
            if os.path.exists(path):
                os.unlink(path)

    def close(self, is_done):
        """The folder goes, unless a later run is to go on from it."""
        if is_done or not self.is_kept:
            shutil.rmtree(self.path, ignore_errors=True)


def blocks_of(file):
    """The blocks of an answer, each of whole lines: a line feed stands before the first, and none behind the last."""
    rest = b"\n"
    while True:
        block = file.read(BLOCK)
        whole, feed, more = (rest + block).rpartition(b"\n")
        if not block:
            if more:
                yield rest
            elif whole:
                yield whole
            return
        if whole:
            yield whole
            rest = feed + more
        else:
            rest += block
