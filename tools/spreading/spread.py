"""From a text of sessions to its answers: one thread cuts it and hands the pieces to an engine, one hears which are answered,
and the main one writes the answers in the order of the text.
"""
import os
import queue
import threading

from spreading.cutter import NoSession, TooLong, chunks_of, pieces_of
from spreading.engines import TRIES, Running, say

# How many pieces may be cut before the main thread has heard of them.
AHEAD = 256
# The statuses of the program, where one fits.
DONE, NO_ANSWER, READ_FAULT, WRITE_FAULT, TOO_LONG, SYNTAX = 0, 1, 3, 4, 5, 6


class Ended(Exception):
    """The run ends here: the status, and the line that says why."""

    def __init__(self, status, line):
        super().__init__(line)
        self.status, self.line = status, line


def reading(chunks):
    try:
        yield from chunks
    except OSError as error:
        raise Ended(READ_FAULT, f"read fault: {error.strerror}") from error


def cut_fault(fault):
    """How the run ends after the pieces before a fault of the text."""
    if isinstance(fault, NoSession):
        return Ended(SYNTAX, f"there is no session: syntax: byte {fault.args[0]}")
    if isinstance(fault, TooLong):
        named = f"session {fault.number}, from byte {fault.session.begin}"
        if fault.session.is_open:
            return Ended(SYNTAX, f"{named}: a bracket of it never closes")
        return Ended(TOO_LONG, f"{named}: too long: it has {fault.session.length} bytes")
    return fault


class Spread:
    """One run: a room, an engine for it, and how the text is cut."""

    def __init__(self, room, engine, most, resumes, out):
        self.room, self.engine, self.most, self.resumes, self.out = room, engine, most, resumes, out
        self.events, self.running, self.is_stopped = queue.Queue(AHEAD), None, False
        # Of the pieces that are cut and not written: each by its number, and which of them are answered, and which lost.
        self.pending, self.answered, self.lost_pieces = {}, set(), set()
        # The next one to be written, the last one that the engine told, and the sessions without an answer, as pairs.
        self.next, self.last_told, self.lost = 0, -1, []
        # How the text ends, and the first session that was never handed to the engine, since that ended too soon.
        self.fault, self.unasked, self.is_cut, self.is_ended = None, None, False, False

    def run(self, file):
        """Answers the text of an open file. It raises Ended where not each session has its answer."""
        self.running = Running(self.engine, self.room.path)
        threading.Thread(target=self.feed, args=(file,), daemon=True).start()
        threading.Thread(target=self.listen, daemon=True).start()
        while not (self.is_cut and self.is_ended):
            self.hear(*self.events.get())
            self.advance()
        self.tell_lost()
        if self.fault:
            raise self.fault

    def leave_pieces(self, file):
        """Leaves the pieces in the room, with their names in the file `names`, and runs nothing."""
        with open(f"{self.room.path}/names", "w", encoding="ascii") as names:
            try:
                for piece in pieces_of(reading(chunks_of(file)), self.most):
                    text = piece.text()
                    name = self.room.name_of(piece, text)
                    self.room.write(name, text)
                    names.write(f"{name}\n")
            except (NoSession, TooLong) as fault:
                raise cut_fault(fault) from fault

    def stop(self):
        self.is_stopped = True
        if self.running:
            self.running.stop()

    # The two other threads.

    def feed(self, file):
        fault, unasked = None, None
        try:
            for piece in pieces_of(reading(chunks_of(file)), self.most):
                if self.is_stopped or not self.hand(piece):
                    unasked = piece.first
                    break
        except (Ended, NoSession, TooLong) as ended:
            fault = cut_fault(ended)
        except OSError as error:
            fault = Ended(WRITE_FAULT, f"write fault: {self.room.path}: {error.strerror}")
        self.running.close()
        self.events.put(("cut", fault, unasked))

    def hand(self, piece):
        """Hands the piece to the engine, unless an earlier run has answered it; False where the engine has ended."""
        text = piece.text()
        piece.texts, piece.name = [], self.room.name_of(piece, text)
        is_answered = self.resumes and self.room.is_answered(piece)
        if not is_answered:
            self.room.drop(piece, True)
            self.room.write(piece.name, text)
        is_handed = is_answered or self.running.hand(piece.name)
        if is_handed:
            self.events.put(("piece", piece, is_answered))
        return is_handed

    def listen(self):
        for is_answered, number in self.running.told():
            self.events.put(("told", number, is_answered))
        self.events.put(("ended", self.running.process.wait(), None))

    # The main thread.

    def hear(self, kind, what, more):
        if kind == "piece":
            self.pending[what.number] = what
            if more:
                self.answered.add(what.number)
        elif kind == "told":
            (self.answered if more else self.lost_pieces).add(what)
            self.last_told = max(self.last_told, what)
        elif kind == "cut":
            self.is_cut, self.fault, self.unasked = True, what, more
        else:
            self.is_ended = True

    def is_lost(self, number):
        passed_over = self.engine.keeps_order and number < self.last_told
        return number in self.lost_pieces or passed_over or self.is_ended

    def advance(self):
        """Writes the answers of the next pieces, as far as they are there."""
        while self.next in self.pending:
            piece = self.pending[self.next]
            if self.next in self.answered:
                self.write(piece)
            elif self.is_lost(self.next):
                self.lose(piece)
            else:
                return
            del self.pending[self.next]
            self.answered.discard(self.next)
            self.lost_pieces.discard(self.next)
            self.next += 1

    def write(self, piece):
        byte = self.room.refused_byte(piece)
        if byte is not None:
            self.end_in(piece, byte)
        if not self.room.is_answered(piece):
            self.lose(piece)
            return
        try:
            self.room.copy_answer(piece, self.out)
            self.out.flush()
        except OSError as error:
            raise Ended(WRITE_FAULT, f"write fault: {error.strerror}") from error
        self.room.drop(piece, not self.room.is_kept)

    def lose(self, piece):
        first, last = piece.first, piece.first + len(piece) - 1
        if self.lost and self.lost[-1][1] == first - 1:
            first = self.lost.pop()[0]
        self.lost.append((first, last))

    def end_in(self, piece, byte):
        """The program reads no sessions up to this byte: those before the one with the byte are answered, and the run ends."""
        self.stop()
        at, place = piece.session_with(byte)
        if at:
            front = piece.front(at)
            with open(f"{self.room.path}/{piece.name}", "rb") as it:
                text = it.read(front.size)
            front.name = self.room.name_of(front, text)
            self.room.write(front.name, text)
            self.answer_alone(front)
            self.write(front)
        self.tell_lost()
        closing = "a bracket of it never closes: " if piece.is_open and at == len(piece) - 1 else ""
        raise Ended(SYNTAX, f"session {piece.first + at}, from byte {piece.begins[at]}: {closing}syntax: byte {place}")

    def answer_alone(self, piece):
        self.running = Running(self.engine, self.room.path)
        self.running.hand(piece.name)
        self.running.close()
        for _ in self.running.told():
            pass
        self.running.process.wait()

    def tell_lost(self):
        """Raises Ended where sessions have no answer."""
        named = ["sessions " + ", ".join(f"{first} to {last}" for first, last in self.lost)] if self.lost else []
        if self.unasked is not None:
            named.append(f"all sessions from {self.unasked} on")
        if named:
            why = f"run {TRIES} times, the program died" if self.unasked is None else f"{self.engine.words[0]} ended too soon"
            goes_on = "; --resume goes on" if self.room.is_kept else ""
            raise Ended(NO_ANSWER, f"no answer to {' and '.join(named)}: {why}{goes_on}")
