"""Cuts a text of sessions into pieces, of which each is a text that `aioc sessions` reads.

It knows what the language says of comments, of texts in quotes and of `{` and `}`, and judges nothing else: a session ends
where its bracket closes, and a text that is none of sessions is cut somewhere, so that the program itself names what is wrong
with it.
"""
import os
import re
from array import array

MOST_BYTES, MOST_SESSIONS = 4_194_304, 1_000
CHUNK = 1 << 20

# Outside of sessions: what is no space.
FIRST = re.compile(rb"[^ \t\r\n]")
# Inside: a whole comment, a whole text in quotes, a bracket, or the begin of a comment or text that goes on behind the chunk.
SIGN = re.compile(rb'//[^\n]*\n|"[ !#-\[\]-~]*(?:\\[ -~][ !#-\[\]-~]*)*"|[{}]|//|"')
# In a text: its end, a pair, or a byte that may stand in no text, so that the text ends there for the cutter.
TEXT = re.compile(rb'"|\\[ -~]|\\\Z|[^ !#-\[\]-~]')
OPENS, CLOSES, SLASH = b"{}/"


class Session:
    """A session: its first byte, its length, its bytes unless they are too many, and whether a bracket of it never closes."""

    def __init__(self, begin, length, text, is_open):
        self.begin, self.length, self.text, self.is_open = begin, length, text, is_open


class Cutter:
    """Takes a text chunk by chunk, and gives its sessions. Of a session that is too long it holds no more than a chunk."""

    def __init__(self):
        self.mode, self.depth = self.outside, 0
        # What isn't read of the chunk before, and the place of the next chunk in the text.
        self.rest, self.place = b"", 0
        # The session that has begun: its first byte, and what came of it in earlier chunks.
        self.begin, self.parts, self.length = None, [], 0

    def sessions_in(self, chunk, is_last):
        """The sessions that end in this chunk. The last chunk is an empty one."""
        data, at = self.rest + chunk, 0
        self.place -= len(self.rest)
        # The place in `data` from which on bytes belong to the session.
        self.start = 0
        while at < len(data):
            mode = self.mode
            at, ended = mode(data, at, is_last)
            if ended:
                yield self.ended(data[self.start:at], False)
            elif self.mode == mode:
                break
        if self.begin is not None:
            self.keep(data[self.start:at])
        self.rest, self.place = data[at:], self.place + len(data)
        if is_last and self.begin is not None:
            yield self.ended(b"", self.depth > 0)

    def keep(self, part):
        self.length += len(part)
        self.parts.append(part)
        if self.length > MOST_BYTES:
            self.parts.clear()

    def ended(self, part, is_open):
        self.keep(part)
        text = b"".join(self.parts) if self.length <= MOST_BYTES else None
        session = Session(self.begin, self.length, text, is_open)
        self.mode, self.depth, self.begin, self.parts, self.length = self.outside, 0, None, [], 0
        return session

    # Each mode reads on from a place of the data. It gives the place up to which it came, and whether a session ended there;
    # where it stays the mode, the data is read, but for a front of what the next chunk decides.

    def outside(self, data, at, is_last):
        found = FIRST.search(data, at)
        if not found:
            return len(data), False
        at = found.start()
        if data[at] == SLASH and at + 1 == len(data) and not is_last:
            return at, False
        if data.startswith(b"//", at):
            self.mode = self.comment
            return at, False
        self.mode, self.begin, self.start = self.inside, self.place + at, at
        return at, False

    def comment(self, data, at, is_last):
        end = data.find(b"\n", at)
        if end < 0:
            return len(data), False
        self.mode = self.outside if self.begin is None else self.inside
        return end + 1, False

    def text(self, data, at, is_last):
        for found in TEXT.finditer(data, at):
            first = data[found.start()]
            if first == b"\\"[0]:
                if found.end() == found.start() + 2:
                    continue
                return found.end() if is_last else found.start(), False
            self.mode = self.inside
            return found.end() if first == b'"'[0] else found.start(), False
        return len(data), False

    def inside(self, data, at, is_last):
        for found in SIGN.finditer(data, at):
            sign = data[found.start()]
            if sign == OPENS:
                self.depth += 1
            elif sign == CLOSES:
                self.depth -= 1
                if self.depth <= 0:
                    return found.end(), True
            elif found.end() == found.start() + 1 or found.group() == b"//":
                self.mode = self.text if sign != SLASH else self.comment
                return found.end(), False
        # (a `/` at the end may begin a comment)
        return len(data) - (data.endswith(b"/") and not is_last), False


def chunks_of(file):
    """The chunks of an open file, and an empty one at the end."""
    while True:
        chunk = os.read(file, CHUNK)
        yield chunk
        if not chunk:
            return


def sessions_of(chunks):
    cutter = Cutter()
    for chunk in chunks:
        yield from cutter.sessions_in(chunk, not chunk)


class Piece:
    """Some sessions of a text, one after another: its number, that of its first session, and where each stands in the text."""

    def __init__(self, number, first):
        self.number, self.first, self.size, self.texts = number, first, 0, []
        self.begins, self.starts, self.is_open = array("Q"), array("L"), False

    def __len__(self):
        return len(self.begins)

    def has_room(self, session, most):
        return len(self) < most and self.size + session.length + bool(self.size) <= MOST_BYTES

    def add(self, session):
        self.size += bool(self.size)
        self.begins.append(session.begin)
        self.starts.append(self.size)
        self.texts.append(session.text)
        self.size += session.length
        self.is_open = session.is_open

    def text(self):
        return b"\n".join(self.texts)

    def front(self, count):
        """The piece of its first so many sessions, without their texts."""
        front = Piece(self.number, self.first)
        front.begins, front.starts, front.size = self.begins[:count], self.starts[:count], self.starts[count] - 1
        return front

    def session_with(self, byte):
        """The session of the piece in which a byte of it stands, counted from 0, and the place of that byte in the text."""
        session = max(at for at, start in enumerate(self.starts) if start <= byte)
        return session, self.begins[session] + byte - self.starts[session]


class TooLong(Exception):
    """A session that is longer than a text of sessions may be: its number, and the session."""

    def __init__(self, number, session):
        super().__init__(number)
        self.number, self.session = number, session


class NoSession(Exception):
    """The text has no session; it has so many bytes."""


def pieces_of(chunks, most):
    """The pieces of the text, of at most so many sessions each. It raises TooLong behind the last piece before such a session."""
    read = 0

    def counted():
        nonlocal read
        for chunk in chunks:
            read += len(chunk)
            yield chunk

    piece, too_long = Piece(0, 0), None
    for session in sessions_of(counted()):
        if session.text is None:
            too_long = TooLong(piece.first + len(piece), session)
            break
        if not piece.has_room(session, most):
            yield piece
            piece = Piece(piece.number + 1, piece.first + len(piece))
        piece.add(session)
    if len(piece):
        yield piece
    if too_long:
        raise too_long
    if not len(piece):
        raise NoSession(read)
