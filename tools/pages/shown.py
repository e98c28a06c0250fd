"""What the examples and the pages show of the program."""
import json
import os
import stat
import subprocess
import sys
import tempfile

from pages.table import find, lines_of, print_row, read

# An answer that the program never gives: the table has no such case.
NO_CASE = 99


class Shown:
    """What was shown, what is wrong with it, and the rows that the table lacks."""

    def __init__(self, rows):
        self.rows, self.count, self.problems, self.missing = rows, 0, [], []

    def add(self, where, words, text, sink, lines):
        """The words with that text as their input say these lines to that sink, and nothing to the other."""
        self.count += 1
        row = find(self.rows, words, text)
        if row is None:
            self.missing.append((words, text, [f"{sink} {it}" for it in lines]))
            self.problems.append(f"{where}: `{' '.join(words)}` of this bundle is no case")
        elif row.said(sink) != lines or row.said("err" if sink == "out" else "out"):
            self.problems.append(f"{where}: the case of `{' '.join(words)}` has other lines")

    def join(self, other):
        """Adds what another one saw."""
        self.count += other.count
        self.problems += other.problems
        self.missing += other.missing

    def print_missing(self):
        for words, text, lines in self.missing:
            print_row(words, text, lines)


def check_examples(shown):
    """Beside each bundle stands what `step` prints of it; it is accepted, and its run ends."""
    names = sorted(os.listdir("examples"))
    for name in names:
        stem, _, kind = name.rpartition(".")
        if kind == "aioc" and f"{stem}.trace" in names:
            lines = lines_of(read(f"examples/{stem}.trace"))
            shown.add(f"examples/{name}", ["step"], read(f"examples/{name}"), "out", lines)
            if not lines[-1].startswith("ended "):
                shown.problems.append(f"examples/{stem}.trace: the run hasn't ended")
        elif kind == "aioc":
            shown.problems.append(f"examples/{name}: no {stem}.trace beside it")
        elif kind != "trace" or f"{stem}.aioc" not in names:
            shown.problems.append(f"examples/{name}: neither a bundle nor the trace of one")


def blocks_of_markdown(text):
    """The blocks of a page: the line where each begins, the words of its kind, and its lines."""
    begun = None
    for number, line in enumerate(text.split("\n"), 1):
        if line.startswith("```"):
            if begun:
                yield begun
                begun = None
            else:
                begun = number, line[3:].split(), []
        elif begun:
            begun[2].append(line)
    if begun:
        yield begun


def blocks_of_manual(text):
    """The blocks between .EX and .EE of a manual page: bundles are those that begin with a name and a colon."""
    begun = None
    for number, line in enumerate(text.split("\n"), 1):
        if line == ".EX":
            begun = number, ["console"], []
        elif line == ".EE" and begun:
            yield begun
            begun = None
        elif begun:
            begun[2].append(line.replace("\\-", "-").replace("\\e", "\\").replace("\\(aq", "'").replace("\\&", ""))


def check_page(shown, page, blocks, program=None):
    """The blocks of one page, in their order.

    A block `aioc` is a bundle. With a name, `aioc NAME`, it is the file of that name for the commands of the page. Else blocks
    `output WORDS` and `error WORDS` behind it have the lines that these words say of it, on standard output and on standard
    error; where the last of the words is a file, they say it of that.

    A block `console` has commands, each behind a `$`, and what the shell shows of them. They are run in a folder with the files
    of the page, the examples, and a program `aioc` that answers by the table.
    """
    text, begun = None, None
    with tempfile.TemporaryDirectory() as folder:
        room = Room(folder, program)
        for number, kind, lines in blocks:
            where = f"{page}, line {number}"
            if kind[:1] == ["aioc"] and len(kind) == 2:
                room.write(kind[1], "".join(f"{it}\n" for it in lines))
            elif kind == ["aioc"]:
                if begun:
                    shown.problems.append(f"{begun}: a bundle with nothing that a command says of it")
                text, begun = "".join(f"{it}\n" for it in lines), where
            elif kind[:1] in (["output"], ["error"]):
                words, sink = kind[1:], "out" if kind[0] == "output" else "err"
                file = words.pop() if words and words[-1].endswith(".aioc") else None
                if file and not os.path.isfile(file):
                    shown.problems.append(f"{where}: there is no file {file}")
                elif file or text is not None:
                    shown.add(where, words, read(file) if file else text, sink, lines)
                else:
                    shown.problems.append(f"{where}: no bundle stands before it")
                begun = begun if file else None
            elif kind == ["console"]:
                check_console(shown, room, where, lines)
    if begun:
        shown.problems.append(f"{begun}: a bundle with nothing that a command says of it")


class Room:
    """A folder in which commands of a page are run."""

    def __init__(self, folder, program):
        self.folder, self.lacks, self.status = folder, f"{folder}/.lacks", 0
        os.symlink(os.path.realpath("examples"), f"{folder}/examples")
        tool = os.path.realpath(sys.argv[0])
        self.write("aioc", program or f'#!/bin/sh\nexec "{sys.executable}" "{tool}" --answer "$0" "$@"\n')
        os.chmod(f"{folder}/aioc", stat.S_IRWXU)

    def write(self, name, text):
        with open(f"{self.folder}/{name}", "wb") as it:
            it.write(text.encode("latin-1"))

    def run(self, command):
        """What the shell shows of a command. `echo $?` shows how the one before it ended."""
        if command == "echo $?":
            shows, self.status = [str(self.status)], 0
            return shows
        done = subprocess.run(["bash", "-c", command], cwd=self.folder, stdin=subprocess.DEVNULL, stdout=subprocess.PIPE,
                              stderr=subprocess.STDOUT, check=False)
        self.status = done.returncode
        text = done.stdout.decode("latin-1")
        return lines_of(text) if text else []

    def lacked(self):
        """The calls that the table had no answer for, since this was asked last."""
        if not os.path.exists(self.lacks):
            return []
        calls = [json.loads(it) for it in read(self.lacks).splitlines()]
        os.remove(self.lacks)
        return calls


def commands(lines):
    """The commands of a block, each with the lines that stand below it."""
    found = []
    for line in lines:
        if line.startswith("$ "):
            found.append((line[2:], []))
        elif found:
            found[-1][1].append(line)
    return found


def check_console(shown, room, where, lines):
    found = commands(lines)
    for number, (command, below) in enumerate(found):
        shown.count += 1
        shows = room.run(command)
        lacked = room.lacked()
        for words, text in lacked:
            shown.missing.append((words, text, [f"? {it}" for it in below]))
            shown.problems.append(f"{where}: `aioc {' '.join(words)}` in `{command}` is no case")
        if shows != below and not lacked:
            shown.problems.append(f"{where}: `{command}` shows {difference(below, shows)}")
        tells = number + 1 < len(found) and found[number + 1][0] == "echo $?"
        if room.status != 0 and not tells and not lacked:
            shown.problems.append(f"{where}: `{command}` ends with {room.status}, and the page doesn't say so")


def difference(below, shows):
    """The first line that isn't as the page has it."""
    for number in range(max(len(below), len(shows))):
        wanted, found = (f"`{it[number]}`" if number < len(it) else "no more" for it in (below, shows))
        if wanted != found:
            return f"{found} as line {number + 1}, where the page has {wanted}"
    return "the same"


def answer(rows, program, words):
    """Answers as the program does, by the table; `program` is the file that was called."""
    text = sys.stdin.buffer.read().decode("latin-1")
    row = find(rows, words, text)
    if row is None:
        with open(f"{os.path.dirname(os.path.realpath(program))}/.lacks", "a", encoding="utf-8") as it:
            it.write(json.dumps([words, text]) + "\n")
        return NO_CASE
    for sink, name in ((sys.stdout, "out"), (sys.stderr, "err")):
        sink.buffer.write("".join(f"{it}\n" for it in row.said(name)).encode("latin-1"))
        sink.flush()
    return row.code()
