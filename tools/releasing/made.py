"""What a release is made of: the files of release/, the sums of the sources, the kit, and the programs that it built.

release/ has the three programs, stripped; SHA256SUMS, as sha256sum reads it; MADE-OF, a line for the version, the commit, the kit,
and for each program the sum of its sources; and README.md, which tells the same to a reader.
"""
import hashlib
import os
import shutil
import subprocess
import sys

from repository import read_crates, with_those_below

# Each program of the release, with its crate.
PROGRAMS = {"aioc": "aioc_main", "aioc-diagram": "aioc_diagram", "aioc-tool": "aioc_tool"}
FOLDER = "release"
PARTS = ("src", "specs", "proofs", "c")

README = """# aioc {version}

The programs `aioc`, `aioc-diagram` and `aioc-tool` for x86-64 Linux, as the Rattle kit builds them from sources that it has
proved, stripped of their symbols. They need the C library, and nothing else. `./aioc`, `./aioc-diagram` and `./aioc-tool` at the
top of the repository run them, where no program was built from newer sources, and check their sums first.

| what | |
|---|---|
| version | {version} |
| sources | commit `{commit}` |
| kit | `{kit}` |
{programs}

## How they were made

The merge gate proved every crate of that commit and built the programs; `tools/release` took them from `crates/aioc_main/out`,
`crates/aioc_diagram/out` and `crates/aioc_tool/out`, stripped them by the kit's `llvm-strip`, tried every test of `./test` with
them, and wrote this folder. `MADE-OF` has the sum of the sources of each program: of the texts in `src/`, `specs/` and `proofs/` of each crate
that it is made of, their lines in `crates.txt`, and `HANDLES`.

## How to make them again

With the same kit (`rt version` prints its line), in a clone of the repository:

    git checkout {commit}
    rt ci
    git checkout -
    tools/check-release

The kit compiles the same sources to the same bytes in any folder. `tools/check-release` strips what was built and compares it
with these files. Where the sources or the kit are others, it runs every case with the release.

To check the sums alone: `cd release && sha256sum -c SHA256SUMS`.
"""


class Trouble(Exception):
    """What keeps a release from being made, or from being right, in one line."""


def read(path):
    with open(path, "rb") as it:
        return it.read()


def sum_of(data):
    return hashlib.sha256(data).hexdigest()


# ---- the sources

def sum_of_sources(crate):
    """The sum of all that the kit reads for a program: its crate and those below it. Proofs count too: the kit doesn't say
    that none of them can change a byte of the program."""
    below = sorted(with_those_below([crate], read_crates()))
    told = [sum_of(read("HANDLES"))]
    told += [line for line in read("crates.txt").decode().splitlines() if named_in(line) in below]
    for name in below:
        for part in PARTS:
            for at, folders, files in os.walk(f"crates/{name}/{part}"):
                folders.sort()
                told += [f"{sum_of(read(f'{at}/{file}'))} {at}/{file}" for file in sorted(files) if is_source(part, file)]
    return sum_of("\n".join(told).encode())


def named_in(line):
    """The crate that a line of crates.txt is about, if it is about one."""
    head, colon, _ = line.partition("#")[0].partition(":")
    return head.split()[0] if colon else None


def is_source(part, file):
    return part == "c" or file.endswith((".rt", ".antt"))


# ---- the kit

def kit_of():
    """The kit's folder."""
    rt = shutil.which("rt")
    if not rt:
        raise Trouble("the command rt of the Rattle kit is not to be found")
    return os.path.dirname(os.path.dirname(os.path.realpath(rt)))


def kit_line():
    kit_of()
    told = subprocess.run(["rt", "version"], stdout=subprocess.PIPE, stdin=subprocess.DEVNULL, check=False, text=True)
    if told.returncode:
        raise Trouble("`rt version` failed")
    return told.stdout.strip()


def stripped(crate, to):
    """Writes the program that the kit built, without its symbols, by the kit's strip: so one kit gives one sum."""
    built, compiler = f"crates/{crate}/out/{crate}", f"{kit_of()}/toolchain/bin/clang"
    if not os.path.isfile(built):
        raise Trouble(f"there is no {built}: rt ci builds it")
    try:
        done = subprocess.run(["llvm-strip", "--strip-all", "-o", to, built], executable=compiler, check=False)
    except OSError as error:
        raise Trouble(f"the kit's llvm-strip can't be run: {error.strerror}") from error
    if done.returncode:
        raise Trouble(f"llvm-strip failed on {built}")
    os.chmod(to, 0o755)


# ---- the files of release/

def read_sums():
    """The sums of SHA256SUMS, by the names of the files."""
    try:
        rows = [line.split("  ", 1) for line in read(f"{FOLDER}/SHA256SUMS").decode().splitlines()]
        return {name: sum for sum, name in rows}
    except (OSError, ValueError) as error:
        raise Trouble(f"{FOLDER}/SHA256SUMS can't be read; tools/release makes a release") from error


def read_made():
    """The lines of MADE-OF, by their first words."""
    try:
        rows = [line.rpartition(": ") for line in read(f"{FOLDER}/MADE-OF").decode().splitlines()]
        made = {name: value for name, _, value in rows}
        return {name: made[name] for name in ("version", "commit", "kit", *(f"sources of {it}" for it in PROGRAMS))}
    except (OSError, KeyError, UnicodeDecodeError) as error:
        raise Trouble(f"{FOLDER}/MADE-OF can't be read; tools/release makes a release") from error


def text_of_sums(sums):
    return "".join(f"{sums[name]}  {name}\n" for name in PROGRAMS)


def text_of_made(made):
    return "".join(f"{name}: {value}\n" for name, value in made.items())


def text_of_readme(made, sums):
    """The page of the release, as its sums and what it is made of want it."""
    rows = "\n".join(f"| sha256 of `{name}` | `{sums[name]}` |" for name in PROGRAMS)
    return README.format(version=made["version"], commit=made["commit"], kit=made["kit"], programs=rows)


def run_tests(folder, *words):
    """Whether the tests pass with the programs of this folder; what fails is printed."""
    sys.stdout.flush()
    programs = ["--program", f"{folder}/aioc", "--diagram", f"{folder}/aioc-diagram", "--tool", f"{folder}/aioc-tool"]
    return subprocess.run(["./test", *programs, *words], check=False).returncode == 0
