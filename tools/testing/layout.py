"""The program that lays bundles out: what it prints of the examples, what it names, what it replaces, and its statuses. The examples,
and the bundles on the pages, stand in its layout."""
import glob
import os
import stat
import tempfile

from pages.named import pages
from pages.shown import blocks_of_markdown
from testing.explain import USAGE
from testing.runner import Failed, Test

LOOSE = """aioc { // a comment
x@a=1;o: a(x)->b(y) }
inputs { a:1 ; }
"""
LAID = """aioc { // a comment
  x@a = 1;
  o: a(x) -> b(y)
}

inputs { a: 1; }
"""
FAULTY = "aioc { x@@a = 1 }\n"

# What makes a bundle of sections without a choreography.
BEFORE_SECTIONS = "aioc { skip }\n\n"

# Words that nothing is laid out for: the code and the lines of standard error.
OTHERS = (
    ("an unknown option", ["format", "--wide"], 2, USAGE),
    ("both options", ["format", "--check", "--write", "one"], 2, USAGE),
    ("--write of standard input", ["format", "--write"], 2, USAGE),
    ("no such file", ["format", "nowhere.aioc"], 2, ["aioc-tool: nowhere.aioc: can't be read"]),
    ("a folder", ["format", "/"], 2, ["aioc-tool: /: can't be read"]),
)


def require(holds, why):
    if not holds:
        raise Failed(why)


def read(path):
    with open(path, encoding="utf-8") as it:
        return it.read()


def write(path, text):
    with open(path, "w", encoding="utf-8") as it:
        it.write(text)


def printed(programs):
    programs.call(["format"], LOOSE.encode(), programs.tool).expect(0, LAID.encode(), b"")
    programs.call(["format"], LAID.encode(), programs.tool).expect(0, LAID.encode(), b"")


def stable(programs, path):
    """The layout of an example is laid out as itself, and spells the same bundle."""
    script = '"$1" format "$3" > once && "$1" format < once > twice && cmp once twice' \
        ' && "$2" upgrade < "$3" > old && "$2" upgrade < once > new && cmp old new'
    with tempfile.TemporaryDirectory(prefix="aioc-layout-") as folder:
        programs.shell(f'path=$(readlink -f "$3") && cd "$4" && set -- "$1" "$2" "$path" && {script}',
                       programs.tool, programs.aioc, path, folder).expect(0, b"", b"")


def example(programs, path):
    """An example is in the layout."""
    programs.call(["format", "--check", path], b"", programs.tool).expect(0, b"", b"")


def of_page(programs, page):
    """The blocks of a page that are bundles, or sections of some, are in the layout. Those that are no bundle show a fault."""
    results = []
    with open(page, encoding="utf-8") as it:
        blocks = list(blocks_of_markdown(it.read()))
    for number, kind, lines in blocks:
        if kind[:1] not in (["aioc"], ["faulty"], ["layout"]):
            continue
        text, name = "".join(f"{line}\n" for line in lines), f"format: {page}, line {number}"
        for front in ("", BEFORE_SECTIONS):
            whole = f"{front}{text}".encode()
            ran = programs.call(["format"], whole, programs.tool)
            if ran.code != 2:
                results.append((name, None if ran.out == whole else ran.failed("the block isn't in the layout")))
                break
    return results


def replaced(programs):
    """--check names the files that differ, and --write replaces them alone, by whole files with their permissions."""
    with tempfile.TemporaryDirectory(prefix="aioc-layout-") as folder:
        loose, laid, faulty = (f"{folder}/{name}.aioc" for name in ("loose", "laid", "faulty"))
        write(loose, LOOSE)
        write(laid, LAID)
        write(faulty, FAULTY)
        os.chmod(loose, 0o640)
        before = os.stat(laid)
        programs.call(["format", "--check", loose, laid], b"", programs.tool).expect(1, f"{loose}\n".encode(), b"")
        require(read(loose) == LOOSE, "--check changed a file")
        programs.call(["format", loose, laid, "--write"], b"", programs.tool).expect(0, b"", b"")
        require(read(loose) == LAID, "--write left a file as it was")
        require(stat.S_IMODE(os.stat(loose).st_mode) == 0o640, "--write changed the permissions")
        require(os.stat(laid).st_ino == before.st_ino, "--write replaced a file that was in the layout")
        programs.call(["format", "--check", loose, laid], b"", programs.tool).expect(0, b"", b"")
        programs.call(["format", "--write", faulty], b"", programs.tool).expect(2, b"", None)
        require(read(faulty) == FAULTY, "--write changed a file that is no bundle")
        require(len(os.listdir(folder)) == 3, "a file was left beside the others")


def refused(programs, words, code, lines):
    programs.call(words, b"", programs.tool).expect(code, b"", lines)


def full_sink(programs):
    programs.shell('printf "aioc { x@a = 1 }" | "$1" format > /dev/full', programs.tool).expect(4, b"", None)


def tests(programs):
    if not programs.tool:
        return
    for name, action in (("standard input", printed), ("--check and --write", replaced), ("/dev/full as standard output", full_sink)):
        yield Test(f"format: {name}", lambda action=action: action(programs))
    for path in sorted(glob.glob("examples/*.aioc")):
        yield Test(f"format: {path}", lambda path=path: stable(programs, path))
        yield Test(f"format: {path} is in the layout", lambda path=path: example(programs, path))
    for page in pages():
        yield Test(f"format: {page}", lambda page=page: of_page(programs, page))
    for name, words, code, lines in OTHERS:
        yield Test(f"format: {name}", lambda it=(words, code, lines): refused(programs, *it))
