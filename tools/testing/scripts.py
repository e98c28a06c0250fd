"""The scripts around the programs: what ./aioc, ./aioc-diagram and ./aioc-tool run and what they refuse, tools/install, and ./test
itself."""
import hashlib
import os
import shutil
import tempfile

from testing.runner import Failed, Test

NAMES = ("aioc", "aioc-diagram", "aioc-tool")
HELLO, GREETED = "aioc { hi: a(1) -> b(x) }", ["put a -> b hi#0.0 = 1", "take a -> b hi#0.0 x", "ended 2"]
WRONG_SUM = "{0}: release/{0} is not run: its sum is not the one in release/SHA256SUMS"
INSTALLED = {"bin/aioc", "bin/aioc-diagram", "share/man/man1/aioc.1", "share/bash-completion/completions/aioc",
             "share/zsh/site-functions/_aioc", "share/fish/vendor_completions.d/aioc.fish",
             "share/bash-completion/completions/aioc-tool", "share/zsh/site-functions/_aioc-tool",
             "share/fish/vendor_completions.d/aioc-tool.fish"}


class Copy:
    """A copy of the scripts, with the tested programs as its release and nothing built."""

    def __init__(self, programs, folder):
        self.programs, self.top = programs, f"{folder}/top"
        for each in ("release", "crates"):
            os.makedirs(f"{self.top}/{each}")
        for each in ("tools", "completions"):
            shutil.copytree(each, f"{self.top}/{each}")
        for file in (*NAMES, "test", "VERSION", "crates.txt"):
            shutil.copy(file, f"{self.top}/{file}")
        os.mkdir(f"{self.top}/docs")
        shutil.copy("docs/aioc.1", f"{self.top}/docs/aioc.1")
        for name, program in self.released():
            shutil.copy(program, f"{self.top}/release/{name}")
        self.write_sums()

    def released(self):
        """The programs that there are."""
        found = zip(NAMES, (self.programs.aioc, self.programs.diagram, self.programs.tool))
        return [(name, program) for name, program in found if program]

    def write_sums(self):
        with open(f"{self.top}/release/SHA256SUMS", "w", encoding="utf-8") as sums:
            for name, _ in self.released():
                with open(f"{self.top}/release/{name}", "rb") as it:
                    sums.write(f"{hashlib.sha256(it.read()).hexdigest()}  {name}\n")

    def turn_byte(self, name):
        with open(f"{self.top}/release/{name}", "r+b") as it:
            it.seek(-1, os.SEEK_END)
            last = it.read(1)
            it.seek(-1, os.SEEK_END)
            it.write(bytes([last[0] ^ 1]))

    def shell(self, script, text=HELLO):
        return self.programs.shell(f'cd "$1" && {script}', self.top, text=text)


def in_copy(programs, action):
    with tempfile.TemporaryDirectory(prefix="aioc-copy-") as folder:
        action(Copy(programs, folder))


def runs_release(copy):
    """From any folder, and by a link, with the words as they are."""
    copy.shell("./aioc step").expect(0, GREETED, b"")
    copy.shell("./aioc 'step --steps 1'").expect(2, b"", None)
    copy.shell('ln -s "$1/aioc" "$1/docs/link" && cd / && "$1/docs/link" step').expect(0, GREETED, b"")
    copy.shell("./aioc step | ./aioc-diagram --mermaid").expect(0, None, b"")


def refuses_wrong_sum(copy):
    copy.turn_byte("aioc-diagram")
    copy.shell("./aioc step").expect(0, GREETED, b"")
    copy.shell("./aioc-diagram").expect(1, b"", [WRONG_SUM.format("aioc-diagram")])
    copy.turn_byte("aioc")
    copy.shell("./aioc step").expect(1, b"", [WRONG_SUM.format("aioc")])
    copy.shell("rm release/SHA256SUMS && ./aioc step").expect(1, b"", [WRONG_SUM.format("aioc")])


def tells_missing_release(copy):
    line = "there is no release/aioc, and no program built from these sources; tools/try compiles them"
    copy.shell("rm release/aioc && ./aioc step").expect(1, b"", [f"aioc: {line}"])
    copy.shell("./test").expect(1, b"", [f"aioc: {line}"])
    copy.shell("./test --program nowhere").expect(1, b"", ["test: there is no program nowhere"])


def prefers_built(copy):
    """A program that was built later than all sources goes before the release; an older one doesn't."""
    copy.shell("mkdir -p crates/aioc_main/out crates/aioc_main/src && echo > crates/aioc_main/src/main.rt").expect(0)
    copy.shell("touch -d 2001-01-01 crates.txt crates/aioc_main/src/main.rt").expect(0)
    copy.shell(r"printf '#!/bin/sh\necho built\n' > crates/aioc_main/out/aioc_main").expect(0)
    copy.shell("chmod +x crates/aioc_main/out/aioc_main && ./aioc step").expect(0, ["built"], b"")
    copy.shell("touch -d 2000-01-01 crates/aioc_main/out/aioc_main && ./aioc step").expect(0, GREETED, b"")


def tells_other_machine(copy):
    machine = r"mkdir bin && printf '#!/bin/sh\necho Darwin arm64\n' > bin/uname && chmod +x bin/uname"
    line = "it runs on x86-64 Linux, and this is Darwin arm64: use such a machine, or a container or virtual machine of one"
    copy.shell(f'{machine} && PATH="$1/bin:$PATH" ./aioc step').expect(1, b"", [f"aioc: {line}"])


def tells_missing_kit(copy):
    """To compile the kit is needed."""
    line = "to compile it the command rt of the Rattle kit is needed, and it is not to be found"
    tools = "mkdir bin && for it in sh dirname readlink; do ln -s \"$(command -v $it)\" bin/$it; done"
    copy.shell(f'{tools} && PATH="$1/bin" AIOC_FROM_SOURCE=1 ./aioc step').expect(1, b"", [f"aioc: {line}"])


def compiles_where_asked(copy):
    """A stand-in for the kit's `rt try`: of what it says the program's lines and its status are passed on."""
    said = r'echo "$PWD $*"; echo "checked: all" >&2; echo "read fault" >&2; echo "run=ended status=3 seconds=1" >&2'
    copy.shell("mkdir bin crates/aioc_main crates/aioc_diagram crates/aioc_tool").expect(0)
    with open(f"{copy.top}/bin/rt", "w", encoding="utf-8") as it:
        it.write(f"#!/bin/sh\n{said}\n")
    os.chmod(f"{copy.top}/bin/rt", 0o755)
    for call, crate in (("./aioc", "aioc_main"), ("./aioc-diagram", "aioc_diagram"), ("./aioc-tool", "aioc_tool"),
                        ("tools/try aioc", "aioc_main")):
        line = f"{os.path.realpath(copy.top)}/crates/{crate} try --seconds 300 -- step --aux"
        copy.shell(f'PATH="$1/bin:$PATH" AIOC_FROM_SOURCE=1 {call} step --aux').expect(3, [line], ["read fault"])
    copy.shell("echo 'echo broken >&2; exit 1' > bin/rt").expect(0)
    copy.shell('PATH="$1/bin:$PATH" tools/try aioc step').expect(1, b"", ["broken"])


def installed_files(folder):
    return {os.path.relpath(f"{at}/{file}", folder) for at, _, files in os.walk(folder) for file in files}


def installs(copy):
    copy.shell('DESTDIR="$1/to" tools/install /usr > /dev/null').expect(0, b"", b"")
    found = installed_files(f"{copy.top}/to/usr")
    wanted = INSTALLED | ({"bin/aioc-tool"} if copy.programs.tool else set())
    if found != wanted:
        raise Failed(f"tools/install left {sorted(found ^ wanted)} otherwise than it says")
    copy.shell("to/usr/bin/aioc step").expect(0, GREETED, b"")
    copy.shell("to/usr/bin/aioc step | to/usr/bin/aioc-diagram").expect(0, None, b"")
    copy.shell('echo kept > to/usr/bin/other && DESTDIR="$1/to" tools/install --uninstall /usr > /dev/null').expect(0, b"", b"")
    if installed_files(f"{copy.top}/to/usr") != {"bin/other"}:
        raise Failed("tools/install --uninstall removed other files than it had put there")
    copy.turn_byte("aioc")
    copy.shell('DESTDIR="$1/again" tools/install').expect(1, b"", [WRONG_SUM.format("aioc")])
    if os.path.exists(f"{copy.top}/again"):
        raise Failed("tools/install began although a sum is wrong")


def tests(programs):
    for name, action in (("run the release", runs_release), ("refuse a wrong sum", refuses_wrong_sum),
                         ("tell that there is no release", tells_missing_release), ("run what was built", prefers_built),
                         ("tell what machine they need", tells_other_machine), ("tell that there is no kit", tells_missing_kit),
                         ("compile where they are asked to", compiles_where_asked), ("install and uninstall", installs)):
        yield Test(f"scripts: they {name}", lambda action=action: in_copy(programs, action), 20)
