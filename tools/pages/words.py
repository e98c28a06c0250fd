"""Whether completions/ and the manual page know the commands and their options, and no others.

What there is comes from the definition: the table of command_words; of aioc-tool from the lines of usage that it tells.
"""
import re
import subprocess

from pages.table import read

TABLE = "crates/command_words/specs/Commands.antt"
BASH, ZSH, FISH = (f"completions/aioc.{it}" for it in ("bash", "zsh", "fish"))
MANUAL = "docs/aioc.1"
TOOL = "crates/aioc_tool/src/main.rt"


def table_of_commands():
    """The commands: of each its options, and whether an option has a value."""
    table = read(TABLE)
    names = dict(re.findall(r'^name_of (\w+) = codes "(\w+)"', table, re.M))
    options = {}
    for verb, row in re.findall(r"^known_options (\w+) =((?:.|\n )*)", table, re.M):
        options[verb] = {name: kind == "valued" for kind, name in re.findall(r'(valued|flag) \(codes "(\w+)"\)', row)}
    return {name: options.get(verb, options["_"] if "_" in options else {}) for verb, name in names.items()}


# ---- what the files know, each as the table tells it

def bash_knows():
    """What the function of the completions answers, asked as bash asks it."""
    def asked(*words):
        script = 'source "$1"; shift; COMP_WORDS=("$@"); COMP_CWORD=$(($# - 1)); _aioc; printf "%s\\n" "${COMPREPLY[@]}"'
        done = subprocess.run(["bash", "-c", script, "bash", BASH, *words], stdout=subprocess.PIPE, check=True, text=True)
        return done.stdout.split()
    # (where a number is to stand, nothing is offered; asked at the command with the most options, since others may be through)
    offered = {command: asked("aioc", command, "") for command in asked("aioc", "")}
    most = max(offered, key=lambda command: len(offered[command]), default="")
    return {command: {it[2:]: not asked("aioc", most, it, "") for it in options} for command, options in offered.items()}


def zsh_knows():
    text = read(ZSH)
    commands = re.findall(r"^ +'(\w+):[^']+'$", text, re.M)
    cases = dict(re.findall(r"^    (\w+)\)\n        _arguments ((?:.|\n)*?)\n        ;;", text, re.M))
    return {it: {name: mark == "=" for name, mark in re.findall(r"'--(\w+)(=?)\[", cases.get(it, ""))} for it in commands}


def fish_knows():
    text = read(FISH)
    commands = re.findall(r"^complete -c aioc -n __fish_use_subcommand -a (\w+) -d '[^']+'$", text, re.M)
    row = r"^complete -c aioc -n '__fish_seen_subcommand_from {}' -l (\w+)( -x)? -d '[^']+'$"
    return {it: {name: bool(valued) for name, valued in re.findall(row.format(it), text, re.M)} for it in commands}


def manual_knows():
    text = read(MANUAL)
    section = text.partition(".SH COMMANDS\n")[2].partition("\n.SH ")[0]
    rows = re.findall(r"^\.TP\n\.B (\w+)(.*)$", section, re.M)
    option = r"\\fB\\-\\-(\w+)\\fR( \\fI\w+\\fR)?\]"
    return {command: {name: bool(value) for name, value in re.findall(option, rest)} for command, rest in rows}


def explained():
    """The options that the manual page explains, and whether they have a value."""
    section = read(MANUAL).partition(".SH OPTIONS\n")[2].partition("\n.SH ")[0]
    return {name: kind == "I" for kind, name in re.findall(r"^\.TP\n\.B(I?) \\-\\-(\w+)", section, re.M)}


# ---- aioc-tool

def commands_of_tool():
    """The commands of aioc-tool with their options, by its lines of usage."""
    rows = re.findall(r'b"(?:usage:|      ) aioc-tool (\w+) ([^"]*)\\n"', read(TOOL))
    return {command: set(re.findall(r"--(\w+)", rest)) for command, rest in rows}


def tool_knows():
    """What each file of the completions knows of aioc-tool."""
    bash, zsh, fish = (read(f"completions/aioc-tool.{it}") for it in ("bash", "zsh", "fish"))
    listed = re.search(r"compgen -W '([^']+)'", bash)[1].split()
    rows = {it: re.search(rf"^    {it}\) .*options='([^']+)'", bash, re.M) for it in listed}
    yield "bash", {it: set(re.findall(r"--(\w+)", row[1] if row else "")) for it, row in rows.items()}
    cases = dict(re.findall(r"^    (\w+)\)\n        _arguments ((?:.|\n)*?)\n        ;;", zsh, re.M))
    commands = re.findall(r"^ +'(\w+):[^']+'$", zsh, re.M)
    yield "zsh", {it: set(re.findall(r"--(\w+)\[", cases.get(it, ""))) for it in commands}
    commands = re.findall(r"^complete -c aioc-tool -n __fish_use_subcommand -a (\w+)", fish, re.M)
    row = r"^complete -c aioc-tool -n '__fish_seen_subcommand_from {}' -l (\w+) -d"
    yield "fish", {it: set(re.findall(row.format(it), fish, re.M)) for it in commands}


def check_tool():
    wanted = commands_of_tool()
    if not wanted:
        return [f"the commands of aioc-tool can't be read from {TOOL}"]
    return [f"completions/aioc-tool.{shell}: it knows {known}, and the program {wanted}"
            for shell, known in tool_knows() if known != wanted]


def check_words():
    wanted = table_of_commands()
    if not wanted:
        return [f"the commands can't be read from {TABLE}"]
    problems = check_tool()
    for file, knows in ((BASH, bash_knows()), (ZSH, zsh_knows()), (FISH, fish_knows()), (MANUAL, manual_knows())):
        for command in sorted(wanted.keys() | knows.keys()):
            if command not in knows:
                problems.append(f"{file}: the command `{command}` is missing")
            elif command not in wanted:
                problems.append(f"{file}: there is no command `{command}`")
            elif wanted[command] != knows[command]:
                problems.append(f"{file}: the options of `{command}` are {told(wanted[command])}, not {told(knows[command])}")
    options = {name: valued for command in wanted.values() for name, valued in command.items()}
    if explained() != options:
        problems.append(f"{MANUAL}: the options to explain are {told(options)}, not {told(explained())}")
    return problems


def told(options):
    return ", ".join(f"--{name} n" if valued else f"--{name}" for name, valued in sorted(options.items())) or "none"
