"""What the tools read of the repository: its crates, what each uses, and the edits that belong to them."""
import os
import shutil
import subprocess

TOP = os.path.dirname(os.path.dirname(os.path.dirname(os.path.realpath(__file__))))
MADE = {"out", "out-tc"}


def read_crates(root=TOP):
    """The libraries of the repository that each crate of crates.txt uses."""
    named = {}
    with open(f"{root}/crates.txt", encoding="utf-8") as lines:
        for line in lines:
            head, colon, uses = line.partition("#")[0].partition(":")
            if colon:
                named[head.split()[0]] = uses.split()
    return {name: [it for it in uses if it in named] for name, uses in named.items()}


def with_those_below(names, uses):
    """These crates and those that they use, near or far."""
    every = [*names]
    for name in every:
        every += [it for it in uses[name] if it not in every]
    return every


def with_those_above(names, uses):
    """These crates and those that use them, near or far, in the order of crates.txt."""
    return [name for name in uses if {*with_those_below([name], uses)} & {*names}]


def copy_repository(to, names, root=TOP):
    """Copies what the gate reads of these crates, without what checks kept."""
    if os.path.isfile(f"{root}/HANDLES"):
        shutil.copy2(f"{root}/HANDLES", f"{to}/HANDLES")
    with open(f"{root}/crates.txt", encoding="utf-8") as lines, open(f"{to}/crates.txt", "w", encoding="utf-8") as kept:
        kept.writelines(line for line in lines if line.partition(":")[0].split()[:1] and line.split()[0].rstrip(":") in names)
    for name in names:
        os.makedirs(f"{to}/crates/{name}", exist_ok=True)
        for part in sorted({*os.listdir(f"{root}/crates/{name}")} - MADE):
            path = f"{root}/crates/{name}/{part}"
            (shutil.copytree if os.path.isdir(path) else shutil.copy2)(path, f"{to}/crates/{name}/{part}")


def edits_in(crate, shelf, root=TOP):
    """The files of a crate's edits on one of its two shelves, must-fail or mutants."""
    folder = f"{root}/crates/{crate}/{shelf}"
    names = sorted(os.listdir(folder)) if os.path.isdir(folder) else []
    return [f"{folder}/{it}" for it in names if it.endswith(".edit")]


def changed_since(revision, root=TOP):
    """The crates of which a file in src/, specs/, proofs/, must-fail/ or mutants/ differs from a revision, or is new."""
    git = ["git", "-C", root]
    told = subprocess.run([*git, "diff", "--name-only", "--no-renames", revision, "--", "crates"],
                          stdout=subprocess.PIPE, text=True, check=True).stdout
    told += subprocess.run([*git, "ls-files", "--others", "--exclude-standard", "--", "crates"],
                           stdout=subprocess.PIPE, text=True, check=True).stdout
    parts = [it.split("/") for it in told.splitlines()]
    found = {it[1] for it in parts if len(it) > 3 and it[2] in ("src", "specs", "proofs", "must-fail", "mutants")}
    return [name for name in read_crates(root) if name in found]
