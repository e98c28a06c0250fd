"""Two hosts on this machine: network namespaces, each with an ssh server of its own behind a pair of virtual interfaces."""
import contextlib
import os
import shutil
import signal
import subprocess
import tempfile
import time

from testing.runner import Skipped

SERVER = """ListenAddress {address}:2022
HostKey {folder}/host
AuthorizedKeysFile {folder}/key.pub
StrictModes no
PermitRootLogin yes
UsePAM no
PidFile {folder}/pid{number}
"""
CLIENT = """Host spread{number}
HostName {address}
Port 2022
User root
IdentityFile {folder}/key
IdentitiesOnly yes
StrictHostKeyChecking no
UserKnownHostsFile /dev/null
LogLevel ERROR
BatchMode yes
"""


def run(*words):
    try:
        quiet = {"stdin": subprocess.DEVNULL, "stdout": subprocess.DEVNULL, "stderr": subprocess.DEVNULL}
        return subprocess.run(words, check=False, **quiet).returncode == 0
    except OSError:
        return False


def need(*words):
    if not run(*words):
        raise Skipped(f"`{' '.join(words)}` fails on this machine")


def address(number, end):
    """The address of a host, at this end 1 or at its own end 2; the process's number keeps two runs apart."""
    return f"10.213.{os.getpid() % 250}.{4 * number + end}"


def begin(folder, number):
    name, near, far = (f"spr{os.getpid()}{it}{number}" for it in ("n", "a", "b"))
    need("ip", "netns", "add", name)
    need("ip", "link", "add", near, "type", "veth", "peer", "name", far)
    need("ip", "link", "set", far, "netns", name)
    need("ip", "addr", "add", f"{address(number, 1)}/30", "dev", near)
    need("ip", "link", "set", near, "up")
    need("ip", "-n", name, "addr", "add", f"{address(number, 2)}/30", "dev", far)
    need("ip", "-n", name, "link", "set", far, "up")
    given = {"folder": folder, "number": number, "address": address(number, 2)}
    with open(f"{folder}/server{number}", "w", encoding="ascii") as it:
        it.write(SERVER.format(**given))
    with open(f"{folder}/config", "a", encoding="ascii") as it:
        it.write(CLIENT.format(**given))
    need("ip", "netns", "exec", name, shutil.which("sshd") or "/usr/sbin/sshd", "-f", f"{folder}/server{number}")
    for _ in range(50):
        if run("ssh", "-F", f"{folder}/config", f"spread{number}", "true"):
            return
        time.sleep(0.1)
    raise Skipped("no host of this machine answers by ssh")


def end(folder, number):
    try:
        with open(f"{folder}/pid{number}", encoding="ascii") as it:
            os.kill(int(it.read()), signal.SIGTERM)
    except (OSError, ValueError):
        pass
    run("ip", "link", "del", f"spr{os.getpid()}a{number}")
    run("ip", "netns", "del", f"spr{os.getpid()}n{number}")


@contextlib.contextmanager
def two_hosts():
    """The file of hosts for GNU parallel: the two, and one that isn't there."""
    if os.geteuid():
        raise Skipped("only root can make network namespaces")
    for program in ("ip", "ssh", "ssh-keygen", "rsync"):
        if not shutil.which(program):
            raise Skipped(f"{program} isn't here")
    if not (shutil.which("sshd") or os.path.exists("/usr/sbin/sshd")):
        raise Skipped("sshd isn't here")
    folder = tempfile.mkdtemp(prefix="spread-hosts-")
    os.makedirs("/run/sshd", exist_ok=True)
    try:
        for key in ("key", "host"):
            need("ssh-keygen", "-q", "-t", "ed25519", "-N", "", "-f", f"{folder}/{key}")
        for number in (1, 2):
            begin(folder, number)
        with open(f"{folder}/config", "a", encoding="ascii") as it:
            it.write(CLIENT.format(folder=folder, number=3, address=address(1, 2)).replace("Port 2022", "Port 2023"))
        with open(f"{folder}/hosts", "w", encoding="ascii") as it:
            it.write("".join(f"2/ssh -F {folder}/config spread{number}\n" for number in (1, 2, 3)))
        yield f"{folder}/hosts"
    finally:
        for number in (1, 2):
            end(folder, number)
        shutil.rmtree(folder, ignore_errors=True)
