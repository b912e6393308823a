#!/usr/bin/env python3
"""Runs each snippet of the documents exactly as it stands, in a copy of the repository, from the folder that the text says.

    check_snippets.py

A snippet is a block between lines ``` that says python behind the first, or begins with a command of this repository. It is run
at the top, or in the folder of its page where the paragraph before it says "in this folder". The snippets of a page are run
one after the other in one shell. A command `./lpd serve` runs beside those that follow on its page, and has to listen; where a
page speaks of a server at 127.0.0.1 that it does not begin, one is begun for it. The file SCRIPT is a script for a link. A command has to end with status 0, or with the one of the table below. What needs a solver or a package that is not
there is left out, and said in a line SKIPPED. The status is 1 where a command ends otherwise, and 2 without the program.
"""
import os
import re
import shutil
import socket
import subprocess
import sys
import tempfile
import time
from pathlib import Path

TOP = Path(__file__).resolve().parent.parent
sys.path.insert(0, str(TOP / "tools"))

from helping import helps  # noqa: E402

PROGRAM = TOP / "crates" / "lpd" / "out" / "lpd"
SECONDS = 1200
BLOCK = re.compile(r"^```(\w*)\n(.*?)^```$", re.S | re.M)
COMMANDS = ("./lpd ", "python3 ", "lpd-py ", "export ", "for file in ", "{ ")
SERVER = re.compile(r"127\.0\.0\.1[:\", ]+(\d+)")
# What a command ends with that does not end with 0, by its words.
STATUSES = {
    "orders.mps --set-rhs screws=6": 0,  # which its advice makes feasible
    "solve examples/models/orders.mps": 10,
    "examples/models/departments.mps --iis": 10,
    "check examples/no-contradiction.mps": 1,
}
NEEDED = {"--with glpsol": "glpsol", " theorem ": "coqc", "coqc ": "coqc"}
# The gate runs this script, and is not run by it.
GATE = ".ci/run"
# The Python that packages of Debian are for, where another one stands before it on the path.
DEBIAN = "/usr/bin/python3"
LINK = "LOAD FREE\n{text}SOLVE\nQUIT\n"


def pages():
    return [TOP / "README.md", TOP / "clients" / "python" / "README.md", *sorted((TOP / "docs").rglob("*.md")), *sorted((TOP / "examples").glob("*/README.md"))]


def snippets(page):
    """Each snippet of a page with its language and its folder."""
    text = page.read_text(encoding="utf-8")
    for found in BLOCK.finditer(text):
        before = text[: found.start()].rstrip().rpartition("\n\n")[2].lower()
        if found[1] == "python" or not found[1] and found[2].startswith(COMMANDS):
            yield found[1], found[2], page.parent.relative_to(TOP) if "in this folder" in before else Path()


def copy_of_repository(room):
    """The repository but for its crates, to which a link leads."""
    top = room / "repository"
    shutil.copytree(TOP, top, symlinks=True, ignore=lambda folder, _: {"crates", ".git", "__pycache__"} if Path(folder) == TOP else {"__pycache__"})
    (top / "crates").symlink_to(TOP / "crates")
    (top / "SCRIPT").write_text(LINK.format(text=(top / "examples" / "models" / "diet.mps").read_text()))
    return top


def has_packages(python):
    """Whether a Python has the packages that snippets use and that are not of the standard library."""
    return subprocess.run([python, "-c", "import pulp, distributed"], capture_output=True).returncode == 0


def is_missing(language, snippet):
    """What a snippet needs that is not there."""
    if language == "python":
        names = re.findall(r"^(?:import|from) (\w+)", snippet, re.M)
        return next((name for name in names if name != "lpd" and subprocess.run(["python3", "-c", f"import {name}"], capture_output=True).returncode), None)
    if "distributed.cli" in snippet and subprocess.run(["python3", "-c", "import distributed"], capture_output=True).returncode:
        return "distributed"
    return next((tool for words, tool in NEEDED.items() if words in snippet and not shutil.which(tool)), None)


def lines_of(language, snippet, room, number):
    """The lines that a shell runs for a snippet."""
    if language != "python":
        return [line for line in snippet.replace("\\\n", " ").splitlines() if line != GATE]
    path = room / f"snippet{number}.py"
    path.write_text(snippet)
    return [f"python3 {path}"]


def listens(port):
    with socket.socket() as link:
        return link.connect_ex(("127.0.0.1", int(port))) == 0


def waits(port):
    """Whether something listens at this port of the machine within two minutes."""
    end = time.monotonic() + 120
    while not listens(port) and time.monotonic() < end:
        time.sleep(0.1)
    return listens(port)


class Servers:
    """The servers that a page speaks of and does not begin, until the end of the block."""

    def __init__(self, page):
        self.servers = {}
        self.own = {port for _, snippet, _ in snippets(page) for line in snippet.splitlines() if begins_server(line) for port in SERVER.findall(line)}

    def __enter__(self):
        return self

    def __exit__(self, *_):
        for server in self.servers.values():
            server.kill()
            server.wait()

    def begin(self, snippet):
        """Begins a server at each address that the snippet names; why that is not possible."""
        for port in set(SERVER.findall(snippet)) - self.servers.keys():
            if listens(port):
                return f"something else listens at 127.0.0.1:{port}"
            if port not in self.own and "distributed.cli" not in snippet:
                self.servers[port] = subprocess.Popen([str(PROGRAM), "serve", f"127.0.0.1:{port}", "--each", "9"], stdout=subprocess.DEVNULL)
                if not waits(port):
                    return f"no server listens at 127.0.0.1:{port}"
        return None


def begins_server(line):
    return line.startswith(("./lpd serve ", "python3 examples/serve/orderly.py "))


def script_of(page, top, room, servers):
    """The script of a page, and its commands in their order."""
    script, commands = ["servers="], []
    for number, (language, snippet, folder) in enumerate(snippets(page)):
        missing = is_missing(language, snippet) or servers.begin(snippet)
        if missing:
            why = missing if " " in missing else f"there is no {missing}"
            print(f"SKIPPED: a snippet of {page.relative_to(TOP)}, since {why}")
            continue
        script.append(f"cd '{top / folder}'")
        for line in lines_of(language, snippet, room, number):
            if begins_server(line):
                wait = f"'{sys.executable}' '{Path(__file__).resolve()}' --wait {SERVER.findall(line)[0]}"
                script.append(f'{line} & servers="$servers $!"\n{wait}')
            else:
                script.append(line)
            script.append('echo "$?" >&3')
            commands.append(line if language != "python" else f"the snippet {number} in Python: {snippet.splitlines()[0]}")
    return "\n".join([*script, '[ -z "$servers" ] || kill $servers']) + "\n", commands


def wanted(command):
    return next((status for words, status in STATUSES.items() if words in command), 0)


def faults_of(page, top, room):
    """What ends otherwise than it should."""
    with Servers(page) as servers:
        script, commands = script_of(page, top, room, servers)
        told = room / "statuses"
        with open(room / "said", "w+b") as said:
            words = ["timeout", str(SECONDS), "sh", "-c", f"exec 3>'{told}'\n{script}"]
            done = subprocess.run(words, cwd=top, stdin=subprocess.DEVNULL, stdout=said, stderr=said)
            said.seek(0)
            tail = said.read().decode("utf-8", "replace")[-2000:]
    statuses = [int(line) for line in told.read_text().split()]
    if len(statuses) != len(commands):
        yield f"the shell ended with {done.returncode} after {len(statuses)} of {len(commands)} commands: {tail}"
    for command, status in zip(commands, statuses):
        if status != wanted(command):
            yield f"{command} ends with {status}, and not {wanted(command)}: {tail}"


def main():
    if sys.argv[1:2] == ["--wait"]:
        return 0 if waits(sys.argv[2]) else 1
    if not os.access(PROGRAM, os.X_OK):
        print("the program is not built")
        return 2
    if not has_packages("python3") and os.path.exists(DEBIAN) and has_packages(DEBIAN):
        os.environ["PATH"] = f"{os.path.dirname(DEBIAN)}:{os.environ['PATH']}"
    os.environ.pop("PYTHONPATH", None)
    os.environ.pop("LPD", None)
    wrong = 0
    for page in pages():
        with tempfile.TemporaryDirectory(prefix="lpd-snippets-") as folder:
            for fault in faults_of(page, copy_of_repository(Path(folder)), Path(folder)):
                wrong += 1
                print(f"{page.relative_to(TOP)}: {fault}")
    return 1 if wrong else 0


if __name__ == "__main__":
    helps(__doc__)
    sys.exit(main())
