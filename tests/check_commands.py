#!/usr/bin/env python3
"""Checks that the manual, the usage and the completion name the commands and options that the program takes.

    check_commands.py

The program takes those of the table `commands` in crates/spec_program/specs/CommandLine.antt. docs/CLI.md, of which the manual
page is made, has to describe each command with as many plain words, and each of its options. The usage of
crates/lpd/src/usage.rt has to name each command with as many plain words, and each option. bash, completing by
completions/lpd.bash, has to offer each command, then nothing for a plain word, and then the options that are not given yet; these also
behind the word for all numbers, which stands alone. In place
of a command there may stand the notices of `named` in crates/lp_command_line/specs/Notices.antt, which the manual's synopsis
and bash have to name too. The version that the program shows, and that its definition has, is that of the file VERSION. It
prints what differs; the status is 1 where something does.
"""
import re
import subprocess
import sys
from pathlib import Path

TOP = Path(__file__).resolve().parent.parent
sys.path.insert(0, str(TOP / "tools"))

from helping import helps  # noqa: E402

TABLE = TOP / "crates" / "spec_program" / "specs" / "CommandLine.antt"
PAGE = TOP / "docs" / "CLI.md"
USAGE = TOP / "crates" / "lpd" / "src" / "usage.rt"
NOTICES = TOP / "crates" / "lp_command_line" / "specs" / "Notices.antt"
# The files with the line of the version, and how it stands there.
VERSIONS = {
    TOP / "crates" / "lpd" / "src" / "notice.rt": r'^const VERSION: &str = "lpd ([^"]*)\\n";$',
    TOP / "crates" / "lpd" / "specs" / "Notices.antt": r'^IsTextOf Version text = text ≡ codes "lpd ([^"]*)" \+\+ 10 ∷ \[\]$',
}
COMPLETION = TOP / "completions" / "lpd.bash"
ROW = re.compile(r"^(\w+)(?: \w+)* = record \{\s*plain = (?:λ words\. )?(\w+);\s*names = ([^;]*);\s*switches = ([^;]*);", re.M)
# How many plain words there are where the first of them decides: of a word that stands alone, and of others.
ALONE = re.compile(r"^(\w+) \[\] = (\d+)\n\1 \(what ∷ words\) = if is_(\w+) what then 1 else \2$", re.M)
NAMES = re.compile(r'(?:codes "--[\w-]+" ∷ )*\[\]')
COMMAND = re.compile(r'\(codes "([\w-]+)", (\w+)(?: \w+)*\)')
COMPLETES = 'source "$1"; shift; COMP_WORDS=("$@"); COMP_CWORD=$(($# - 1)); _lpd; printf "%s\\n" "${COMPREPLY[@]}"'


def taken():
    """The commands that the program takes: of each, how many plain words it has, which options, and which of these are switches."""
    text = TABLE.read_text(encoding="utf-8")
    counts = {name: count for name, count, _ in ALONE.findall(text)}
    rows = {}
    for name, plain, *options in ROW.findall(text):
        for names in options:
            if not NAMES.fullmatch(" ".join(names.split())):
                raise ValueError(f"{TABLE.relative_to(TOP)}: the options of {name} are not read: {names}")
        rows[name] = int(counts.get(plain, plain)), *(set(re.findall(r'"([^"]+)"', names)) for names in options)
    table = re.search(r"^commands =\s+(.*?)\n\n", text, re.M | re.S)
    if not table or COMMAND.sub("", table[1]).split() != ["∷"] * len(COMMAND.findall(table[1])) + ["[]"]:
        raise ValueError(f"{TABLE.relative_to(TOP)}: the table of commands is not read")
    commands = dict(COMMAND.findall(table[1]))
    if not commands or not set(commands.values()) <= rows.keys():
        raise ValueError(f"{TABLE.relative_to(TOP)}: the rows of the table of commands are not read")
    return {command: rows[row] for command, row in commands.items()}


def alone():
    """The words that stand alone in place of a command's plain words."""
    text = TABLE.read_text(encoding="utf-8")
    return {name.removesuffix("_plain"): word for name, _, word in ALONE.findall(text) if f'is_{word} word = same word (codes "{word}")' in text}


def shown():
    """The words that ask for a notice."""
    found = re.search(r"^named word =\n(.*?)\n\n", NOTICES.read_text(encoding="utf-8"), re.M | re.S)
    words = re.findall(r'same word \(codes "(--[\w-]+)"\)', found[1]) if found else []
    if not words:
        raise ValueError(f"{NOTICES.relative_to(TOP)}: the notices are not read")
    return set(words)


def section(title):
    return re.search(rf"^## {title}\n(.*?)(?=^## )", PAGE.read_text(encoding="utf-8"), re.M | re.S)[1]


def add_option(commands, command, option, is_switch):
    """One more option of a command."""
    _, options, switches = commands.setdefault(command, (0, set(), set()))
    options.add(option)
    if is_switch:
        switches.add(option)


def described():
    """The same of the commands that the manual describes."""
    commands = {}
    for command, *plain in map(str.split, re.findall(r"^### `lpd (.*)`$", section("Commands"), re.M)):
        commands[command] = len(plain), set(), set()
    for command, option, value in re.findall(r"^\| (\S+) \| `(--\S+)( [^`]+)?` \|", section("Options"), re.M):
        add_option(commands, command, option, not value)
    return commands


def used():
    """The same of the commands that the usage names."""
    tables = r"^pub static (?:COMMANDS|OPTIONS): [^=]*= \[(.*?)^\];"
    commands, options = re.findall(tables, USAGE.read_text(encoding="utf-8"), re.M | re.S)
    named = {}
    for head in re.findall(r'\(\s*"([\w-]+(?: [A-Z]+)*)",', commands):
        command, *plain = head.split()
        named[command] = len(plain), set(), set()
    for heading, option, value in re.findall(r'\(\s*"Options of ([\w, -]+)",\s*"([\w-]+)",\s*"([^"]*)",', options):
        for command in re.split(", | and ", heading):
            add_option(named, command, f"--{option}", not value)
    return named


def wrong_usage(commands):
    """Where the usage names something else than what the program takes."""
    found = used()
    for command in sorted(commands.keys() | found.keys()):
        if found.get(command) != commands.get(command):
            yield f"crates/lpd/src/usage.rt: of {command} it names {found.get(command)}, and not {commands.get(command)}"


def completed(*words):
    """What bash offers after these words."""
    command = ["bash", "-c", COMPLETES, "bash", COMPLETION, "lpd", *words, ""]
    return set(subprocess.run(command, capture_output=True, text=True, check=True).stdout.split())


def wrong_completions(commands, notices):
    """Where the completion offers something else than what the program takes."""
    tried = [((), set(commands) | notices)]
    for command, (plain, options, switches) in commands.items():
        tried += [((command, *["1"] * count), set()) for count in range(plain)]
        tried += [((command, word), options) for name, word in alone().items() if name == command]
        words = (command, *["1"] * plain)
        tried.append((words, options))
        tried += [((*words, option, "1"), options - {option}) for option in options - switches]
        tried += [((*words, option), options - {option}) for option in switches]
    for words, wanted in tried:
        found = completed(*words)
        if found != wanted:
            after = " ".join(["lpd", *words])
            yield f"completions/lpd.bash: after '{after}' it offers {sorted(found)}, and not {sorted(wanted)}"


def wrong_versions():
    """Where the line of the version has another one than the file VERSION."""
    version = (TOP / "VERSION").read_text(encoding="ascii").strip()
    for path, line in VERSIONS.items():
        found = re.findall(line, path.read_text(encoding="utf-8"), re.M)
        if found != [version]:
            yield f"{path.relative_to(TOP)}: it has the versions {found}, and VERSION has {version}"


def wrong_descriptions(commands, notices):
    """Where the manual names something else than what the program takes."""
    synopsis = set(re.findall(r"--[a-z]+", section("Synopsis")))
    if synopsis != notices:
        yield f"docs/CLI.md: its synopsis names {sorted(synopsis)}, and not {sorted(notices)}"
    found = described()
    for command in sorted(commands.keys() | found.keys()):
        if found.get(command) != commands.get(command):
            yield f"docs/CLI.md: of {command} it names {found.get(command)}, and not {commands.get(command)}"


def main():
    try:
        commands, notices = taken(), shown()
    except ValueError as error:
        print(error)
        return 1
    wrong = [*wrong_descriptions(commands, notices), *wrong_usage(commands), *wrong_completions(commands, notices)]
    wrong += wrong_versions()
    for what in wrong:
        print(what)
    return 1 if wrong else 0


if __name__ == "__main__":
    helps(__doc__)
    sys.exit(main())
