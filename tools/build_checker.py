#!/usr/bin/env python3
"""Puts the checker that is one file together: bin/check_certificate.py, from modules of clients/python.

    build_checker.py          writes it
    build_checker.py --check  says whether it is what would be written, with status 1 where it is not

It takes the definitions that the checker rests on, as they stand, and no others. So the file can be copied to wherever Python is,
and be read from its top to its end.
"""
import ast
import sys
from pathlib import Path

from helping import helps

TOP = Path(__file__).resolve().parent.parent
PACKAGE = TOP / "clients" / "python" / "lpd"
TARGET = TOP / "bin" / "check_certificate.py"
# In this order each module stands behind those whose names it uses as it is read.
MODULES = ("number_text", "errors", "replies", "model", "certificate")
FIRST = "check"  # what the checker begins with
HEAD = '''#!/usr/bin/env python3
"""Checks a certificate of a linear program, as `lpd check` does, with sums of any width.

    check_certificate.py [--form free|fixed] [--wide] [MODEL [CERTIFICATE]]

It reads the files, or else standard input: the text of the model, and the certificate behind ENDATA. In front of a certificate that is
a file of its own may stand the answer that it is for, as lpd solve prints it. It prints YES and what the certificate shows, NO and the
number of the first condition that fails, NO CLAIM where the certificate shows another answer than the one in front of it, or an ERR
line. The status is 0 behind YES and behind NO, as that of `lpd check` is, and 9 behind an ERR line: a script tests the first word. Why
a certificate is not accepted goes to standard error. With --wide the numbers in the texts may be of any width too, and a model as large
as `lpd check --wide` takes it.

This one file is all there is to it, and to read: it needs Python 3.8 or later and its standard library, shares nothing with the
program, and is written from docs/FORMATS.md alone. tools/build_checker.py makes it of the checker in clients/python.
"""
from __future__ import annotations

import argparse
import functools
import re
import sys
from dataclasses import dataclass, field
from fractions import Fraction
from math import gcd
from operator import itemgetter
'''
FOOT = '''
# ---- the command


def text_of(paths: List[str]) -> Tuple[str, List[str]]:
    """What is in the files, one behind the other, or on standard input; and the words of the answer in front of the certificate."""
    if not paths:
        return sys.stdin.buffer.read().decode("latin-1"), []
    parts = []
    for path in paths:
        with open(path, "rb") as source:
            parts.append(source.read().decode("latin-1"))
    if len(parts) == 1:
        return parts[0], []
    text = parts[0][:-1] if parts[0].endswith("\\n") else parts[0]
    certificate, claim = without_answer(parts[1])
    return f"{text}\\n{certificate}", claim


def without_answer(text: str) -> Tuple[str, List[str]]:
    """A certificate without the answer in front of it, and the words of that."""
    first, _, rest = text.partition("\\n")
    is_answer = words_of(first)[:1] in ANSWERS and words_of(rest.partition("\\n")[0])[:1] in ANSWERS
    return (rest, words_of(first)) if is_answer else (text, [])


def shows(known: Known, claim: List[str]) -> bool:
    """Whether an answer is the one that is claimed."""
    if not isinstance(known, Optimal):
        return claim == words_of(str(known))
    try:
        return claim[:1] == ["OPTIMAL"] and number(" ".join(claim[1:]), True) == known.value
    except NotANumber:
        return False


def main() -> int:
    parser = argparse.ArgumentParser(description="Checks a certificate behind the text of a model, on standard input or in files.")
    parser.add_argument("files", nargs="*", metavar="MODEL [CERTIFICATE]", help="the text, and the certificate behind it or in a second file")
    parser.add_argument("--form", choices=["free", "fixed"], default="free")
    parser.add_argument("--wide", action="store_true", help="numbers of any width, and large models")
    words = parser.parse_args()
    if len(words.files) > 2:
        parser.error("a model and a certificate are two files at most")
    try:
        text, claim = text_of(words.files)
        verdict = check(text, fixed=words.form == "fixed", wide=words.wide)
    except Refused as refused:
        sys.stdout.buffer.write(refused.reply.encode("latin-1") + b"\\n")
        print(refused, file=sys.stderr)
        return 9
    except OSError as error:
        print(f"{error.filename}: {error.strerror}", file=sys.stderr)
        return 3
    if isinstance(verdict, Accepted) and claim and not shows(verdict.known, claim):
        print("NO CLAIM")
        print(f"the certificate is accepted and shows {verdict.known}, and the answer in front of it is {' '.join(claim)}", file=sys.stderr)
        return 0
    print(verdict)
    if isinstance(verdict, Rejected):
        print(verdict.why, file=sys.stderr)
    return 0


if __name__ == "__main__":
    sys.exit(main())
'''


class Definition:
    """A definition at the top of a module: its text, the names that it gives, and those that it uses."""

    def __init__(self, node, lines, module):
        first = min([node.lineno, *(part.lineno for part in getattr(node, "decorator_list", []))])
        self.text = "\n".join(lines[first - 1 : node.end_lineno])
        self.module, self.is_block = module, isinstance(node, (ast.ClassDef, ast.FunctionDef))
        self.names = {node.name} if self.is_block else {target.id for target in targets_of(node)}
        self.uses = {part.id for part in ast.walk(ast.parse(self.text)) if isinstance(part, ast.Name)}
        self.uses |= {word for part in ast.walk(node) if isinstance(part, ast.Constant) and isinstance(part.value, str) for word in [part.value]}


def targets_of(node):
    """The names that an assignment gives."""
    targets = node.targets if isinstance(node, ast.Assign) else [node.target]
    return [part for target in targets for part in ast.walk(target) if isinstance(part, ast.Name)]


def definitions():
    found = []
    for module in MODULES:
        text = (PACKAGE / f"{module}.py").read_text(encoding="utf-8")
        kinds = (ast.ClassDef, ast.FunctionDef, ast.Assign, ast.AnnAssign)
        found += [Definition(node, text.splitlines(), module) for node in ast.parse(text).body if isinstance(node, kinds)]
    return found


def needed(all_of_them):
    """Those that the first one rests on, in their order. A name that two modules give is taken from the first."""
    by_name, kept, left = {}, set(), [FIRST]
    for one in all_of_them:
        for name in one.names:
            by_name.setdefault(name, one)
    while left:
        one = by_name.get(left.pop())
        if one is not None and one not in kept:
            kept.add(one)
            left += one.uses
    return [one for one in all_of_them if one in kept]


def text_of_checker():
    kept = needed(definitions())
    used = {name for one in kept for name in one.uses}
    typing = {"Callable", "Dict", "Iterable", "List", "Mapping", "NamedTuple", "NoReturn", "Optional", "Sequence", "Set", "Tuple", "Type", "TypeVar", "Union"}
    parts = [f"from typing import {', '.join(sorted(typing & used))}\n"]
    before = None
    for one in kept:
        if before is None or one.module != before.module:
            parts.append(f"\n# ---- {one.module}.py\n\n")
        elif before.is_block or one.is_block:
            parts.append("\n")
        if one.is_block and not parts[-1].startswith("\n# ----"):
            parts.append("\n")
        elif one.is_block:
            parts.append("\n")
        parts.append(f"{one.text}\n")
        before = one
    return HEAD + "".join(parts) + "\n" + FOOT


def main():
    text = text_of_checker()
    if sys.argv[1:] == ["--check"]:
        is_same = TARGET.read_text(encoding="utf-8") == text
        if not is_same:
            print(f"{TARGET.relative_to(TOP)} is not what tools/build_checker.py makes")
        return 0 if is_same else 1
    TARGET.write_text(text, encoding="utf-8")
    return 0


if __name__ == "__main__":
    helps(__doc__)
    sys.exit(main())
