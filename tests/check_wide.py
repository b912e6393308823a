#!/usr/bin/env python3
"""Puts certificates whose numbers have any width to `lpd check --wide`, and compares what it says with the checker in Python.

    check_wide.py [--lpd PROGRAM] [--seed N] [--cases N] [--digits N] [--seconds S]

Each model is a chain of equations, so that its numbers have at most 127 bits and its only solution has as many digits as the
chain is long. Of its certificates (of an optimum, of that there is no point, of a ray) most are changed in one place: a digit,
a sign, a line, a letter, an exponent, a zero in front. The program has to say the line that clients/python says, with the same
status, and within so many seconds.
"""
import argparse
import random
import subprocess
import sys
import time
from fractions import Fraction
from pathlib import Path
from typing import Callable, Dict, List, NamedTuple, Tuple

sys.path.insert(0, str(Path(__file__).resolve().parent.parent / "clients" / "python"))

from lpd import Refused  # noqa: E402  (the package of this repository)
from lpd.certificate import check_lines  # noqa: E402
from lpd.model import lines_of, read_lines  # noqa: E402
from lpd.number_text import digits_of  # noqa: E402

LIMIT = 2**127 - 1
# No line of an input has more bytes.
LONGEST = 16384


class Chain(NamedTuple):
    """Columns of which each is a factor times the one before it, and what its certificates are made of."""

    factors: List[Fraction]
    start: Fraction
    cost: Fraction

    def point(self) -> List[Fraction]:
        values = [self.start]
        for factor in self.factors:
            values.append(factor * values[-1])
        return values

    def multipliers(self, last: Fraction) -> List[Fraction]:
        """Those of the rows, where the last column has this cost."""
        values = [last]
        for factor in reversed(self.factors):
            values.append(factor * values[-1])
        return list(reversed(values))


def number(value: Fraction) -> str:
    sign = "-" if value < 0 else ""
    top = digits_of(abs(value.numerator))
    return f"{sign}{top}" if value.denominator == 1 else f"{sign}{top}/{digits_of(value.denominator)}"


def factor(pick: random.Random) -> Fraction:
    size = pick.choice([3, 10, 30, 60, 100, 126])
    bottom = 1 if pick.random() < 0.5 else pick.randint(1, 2**size)
    value = Fraction(pick.randint(1, 2**size), bottom)
    return -value if pick.random() < 0.3 else value


def chain(pick: random.Random, digits: int) -> Chain:
    factors: List[Fraction] = []
    most, size = pick.randint(1, digits), 0.0
    while size < most and len(factors) < 200:
        factors.append(factor(pick))
        size += len(digits_of(abs(factors[-1].numerator)))
    return Chain(factors, factor(pick), factor(pick))


# ---- models and certificates


def text_of(c: Chain, rows: List[str], columns: List[str], sides: List[str], bounds: List[str]) -> str:
    parts = ["NAME chain", "ROWS", " N cost", *rows, "COLUMNS", *columns, "RHS", *sides, "BOUNDS", *bounds, "ENDATA"]
    return "".join(f"{part}\n" for part in parts)


def columns_of(c: Chain, more: Callable[[int], List[str]]) -> List[str]:
    lines: List[str] = []
    n = len(c.factors)
    for j in range(n + 1):
        if j == n:
            lines.append(f" x{j} cost {number(c.cost)}")
        lines.append(f" x{j} R{j} 1")
        if j < n:
            lines.append(f" x{j} R{j + 1} {number(-c.factors[j])}")
        lines.extend(more(j))
    return lines


def equations(c: Chain) -> List[str]:
    return [f" E R{i}" for i in range(len(c.factors) + 1)]


def free(c: Chain) -> List[str]:
    return [f" FR B x{j}" for j in range(len(c.factors) + 1)]


def optimal(c: Chain, pick: random.Random) -> Tuple[str, List[str]]:
    text = text_of(c, equations(c), columns_of(c, lambda j: []), [f" S R0 {number(c.start)}"], free(c))
    x, y = c.point(), c.multipliers(c.cost)
    return text, ["OPTIMAL", *(f"x x{j} {number(v)}" for j, v in enumerate(x)), *(f"y R{i} {number(v)}" for i, v in enumerate(y))]


def infeasible(c: Chain, pick: random.Random) -> Tuple[str, List[str]]:
    """The last column has to be past its only value by what 127 bits can say of it."""
    n, last = len(c.factors), c.point()[-1]
    above = Fraction(min(LIMIT, int(abs(last)) + 1))
    rows, entry = [*equations(c), " G over"], lambda j: [f" x{n} over 1"] if j == n else []
    side = above if last < above else Fraction(-LIMIT)
    if last >= side and last > 0:
        rows[-1] = " L over"
        side = Fraction(max(-LIMIT, int(last) - 1)) if last < LIMIT else Fraction(LIMIT)
    text = text_of(c, rows, columns_of(c, entry), [f" S R0 {number(c.start)}", f" S over {number(side)}"], free(c))
    sign = 1 if rows[-1] == " G over" else -1
    y = [-sign * v for v in c.multipliers(Fraction(1))]
    return text, ["INFEASIBLE", *(f"y R{i} {number(v)}" for i, v in enumerate(y)), f"y over {sign}"]


def unbounded(c: Chain, pick: random.Random) -> Tuple[str, List[str]]:
    """Without its first equation a chain may grow, to where its cost falls."""
    n = len(c.factors)
    rows = [" L R0", *equations(c)[1:]]
    up = c.point()[-1] * c.cost / c.start > 0
    if not up:
        rows[0] = " G R0"
    text = text_of(c, rows, columns_of(c, lambda j: []), [f" S R0 {number(c.start)}"], free(c))
    x = c.point()
    r = [v / c.start * (-1 if up else 1) for v in x]
    return text, ["UNBOUNDED", *(f"x x{j} {number(v)}" for j, v in enumerate(x)), *(f"r x{j} {number(v)}" for j, v in enumerate(r))]


# ---- changes


def changed_number(word: str, pick: random.Random) -> str:
    way = pick.randrange(9)
    at = pick.randrange(len(word))
    if way == 0:
        return word[:at] + pick.choice("0123456789") + word[at + 1 :]
    if way == 1:
        return word[1:] if word[0] == "-" else f"-{word}"
    if way == 2:
        sign, size = ("-", word[1:]) if word[0] == "-" else ("", word)
        return sign + "0" * pick.randint(1, 40) + size
    if way == 3:
        return word[:at] + word[at + 1 :] or "0"
    if way == 4:
        return word + pick.choice(["e0", "e-0", "e1", "e-1", "e16384", "e16385", "e-16385", "e99999999999999999999", ".", ".0", "/1", "/0"])
    if way == 5 and "/" not in word:
        return f"{word}/1" if pick.random() < 0.5 else f"{word}0/10"
    if way == 6 and "/" in word:
        top, bottom = word.split("/")
        return f"{top}7/{bottom}7" if pick.random() < 0.5 else f"{digits_times(top, 3)}/{digits_times(bottom, 3)}"
    if way == 7 and "/" not in word:
        return f"{word}{'0' * pick.randint(1, 30)}e-{pick.randint(1, 30)}"
    return f"+{word}"


def digits_times(word: str, by: int) -> str:
    sign, size = ("-", word[1:]) if word[0] == "-" else ("", word)
    carry, places = 0, []
    for digit in reversed(size):
        carry, place = divmod(int(digit) * by + carry, 10)
        places.append(str(place))
    return sign + (str(carry) if carry else "") + "".join(reversed(places))


def changed(lines: List[str], pick: random.Random) -> List[str]:
    lines, at = list(lines), pick.randrange(len(lines))
    words = lines[at].split()
    way = pick.randrange(8)
    if way == 0:
        del lines[at]
    elif way == 1:
        lines.insert(pick.randrange(len(lines) + 1), lines[at])
    elif way == 2 and len(words) == 3:
        lines[at] = f"{pick.choice('xyrz')} {words[1]} {words[2]}"
    elif way == 3 and at > 0:
        other = pick.randrange(1, len(lines))
        lines[at], lines[other] = lines[other], lines[at]
    elif len(words) == 3:
        lines[at] = f"{words[0]} {words[1]} {changed_number(words[2], pick)}"
    return lines


# ---- both checkers


def expected(text: str) -> Tuple[str, int]:
    lines = lines_of(text)
    try:
        model, count = read_lines(lines)
        return f"{check_lines(model, lines[count:], wide=True)}\n", 0
    except Refused as refused:
        return f"{refused.reply}\n", 9


def said(program: List[str], text: str) -> Tuple[str, int]:
    end = subprocess.run([*program, "check", "--wide"], input=text.encode("latin-1"), stdout=subprocess.PIPE, timeout=600)
    return end.stdout.decode("latin-1"), end.returncode


def case(pick: random.Random, digits: int) -> str:
    text, lines = pick.choice([optimal, infeasible, unbounded])(chain(pick, digits), pick)
    if pick.random() < 0.7:
        lines = changed(lines, pick)
    return text + "".join(f"{line}\n" for line in [*lines, "END"])


def main() -> int:
    parser = argparse.ArgumentParser(description="Compares `lpd check --wide` with the checker in Python.")
    parser.add_argument("--lpd", default=str(Path(__file__).resolve().parent.parent / "lpd"), help="the program")
    parser.add_argument("--seed", type=int, default=1)
    parser.add_argument("--cases", type=int, default=100)
    parser.add_argument("--digits", type=int, default=5000, help="about how many a number has at the most")
    parser.add_argument("--seconds", type=float, default=10.0, help="how long the program may take for one")
    words = parser.parse_args()
    counts: Dict[str, int] = {}
    slowest, wrong, widest = 0.0, 0, 0
    for n in range(words.cases):
        text = case(random.Random(f"{words.seed}/{n}"), words.digits)
        begin = time.monotonic()
        got = said([words.lpd], text)
        seconds = time.monotonic() - begin
        slowest, widest = max(slowest, seconds), max(widest, max(map(len, text.split())))
        counts[got[0].split()[0]] = counts.get(got[0].split()[0], 0) + 1
        if got != expected(text) or seconds > words.seconds:
            wrong += 1
            print(f"case {words.seed}/{n}: {got[0][:60]!r} {got[1]} in {seconds:.1f} s, and not {expected(text)[0][:60]!r}")
            Path(f"wide-{words.seed}-{n}.in").write_text(text, encoding="latin-1")
    told = ", ".join(f"{word} {count}" for word, count in sorted(counts.items()))
    print(f"{words.cases} certificates ({told}), numbers of up to {widest} bytes, at most {slowest:.2f} s each: {wrong} differ")
    return 1 if wrong else 0


if __name__ == "__main__":
    sys.exit(main())
