"""Texts for tests/check_page.py: each fault of a model's text, the edges of the formats, claims, and a large model."""
import random

FREE = """NAME a
OBJSENSE MIN
ROWS
 N cost
 N other
 L r
 G s
COLUMNS
 x cost 1 r 1
 x s 1
 y cost 2 other 1
RHS
 RHS r 4 s 1
RANGES
 RNG r 2
BOUNDS
 UP BND x 3
ENDATA
"""
FIXED = """NAME          a
OBJSENSE MIN
ROWS
 N  cost
 N  other
 L  r
 G  s
COLUMNS
    x         cost      1              r         1
    x         s         1
    y         cost      2              other     1
RHS
    RHS       r         4              s         1
RANGES
    RNG       r         2
BOUNDS
 UP BND       x         3
ENDATA
"""
LAST = 18


def changed(text, line, *new):
    """A text with other lines in place of one."""
    lines = text.splitlines()
    return "".join(f"{each}\n" for each in [*lines[: line - 1], *new, *lines[line:]])


def free(code, line, *new, at=None):
    return changed(FREE, line, *new), False, at or line, code


def fixed(code, line, *new, at=None):
    return changed(FIXED, line, *new), True, at or line, code


ROWS = [f" L row{i}" for i in range(257)]
COLUMNS = [f" c{j} cost 1" for j in range(513)]
WIDE = str(2**127)

# A text, whether it is of fixed form, and the line and the number of its fault.
FAULTS = [
    free(1, 3, "RHS"), free(1, 8, "ENDATA"), free(1, 12, "COLUMNS"), free(1, 14, "RHS"), free(1, 2, "NAME b"),
    fixed(1, 16, "ROWS"),
    free(2, 3, "ROW"), free(2, 12, "rhs"), free(2, 3, "\x00"), fixed(2, 16, "SOS1"),
    free(3, 6, " L r r"), free(3, 9, " x cost"), free(3, 12, "RHS", " 1", at=13), free(3, 13, " RHS r 4 s 1 x"),
    free(3, 17, " UP x"),
    free(3, 17, " FR"), free(3, 2, "OBJSENSE LESS"), free(3, 2, "OBJSENSE MIN", " MAX", at=3), free(3, 1, " a"),
    free(3, 2, "OBJSENSE", " MIN MIN", at=3),
    fixed(3, 6, " L  r       more"), fixed(3, 9, "    x         cost     1"), fixed(3, 9, "    x\tcost 1"),
    fixed(3, 6, " L"),
    fixed(3, 13, " X  RHS       r         4"), fixed(3, 17, " UP BND       x         3              r"),
    fixed(3, 9, "    x         cost      1              r"),
    free(4, 6, " X r"), free(4, 6, " l r"), fixed(4, 6, " LL r"),
    free(5, 7, " G r"), free(5, 7, " G other"), free(5, 7, " L cost"), fixed(5, 7, " G  r"),
    free(6, 9, " x no 1"), free(6, 13, " RHS r 4 no 1"), free(6, 15, " RNG x 2"),
    fixed(6, 13, "    RHS       no        4"),
    free(7, 11, " y cost 2", " x r 1", at=12),
    fixed(7, 11, "    y         cost      2", "    x         r         1", at=12),
    free(8, 9, " x r 1 r 1"), free(8, 10, " x r 0"), free(8, 13, " RHS r 4 r 4"),
    free(8, 15, " RNG r 1", " RNG r 1", at=16),
    free(8, 9, " x cost 0 cost 0"), free(8, 13, " RHS cost 1 cost 1"), fixed(8, 10, "    x         r         0"),
    free(8, 11, " y other 1 other 2"), free(8, 13, " RHS other 1 other 2"),
    fixed(8, 11, "    y         other     0              other     1"),
    free(9, 9, " x cost 1x"), free(9, 9, " x cost 1/0"), free(9, 9, " x cost ."), free(9, 9, " x cost 1e"),
    free(9, 9, " x cost inf"),
    free(9, 11, " y other one"), free(9, 17, " UP BND x infinit"), fixed(9, 9, "    x         cost      1 2"),
    free(10, 9, f" x cost {WIDE}"), free(10, 9, " x cost 1e39"), free(10, 9, " x cost 1e-39"),
    free(10, 9, f" x cost 1/{WIDE}"),
    free(10, 9, " x cost 1e99999999999999999999"), free(10, 17, f" UP BND x 0.{WIDE}"),
    fixed(10, 9, "    x         cost      1e99"),
    free(11, 17, " ZZ BND x 3"), free(11, 17, " UP BND x -inf"), free(11, 17, " LO BND x 1e20"),
    free(11, 17, " FX BND x -1e20"), free(11, 17, " FX x inf"),
    fixed(11, 17, "    BND       x         3"), fixed(11, 17, " UP BND       x         -Infinity"),
    free(12, 9, " m 'MARKER' 'INTORG'"), free(12, 17, " BV BND x"), free(12, 17, " LI BND x 3"),
    free(12, 17, " UI BND x 3 4 5"),
    fixed(12, 9, "    m         'MARKER'                 'INTORG'"), fixed(12, 17, " BV BND       x"),
    free(13, 17, " SC BND x 3"), fixed(13, 17, " SC BND       x         3"),
    free(14, 17, " UP BND z 3"), free(14, 17, " UP x 3 4"), free(14, 17, " FR r"), fixed(14, 17, " FR BND       r"),
    ("ROWS\n L r\nCOLUMNS\n x r 1\nENDATA\n", False, 3, 15), ("ROWS\nCOLUMNS\nENDATA\n", True, 2, 15),
    free(16, 5, *ROWS, at=261), free(16, 8, "COLUMNS", *COLUMNS, at=521), free(16, 5, "*" * 16385),
    free(16, 5, "*" * 16385 + "\r"), fixed(16, 5, " " * 16385),
    free(17, 1, "NAME " + "a" * 65), free(17, 1, "NAME a\x7f"), free(17, 6, " L " + "r" * 65),
    free(17, 6, " L 'MARKER'"), free(17, 9, " \xe9 cost 1"),
    fixed(17, 6, " L  r r"), fixed(17, 9, "    x y       cost      1"),
    free(18, 15, " RNG cost 2"), fixed(18, 15, "    RNG       cost      2"),
    (FREE.replace("ENDATA\n", ""), False, LAST, 19), ("", False, 1, 19), ("\n", True, 2, 19),
    (FIXED[: FIXED.index("ENDATA")] + "* end", True, LAST + 1, 19),
]

# Texts at the edges of docs/FORMATS.md: what is said of each is what PROGRAM says.
SMALL = """NAME a
ROWS
 N cost
 N other
 L r
COLUMNS
 x cost 1 r 1
RHS
 RHS r 4
BOUNDS
 UP BND x 3
ENDATA
"""
NONE = "OPTIMAL\nEND\n"
# What a text is changed from, and to.
REPLACED = [
    ("ROWS", "ROWS x y"), ("ENDATA", "ENDATA x y"), ("NAME a", "NAME a b c"), ("NAME a", "OBJSENSE MAX MIN x"),
    ("RHS\n", "RHS z\n"), ("BOUNDS", "BOUNDS\r"), ("BOUNDS\n", "BOUNDS \r\r\n"), ("BOUNDS\n", "\r\r\nBOUNDS\n"),
    ("BOUNDS\n", " \t\r\r\nBOUNDS\n"), ("BOUNDS\n", "\r*\nBOUNDS\n"), (" r 1\n", " r 1 \r\n"),
    (" r 1\n", " r 1\r\r\n"), ("\n", "\r\n"), ("ENDATA\n", "ENDATA\r"), ("ENDATA\n", "ENDATA"),
    (" x cost 1 r 1", " 'MARKER'"), (" x cost 1 r 1", " m 'MARKER'"),
    (" x cost 1 r 1", " 'MARKER' cost 1"), (" x cost 1 r 1", " x 'MARKER' 1 1 1 1"), (" L r", " L 'MARKER'"),
]
SECTIONS = """OBJSENSE; MAX|OBJSENSE;MAX|OBJSENSE;\tMAX  |OBJSENSE;    MAXIMIZE|OBJSENSE; max|OBJSENSE MAXI
OBJSENSE;;* c; MIN|OBJSENSE;OBJSENSE|OBJSENSE;NAME x; MAX|NAME a; MAX""".replace("\n", "|").split("|")
SIDES = """RHS; r 4; RHS r 5|RHS; RHS r 4; r 5; B r 9|RHS; r 4 cost 2|RHS; r 4 cost 2 1 1|RHS; r|RHS; r other 1
RHS; a r 4 other 5; a other 5 other 7|RANGES; R other 4; R other 5; Q zz zz|RANGES; R r 0|RANGES; cost 1|RHS; zz r x
RHS; RHS r 4; RHS2 zz qq|RHS; zz r 4; r 5
RHS; other 9 r 4|RANGES; R other 4 other 5|RANGES; R other x""".replace("\n", "|").split("|")
BOUNDS = """ UP x -1| UP x -1; UP x 1| LO x 0; UP x -1| MI x; UP x -1| UP x -1e-3; LO x -5| UP x -1e20| UP x 1e20
 LO x -1e20| LO x 100000000000000000000| LO x 99999999999999999999.9| UP x 1/1| UP x 200000000000000000000/2
 UP x 1e99999999999999999999| UP x -1e99999999999999999999| LO x 1e-99999| UP x INF| UP x +InFiNiTy| UP x -0| PL x
 PL BND x 3| BV x| FX x 2; FR x; UP x -1| UP q x| FR x; FR B x| FR x; UP x 3""".replace("\n", "|").split("|")
FIXED_BOUNDS = """ FR BND       x| FR BND       x         zzz| FR BND       x         1              r| UP BND       x
 FR BND       x                                  1| UP           x         3|    BND       x         3
 UP BND       x         1 2| UPBND       x         3| U  BND       x         3|  U BND       x         3
\tUP BND       x         3| UP BND       x         3\t""".replace("\n", "|").split("|")
FIXED_ROWS = [" N  c", " N  c   d", " N c", " N  cost", " L", " L  q           q", " L  q   q"]
CERTIFICATES = """|OPTIMAL|OPTIMAL;END\r| OPTIMAL\t;\tEND ;|OPTIMAL x;END;|OPTIMAL;END x;|CLASH x;x x 1;END;|CLASH;END;
OPTIMAL;y cost 1;END;|OPTIMAL;y other 1;END;|OPTIMAL;r x 1;END;|OPTIMAL;x x 1;x x 2;x q 1;END;|OPTIMAL;x x 1e;END;
OPTIMAL;x x inf;END;|;OPTIMAL;END;|INFEASIBLE;x x 1;END;|OPTIMAL;x x 1;* c;END;|OPTIMAL;x x 1;;END;|optimal;END;
UNBOUNDED;END;|CLASH q;END;|CLASH x y;END;|OPTIMAL;x x 3;y other -1;END;|INFEASIBLE;y other 1;y r -1;END;
INFEASIBLE;END;|OPTIMAL;END;END;|OPTIMAL;x x 1 1;END;|OPTIMAL;x;END;|OPTIMAL;x q 1;x x 1e;END;
UNBOUNDED;r x 1;x x -1;END;""".replace("\n", "|").split("|")
FIXED_SMALL = """ROWS
 N  cost
 L  r
COLUMNS
    x         cost      1              r         1
BOUNDS
%s
ENDATA
"""


def lines(text):
    return text.replace(";", "\n")


def edges():
    """The text of a model, whether it is of fixed form, and a certificate."""
    yield from ((SMALL.replace(*pair), False, NONE) for pair in REPLACED)
    yield from ((SMALL.replace("RHS\n RHS r 4", lines(side)), False, NONE) for side in SIDES)
    for bound in BOUNDS:
        text = SMALL.replace(" UP BND x 3", lines(bound))
        for said in ("OPTIMAL;x x 1;y r 1;END;", "CLASH x;END;", "UNBOUNDED;r x -1;END;"):
            yield text, False, lines(said)
    for section in SECTIONS:
        text = lines(section) + "\nROWS\n N  cost\nCOLUMNS\nENDATA\n"
        yield from ((text, fixed, NONE) for fixed in (False, True))
    yield from ((FIXED_SMALL % bound, True, NONE) for bound in FIXED_BOUNDS)
    # Bytes up to column 62 and from 63 on.
    for width in (60, 61, 62):
        yield FIXED_SMALL % (" UP BND       x         3".ljust(width) + "x"), True, NONE
    yield from ((f"ROWS\n N  cost\n{row}\nCOLUMNS\nENDATA\n", True, NONE) for row in FIXED_ROWS)
    yield from ((SMALL, False, lines(said)) for said in CERTIFICATES)
    # Lines of up to 16,384 bytes and longer ones.
    for zeros in (16379, 16380, 16381):
        yield from ((SMALL, False, f"OPTIMAL\nx x {'0' * zeros}{end}END\n") for end in ("\n", "\r\n"))


def wide_edges():
    """As edges, of what is read where numbers may have any width, and of what is not there either."""
    for rows, columns in ((257, 513), (65536, 1), (65537, 1), (1, 131072), (1, 131073)):
        heads = ["ROWS", " N cost", *(f" L row{i}" for i in range(rows)), "COLUMNS", *(f" c{j} cost 1" for j in range(columns))]
        yield "\n".join([*heads, "ENDATA", ""]), False, "OPTIMAL\nEND\n"
    for number in ("1e16384", "1e16385", "-1e-16384", "1e-16385", "10e16383", "10e16384", "1.5e-16383", "1.5e-16384"):
        yield SMALL, False, f"OPTIMAL\nx x {number}\nEND\n"


# A claim on the diet of examples/models, whether it holds, and what is said of it.
CLAIMS = [
    ("92.5", True, "shows the claimed value"), ("185/2", True, "shows"), ("OPTIMAL 92.5", True, "shows"),
    ("YES OPTIMAL 92.50", True, "shows"),
    ("92", False, "off by -0.5. It is the value, rounded"), ("92.49", False, "off by -0.01."),
    ("INFEASIBLE", False, "and the certificate shows OPTIMAL"),
    ("UNBOUNDED", False, "the certificate shows OPTIMAL"), ("about 92", False, "neither a value nor"),
]


def large_model(seed, rows=256, columns=512, entries=100_000):
    """A model with so many entries, and a certificate of its optimum: all rows are at their limits, and all columns
    between their bounds."""
    dice = random.Random(seed)
    x = [dice.randint(-500, 500) for _ in range(columns)]
    y = [dice.randint(-50, 50) for _ in range(rows)]
    places = dice.sample(range(rows * columns), entries)
    by_column = [[] for _ in range(columns)]
    sums = [0] * rows
    for place in sorted(places):
        row, column = place % rows, place // rows
        number = dice.randint(1, 9999)
        by_column[column].append((row, number))
        sums[row] += number * x[column]
    lines = ["ROWS", " N cost", *(f" {'G' if y[row] >= 0 else 'L'} R{row}" for row in range(rows)), "COLUMNS"]
    for column, numbers in enumerate(by_column):
        cost = sum(y[row] * number for row, number in numbers)
        lines.append(f" C{column} cost {hundredths(cost)}")
        lines += [f" C{column} R{row} {hundredths(number)}" for row, number in numbers]
    lines += ["RHS", *(f" RHS R{row} {hundredths(total)}" for row, total in enumerate(sums))]
    lines += ["BOUNDS", *(f" FR BND C{column}" for column in range(columns)), "ENDATA"]
    parts = [f"x C{column} {value}" for column, value in enumerate(x)]
    parts += [f"y R{row} {value}" for row, value in enumerate(y)]
    return "\n".join(lines) + "\n", "\n".join(["OPTIMAL", *parts, "END"]) + "\n"


def hundredths(number):
    return f"{number}e-2"
