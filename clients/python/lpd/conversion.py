"""Texts in other dialects of MPS into the profile of docs/FORMATS.md: exactly, by the text, and each change listed.

A line that says the same in free form of the profile is kept as it is. What can be read in two ways is asked (`Question`) and
not guessed, and what is no linear program is refused by name (`Unconvertible`).
"""
from __future__ import annotations

import codecs
from typing import Callable, Dict, Iterator, List, NamedTuple, Optional, Sequence, Set, Tuple

from .errors import LpdError, TextFault
from .model import FIELDS, FREE, SECTIONS, SENSES, Fault, Model, Reader, has_gaps, is_name, lines_of, read_lines, words_of
from .names import Renamed, renamed
from .number_text import NotANumber, parse
from .records import dataclass

# Senses by their words, in upper case.
SENSE_WORDS = {**{word: word for word in SENSES}, "MINIMISE": "MINIMIZE", "MAXIMISE": "MAXIMIZE"}
WITHOUT_NUMBER = ("FR", "MI", "PL", "BV")
WHOLE_KINDS = ("BV", "LI", "UI")
SETS = ("RHS", "RANGES", "BOUNDS")
# Sections of what is no linear program.
FOREIGN = {
    **dict.fromkeys(("SOS", "SOS1", "SOS2", "SETS"), "special ordered sets"),
    **dict.fromkeys(("QSECTION", "QUADOBJ", "QMATRIX", "QCMATRIX", "CSECTION"), "quadratic terms or cones"),
    **dict.fromkeys(("INDICATORS", "GENCONS", "PWLOBJ", "PWLNAM", "PWLCON"), "constraints that are not linear"),
    **dict.fromkeys(("LAZYCONS", "USERCUTS"), "rows that hold only where a solver needs them"),
}
CUTS = [slice(first - 1, last) for first, last in FIELDS]


class Unconvertible(LpdError):
    """The text has something that no linear program has, or names what is not there."""

    ends_with = 9

    def __init__(self, line: int, why: str) -> None:
        self.line = line
        super().__init__(f"line {line}: {why}")


class Question(LpdError):
    """The text can be read in two ways, so the reader has to say which. `option` is the argument that says it."""

    ends_with = 2

    def __init__(self, line: int, what: str, option: str, choices: Sequence[str]) -> None:
        self.line, self.option, self.what = line, option, what
        self.choices = tuple(choices)
        super().__init__(f"line {line}: {what}")

    def without_line(self) -> Question:
        """The same of a text whose lines nobody wrote."""
        self.args = (self.what,)
        return self

    def told(self) -> str:
        return f"lpd: {self.asked()}."

    def asked(self) -> str:
        """The question with the words of a command that answer it."""
        option = f"--{self.option.replace('_', '-')}"
        if self.option == "relax":
            return f"{self}. {option} solves without that"
        return f"{self}. Say which: {' or '.join(f'{option} {choice}' for choice in self.choices)}"


@dataclass(frozen=True)
class Changes:
    """A change, or a note, and the lines that it is of, counted as in the text before."""

    what: str
    lines: Tuple[int, ...]

    def __str__(self) -> str:
        return self.told(len(self.lines))

    def told(self, most: int) -> str:
        """In a line, with at most so many runs of lines."""
        runs: List[List[int]] = []
        for line in self.lines:
            if runs and line == runs[-1][1] + 1:
                runs[-1][1] = line
            else:
                runs.append([line, line])
        shown = [str(first) if first == last else f"{first}-{last}" for first, last in runs[:most]] + [".."] * (len(runs) > most)
        return f"line{'s' if len(self.lines) > 1 else ''} {', '.join(shown)}: {self.what}"


@dataclass(frozen=True)
class Converted:
    """A text of the profile in free form, the model that it spells, what was changed on the way, and the names that were."""

    text: str
    model: Model
    changes: List[Changes]
    names: List[Renamed]


@dataclass(frozen=True)
class Options:
    """How questions are answered: with `relax` whole-number columns lose that; `no_set` says whether a card without a set where
    others have one is of the "same" set, or of its "own"; `no_bound` whether a whole-number column without bounds has the upper
    bound "1" or "none"; with `wide` numbers may have any width, which the profile does not allow, and with `wide` or `large` the model
    may be as large as the commands with --wide take it."""

    relax: bool = False
    no_set: Optional[str] = None
    no_bound: Optional[str] = None
    wide: bool = False
    large: bool = False

    @property
    def is_large(self) -> bool:
        return self.wide or self.large


class Card:
    """A line of the text by its fields. Cards of one section have the fields that the section has. There is one for each line, so it is
    no record, which takes longer to make."""

    def __init__(
        self,
        line: int,
        text: str,
        section: str = "",  # empty for a line without words and for a comment
        kind: str = "",  # of a row or a bound
        set: Optional[str] = None,
        name: str = "",  # of a row, a column, or what a section card has behind its word
        pairs: Sequence[Tuple[str, str]] = (),
        number: Optional[str] = None,
        is_head: bool = False,  # a section card
    ) -> None:
        self.line, self.text, self.section, self.kind, self.set = line, text, section, kind, set
        self.name, self.pairs, self.number, self.is_head = name, pairs, number, is_head

    def of_kind(self, kind: str, number: Optional[str]) -> Card:
        """The card of a bound, with another kind and number."""
        return Card(self.line, self.text, self.section, kind, self.set, self.name, self.pairs, number, self.is_head)

    def words(self) -> List[str]:
        front = (self.kind, self.set, self.name) if self.section == "BOUNDS" else (self.kind, self.name, self.set)
        words = [word for word in front if word]
        for pair in self.pairs:
            words += pair
        if self.number is not None:
            words.append(self.number)
        return words

    def shown(self) -> str:
        """The line of the profile: the text as it stands where that says the same, or else written anew."""
        if not self.section:
            return self.text
        if self.is_head:
            words = [self.section] + ([self.name] if self.name else [])
            read = len(words) if self.section in ("NAME", "OBJSENSE") else 1
            return self.text if words_of(self.text)[: max(read, 1)] == words else " ".join(words)
        is_indented, words = self.text[:1] in (" ", "\t"), self.words()
        return self.text if is_indented and words_of(self.text) == words else " " + " ".join(words)


def is_number(text: str) -> bool:
    try:
        parse(text)
    except NotANumber:
        return text.lstrip("+-").lower() in ("inf", "infinity")
    return True


# ---- reading lines as cards


class Decoded(NamedTuple):
    """A text, and how its characters are bytes again."""

    text: str
    encoding: str
    has_mark: bool


def decoded(data: bytes) -> Decoded:
    """The text without its byte-order mark. Bytes that are no UTF-8 are read as latin-1."""
    for mark, encoding in ((codecs.BOM_UTF8, "utf-8"), (codecs.BOM_UTF16_LE, "utf-16-le"), (codecs.BOM_UTF16_BE, "utf-16-be")):
        if data.startswith(mark):
            return Decoded(data[len(mark) :].decode(encoding, "replace"), "utf-8", True)
    try:
        return Decoded(data.decode("utf-8"), "utf-8", False)
    except UnicodeDecodeError:
        return Decoded(data.decode("latin-1"), "latin-1", False)


class Names(NamedTuple):
    """The names of a text's rows and columns, which may begin with the sign of a comment."""

    rows: Set[str]
    columns: Set[str]

    def has(self, name: str) -> bool:
        return name in self.rows or name in self.columns


def names_of(lines: Sequence[str], fixed: bool) -> Names:
    """The names that lines of sections of rows and columns have. In free form a card of a column has its name before that of a row."""
    names, section = Names(set(), set()), ""
    for line in lines:
        if line[:1] not in (" ", "\t", "*", ""):
            section = words_of(line)[0].upper()
            continue
        words = [line[4:12].strip(), line[14:22].strip()] if fixed else words_of(line)[1:2] if section == "ROWS" else words_of(line)
        if section == "ROWS" and words:
            names.rows.add(words[0])
        elif section == "COLUMNS" and len(words) > 1 and words[1] in names.rows:
            names.columns.add(words[0])
    return names


class Cards:
    """Reads lines as cards, and lists what it changes."""

    def __init__(self, lines: List[str], fixed: bool, options: Options) -> None:
        self.lines, self.fixed, self.options = lines, fixed, options
        self.cards: List[Card] = []
        self.noted: Dict[str, List[int]] = {}
        self.names: Optional[Names] = None
        self.whole: Dict[str, int] = {}  # whole-number columns, and the line of each
        self.sense: Optional[str] = None
        self.objective: Optional[Card] = None
        self.in_whole = False
        self.section = ""  # that of the data card which is read
        self.makers: Dict[str, Callable[[int, str, List[Optional[str]]], None]] = {
            "ROWS": self.row_card,
            "COLUMNS": self.column_card,
            "RHS": self.side_card,
            "RANGES": self.side_card,
            "BOUNDS": self.bound_card,
        }

    def note(self, line: int, what: str) -> None:
        self.noted.setdefault(what, []).append(line)

    def known(self) -> Names:
        """The names of the text, which is looked through for them once, where a card asks for them."""
        if self.names is None:
            self.names = names_of(self.lines, self.fixed)
        return self.names

    def read(self) -> None:
        section = ""
        for number, line in enumerate(self.lines, 1):
            bare = line.rstrip("\r")
            if not bare.strip(" \t") or line[:1] == "*":
                self.cards.append(Card(number, line))
                continue
            if line[:1] not in (" ", "\t"):
                section = self.head(number, bare, section)
            elif section == "OBJSENSE":
                self.sense_card(number, bare, words_of(self.without_comment(number, bare, section)))
            elif section == "OBJNAME":
                self.objective = Card(number, bare, "OBJNAME", name=words_of(bare)[0])
            else:
                self.data(number, bare, section)
            if section == "ENDATA":
                break

    # ---- sections

    def head(self, line: int, text: str, before: str) -> str:
        words = words_of(text)
        word = words[0].upper()
        if word in SENSE_WORDS and before == "OBJSENSE":
            self.note(line, f"{words[0]} under OBJSENSE begins in column 1")
            self.sense_card(line, text, words)
            return before
        if word in FOREIGN:
            raise Unconvertible(line, f"{words[0]}: {FOREIGN[word]}, which lpd has not")
        if word not in SECTIONS and word != "OBJNAME":
            raise TextFault(line, 2, text)
        if words[0] != word:
            self.note(line, "a section in lower case")
        second = words[1] if len(words) > 1 else ""
        if word == "OBJNAME":
            if second:
                self.objective = Card(line, text, "OBJNAME", name=second)
            return word
        name = second if word == "NAME" else self.sense_of(line, second) if word == "OBJSENSE" and second else ""
        self.cards.append(Card(line, text, word, name=name, is_head=True))
        return word

    def sense_card(self, line: int, text: str, words: List[str]) -> None:
        if len(words) != 1:
            raise TextFault(line, 3, text)
        self.cards.append(Card(line, text, "OBJSENSE", name=self.sense_of(line, words[0])))

    def sense_of(self, line: int, word: str) -> str:
        """The sense that a word is, in the profile's words."""
        upper = word.upper()
        if upper not in SENSE_WORDS or self.sense is not None:
            raise TextFault(line, 3, self.lines[line - 1])
        self.sense = SENSE_WORDS[upper]
        if word != self.sense:
            self.note(line, f"{word} is written as {self.sense}")
        return self.sense

    # ---- data cards

    def without_comment(self, line: int, text: str, section: str) -> str:
        """The card without a comment behind $."""
        if self.fixed:
            for first in (15, 40):
                if text[first - 1 : first] == "$" and not self.known().has(text[first - 1 : first + 7].strip()):
                    self.note(line, "a comment behind $ is taken out")
                    return text[: first - 1]
            return text
        if "$" not in text:
            return text
        words, least = words_of(text), 2 if section in ("ROWS", "BOUNDS") else 1
        for at, word in enumerate(words):
            if word[0] == "$" and at >= least and not self.known().has(word):
                self.note(line, "a comment behind $ is taken out")
                return text[:1] + " ".join(words[:at])
        return text

    def data(self, line: int, text: str, section: str) -> None:
        bare = self.without_comment(line, text, section)
        if not bare.strip(" \t"):
            return
        if section not in self.makers:
            raise TextFault(line, 3, text)
        self.section = section
        self.makers[section](line, text, self.fields(line, bare))

    def fields(self, line: int, text: str) -> List[Optional[str]]:
        """The fields of a data card: in free form its words, in fixed form the six fields, None where one is blank. The columns of
        fixed form are counted in characters, or in bytes of UTF-8 if only these fit."""
        if not self.fixed:
            return list(words_of(text))
        if has_gaps(text) and "\t" not in text[:62]:
            return [text[cut].strip(" ") or None for cut in CUTS]
        data = text.encode("utf-8", "replace").decode("latin-1")
        if has_gaps(data) and "\t" not in data[:62]:
            return [data[cut].strip(" ").encode("latin-1").decode("utf-8", "replace") or None for cut in CUTS]
        raise TextFault(line, 3, text)

    def row_card(self, line: int, text: str, fields: List[Optional[str]]) -> None:
        kind, name = (fields + [None, None])[:2]
        if kind is None or name is None or any(fields[2:]):
            raise TextFault(line, 3, text)
        if kind != kind.upper():
            self.note(line, "a type in lower case")
        self.cards.append(Card(line, text, "ROWS", kind=kind.upper(), name=name))

    def column_card(self, line: int, text: str, fields: List[Optional[str]]) -> None:
        if self.fixed:
            name, rest = fields[1], fields[2:]
            marks = bool(fields[0])
        else:
            is_whole = len(fields) % 2 == 1
            name, rest = (fields[0], fields[1:]) if is_whole else (None, fields)
            marks = not is_whole and len(fields) not in (2, 4)
        if "'MARKER'" in rest[:1]:
            self.marker(line, [word for word in rest if word])
            return
        given = rest[: len(rest) - (2 if self.fixed and rest[2] is None and rest[3] is None else 0)]
        if marks or len(given) < 2 or len(given) % 2 or any(word is None for word in given):
            raise TextFault(line, 3, text)
        if not name:
            name = next((card.name for card in reversed(self.cards) if card.section == "COLUMNS" and not card.is_head), None)
            if name is None:
                raise TextFault(line, 3, text)
            self.note(line, "the column that the card leaves out is put in")
        if self.in_whole:
            self.whole.setdefault(name, line)
        for pairs in self.parted(line, given):
            self.cards.append(Card(line, text, "COLUMNS", name=name, pairs=pairs))

    def parted(self, line: int, given: Sequence[Optional[str]]) -> Iterator[List[Tuple[str, str]]]:
        """The pairs of a card, of which the profile's have one or two."""
        words = [word or "" for word in given]
        pairs = list(zip(words[::2], words[1::2]))
        if len(pairs) > 2:
            self.note(line, f"a card with {len(pairs)} pairs is parted")
        return (pairs[at : at + 2] for at in range(0, len(pairs), 2))

    def marker(self, line: int, words: List[str]) -> None:
        if words[-1] not in ("'INTORG'", "'INTEND'"):
            raise Unconvertible(line, f"{words[-1]}: special ordered sets, which lpd has not")
        self.in_whole = words[-1] == "'INTORG'"
        if self.options.relax:
            self.note(line, "a marker of whole-number columns is taken out")

    def side_card(self, line: int, text: str, fields: List[Optional[str]]) -> None:
        if self.fixed:
            name, rest = fields[1], fields[2:] if fields[4] or fields[5] else fields[2:4]
            if fields[0]:
                raise TextFault(line, 3, text)
        else:
            name, rest = (fields[0], fields[1:]) if len(fields) % 2 else (None, fields)
        if len(rest) < 2 or len(rest) % 2 or len(rest) > 4 and name is None or any(word is None for word in rest):
            raise TextFault(line, 3, text)
        for pairs in self.parted(line, rest):
            self.cards.append(Card(line, text, self.section, set=name, pairs=pairs))

    def bound_card(self, line: int, text: str, fields: List[Optional[str]]) -> None:
        kind = (fields[0] or "").upper()
        if fields[0] != kind:
            self.note(line, "a kind in lower case")
        if kind in ("SC", "SI"):
            raise Unconvertible(line, f"{kind}: semi-continuous columns, which lpd has not")
        if kind not in ("UP", "LO", "FX", "FR", "MI", "PL", *WHOLE_KINDS):
            raise TextFault(line, 11, text)
        if self.fixed:
            name, column, number = fields[1], fields[2], None if kind in WITHOUT_NUMBER else fields[3]
        else:
            name, column, number = self.bound_words(line, text, kind, [word or "" for word in fields[1:]])
        if column is None or (number is None) != (kind in WITHOUT_NUMBER):
            raise TextFault(line, 3, text)
        if kind in WHOLE_KINDS:
            self.whole.setdefault(column, line)
        self.cards.append(Card(line, text, "BOUNDS", kind=kind, set=name, name=column, number=number))

    def bound_words(self, line: int, text: str, kind: str, words: List[str]) -> "tuple[Optional[str], str, Optional[str]]":
        """The set, the column and the number of a card of free form. A number behind a kind that needs none is dropped."""
        if kind not in WITHOUT_NUMBER:
            if len(words) not in (2, 3):
                raise TextFault(line, 3, text)
            return (words[0] if len(words) == 3 else None), words[-2], words[-1]
        is_numbered = len(words) == 3
        if len(words) == 2 and is_number(words[1]) and words[0] in self.known().columns:
            if words[1] in self.known().columns:
                raise Unconvertible(line, f"{words[0]} and {words[1]} are both columns, so {kind} can be of either: take one word out")
            is_numbered = True
        if is_numbered:
            if not is_number(words[-1]):
                raise TextFault(line, 3, text)
            self.note(line, f"a number behind {kind} is taken out")
            words = words[:-1]
        if len(words) not in (1, 2):
            raise TextFault(line, 3, text)
        return (words[0] if len(words) == 2 else None), words[-1], None


# ---- changes over all cards


class Converter:
    def __init__(self, text: str, fixed: bool, options: Options) -> None:
        self.read = Cards(lines_of(text), fixed, options)
        self.returns = {number for number, line in enumerate(text.split("\n"), 1) if line.endswith("\r")} if "\r" in text else set()
        self.options = options
        self.names: List[Renamed] = []

    def run(self) -> None:
        self.read.read()
        self.relax()
        self.put_sense()
        self.put_objective()
        for section in SETS:
            self.fill_sets(section)
        self.note_ranges()
        self.rename()

    def cards(self, section: str) -> Iterator[Card]:
        return (card for card in self.read.cards if card.section == section and not card.is_head)

    def cards_of_name(self) -> List[Card]:
        """The cards that name the model."""
        return [card for card in self.read.cards if card.section == "NAME"]

    def put_sense(self) -> None:
        """Puts OBJSENSE before ROWS."""
        cards = self.read.cards
        rows = next((n for n, card in enumerate(cards) if card.section == "ROWS"), len(cards))
        late = [card for card in cards[rows:] if card.section == "OBJSENSE"]
        for card in late:
            self.read.note(card.line, "OBJSENSE is put before ROWS")
            cards.remove(card)
        cards[rows:rows] = late

    def put_objective(self) -> None:
        """Puts the row that OBJNAME names before all others, and takes OBJNAME out."""
        named = self.read.objective
        if named is None:
            return
        rows = [card for card in self.cards("ROWS") if card.kind == FREE]
        found = next((card for card in rows if card.name == named.name), None)
        if found is None:
            raise Unconvertible(named.line, f"OBJNAME names {named.name}, which is no row of type N")
        self.read.note(named.line, "OBJNAME is taken out")
        if found is not rows[0]:
            self.read.note(found.line, f"row {named.name} is put first, since OBJNAME names it")
            self.read.cards.remove(found)
            at = next(n for n, card in enumerate(self.read.cards) if card.section == "ROWS" and card.is_head)
            self.read.cards.insert(at + 1, found)

    def relax(self) -> None:
        whole = self.read.whole
        if whole and not self.options.relax:
            listed = ", ".join(list(whole)[:6]) + (", .." if len(whole) > 6 else "")
            raise Question(min(whole.values()), f"whole-number columns ({listed}): lpd solves linear programs", "relax", ["yes"])
        bounded = {card.name for card in self.cards("BOUNDS")}
        open_ones = [name for name in whole if name not in bounded]
        if open_ones and self.options.no_bound is None:
            what = f"the whole-number column {open_ones[0]} has no bounds: some programs give it the upper bound 1, and others none"
            raise Question(whole[open_ones[0]], what, "no_bound", ["1", "none"])
        self.read.cards = [relaxed for card in self.read.cards for relaxed in self.relaxed(card)]
        if self.options.no_bound == "1":
            self.bound_by_one(open_ones)

    def relaxed(self, card: Card) -> List[Card]:
        if card.section != "BOUNDS" or card.kind not in WHOLE_KINDS:
            return [card]
        if card.kind == "BV":
            self.read.note(card.line, "BV is written as LO 0 and UP 1")
            return [card.of_kind(kind, number) for kind, number in (("LO", "0"), ("UP", "1"))]
        kind = "LO" if card.kind == "LI" else "UP"
        self.read.note(card.line, f"{card.kind} is written as {kind}")
        return [card.of_kind(kind, card.number)]

    def bound_by_one(self, names: List[str]) -> None:
        """Gives columns the upper bound 1, with the set of the section's first card."""
        if not names:
            return
        first = next(self.cards("BOUNDS"), None)
        cards = self.read.cards
        at = next((n for n, card in enumerate(cards) if card.section == "ENDATA"), len(cards))
        head = next((n for n, card in enumerate(cards) if card.section == "BOUNDS" and card.is_head), None)
        if head is None:
            cards.insert(at, Card(self.read.whole[names[0]], "", "BOUNDS", is_head=True))
            head = at
        end = next((n for n, card in enumerate(cards) if n > head and card.is_head), len(cards))
        for name in names:
            line = self.read.whole[name]
            self.read.note(line, "the upper bound 1 is put in")
            cards.insert(end, Card(line, "", "BOUNDS", kind="UP", set=first.set if first else None, name=name, number="1"))
            end += 1

    def fill_sets(self, section: str) -> None:
        """Says what cards without a set mean where others have one, and notes those of other sets, which are skipped."""
        cards = list(self.cards(section))
        named = [card for card in cards if card.set is not None]
        unnamed = [card for card in cards if card.set is None]
        if named and unnamed:
            if self.options.no_set is None:
                what = f"a card of {section} without a set, where line {named[0].line} has the set {named[0].set}"
                raise Question(unnamed[0].line, what, "no_set", ["same", "own"])
            if self.options.no_set == "same":
                for card in unnamed:
                    card.set = named[0].set
                    self.read.note(card.line, f"the set {card.set} is put in")
        used = cards[0].set if cards else None
        for card in cards:
            if card.set != used:
                mine, others = (f"the set {name}" if name else "no set" for name in (card.set, used))
                self.read.note(card.line, f"this card of {section} has {mine} and the first one {others}, so it is skipped")

    def note_ranges(self) -> None:
        """Notes the ranges of free rows, which count for nothing: those of type N behind the first, which is the objective."""
        free = set([card.name for card in self.cards("ROWS") if card.kind == FREE][1:])
        for card in self.cards("RANGES"):
            for row in [row for row, _ in card.pairs if row in free]:
                self.read.note(card.line, f"row {row} is free, so its range counts for nothing")

    def rename(self) -> None:
        """Renames what is no name of the profile, everywhere."""
        rows = [card.name for card in self.cards("ROWS")]
        columns = [card.name for card in self.cards("COLUMNS")]
        sets = [card.set for section in SETS for card in self.cards(section) if card.set]
        of_rows = renamed(rows, lambda name: is_name(name, of_row=True))
        of_columns = renamed(columns, is_name)
        of_sets = renamed(sets, is_name)
        for kind, table in (("row", of_rows), ("column", of_columns), ("set", of_sets)):
            self.names += [Renamed(kind, old, new) for old, new in table.items()]
        for card in self.read.cards if self.names else self.cards_of_name():
            of_name = of_rows if card.section == "ROWS" else of_columns
            if card.section == "NAME" and card.name and not is_name(card.name):
                new = next(iter(renamed([card.name], is_name).values()))
                self.names.append(Renamed("model", card.name, new))
                card.name = new
            elif not card.is_head:
                card.name = of_name.get(card.name, card.name)
            card.set = of_sets.get(card.set, card.set) if card.set else None
            card.pairs = [(of_rows.get(row, row), number) for row, number in card.pairs]

    def shown(self, encoding: str, lines: Optional[Sequence[str]] = None) -> List[str]:
        """The lines of the text, which may be given, in which characters stand for bytes."""
        found = [card.shown() for card in self.read.cards] if lines is None else lines
        return [line if line.isascii() else line.encode(encoding, "replace").decode("latin-1") for line in found]

    def converted(self, encoding: str, has_mark: bool) -> Converted:
        """The text, in which characters stand for bytes, and the model that it spells."""
        told = [card.shown() for card in self.read.cards]
        lines = self.shown(encoding, told)
        numbers = [card.line for card in self.read.cards]
        try:
            model, _ = read_lines(lines, wide=self.options.wide, large=self.options.large)
        except TextFault as fault:
            number = numbers[fault.line - 1] if fault.line <= len(lines) else len(self.read.lines) + 1
            raise TextFault(number, fault.fault, fault.text, self.options.is_large) from None
        listed = {line for of_one in self.read.noted.values() for line in of_one}
        if has_mark:
            self.read.note(1, "a byte-order mark is taken out")
        for card in self.read.cards:
            if card.line in self.returns:
                self.read.note(card.line, "carriage returns at the ends of lines are taken out")
        for card, line in zip(self.read.cards, told):
            if card.line not in listed and line != self.read.lines[card.line - 1]:
                self.read.note(card.line, "written in free form, with names of the profile")
        changes = [Changes(what, tuple(sorted(set(of_one)))) for what, of_one in self.read.noted.items()]
        changes.sort(key=lambda one: one.lines)
        return Converted("".join(f"{line}\n" for line in lines), model, changes, self.names)


def of_form(data: bytes, fixed: bool, options: Options) -> Converted:
    text, encoding, has_mark = decoded(data)
    converter = Converter(text, fixed, options)
    try:
        converter.run()
        return converter.converted(encoding, has_mark)
    except TextFault as fault:
        raise as_the_program(fault, lines_of(text), fixed, encoding, options) from None


def as_the_program(fault: TextFault, lines: List[str], fixed: bool, encoding: str, options: Options) -> TextFault:
    """The fault as the program has it, which reads the lines before it as they were converted, and its own as it stands: a line
    that is wrong in each dialect is told by the profile's rule, and one before it that only the profile's reader sees is first."""
    if fault.line > len(lines):
        return fault
    taken = Options(True, "own", "none", options.wide, options.large)
    before = Converter("".join(f"{line}\n" for line in lines[: fault.line - 1]), fixed, taken)
    try:
        before.run()
    except (TextFault, Unconvertible, Question):
        return fault
    numbers, reader = [card.line for card in before.read.cards], Reader(wide=options.wide, large=options.large)
    text = lines[fault.line - 1].encode(encoding, "replace").decode("latin-1")
    for number, line in [*zip(numbers, before.shown(encoding)), (fault.line, text)]:
        reader.fixed = fixed and number == fault.line
        try:
            reader.feed(line)
        except Fault as found:
            if number < fault.line:
                return as_the_program(TextFault(number, found.number, lines[number - 1]), lines, fixed, encoding, options)
            return fault if before.names else TextFault(number, found.number, lines[number - 1], options.is_large)
    return fault


CUTS = [slice(first - 1, last) for first, last in FIELDS]


# Where a line has words, by its bytes: x, and ? for what is neither printable ASCII nor a space, and for $.
SHAPES = bytes(10 if n == 10 else 32 if n == 32 else 120 if 32 < n < 127 and n != 36 else 63 for n in range(256))


def is_same_in_fixed(lines: Sequence[str]) -> bool:
    """Whether each card has the same words in fixed form as in free form. Then it says the same in fixed form, or is a fault there. Many
    lines have their words in the same places, of which one is looked at."""
    shapes, same = "\n".join(lines).encode("utf-8", "replace").translate(SHAPES).split(b"\n"), set()
    for line, shape in zip(lines, shapes):
        if line[:1] not in (" ", "\t", "\r"):
            if line[:6].upper() == "ENDATA":
                return True
        elif shape not in same:
            if b"?" in shape or list(filter(None, [shape[cut].strip() for cut in CUTS])) != shape.split():
                return False
            same.add(shape)
    return True


def is_none_in_fixed(lines: Sequence[str]) -> bool:
    """Whether a card has something between the fields of fixed form."""
    return any(line[:1] == " " and not has_gaps(line) for line in lines)


def as_it_stands(text: str, options: Options) -> Optional[Converted]:
    """The text, where it is one of the profile in free form, says nothing else in fixed form, and has nothing to be changed, to be noted,
    or to be asked; or nothing, where that may be otherwise. It is what of_form gives of it in less time."""
    if not text.isascii() or "\r" in text or "\t" in text or "$" in text:
        return None
    lines = lines_of(text)
    try:
        model, count = read_lines(lines, wide=options.wide, large=options.large)
    except TextFault:
        return None
    cards = lines[:count]
    fields = cards[next(n for n, line in enumerate(cards) if line.startswith("ROWS")) :]
    if not (is_same_in_fixed(fields) or is_none_in_fixed(fields)):
        return None
    # A card of a bound without a number, whose second word may be a set or a column.
    bounds = fields[next((n for n, line in enumerate(fields) if line.startswith("BOUNDS")), len(fields)) :]
    unclear = (words[1] for words in map(words_of, bounds) if len(words) == 3 and words[0] in WITHOUT_NUMBER)
    is_free = any(row.kind == FREE for row in model.rows.values())
    if model.skipped or is_free or any(word in model.columns for word in unclear):
        return None
    return Converted("".join(f"{line}\n" for line in cards), model, [], [])


def convert(data: bytes, form: Optional[str] = None, options: Options = Options()) -> Converted:
    """The text in free form of the profile. Without a form both are tried; where both fit, they have to spell the same model."""
    if form is not None:
        return of_form(data, form == "fixed", options)
    text, _, has_mark = decoded(data)
    plain = None if has_mark else as_it_stands(text, options)
    if plain is not None:
        return plain
    found: List[Converted] = []
    errors: List[LpdError] = []
    for fixed in (False, True):
        try:
            found.append(of_form(data, fixed, options))
        except LpdError as error:
            errors.append(error)
    if len(found) == 2 and found[0].model != found[1].model:
        raise Question(1, "the text spells one model in free form and another in fixed form", "form", ["free", "fixed"])
    if found:
        return found[0]
    raise max(errors, key=lambda error: (not isinstance(error, TextFault), getattr(error, "line", 0)))
