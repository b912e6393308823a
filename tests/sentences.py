"""The sentences of a page, and how many words each has.

A sentence ends at a full stop, a question mark or an exclamation mark before a capital, a digit or a piece of code. It also ends where
its paragraph, its item of a list, its heading or its cell of a table ends. Blocks of code are no sentences, and a piece of code in
backquotes is one word, as is a number.
"""
import re

LONGEST = 35
BLOCK = re.compile(r"^ *```.*?^ *```$", re.S | re.M)
COMMENT = re.compile(r"<!--.*?-->", re.S)
LINK = re.compile(r"!?\[([^\]]*)\]\([^)]*\)")
# Where an item, a heading, a line of a table or a quote begins.
UNIT = re.compile(r"^ *(?:[-*] (?:\[ \] )?|\d+\. |#+ |> )")
END = re.compile(r"(?<=[^.\s][.?!])[)*_\"]* +(?=[(*_\"]*[A-Z0-9])")
# Full stops within an abbreviation.
SHORT = re.compile(r"\b(?:e\.g|i\.e|cf|vs|R|M)\. ")
WORD = re.compile(r"[^\s]*\w[^\s]*")


def counted(text):
    """The text without blocks of code, comments and targets of links."""
    return LINK.sub(r"\1", COMMENT.sub("", re.sub(r"`[^`\n]+`", "CODE", BLOCK.sub("", text))))


def units(text):
    """The paragraphs, items, headings and cells of a text."""
    unit = []
    for line in [*counted(text).splitlines(), ""]:
        row = line.lstrip().startswith("|")
        if row or not line.strip() or UNIT.match(line):
            yield " ".join(unit)
            unit = [UNIT.sub("", line)] if line.strip() and not row else []
        else:
            unit.append(line.strip())
        if row:
            yield from line.strip().strip("|").split("|")


def sentences(text):
    """Each sentence of a text with the number of its words."""
    for unit in units(text):
        for sentence in END.split(SHORT.sub(lambda found: found[0].rstrip(". ") + " ", unit)):
            yield len(WORD.findall(sentence)), sentence.strip()


def too_long(text):
    """The sentences of a text that have more than LONGEST words."""
    return [(words, sentence) for words, sentence in sentences(text) if words > LONGEST]
