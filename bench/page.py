"""What the programs here have in common at their end: lines that are shown, kept and put into a page of the documents."""
import datetime
import sys


def shown(lines):
    """The lines, each printed as soon as it is there."""
    kept = []
    for line in lines:
        print(line, flush=True)
        kept.append(line)
    return kept


def write(page, begin, end, lines):
    """The lines, with the day above them, take the place of what stands between the marks."""
    front, rest = page.read_text().split(begin, 1)
    lines = [f"Measured on {datetime.date.today()}.", "", *lines]
    page.write_text(front + begin + "\n\n" + "\n".join(lines) + "\n\n" + end + rest.split(end, 1)[1])


def ended(page, begin, end, lines, faults=()):
    """Puts the lines into the page, if there is one, and tells the faults. The status of the program."""
    if page:
        write(page, begin, end, lines)
    for fault in faults:
        print(f"FAULT: {fault}", file=sys.stderr)
    return 1 if faults else 0
