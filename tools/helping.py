"""What scripts in tools/ share: the help of those that have no words to parse, and the files that they make."""
import sys


def helps(text):
    """Prints this text and ends, where --help or -h is asked for."""
    if {"--help", "-h"} & set(sys.argv[1:]):
        print(text.strip())
        sys.exit(0)


def differing(made):
    """What of these texts, by the file that each is to be, the file does not have."""
    return {path: text for path, text in made.items() if not path.exists() or path.read_text(encoding="utf-8") != text}


def rewrite(made):
    """Writes each text to its file."""
    for path, text in made.items():
        path.write_text(text, encoding="utf-8")
