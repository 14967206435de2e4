"""The lines of compare/texts, as those that compare readers take them."""
import re
import subprocess
import sys
from itertools import islice
from pathlib import Path

COMPARE = Path(__file__).resolve().parent.parent
GROUP = 5000
LONGEST_LINE = 65536


def read_line(text):
    return f"read {text.hex() or '-'}"


def text_of(line):
    """The bytes that a line gives to read; nothing where it gives none."""
    found = re.fullmatch("read (-|([0-9a-f]{2})+)", line)
    return bytes.fromhex(found[1].removeprefix("-")) if found and len(line) <= LONGEST_LINE else None


def seed_and_count():
    words = sys.argv[1:]
    return words + ["1", "20000"][len(words):]


def made_lines(seed, count):
    with subprocess.Popen([COMPARE / "texts", seed, count], stdout=subprocess.PIPE, text=True) as made:
        for line in made.stdout:
            yield line.rstrip("\n")


def utf8_texts(seed, count):
    """The texts to read that are UTF-8: other readers take no others."""
    for line in made_lines(seed, count):
        text = text_of(line)
        if text is not None and is_utf8(text):
            yield text


def is_utf8(text):
    try:
        text.decode()
    except UnicodeDecodeError:
        return False
    return True


def groups(things):
    while group := list(islice(things, GROUP)):
        yield group
