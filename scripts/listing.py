"""What the scripts share that turn a readable list into the input of a program."""
import os
import sys


def say(text):
    print(f"{os.path.basename(sys.argv[0])}: {text}", file=sys.stderr)


def fail(text):
    say(text)
    sys.exit(1)


def number(where, what, word, low, high):
    """The number that a word says, within its bounds."""
    if not (word.isascii() and word.isdecimal()):
        fail(f"{where}: {what} {word!r} is no number")
    value = int(word.lstrip("0")[:9] or "0")
    if not low <= value <= high:
        fail(f"{where}: {what} {word} is not {low} to {high}")
    return value


def lines(name, source):
    """Where each line stands, and its words, without comments and empty lines."""
    for line_number, line in enumerate(source, 1):
        words = line.split("#")[0].split()
        if words:
            yield f"{name}, line {line_number}", words


def convert(usage, read):
    """Writes what `read` makes of the file that is named, or of standard input.

    `read` is given the name and the lines of its list and answers bytes.
    """
    arguments = sys.argv[1:]
    if "--help" in arguments or "-h" in arguments:
        print(usage.strip())
        return
    if len(arguments) > 1:
        fail("more than one file; --help says more")
    name = arguments[0] if arguments else "standard input"
    try:
        with open(arguments[0] if arguments else 0, encoding="utf-8-sig") as source:
            out = read(name, lines(name, source))
    except OSError as error:
        fail(f"{name}: {error.strerror}")
    except UnicodeDecodeError:
        fail(f"{name}: not a text file")
    try:
        with open(1, "wb") as target:
            target.write(out)
    except OSError as error:
        fail(f"standard output: {error.strerror}")
