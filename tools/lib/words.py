"""The words of a tool's command line, and how a tool ends: positional words, and options `--x V` or `--x=V`, in any order."""
import os
import sys


class Ended(Exception):
    """A tool ends with one sentence and a status other than 0."""

    def __init__(self, why, status=1):
        super().__init__(why)
        self.why, self.status = why, status


def hold_standard_streams():
    """What is closed of standard input, output and error gives its number to nothing that is opened; what is printed there is lost."""
    while (held := os.open(os.devnull, os.O_RDWR)) < 3:
        pass
    os.close(held)
    sys.stdout, sys.stderr = (stream or open(os.devnull, "w", encoding="utf-8") for stream in (sys.stdout, sys.stderr))
    for stream in (sys.stdout, sys.stderr):
        stream.reconfigure(errors="backslashreplace")


def run(main):
    """Runs a tool's `main` over its words, and ends with the status that it gives."""
    hold_standard_streams()
    try:
        status = main(sys.argv[1:])
        sys.stdout.flush()
    except Ended as end:
        sys.stdout.flush()
        print(end.why, file=sys.stderr)
        status = end.status
    except BrokenPipeError:
        os.dup2(os.open(os.devnull, os.O_WRONLY), sys.stdout.fileno())
        status = 5
    except KeyboardInterrupt:
        status = 130
    sys.exit(status)


def read_words(words, doc, names, options):
    """The positional words and the options of a tool.

    `names` are the positional words, those in brackets may be absent (None then). `options` has for each name the value that stands where it is absent:
    None for an option that must be there; False for a flag; a list for one that may stand more than once. `--help` prints the tool's doc and ends.
    """
    if "--help" in words or "-h" in words:
        print(doc.strip())
        raise SystemExit(0)
    found, given, rest, literal = {name: list(it) if isinstance(it, list) else it for name, it in options.items()}, [], list(words), False
    while rest:
        word = rest.pop(0)
        if not literal and word == "--":
            literal = True
        elif literal or not word.startswith("--"):
            given.append(word)
        else:
            option(word, rest, options, found)
    missing = [f"--{name}" for name, it in found.items() if it is None]
    if len(given) > len(names):
        raise Ended(f"the word {given[len(names)]!r} is one too many; --help says what is wanted")
    wanted = [name for name in names[len(given):] if not name.startswith("[")] + missing
    if wanted:
        raise Ended(f"{' and '.join(wanted)} {'is' if len(wanted) == 1 else 'are'} wanted; --help says what that is")
    return given + [None] * (len(names) - len(given)), found


def option(word, rest, options, found):
    name, equals, value = word[2:].partition("=")
    if name not in options:
        raise Ended(f"there is no option --{name}; --help says which there are")
    if options[name] is False:
        if equals:
            raise Ended(f"--{name} takes no value")
        found[name] = True
        return
    if not equals and not rest:
        raise Ended(f"--{name} wants a value")
    value = value if equals else rest.pop(0)
    if isinstance(found[name], list):
        found[name].append(value)
    else:
        found[name] = value


def number(text, name, least, greatest):
    """A decimal number of a word."""
    if not text.isascii() or not text.isdigit() or len(text) > 20 or not least <= int(text) <= greatest:
        raise Ended(f"{name} is a number from {least} to {greatest}, and {text!r} is none")
    return int(text)
