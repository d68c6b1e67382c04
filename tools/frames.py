#!/usr/bin/env python3
"""Scripts of `ads replay` from words, and scripts and logs back into words.

    python3 tools/frames.py script DESCRIPTION WORDS            the script that the words write
    python3 tools/frames.py words DESCRIPTION SCRIPT [LOG]      a script in words, with what a log of `replay` answers
    python3 tools/frames.py play DESCRIPTION WORDS              the words with what the program answers
    python3 tools/frames.py verbs                               every request in words

WORDS has a line for each thing that happens: `open 1`, `read 1 Main.count`, `tick 100000`, .. (`verbs` lists the requests; the connection stands behind the
first word). `open C from NETID[:PORT] at PORT` says who speaks and to which AMS port; else it is the first route, port 32905, and the first port. Behind a
request `id N`, `at PORT` and `from NETID[:PORT]` say so for it alone; invoke ids count from 1 else. `reload FILE` takes a description, `reload` alone the lines behind
it up to a full stop, as in a script. A line that begins with = is an answer, and # a comment. Lines of a script mean in WORDS what they mean there.

`--bare` writes a script without the words as comments. `--program P` is the program that plays (crates/ads/out/ads). `play --expect` ends with status 1 where
the answers are not the = lines of WORDS, and prints the lines that differ.
"""
import difflib
import os
import sys
import tempfile

sys.path.insert(0, os.path.dirname(os.path.abspath(__file__)))
from lib import verbs  # noqa: E402
from lib.files import read_plant, read_text  # noqa: E402
from lib.frames import BadFrame  # noqa: E402
from lib.payloads import BadPayload  # noqa: E402
from lib.program import program_at, run as run_program  # noqa: E402
from lib.talk import Talk  # noqa: E402
from lib.verbs import NoRequest  # noqa: E402
from lib.words import Ended, read_words, run  # noqa: E402


def talk_of(description, name, as_words):
    folder = os.path.dirname(os.path.abspath(name))
    try:
        return Talk(read_plant(description), lambda file: read_text(os.path.join(folder, file))).take(read_text(name).removesuffix("\n"), as_words)
    except NoRequest as fault:
        raise Ended(f"{name}: {fault}", 3) from None


def script_of(talk, bare=False):
    lines = []
    for item in talk.items:
        said = "\n".join(item.script) != item.words and not bare
        lines += ([f"# {item.words}"] if said else []) + [line for line in item.script if not bare or not line.startswith("#") or item.kind]
    return "".join(line + "\n" for line in lines)


def words_of(talk, last=None):
    lines = []
    for item in talk.items:
        lines += [item.words, *(f"= {line}" for line in item.said)]
    return "".join(line + "\n" for line in lines + ([f"= {last}"] if last else []))


def answered(talk, log, name):
    try:
        return words_of(talk, talk.answer(log))
    except (BadFrame, BadPayload, NoRequest, IndexError, ValueError) as fault:
        raise Ended(f"{name} is no log of this script: {fault}", 3) from None


def play(description, name, options):
    program, talk = program_at(options["program"]), talk_of(description, name, True)
    with tempfile.TemporaryDirectory() as folder:
        script = os.path.join(folder, "script")
        with open(script, "w", encoding="utf-8", newline="\n") as file:
            file.write(script_of(talk))
        log, status = run_program(program, "replay", os.path.abspath(description), script)
    if status:
        raise Ended(f"the program ended with the status {status}: {log.splitlines()[-1] if log else 'it printed nothing'}", status)
    told = answered(talk, log, "what the program printed")
    if not options["expect"]:
        print(told, end="")
        return 0
    differ = list(difflib.unified_diff(read_text(name).splitlines(), told.splitlines(), name, "what came", lineterm=""))
    print("\n".join(differ) if differ else f"{name}: every answer is as it says")
    return 1 if differ else 0


def main(words):
    (what, description, name, log), options = read_words(words, __doc__, ["script, words, play or verbs", "[DESCRIPTION]", "[WORDS]", "[LOG]"],
                                                         {"bare": False, "expect": False, "program": ""})
    if what == "verbs":
        print(verbs.__doc__.strip())
        return 0
    if what not in ("script", "words", "play"):
        raise Ended(f"{what!r} is none of script, words, play, verbs; --help says more")
    if not name or (log and what != "words"):
        raise Ended(f"behind {what} stand {'a description and a script' if what == 'words' else 'a description and words, and no more'}; --help says more")
    if what == "play":
        return play(description, name, options)
    talk = talk_of(description, name, what == "script")
    if what == "script":
        print(script_of(talk, options["bare"]), end="")
    else:
        print(answered(talk, read_text(log), log) if log else words_of(talk), end="")
    return 0


if __name__ == "__main__":
    run(main)
