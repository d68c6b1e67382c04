#!/usr/bin/env python3
"""What a refused description broke, in words, with its lines: for whoever wrote it.

    python3 tools/why.py examples/overlap.toml

`ads` has three signals; those of `adsd` are told by `--config FILE`, its configuration, or by `--signals N`. The configuration may stand in place of the
description, which it names.

The first line is the very line that `ads check DESCRIPTION` prints. Behind it stands every fault, not the least alone: each broken rule in words, and for each
place at which it is broken the file and its line, what is meant (a symbol, type, member, value, route or port), the key, why, and what would be right. Of one
rule at most 20 places are printed. Where the text is no TOML document, the faults of what could be read of it follow. An accepted description has the lines of
`check` alone.

The status is that of `check`: 0 accepted, 2 refused, 4 the file can't be read, 12 it has more than 16,777,216 bytes; and 1 for wrong words.
"""
import os
import sys

sys.path.insert(0, os.path.dirname(os.path.abspath(__file__)))
from lib.files import read_bytes  # noqa: E402
from lib.rule_words import WORDS  # noqa: E402
from lib.signals import config_in, signals_of  # noqa: E402
from lib.source_meant import source_said  # noqa: E402
from lib.verdict import LONGEST, verdict_on  # noqa: E402
from lib.words import Ended, read_words, run  # noqa: E402

MOST = 20


def explained(it, name):
    """The lines that say what was broken, and where."""
    if it.status == 12:
        return [f"rule 1: {WORDS[1][0]}"]
    lines = []
    for rule, broken in sorted(it.found.items()):
        words, counts = WORDS[rule] if rule else ("the text is no TOML document", None)
        lines.append((f"rule {rule}: " if rule else "") + words + (f" (the item: {counts})" if counts and rule == it.rule else ""))
        lines += [f"{name}:{one.said(it.places)}" for one in broken[:MOST]]
        if len(broken) > MOST:
            lines.append(f"and {len(broken) - MOST} more")
    return lines


def taken(name):
    try:
        return read_bytes(name, LONGEST + 1)
    except Ended:
        print("ads: read fault")
        raise


def main(words):
    (name,), options = read_words(words, __doc__, ["DESCRIPTION"], {"config": "", "signals": ""})
    signals = signals_of(options)
    given = taken(name)
    config = config_in(given, name)
    if config:
        name, given = config.description, taken(config.description)
    it = verdict_on(given, config.signals if config and not (options["config"] or options["signals"]) else signals)
    source = source_said(it, given, name)
    for line in it.lines + explained(it, name) + ([f"{name}: {source}"] if source else []):
        print(line)
    return it.status


if __name__ == "__main__":
    run(main)
