#!/usr/bin/env python3
"""Time of a build and of a reload of a plant of many symbols, without the reading of its text.

    python3 bench/reload.py [PROGRAM]      crates/ads/out/ads where it is absent

One port of 1,000 and of 10,000 symbols. A build is what `replay` of an empty script costs more than `check`, which
reads the same text and builds nothing. A reload is what an accepted text costs more than one that is refused by one of
the last rules, which is read and judged alike. For 10,000 symbols a reload is to take at most 20 milliseconds; its
ratio to a build is printed.

Times are processor times of the program, the least of five runs.
"""
import sys

sys.dont_write_bytecode = True
sys.path.insert(1, f"{sys.path[0]}/../tries")
from timed import program_of, seconds_of  # noqa: E402
from under_test import ADS  # noqa: E402

RELOADS = 10


def plant(count, signal=""):
    head = 'schema = 1\nnet = "5.1.2.3.1.1"\n[[route]]\nnet = "192.168.0.9.1.1"\nrights = "control"\n'
    head += f'[[port]]\nport = 851\nname = "Plc"\nmajor = 1\nminor = 0\nbuild = 0\ndata = {4 * count}\n'
    rows = [f'[[port.symbol]]\nname = "Plant.Line.Station.v{i}"\ntype = "DINT"\narea = "data"\noffset = {4 * i}\n'
            for i in range(count)]
    rows[-1] += signal
    return head + "".join(rows)


def reloads(text):
    return "".join(f"reload\n{text}.\n" for _ in range(RELOADS))


def main(words):
    program, failed = program_of(words, ADS), False

    def seconds(command, **texts):
        files = {"plant.toml": texts["plant"], **({"it.script": texts["script"]} if "script" in texts else {})}
        return seconds_of([program, command, *files], files)[0]

    for count in (1000, 10_000):
        good = plant(count)
        bad = plant(count, "signal = 99\n")
        checked = seconds("check", plant=good)
        played = seconds("replay", plant=good, script="")
        taken = seconds("replay", plant=good, script=reloads(good))
        refused = seconds("replay", plant=good, script=reloads(bad))
        build = (played - checked) * 1000
        reload = (taken - refused) / RELOADS * 1000
        print(f"{count:,} symbols: build {build:.2f} ms, reload {reload:.2f} ms, ratio {reload / build:.2f}")
        failed = count == 10_000 and reload > 20
    return 1 if failed else 0


if __name__ == "__main__":
    sys.exit(main(sys.argv[1:]))
