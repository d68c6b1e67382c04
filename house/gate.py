#!/usr/bin/env python3
"""What the gate costs: processor time of each crate under `rt ci`, against a budget.

    python3 house/gate.py
        runs `rt ci` at the top of the clone where it is called; what earlier runs passed on this machine is kept, and
        costs nothing
    python3 house/gate.py --anew       runs `rt ci --anew`, which proves and tries all from nothing
    python3 house/gate.py --anew --write
        the same, and puts the dearest crates and the sums into docs/PROVING.md, between its marks
    python3 house/gate.py --of FILE    puts there what an earlier run printed, which FILE holds

What rt says is passed on. When it has ended, a table (Markdown) tells for each crate the processor seconds of

  library   its proof, and the compiling of its program
  tests     its second proof, with its #[test] functions
  third     where it has two wrong bodies or more: the first of them, whose check proves the rest of the crate once
            more, and the look at what the others left
  bodies    the other wrong bodies of its must-fail/, and how many there are in all

with the lines of code (src/), and the processor minutes for each 1,000 of these; then the sums, the budget, what rt
counted of all that it started, and what rt ci ended with. The status is that of rt.

How it is measured: ten times a second the processes that rt started are read from /proc. The last tenth of a second of
each is missed; the line `all that rt started` misses nothing, and holds rt's own work, the links and the runs of
programs and tests too.

Hosts differ, and a virtual one from minute to minute. So each half minute a loop of a million additions is timed, and
its quickest and middle times are told. It is a hint for who compares two runs, and changes no figure: it is no prover,
and the budget is for the minutes as they are counted.
"""
import os
import re
import resource
import statistics
import subprocess
import sys
import threading
import time

PAUSE = 0.1
BETWEEN_LOOPS = 30.0
BUDGET = 5.0
TICKS = os.sysconf("SC_CLK_TCK")
KINDS = ("library", "tests", "third", "bodies")
PAGE, MARKS = "docs/PROVING.md", ("<!-- made by house/gate.py -->", "<!-- end of what house/gate.py makes -->")
SHOWN = 120


def process(number):
    """The parent, the moment of the start, and the seconds of a process and of its children that have ended; None if it
    is gone."""
    try:
        with open(f"/proc/{number}/stat", errors="replace") as it:
            words = it.read().rpartition(")")[2].split()
    except OSError:
        return None
    return int(words[1]), words[19], sum(int(word) for word in words[11:15]) / TICKS


def processes():
    found = {int(name): process(name) for name in os.listdir("/proc") if name.isdigit()}
    return {number: it for number, it in found.items() if it}


def job_above(number, table, top):
    """The process that `top` started itself, and that this one is or descends from; None if there is none."""
    while number in table:
        parent = table[number][0]
        if parent == top:
            return number
        number = parent
    return None


def word_behind(words, flag):
    return words[words.index(flag) + 1] if flag in words[:-1] else ""


def label_of(number):
    """The crate and the kind of a process that rt started, by its words and its folder; None where it proves and
    compiles nothing."""
    try:
        with open(f"/proc/{number}/cmdline", errors="replace") as it:
            words = it.read().split("\0")
        folder = os.path.basename(os.readlink(f"/proc/{number}/cwd"))
    except OSError:
        return None
    crate = word_behind(words, "--crate-name")
    if not crate:
        return None
    if folder.startswith("rt-edit-"):
        return crate, "bodies"
    return crate, "tests" if "--test" in words else "library"


class Watch:
    """The greatest seconds that were seen of each process that rt started, with those below it, and its label."""

    def __init__(self, top):
        self.top, self.seconds, self.labels = top, {}, {}

    def look(self):
        table, now = processes(), {}
        for number in table:
            job = job_above(number, table, self.top)
            if job is not None:
                key = job, table[job][1]
                now[key] = now.get(key, 0.0) + table[number][2]
        for key, seconds in now.items():
            self.seconds[key] = max(seconds, self.seconds.get(key, 0.0))
            self.labels[key] = self.labels.get(key) or label_of(key[0])

    def rows(self):
        """For each crate the seconds of each kind, and the number of its wrong bodies."""
        rows, edits = {}, {}
        for key, label in self.labels.items():
            if label:
                row = rows.setdefault(label[0], {**dict.fromkeys(KINDS, 0.0), "count": edits_of(label[0])})
                row[label[1]] += self.seconds[key]
                if label[1] == "bodies":
                    edits.setdefault(label[0], []).append((int(key[1]), self.seconds[key]))
        for crate, tried in edits.items():
            if rows[crate]["count"] > 1:
                # (the first proves the whole crate, and behind the last stands the crate as it is)
                ends = sum(seconds for _, seconds in ([min(tried), max(tried)] if len(tried) > 1 else tried))
                rows[crate]["third"] += ends
                rows[crate]["bodies"] -= ends
        return rows


def edits_of(crate):
    folder = f"crates/{crate}/must-fail"
    return sum(name.endswith(".edit") for name in os.listdir(folder)) if os.path.isdir(folder) else 0


def pass_on(stream, lines):
    for line in stream:
        print(line, end="", flush=True)
        lines.append(line.rstrip("\n"))


def timed_loop():
    """The processor seconds that a million additions take just now."""
    begun, total = time.thread_time(), 0
    for number in range(1_000_000):
        total += number
    return time.thread_time() - begun


def loops_told(loops):
    return (f"a loop of a million additions took {min(loops):.2f} s at the quickest, {statistics.median(loops):.2f} s "
            f"in the middle")


def watched(words):
    """Runs the command, passes on what it says, and returns its status, its lines, what was seen and how long the loops
    took."""
    rt = subprocess.Popen(words, stdout=subprocess.PIPE, stderr=subprocess.STDOUT, text=True, errors="replace")
    lines, watch = [], Watch(rt.pid)
    reader = threading.Thread(target=pass_on, args=(rt.stdout, lines))
    reader.start()
    loops, due = [], 0.0
    while rt.poll() is None:
        watch.look()
        if time.monotonic() >= due:
            loops.append(timed_loop())
            due = time.monotonic() + BETWEEN_LOOPS
        time.sleep(PAUSE)
    reader.join()
    return rt.returncode, lines, watch, loops or [timed_loop()]


def lines_of_code(crate):
    count = 0
    for at, _, names in os.walk(f"crates/{crate}/src"):
        for name in names:
            if name.endswith(".rt"):
                with open(f"{at}/{name}", "rb") as it:
                    count += it.read().count(b"\n")
    return count


def line_of(name, code, row):
    seconds = sum(row[kind] for kind in KINDS)
    per = seconds / 60 / (code / 1000) if code else 0.0
    cells = [f"{row[kind]:.0f}" if row[kind] >= 0.5 else "" for kind in KINDS]
    cells[3] += f" ({row['count']})" if row["count"] else ""
    return f"| {name} | {code} | {' | '.join(cells)} | {seconds:.0f} | {per:.1f} |"


def seconds_of(row):
    return sum(row[kind] for kind in KINDS)


def line_of_sums(rows):
    sums = {kind: sum(row[kind] for row in rows.values()) / 60 for kind in KINDS}
    code, bodies, whole = sum(map(lines_of_code, rows)), sum(row["count"] for row in rows.values()), sum(sums.values())
    cells = " | ".join(f"{sums[kind]:.1f}" for kind in KINDS)
    return (f"| all, in minutes | {code} | {cells} ({bodies}) | {whole:.1f} | "
            f"{whole / (code / 1000) if code else 0.0:.1f} |", code, whole)


def table(rows, least):
    """The table, the dearest crate first, of those that cost so many seconds at least; then the sums in minutes."""
    out = ["| crate | lines of code | library | tests | third | bodies | seconds | minutes for 1,000 lines |",
           "|---|---|---|---|---|---|---|---|"]
    dear = sorted(rows.items(), key=lambda it: -seconds_of(it[1]))
    out += [line_of(name, lines_of_code(name), row) for name, row in dear if seconds_of(row) >= least]
    left = [row for _, row in dear if seconds_of(row) < least]
    if left:
        out.append(f"| {len(left)} others | | | | | | {sum(map(seconds_of, left)):.0f} | |")
    return [*out, line_of_sums(rows)[0]]


def write(lines):
    """Puts the lines into the page, between its marks."""
    with open(PAGE, encoding="utf-8") as it:
        text = it.read()
    before, _, rest = text.partition(MARKS[0])
    made = "\n".join([MARKS[0], *lines, MARKS[1]])
    with open(PAGE, "w", encoding="utf-8") as it:
        it.write(before + made + rest.partition(MARKS[1])[2])


def kit():
    return re.sub(r"\s+", " ", subprocess.run(["rt", "version"], stdout=subprocess.PIPE, text=True).stdout).strip()


def write_of(path):
    """Puts into the page what a run printed."""
    with open(path, encoding="utf-8", errors="replace") as it:
        text = it.read()
    lines = re.findall(r"^\| \w+ \| \d+ \|.*$", text, re.M)
    heads = re.search(r"^\| crate \|.*\n\|---.*$", text, re.M)
    sums = re.search(r"^\| all, in minutes .*$", text, re.M)
    spent = re.search(r"^all that rt started: ([\d.]+) processor minutes, in ([\d.]+) minutes", text, re.M)
    ended = re.search(r"^rt ci ended with: (.*) \(status", text, re.M)
    loops = re.search(r"^the host: (.*)$", text, re.M)
    if not (lines and heads and sums and spent and ended):
        print(f"{path}: not what house/gate.py prints", file=sys.stderr)
        return 2
    seconds = [int(line.split("|")[7]) for line in lines]
    shown = [line for line, it in zip(lines, seconds) if it >= SHOWN]
    others = f"| {len(lines) - len(shown)} others | | | | | | {sum(it for it in seconds if it < SHOWN)} | |"
    write([heads[0], *shown, others, sums[0], "", sentence(float(spent[1]), float(spent[2]), ended[1],
                                                           loops and loops[1])])
    return 0


def sentence(minutes, clock, last, loops):
    return f"One run from nothing, {kit()}: {minutes:.0f} minutes of a processor, {clock:.0f} of the clock; {last}." + (
        f" The host: {loops}." if loops else "")


def main():
    words = sys.argv[1:]
    if words[:1] == ["--of"] and len(words) == 2:
        return write_of(words[1])
    if words not in ([], ["--anew"], ["--anew", "--write"]):
        print(__doc__, file=sys.stderr)
        return 2
    begun = time.time()
    status, lines, watch, loops = watched(["rt", "ci", *[it for it in words if it == "--anew"]])
    rows = watch.rows()
    _, code, whole = line_of_sums(rows)
    print("", *table(rows, 0), "", sep="\n")
    print(f"budget: {BUDGET:.0f} processor minutes for 1,000 lines of code, so {BUDGET * code / 1000:.0f} for {code} "
          f"lines; spent: {whole:.0f}")
    spent = resource.getrusage(resource.RUSAGE_CHILDREN)
    minutes, clock = (spent.ru_utime + spent.ru_stime) / 60, (time.time() - begun) / 60
    last = next((it for it in reversed(lines) if it), "")
    print(f"all that rt started: {minutes:.1f} processor minutes, in {clock:.1f} minutes of the clock")
    print(f"rt ci ended with: {last} (status {status})")
    print(f"the host: {loops_told(loops)}")
    if "--write" in words:
        write([*table(rows, SHOWN), "", sentence(minutes, clock, last, loops_told(loops))])
    return status


if __name__ == "__main__":
    sys.exit(main())
