"""Random days of a plant, in which no acknowledged value of a persistent symbol is lost: some of tries/days.py, with a
fixed seed.
"""
import os
import re
import subprocess
import sys

from tries.of_program import daemon_of
from tries.running import TOOLS, see

DAYS = os.path.join(TOOLS, "..", "tries", "days.py")


def tried(program, size):
    daemon = daemon_of(program)
    if not daemon:
        see(True, "")
        return "not tried, since no adsd was built beside the program"
    words = ["--short"] if size.quick else ["--days", "60"]
    it = subprocess.run(
        [sys.executable, DAYS, daemon, *words, "--seed", str(size.seed)],
        stdin=subprocess.DEVNULL,
        capture_output=True,
        text=True,
        timeout=900,
    )
    see(it.returncode == 0, f"days.py: {it.stderr[-3000:]}{it.stdout}")
    counts = re.match(r"([0-9]+) days in .* ([0-9]+) values written", it.stdout)
    see(counts and all(int(count) > 0 for count in counts.groups()), f"days.py looked at nothing: {it.stdout}")
    return it.stdout.strip()
