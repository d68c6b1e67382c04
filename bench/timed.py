"""The processor time of programs that are run to their end."""
import os
import resource
import subprocess
import sys
import tempfile


def spent():
    """The processor seconds of all programs that this one has run to their end."""
    used = resource.getrusage(resource.RUSAGE_CHILDREN)
    return used.ru_utime + used.ru_stime


def seconds_of(words, texts, times=5, is_right=lambda status, last: status == 0):
    """The least processor time of so many runs over files of these texts, in a folder of their own, and the last line
    that a run printed. One whose end is not right ends this program."""
    took = []
    with tempfile.TemporaryDirectory() as folder:
        for name, text in texts.items():
            with open(os.path.join(folder, name), "w", encoding="utf-8") as it:
                it.write(text)
        for _ in range(times):
            before = spent()
            ran = subprocess.run(words, stdout=subprocess.PIPE, cwd=folder)
            took.append(spent() - before)
            last = ran.stdout.decode().rstrip("\n").rpartition("\n")[2]
            if not is_right(ran.returncode, last):
                sys.exit(f"{' '.join(words[:2])} ended with {ran.returncode} and {last!r}")
    return min(took), last


def program_of(words, default):
    """The program that the words name, or the one that the clone has built; there must be one."""
    program = os.path.abspath(words[0] if words else default)
    if not os.access(program, os.X_OK):
        sys.exit(f"there is no program at {program}: `rt run` in crates/ads builds it")
    return program
