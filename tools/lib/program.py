"""The program `ads`: where it is, and a run of it."""
import os
import subprocess

from lib.words import Ended

HERE = os.path.dirname(os.path.abspath(__file__))
# Where the build leaves it; or, of installed tools, where it was installed.
BUILT = os.path.join(HERE, *([".."] * 4 + ["bin", "ads"] if HERE.endswith("/share/ads/tools/lib") else ["..", "..", "crates", "ads", "out", "ads"]))


def program_at(path):
    """The path of the program, where it is one."""
    path = os.path.abspath(path or BUILT)
    if not os.access(path, os.X_OK) or os.path.isdir(path):
        raise Ended(f"{os.path.relpath(path)} is no program: build it in crates/ads, or name it by --program", 4)
    return path


def run(program, *words, seconds=120):
    """What a run of the program prints, as text, and its status."""
    try:
        it = subprocess.run([program, *words], stdin=subprocess.DEVNULL, stdout=subprocess.PIPE, stderr=subprocess.DEVNULL, timeout=seconds)
    except OSError as fault:
        raise Ended(f"{program} can't be run: {fault.strerror}", 4) from None
    except subprocess.TimeoutExpired:
        raise Ended(f"{program} {words[0]} did not end in {seconds} seconds", 11) from None
    return it.stdout.decode("utf-8", "backslashreplace"), it.returncode
