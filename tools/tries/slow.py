"""A disk that is slow: a library that makes each sync of a file take longer, made of tries/slow_sync.c where there is
a compiler."""
import os
import shutil
import subprocess

SOURCE = os.path.join(os.path.dirname(os.path.abspath(__file__)), "..", "..", "tries", "slow_sync.c")


def slow_disk(folder, ms):
    """The environment of a process whose syncs take so long while `slow` is there in the folder, which it is now; None
    without a compiler."""
    compiler = shutil.which("cc") or shutil.which("gcc") or shutil.which("clang")
    if not compiler or not os.path.exists(SOURCE):
        return None
    shim, slow = os.path.join(folder, "slow_sync.so"), os.path.join(folder, "slow")
    subprocess.run([compiler, "-O2", "-shared", "-fPIC", "-o", shim, SOURCE], check=True, capture_output=True)
    with open(slow, "wb"):
        return {**os.environ, "LD_PRELOAD": shim, "SLOW_MS": str(ms), "SLOW_WHILE": slow}
