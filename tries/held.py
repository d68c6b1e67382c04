"""What a process of this machine holds: descriptors, threads and memory, before something is done to it and behind."""
import os
import time


def counts(pid):
    """Descriptors, threads, KiB in memory."""
    with open(f"/proc/{pid}/status") as it:
        kib = int(it.read().partition("VmRSS:")[2].split()[0])
    return len(os.listdir(f"/proc/{pid}/fd")), len(os.listdir(f"/proc/{pid}/task")), kib


def settled(pid, wanted, seconds=5.0):
    """The counts, once there are as many descriptors and threads as wanted, or after so many seconds."""
    until = time.monotonic() + seconds
    while counts(pid)[:2] != tuple(wanted)[:2] and time.monotonic() < until:
        time.sleep(0.01)
    return counts(pid)


def left_over(pid, before, seconds=5.0):
    """How many descriptors and threads more than before there are, and how many KiB."""
    return tuple(now - then for now, then in zip(settled(pid, before, seconds), before))


def told(left):
    """The same in words."""
    return f"{left[0]} descriptors and {left[1]} threads left over, {left[2]:+,} KiB"
