#!/usr/bin/env python3
"""Time of `ads selftest` per MiB of script, for one long `bytes` line.

    python3 bench/selftest.py [PROGRAM]      crates/ads/out/ads where it is absent

The files hold 1, 2, 4 and 8 MiB of text, whose frames have AMS length 64: 70 bytes come in and 38 go out a frame, so
that all are answered. The ratio of the last time of these per MiB to the first is to be at most 1.3. The last file
holds whole state requests in 16 MiB of text: the queue limit shuts the connection, and the file takes no longer per
MiB.
"""
import sys

sys.dont_write_bytecode = True
sys.path[1:1] = [f"{sys.path[0]}/../{room}" for room in ("model", "tries")]
from ams import request  # noqa: E402
from timed import program_of, seconds_of  # noqa: E402
from under_test import ADS  # noqa: E402

MIB = 1 << 20


def script(text_bytes, one_frame):
    """`open 1` and one `bytes` line of at most so many bytes of text."""
    head = "open 1\nbytes 1 "
    frames = (text_bytes - len(head) - 1) // (2 * len(one_frame))
    return head + one_frame.hex() * frames + "\n", frames


def main(words):
    program, rows, long, state = program_of(words, ADS), [], request(4, 1, bytes(32)), request(4, 1)
    for mib, one in ((1, long), (2, long), (4, long), (8, long), (16, state)):
        text, frames = script(mib * MIB, one)
        taken, summary = seconds_of([program, "selftest", "it.script"], {"it.script": text}, 3)
        rows.append(taken / mib)
        print(f"{mib} MiB  {frames} frames  {taken:.3f} s  {taken / mib:.4f} s/MiB  {summary}")
    ratio = rows[3] / rows[0]
    print(f"ratio of 8 MiB to the first: {ratio:.2f} (at most 1.3); of state requests to 8 MiB: "
          f"{rows[4] / rows[3]:.2f}")
    return 1 if ratio > 1.3 else 0


if __name__ == "__main__":
    sys.exit(main(sys.argv[1:]))
