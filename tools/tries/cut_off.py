"""deploy.py, ended in front of one of its steps as a kill would end it: python3 cut_off.py STEP WORD .."""
import os
import sys

sys.path.insert(0, os.path.join(os.path.dirname(os.path.abspath(__file__)), ".."))
import deploy  # noqa: E402
from lib.value_link import Values  # noqa: E402
from lib.words import run  # noqa: E402

LEFT = [int(sys.argv.pop(1))]


def counted(step):
    """The step, in front of which the process ends where its turn has come."""

    def taken(*given, **named):
        LEFT[0] -= 1
        if LEFT[0] == 0:
            os._exit(137)
        return step(*given, **named)

    return taken


for name in ("replace", "link", "unlink"):
    setattr(os, name, counted(getattr(os, name)))
Values.write = counted(Values.write)
run(deploy.main)
