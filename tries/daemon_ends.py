"""Tries of `adsd` that the gate makes too (tools/tries/daemons.py): tries/daemon.py makes them with the others."""
import functools
import os

from adsd import tried
from under_test import Differs

from tries import daemons
from tries.running import Wrong


def registered(which):
    @functools.wraps(which)
    def call(program):
        ads = os.path.join(os.path.dirname(program), "..", "..", "ads", "out", "ads")
        try:
            return daemons.scene(program, ads, which)
        except Wrong as wrong:
            raise Differs(str(wrong)) from None
    tried(call)


for scene in daemons.SCENES:
    registered(scene)
