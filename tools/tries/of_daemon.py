"""adsd as a process: how it ends, who takes its log, whose stores it takes, and whom it turns away (tries/daemon.py
has the longer tries)."""
import concurrent.futures

from tries.daemons import SCENES, scene
from tries.of_program import daemon_of
from tries.running import see


def tried(program, _size):
    daemon = daemon_of(program)
    if not daemon:
        see(True, "")
        return "not tried, since no adsd was built beside the program"
    with concurrent.futures.ThreadPoolExecutor(len(SCENES)) as pool:
        return "; ".join(pool.map(lambda which: scene(daemon, program, which), SCENES))
