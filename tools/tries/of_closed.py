"""Each choice of the descriptors 0, 1 and 2 closed at the start of each command of `ads`, and of `adsd` over a store,
a recording and clients."""
import concurrent.futures
import tempfile

from tries.closed import CLOSED, SCENES, Heard, Runs, over_the_daemon
from tries.of_program import daemon_of


def scene_of(program, scene):
    """A scene with each choice, in a folder of its own."""
    with tempfile.TemporaryDirectory() as folder:
        runs = Runs(program, folder)
        runs.heard = Heard(program, folder)
        try:
            for closed in CLOSED:
                scene(runs, closed)
        finally:
            runs.heard.stop()


def daemon_too(program):
    daemon = daemon_of(program)
    if daemon:
        with tempfile.TemporaryDirectory() as folder:
            over_the_daemon(daemon, Runs(program, folder))
    return daemon


def tried(program, _size):
    # (most of it waits for ticks of servers)
    with concurrent.futures.ThreadPoolExecutor(len(SCENES) + 1) as pool:
        asked = [pool.submit(scene_of, program, scene) for scene in SCENES]
        daemon = daemon_too(program)
        for it in asked:
            it.result()
    programs = "every command of ads and adsd" if daemon else "every command of ads"
    return f"each of {len(CLOSED)} choices of descriptors closed: {programs} prints, writes and sends as it must"
