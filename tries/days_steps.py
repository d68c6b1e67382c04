"""The steps of a day of tries/days.py: what clients, deploy.py and operators do. Each gives in words what it did."""
import contextlib
import os
import threading
import time

from days_plant import changed
from lib import groups
from lib.link import Refused
from lib.saved import Persistent
from lib.value_json import NoValueOf
from lib.words import Ended
from tries.running import TOOLS

DEPLOY = os.path.join(TOOLS, "deploy.py")
CUT_OFF = os.path.join(TOOLS, "tries", "cut_off.py")
# How many steps deploy.py has, in front of which it may end.
CUTS = 10
STEPS = {}


def step(weight, only=None):
    """A step of a day, and how often it comes; `only` names what a program must have for it."""

    def of(function):
        STEPS[function.__name__] = (function, weight, only)
        return function

    return of


# Ordinary steps.


@step(6)
def write(day):
    return f"writes {day.write(day.chance.randint(1, 8))} values"


@step(4)
def write_wait(day):
    count = day.write(day.chance.randint(1, 8))
    return f"writes {count} values, waits: {day.wait()}"


@step(2)
def kill(day):
    day.again(True)
    day.look(alive=False)
    return "kill -9, start"


@step(2)
def stop(day):
    day.again()
    day.look(alive=False)
    return "SIGTERM, start"


# Descriptions.


@step(5)
def deploy(day):
    variant = day.take(changed(day.chance, day.variant))
    status, said = deployed(day, [DEPLOY], day.source(variant), day.place)
    day.variant = variant if status == 0 else day.variant
    return f"deploy.py ({variant.named()}): status {status}{'' if status == 0 else ' ' + said[-160:]}"


@step(3)
def rollback(day):
    status, said = deployed(day, [DEPLOY], day.place, "--rollback")
    return f"deploy.py --rollback: status {status}{'' if status == 0 else ' ' + said[-160:]}"


def deployed(day, script, *words):
    """A run beside which a client may write."""
    if day.chance.random() < 0.6:
        return day.tool(script, *words)
    over = threading.Event()
    beside = threading.Thread(target=writing, args=(day, over, version_of(day.daemon.link())))
    beside.start()
    try:
        return day.tool(script, *words)
    finally:
        over.set()
        beside.join()
        day.overtake()


def writing(day, over, first):
    """Writes values until it is over. Those are late behind which the version is no more the first one, or can't be
    told."""
    while not over.is_set():
        with contextlib.suppress(Ended, Refused, NoValueOf):
            with contextlib.closing(day.daemon.connect()) as values:
                symbols = Persistent(values)
                while not over.is_set():
                    done, version = day.write(2, symbols), None
                    try:
                        version = version_of(values)
                    finally:
                        if version != first:
                            day.written.late.update(done)
                    time.sleep(0.02)


def version_of(values):
    return values.stream.read(values.port, groups.VERSION, 0, 1, 1)


@step(4)
def cut(day):
    """deploy.py ends in front of one of its steps, or is killed at some moment; it may be run again then."""
    is_back = day.chance.random() < 0.3
    variant = day.take(changed(day.chance, day.variant))
    words = [day.place, "--rollback"] if is_back else [day.source(variant), day.place]
    if day.chance.random() < 0.7:
        number = day.chance.randint(1, CUTS)
        status, _ = day.tool([CUT_OFF, number], *words)
        how = f"ends in front of step {number}"
    else:
        seconds = day.chance.uniform(0.1, 0.8)
        status, _ = day.tool([DEPLOY], *words, kill=seconds)
        how = f"is killed behind {seconds:.2f} s"
    how += f": status {status}"
    day.look()
    if day.chance.random() < 0.5:
        how += f", writes {day.write(2)} values"
    if day.chance.random() < 0.6:
        status, said = day.tool([DEPLOY], *words)
        how += f", once more: status {status}{'' if status == 0 else ' ' + said[-160:]}"
    return f"deploy.py {'--rollback' if is_back else variant.named()} {how}"


@step(3)
def describe(day):
    """Another description by hand, without deploy.py."""
    variant, count = day.take(changed(day.chance, day.variant)), day.accepted()
    day.put(variant.text)
    day.variant = variant
    taken = day.is_taken(count) if day.chance.random() < 0.8 else "not waited for"
    return f"a description by hand ({variant.named()}): {taken}"


@step(3)
def describe_stop(day):
    """SIGTERM or kill -9 right behind a new description."""
    variant, seconds = day.take(changed(day.chance, day.variant)), day.chance.choice((0, 0.2, 0.6, 1.0, 1.2))
    is_killed = day.chance.random() < 0.3
    if is_killed:
        day.wait()
    day.put(variant.text)
    day.variant = variant
    time.sleep(seconds)
    day.again(is_killed)
    day.look(alive=False)
    return (
        f"a description by hand ({variant.named()}), behind {seconds} s {'kill -9' if is_killed else 'SIGTERM'}, start"
    )


@step(2)
def describe_down(day):
    """A description that is changed while nothing runs."""
    variant, is_killed = day.take(changed(day.chance, day.variant)), day.chance.random() < 0.5
    day.daemon.kill() if is_killed else day.stop()
    day.put(variant.text)
    day.variant = variant
    day.start()
    day.look(alive=False)
    return f"{'kill -9' if is_killed else 'SIGTERM'}, a description by hand ({variant.named()}), start"


@step(2)
def down_back(day):
    """A description that is changed while nothing runs, and changed back before the first save."""
    good, is_killed = day.place.read_bytes(), day.chance.random() < 0.5
    variant = day.take(changed(day.chance, day.variant))
    day.daemon.kill() if is_killed else day.stop()
    day.put(variant.text)
    day.start()
    day.look(alive=False)
    count = day.accepted()
    day.put(good)
    return (
        f"{'kill -9' if is_killed else 'SIGTERM'}, a description by hand ({variant.named()}), start, "
        f"the one of before by hand: "
        f"{day.is_taken(count)}, waits: {day.wait()}"
    )


@step(2)
def refused(day):
    """A start over a description that is refused, or gone."""
    good, is_killed = day.place.read_bytes(), day.chance.random() < 0.5
    bad = day.chance.choice((b"", good[: len(good) // 2] + b"[", good.replace(b"schema = 2", b"schema = 9"), None))
    day.daemon.kill() if is_killed else day.stop()
    before = day.kept.read_bytes() if day.kept.exists() else None
    if bad is None:
        day.place.unlink()
    else:
        day.put(bad)
    # (a folder that was made anew has no description until the next one is accepted)
    keeps = "--keep-description" in day.words and os.path.exists(f"{day.kept}.description")
    if keeps:
        day.start()
        day.look(alive=False)
        day.write(2)
        if day.chance.random() < 0.5:
            day.wait()
        if not any(line.startswith("<3>") and "description" in line for line in day.daemon.lines):
            day.found(f"a refused description is not told at level 3: {day.daemon.log()}")
    else:
        day.refused((2, 4))
        if before != (day.kept.read_bytes() if day.kept.exists() else None):
            day.found("a start that is refused changes the store")
    day.put(good)
    if not keeps:
        day.start()
        day.look(alive=False)
    return (
        f"{'kill -9' if is_killed else 'SIGTERM'}, a description that is {'gone' if bad is None else 'refused'}, start"
    )
