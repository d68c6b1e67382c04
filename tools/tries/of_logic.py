"""logic.py: a plant that moves over a daemon: cycles, changes, delays, faults, lost connections, new descriptions."""
import os
import re
import tempfile
import time

from tries.logic_runs import LOGIC, Logic, Server, described, text_of
from tries.logic_wrong import CHECKED, NO_LOGIC, all_types, checks, does_not_run, misspelt
from tries.running import EXAMPLES, see

WATER = {"title": "Water", "volume": 0.5, "mode": "Stopped", "soak": "T#0s"}
COOL = {"title": "Kühl", "volume": 0.0, "mode": "Stopped", "soak": "T#2s"}
RECIPES = [WATER, COOL, {**WATER, "volume": 1.0, "mode": "Running"}]


def moves(server, logic):
    """Cycles, changes, delays, and values of structures and arrays."""
    values = server.client()
    values.put({"Line.recipes": [WATER], "Line.grid": [1, 2, 3, -4], "Line.soak": "T#1s", "Valve.in": 2.0})
    began, level = time.monotonic(), values.one("Tank.level")
    time.sleep(0.3)
    found, took = values.one("Tank.level") - level, time.monotonic() - began
    see(abs(found - 6.0 * took) < 3.0, f"a tank of 6 a second rises by {found} in {took} seconds")
    values.put({"Command.start": True})
    logic.until(lambda: values.one("Line.mode") == "Running", "the line does not start")
    values.put({"Command.step": 1})
    logic.until(lambda: values.one("Line.title") == "Kühl Running", "a change of Command.step calls nothing")
    found = values.values(["Line.recipes", "Line.grid", "Line.soak", "Seen.*", "Two.*"])
    see(found["Line.recipes"] == RECIPES, f"structures: {found}")
    see(found["Line.grid"] == [[2, 4], [6, 92]] and found["Line.soak"] == "T#1s500ms", f"an array, a duration: {found}")
    see((found["Seen.starts"], found["Seen.step"], found["Seen.steps"]) == (1, 1, 1), f"calls: {found}")
    see(found["Two.a"] == -found["Two.b"] > 0, f"the writes of a cycle do not come together: {found}")
    # (more than a sum has, so what is read of them may be of two cycles)
    found = set(values.values(["Many.*"]).values())
    see(min(found) > 0 and max(found) - min(found) <= 1, f"many values: {found}")
    values.put({"Command.start": False})
    time.sleep(0.1)
    see(values.one("Seen.starts") == 1, "when with a value ran for another one")
    return values


def faults(values, logic):
    """A fault ends its function alone, and takes back what it did; a refused write is told once."""
    values.put({"Command.fault": True})
    line = text_of(LOGIC).split("\n").index('    plant["Line.mode"] = "Runing"') + 1
    why = "Line.mode: 'Runing' is no value of Mode; is Running meant?"
    logic.tells(f"{LOGIC}:{line}: fails: {why}; fails does not run any more")
    for step in (2, 3, 2, 4):
        values.put({"Command.step": step})
        logic.until(lambda: values.one("Seen.step") == step, f"step {step} is not seen")
    logic.tells("Fixed.one: the server refuses, 0x704")
    see(logic.said("Fixed.one") == 1, "a refused write is told again")
    see(values.one("Line.title") == "Kühl Running", "a function that fails has written")


def comes_again(server, values, logic):
    """A server that is gone: functions wait, and changes count from what was seen before."""
    values.put({"Command.step": 0})
    logic.until(lambda: values.one("Seen.step") == 0, "step 0 is not seen")
    values.close()
    server.stop()
    logic.tells("; the functions wait")
    time.sleep(0.2)
    server.start()
    logic.tells("connected again after")
    values = server.client()
    # (the server begins anew, with Command.start false and Command.step 0)
    logic.until(lambda: values.one("Two.a") > 2, "functions do not go on")
    seen = values.one("Seen.steps"), values.one("Seen.starts")
    see(seen == (0, 0), f"the same value after a return is taken for another: {seen}")
    values.put({"Command.start": True})
    logic.until(lambda: values.one("Seen.starts") == 1, "a change after a return is not seen")
    return values


def new_descriptions(folder, values, logic):
    """Names that stay go on, also elsewhere; names that are gone are waited for, and used again when they are back."""
    see(values.one("Extra.count") > 0, "Extra.count stands still")
    described(folder, ("Extra.count", "Command.step"), '  { name = "First.one", type = "LREAL" },\n')
    for name, symbol in (("extra", "Extra.count"), ("step", "Command.step")):
        logic.tells(f"{name} waits: the server has no symbol '{symbol}'")
    before = values.one("Two.a")
    logic.until(lambda: values.one("Two.a") > before, "functions whose names stay do not go on")
    described(folder)
    logic.tells("extra runs again")
    logic.tells("step runs again")
    logic.until(lambda: values.one("Extra.count") > 2, "a function whose name is back does not run")
    values.put({"Command.step": 7})
    logic.until(lambda: values.one("Seen.step") == 7, "a change of a name that is back is not seen")


def runs(program, folder):
    with Server(program, described(folder)) as server:
        with Logic(LOGIC, *server.on(), "--report", "1") as logic:
            values = moves(server, logic)
            faults(values, logic)
            values = comes_again(server, values, logic)
            new_descriptions(folder, values, logic)
            values.close()
            see(logic.end() == 3, "a run with a fault ends with another status than 3")
            report = r"1 s: \d+ cycles, the latest \d+\.\d ms late \(\w+\), \d+ over half a period, \d+ left out"
            see(re.search(report, "".join(logic.lines)), "no report")
            see(re.fullmatch(r"ended: \d+ cycles, .* 1 faults\n", logic.lines[-1]), f"the last line: {logic.lines[-1]}")
        misspelt(folder, server)
        does_not_run(folder, server)


def example(program, line):
    """The filling line fills."""
    with Server(program, line) as server, Logic(os.path.join(EXAMPLES, "filling_logic.py"), *server.on()) as logic:
        values = server.client()
        values.put({"Line.speed": 20.0})
        logic.until(lambda: values.one("Line.count") > 3 and values.one("Sensor02") > 0, "nothing is filled")
        values.put({"Drive2.set": 150.0})
        logic.until(lambda: "drive 2" in values.one("Line.alarm"), "a set point has no effect")
        values.put({"Line.run": False})
        logic.until(lambda: values.one("Line.mode") == "Stopped", "the line does not stop")
        see(logic.end() == 0, f"the example ended: {logic.lines}")


def tried(program, size):
    all_types(size.of(500, 50))
    with tempfile.TemporaryDirectory() as folder:
        line = checks(folder)
        runs(program, folder)
        example(program, line)
    wrong = f"{len(CHECKED)} wrong names and values, {len(NO_LOGIC)} wrong files"
    return f"a plant that moves, stops and comes again; {wrong}"
