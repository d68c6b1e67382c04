"""A filling line that moves: what a controller would do with the symbols of examples/line.toml.

    python3 tools/plant.py build examples/line.toml --out plant.toml
    python3 tools/logic.py run examples/filling_logic.py --to 127.0.0.1 --me 192.168.0.9.1.1 --plant plant.toml

Line.run starts and stops it. Line.speed is its bottles a second, Line.active its recipe; another recipe begins with a
cleaning. Each hundredth bottle is stuck, and a Drive.set over 100 stops its drive: then Line.mode is Faulted, and
Line.alarm says why.
"""
import random

from logic import after, every, plant, seconds_of, when

TANKS, DRIVES, SENSORS, VALVES = range(1, 5), range(1, 7), range(1, 41), 24
TANK_VOLUME = 20000.0  # millilitres
REFILL = 0.05  # of a tank in a second
MOST_SPEED = 20.0  # bottles a second
refilled, begun = set(), {"bottle": 0.0}


def recipe():
    """The name of the recipe that runs."""
    return f"Line.recipes[{min(max(plant['Line.active'], 1), 10)}]"


def count_up(name):
    plant[name] = (plant[name] + 1) % 2 ** 32


def set_mode(mode):
    plant["Line.mode"] = mode
    for drive in DRIVES:
        plant[f"Drive{drive}.mode"] = mode
        plant[f"Drive{drive}.fault"] = False


def go_on():
    plant["Line.alarm"] = ""
    set_mode("Running" if plant["Line.run"] else "Stopped")


def stop_for(why, seconds):
    """An alarm, which somebody sees to within so many seconds."""
    set_mode("Faulted")
    plant["Line.alarm"] = why
    after(seconds, go_on)


after(0, go_on)


@when("Line.run")
def run_or_stop():
    go_on()


@when("Line.active")
def other_recipe():
    if plant["Line.mode"] == "Running":
        set_mode("Cleaning")
        after(min(3.0 + seconds_of(plant[recipe() + ".soak"]), 10.0), go_on)


@every(0.02)
def bottles(seconds):
    """A bottle for each whole number that the speed comes to."""
    speed = plant["Line.speed"]
    if plant["Line.mode"] == "Running" and speed > 0.0:
        begun["bottle"] += seconds * min(speed, MOST_SPEED)
        if begun["bottle"] >= 1.0:
            begun["bottle"] -= 1.0
            fill(plant["Line.count"] % VALVES + 1)


def fill(number):
    valve, tank = f"Line.valve{number:02}", f"Tank{(number - 1) % 4 + 1}"
    volume = plant[recipe() + ".volume"]
    volume = volume if 0.0 < volume < 5000.0 else 250.0  # (most recipes are empty)
    plant[f"{valve}.open"] = True
    after(0.3, lambda: plant.set(f"{valve}.open", False))
    count_up(f"{valve}.count")
    count_up("Line.count")
    plant[f"{tank}.level"] = max(plant[f"{tank}.level"] - volume / TANK_VOLUME, 0.0)
    for sensor in reversed(SENSORS[1:]):  # the bottles move on by one place
        plant[f"Sensor{sensor:02}"] = plant[f"Sensor{sensor - 1:02}"]
    plant["Sensor01"] = round(volume + random.gauss(0.0, 2.0))
    if plant["Line.count"] % 100 == 0:
        stop_for(f"a bottle is stuck at valve {number}", 6.0)


@every(0.1)
def tanks(seconds):
    """Levels, their two marks, and the first probe: the heater keeps it between 60 and 70 degrees."""
    for tank in TANKS:
        level, (warm, *others) = plant[f"Tank{tank}.level"], plant[f"Tank{tank}.probe"]
        if level < 0.2:
            refilled.add(tank)
        elif level > 0.9:
            refilled.discard(tank)
        plant[f"Tank{tank}.level"] = min(level + REFILL * seconds * (tank in refilled), 1.0)
        plant[f"Tank{tank}.low"], plant[f"Tank{tank}.high"] = level < 0.2, level > 0.9
        heater = plant[f"Tank{tank}.heater"] = warm < 60 or (plant[f"Tank{tank}.heater"] and warm < 70)
        if random.random() < 2.0 * seconds:
            plant[f"Tank{tank}.probe"] = [warm + (1 if heater else -1), *others]


@every(0.5)
def drives():
    for drive in DRIVES:
        if abs(plant[f"Drive{drive}.set"]) > 100.0 and plant["Line.mode"] == "Running":
            stop_for(f"drive {drive} has a set point over 100", 3.0)
            plant[f"Drive{drive}.fault"] = True


@every(0.5)
def lamps():
    """Running, stopped, cleaning, and the alarm, which blinks."""
    mode = plant["Line.mode"]
    plant["Lamp1"], plant["Lamp2"], plant["Lamp3"] = mode == "Running", mode == "Stopped", mode == "Cleaning"
    plant["Lamp4"] = mode == "Faulted" and not plant["Lamp4"]
