"""What a try of logic.py runs: a bit of all that a file may say. `fails` is wrong on purpose, and so is `refused`."""
import logic
from logic import after, every, plant, seconds_of, when


@every(0.02)
def tank(seconds):
    plant["Tank.level"] += 3.0 * plant["Valve.in"] * seconds


@when("Command.start", True)
def start():
    plant["Seen.starts"] += 1
    plant["line.MODE"] = "Starting"
    after(0.2, lambda: plant.set("Line.mode", "Running"))


@when("Command.step")
def step(value):
    plant["Seen.step"] = value
    plant["Seen.steps"] += 1
    if value == 1:
        structures()


def structures():
    recipe = plant["Line.recipes[1]"]
    recipe["volume"] *= 2
    recipe["mode"] = "Running"
    plant["Line.recipes[3]"] = recipe
    plant["Line.recipes[2]"] = {"title": "Kühl", "soak": "T#2s"}
    plant["Line.recipes[2].soak"] = plant["Line.recipes[2].soak"]
    plant["Line.grid"] = [[2 * it for it in row] for row in plant["Line.grid"]]
    plant["Line.grid[1,2]"] += 100
    plant["Line.soak"] = round(1000 * seconds_of(plant["Line.soak"])) + 500
    plant["Line.title"] = plant["Line.recipes"][1]["title"] + " " + plant["Line.mode"]


@when("Command.step", 2)
def refused():
    plant["Fixed.one"] = plant["Fixed.one"] + 1


@when("Command.fault")
def fails():
    plant["Line.title"] = "half"
    after(0.01, lambda: plant.set("Line.title", "later"))
    plant["Line.mode"] = "Runing"


@every(0.05)
def two():
    plant["Two.a"] += 1
    plant["Two.b"] = -plant["Two.a"]


@logic.every(0.05)
def extra():
    plant["Extra.count"] += 1


@every(0.1)
def many():
    for number in range(1, 601):
        plant[f"Many.n{number}"] += 1
