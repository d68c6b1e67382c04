"""deploy.py: what a page shows goes with its description, and back, wherever a run is cut off."""
import os
import subprocess
import sys

from tries.running import ME, NET, TOOLS, Served, refused, see, tool

SOURCE = f"""net = "{NET}"
[[route]]
net = "{ME}"
rights = "control"
[[port]]
port = 851
name = "Pages"
symbol = [{{ name = "Main.level", type = "REAL", persistent = true, unit = "UNIT", max = 5 }}]
"""
OTHER = SOURCE.replace("symbol = [", 'symbol = [{ name = "Main.more", type = "DINT" }, ').replace("UNIT", "bar")
# So many steps of a run rename, link, remove or write something.
STEPS = 12


def text_of(name):
    with open(name, encoding="utf-8") as file:
        return file.read()


def built(folder, name, source):
    line, out = os.path.join(folder, f"{name}.source"), os.path.join(folder, f"{name}.toml")
    with open(line, "w", encoding="utf-8") as file:
        file.write(source)
    said, err, status = tool("plant.py", "build", line, "--out", out)
    see(status == 0, said + err)
    return out


def page_of(name):
    return name[:-5] + ".page.toml"


def deployed(server, *words, cut=None):
    """Whether a run came to its end."""
    script = [os.path.join(TOOLS, "deploy.py")] if cut is None else [os.path.join(TOOLS, "tries", "cut_off.py"), cut]
    it = subprocess.run(
        [sys.executable, *script, *words, *server.words(), "--wait", "30", "--seconds", "30"],
        stdin=subprocess.DEVNULL,
        capture_output=True,
        text=True,
        timeout=90,
    )
    see(it.returncode == 0 or (cut and it.returncode == 137), f"deploy.py {words}: {it.stdout}{it.stderr}")
    return it.stdout, it.returncode == 0


def stands(place, new):
    """Sees that a description stands in its place, with what a page shows of it."""
    see(text_of(place) == text_of(new), f"{place} is not {new}")
    see(text_of(page_of(place)) == text_of(page_of(new)), f"{page_of(place)} is not that of {new}")
    for left in (place + ".next", place + ".unfinished", page_of(place) + ".next"):
        see(not os.path.exists(left), f"{left} is left")


def goes_and_comes(server, place, old, new):
    out, _ = deployed(server, new, place)
    see(f"{page_of(new)} stands at {page_of(place)}" in out, out)
    stands(place, new)
    deployed(server, place, "--rollback", "--yes")
    stands(place, old)


def stays(server, folder, place, old, new):
    """Without a file beside the new description that of the place stays; a broken one is refused."""
    bare = os.path.join(folder, "bare.toml")
    with open(bare, "w", encoding="utf-8") as file:
        file.write(text_of(new))
    out, _ = deployed(server, bare, place)
    see(f"{page_of(place)} stays as it is" in out and text_of(page_of(place)) == text_of(page_of(old)), out)
    deployed(server, place, "--rollback", "--yes")
    stands(place, old)
    with open(page_of(bare), "w", encoding="utf-8") as file:
        file.write('[[port]]\nport = 851\nsymbol = [{ name = "Main.level", unitt = "bar" }]\n')
    refused(2, "is `unit` meant?", "deploy.py", bare, place, *server.words())
    stands(place, old)
    with open(page_of(bare), "w", encoding="utf-8") as file:
        file.write(text_of(page_of(new)))
    with open(bare, "w", encoding="utf-8") as file:
        file.write(text_of(old))
    out, _ = deployed(server, bare, place)
    see("these very bytes already" in out and text_of(page_of(place)) == text_of(page_of(new)), out)


def cut(server, place, old, new, steps):
    """Whatever step a run is cut off in front of, the same command brings both."""
    count = 0
    for step in steps:
        for words, wanted in (((new, place), new), ((place, "--rollback", "--yes"), old)):
            is_whole = deployed(server, *words, cut=str(step))[1]
            count += not is_whole
            if not is_whole:
                deployed(server, *words)
            stands(place, wanted)
    see(count >= len(steps), f"only {count} runs were cut off")
    return count


def pages(program, folder, size):
    folder = os.path.join(folder, "pages")
    os.mkdir(folder)
    old, new = built(folder, "old", SOURCE.replace("UNIT", "mbar")), built(folder, "new", OTHER)
    place = built(folder, "plant", SOURCE.replace("UNIT", "mbar"))
    for it in (old, new, place):
        with open(it, encoding="utf-8") as file:
            text = file.read()
        with open(it, "w", encoding="utf-8") as file:
            file.write("\n".join(line for line in text.split("\n") if not line.startswith("# ")))
    with open(page_of(place), "w", encoding="utf-8") as file:
        file.write(text_of(page_of(old)))
    with Served(program, place) as server:
        goes_and_comes(server, place, old, new)
        count = cut(server, place, old, new, (6, 8) if size.quick else range(1, STEPS + 1))
        stays(server, folder, place, old, new)
    return count
