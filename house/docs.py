#!/usr/bin/env python3
"""Runs the commands that the pages show, over the built program, and compares what they say is printed.

    python3 house/docs.py [PROGRAM] [PAGE ..]
    python3 house/docs.py --links
        what needs no program: the links, the pages that scripts make, the words of the others
    python3 house/docs.py --write       makes the pages that scripts make, and the drawing of docs/ARCHITECTURE.md

PROGRAM is crates/ads/out/ads where it is absent (`rt run` in crates/ads builds it, and so does .ci/run). Of a page each
block ```console is run, line by line in one shell, in a folder of its own that holds the examples: a line `$ ..` is a
command, the lines behind it are all that it prints. `rt try -- ..` and `rt run -- ..` stand for the program itself.
Ports are replaced by free ones. The wrong bodies by name (wrong_bodies.py --named) and the public calls (signatures.py)
are held against the crates. The spellings in the table of values are tried, the answers that docs/CONNECTING.md tells
asked for (connecting.py; the daemon's too if it is built), the cases counted, and the links between the pages followed,
in the READMEs of the crates too; a page that a script makes is to be what it would make, and README.md and
docs/ have at most 25,000 words, without code and what scripts make. Each difference is told with its page and line;
status 1 where there is one.
"""
import pathlib
import queue
import re
import shutil
import subprocess
import sys
import tempfile
import threading
import time

sys.dont_write_bytecode = True
sys.path[1:1] = [f"{sys.path[0]}/../{room}" for room in ("model", "tools", "tries")]
import connecting  # noqa: E402
import start  # noqa: E402
from under_test import free_port  # noqa: E402

ROOT = pathlib.Path(__file__).resolve().parent.parent
ROOMS = ("house", "model", "bench", "tries")
LINKED = ["README.md", *(f"{room}/README.md" for room in ROOMS),
          *sorted(str(p.relative_to(ROOT)) for form in ("docs/*.md", "crates/*/README.md") for p in ROOT.glob(form))]
# What the crates must have: the wrong bodies by name, the public calls.
HELD = (("wrong_bodies.py", "--named"), ("signatures.py",))
MADE = {"docs/CONTRACTS.md": "contracts.py", "docs/BELIEVED.md": "believed.py", "docs/*.1": "manual.py"}
ADSD = ROOT / "crates/adsd/out/adsd"
PAGES = [page for page in LINKED if not page.startswith("crates/") and "```console" in (ROOT / page).read_text()]
MARK = "--- that was it ---"
RT = 'rt() { if [ "$1" = try ] || [ "$1" = run ]; then shift; [ "$1" = -- ] && shift; ads "$@"; fi; }\n'
SECONDS = 30
# Words that all pages together may have, and lines of a crate's README.
MOST_WORDS, MOST_LINES = 25000, 40


def blocks(page):
    """The commands of a page: (line number, command, wanted lines)."""
    found, inside = [], False
    for number, line in enumerate((ROOT / page).read_text().split("\n"), 1):
        if line.startswith("```"):
            inside = line.strip() == "```console"
        elif inside and line.startswith("$ "):
            found.append((number, line[2:], []))
        elif inside and found:
            found[-1][2].append(line)
    return found


class Shell:
    """A shell whose lines of output come through a queue."""

    def __init__(self, folder):
        self.errors = open(folder / "errors.txt", "w+")
        self.process = subprocess.Popen(["bash"], cwd=folder, stdin=subprocess.PIPE, stdout=subprocess.PIPE,
                                        stderr=self.errors,
                                        text=True, bufsize=1)
        self.lines = queue.Queue()
        threading.Thread(target=self.read, daemon=True).start()
        self.say(RT)

    def read(self):
        for line in self.process.stdout:
            self.lines.put(line.rstrip("\n"))
        self.lines.put(None)

    def say(self, text):
        self.process.stdin.write(text)
        self.process.stdin.flush()

    def take(self, until):
        try:
            return self.lines.get(timeout=max(0.0, until - time.time()))
        except queue.Empty:
            return None

    def run(self, command, wanted):
        """All lines that a command prints; of one in the background as many as are wanted."""
        until, got, ended = time.time() + SECONDS, [], False
        behind = command.rstrip().endswith("&")
        self.say(command + ("; wait 2>/dev/null" if command.startswith("kill ") else "") + f"\necho '{MARK}'\n")
        while not ended or (behind and len(got) < wanted):
            line = self.take(until)
            if line is None and not ended:
                # (what the command started is ended, so that the next command has its turn)
                subprocess.run(["pkill", "-P", str(self.process.pid)])
                got.append(f"(not done after {SECONDS} seconds)")
                until = time.time() + 5
                if len(got) > wanted + 2:
                    return got
                continue
            if line is None:
                return got + ["(nothing more came)"]
            if line == MARK:
                ended = True
            else:
                got.append(line)
        return got

    def stop(self):
        self.say("kill $(jobs -p) 2>/dev/null\nexit\n")
        try:
            self.process.wait(10)
        except subprocess.TimeoutExpired:
            self.process.kill()


def lines_of_start(is_built=False):
    """What ./start prints by README.md, with N for the seconds of each step; and where the programs are built already,
    without these steps."""
    block = next((wanted for _, command, wanted in blocks("README.md") if command == "./start"), [])
    lines, steps = [re.sub(r"\b\d+ s$", "N s", line) for line in block], len(start.unproved.STEPS)
    return lines[1 + steps:] if is_built else lines


def of_start(wanted):
    """A block of ./start with the line that stands there where .ci/run has left the programs, if the lines of the
    building are those that it prints."""
    said = [start.BUILDING, *(f"{start.step_text(step)} N s" for step in range(1, len(start.unproved.STEPS) + 1)),
            start.UNPROVED.format("out/unproved")]
    proved = start.PROVED.format("crates/ads/out/ads", "crates/adsd/out/adsd")
    return [proved, *wanted[len(said):]] if lines_of_start()[:len(said)] == said else said


def with_ports_of_page(line, ports):
    """A line that was printed, with the ports that the page names in place of the free ones."""
    for port, free in ports.items():
        line = line.replace(f"127.0.0.1:{free}", f"127.0.0.1:{port}")
    return line


def with_free_ports(command, ports):
    """A command with free ports in place of those that it names; ./start names none, and runs beside what follows."""
    for port in re.findall(r"\b(?:127\.0\.0\.1|0\.0\.0\.0):(\d+)",
                           command) if command != "./start" else ("48898", "8080"):
        ports.setdefault(port, str(free_port()))
    if command == "./start":
        return f"./start --port {ports['48898']} --http {ports['8080']} &"
    return re.sub(r"(\b(?:127\.0\.0\.1|0\.0\.0\.0):)(\d+)", lambda m: m.group(1) + ports[m.group(2)], command)


def try_page(page, program, folder):
    shutil.rmtree(folder, ignore_errors=True)
    (folder / "crates/ads/out").mkdir(parents=True)
    (folder / "crates/ads/out/ads").symlink_to(program)
    (folder / "crates/adsd/out").mkdir(parents=True)
    (folder / "crates/adsd/out/adsd").symlink_to(program.parents[2] / "adsd/out/adsd")
    shutil.copytree(ROOT / "examples", folder / "examples")
    for name in ("docs", "tools", *ROOMS):
        (folder / name).symlink_to(ROOT / name)
    shutil.copy2(ROOT / "start", folder)
    ports, wrong, commands = {}, 0, blocks(page)
    shell = Shell(folder)
    shell.say(f"PATH={folder}/crates/ads/out:$PATH\n")
    for number, command, wanted in commands:
        tried = with_free_ports(command, ports)
        wanted = of_start(wanted) if command == "./start" else wanted
        got = [with_ports_of_page(line, ports) for line in shell.run(tried, len(wanted))]
        if got != wanted:
            wrong += 1
            print(f"{page}:{number}: {command}")
            for line in wanted:
                print(f"  said  {line}")
            for line in got:
                print(f"  came  {line}")
            shell.errors.seek(0)
            for line in shell.errors.read().split("\n")[-3:]:
                if line:
                    print(f"  error {line}")
    shell.stop()
    print(f"{page}: {len(commands)} commands, {wrong} otherwise")
    return wrong


PLANT = """schema = 2
net = "5.1.2.3.1.1"
[[route]]
net = "192.168.0.9.1.1"
rights = "control"
[[type]]
name = "Mode"
base = "INT"
value = [{{ name = "Auto", number = 2 }}, {{ name = "Off", number = 0 }}]
[[port]]
port = 851
name = "Values"
major = 1
minor = 0
build = 0
data = 64
[[port.symbol]]
name = "V.x"
type = "{}"
area = "data"
offset = 0
"""
REFUSED = 13
CASES = ("cases_wire", "cases_description", "cases_device")


def try_values(program, folder):
    """The table of values: each spelling that `set` takes or refuses, over a symbol of the row's type."""
    rows = (ROOT / "docs/COMMANDS.md").read_text().split("| `set` refuses, with status 13 "
                                                         "|\n|---|---|---|\n")[1].split("\n\n")[0]
    count = wrong = 0
    for row in rows.split("\n"):
        kind, takes, refuses = [re.findall(r"`([^`]+)`", cell) for cell in row.strip("| ").split(" | ")]
        (folder / "values.toml").write_text(PLANT.format(kind[0]))
        for texts, status in ((takes, 0), (refuses, REFUSED)):
            for text in texts:
                ended = subprocess.run([program, "set", "V.x", "--local", folder / "values.toml", "--me",
                                        "192.168.0.9.1.1", "--", text],
                                       stdout=subprocess.PIPE, text=True)
                count += 1
                if ended.returncode != status:
                    wrong += 1
                    print(f"docs/COMMANDS.md: {kind[0]} := {text}: status {ended.returncode}, {ended.stdout.strip()}")
    print(f"docs/COMMANDS.md: {count} spellings of values, {wrong} otherwise")
    return wrong


def count_cases():
    """The figures of docs/GUARANTEES.md, `more than N` calls, whole runs and hostile ones: there are more."""
    data, text = ROOT / "crates/cases_run/data", (ROOT / "docs/GUARANTEES.md").read_text()
    runs = {name: len([part for part in re.split(r"^----$", (data / name).read_text(), flags=re.M) if part.strip()])
            for name in (data / "runs.txt").read_text().split()}
    counted = {"calls": sum(int((ROOT / f"crates/{name}/stdout").read_text().split("\n")[-2].split()[0])
                            for name in CASES), "whole runs": sum(runs.values()),
               "hostile ones": sum(count for name, count in runs.items() if name.startswith(("hostile", "peer_")))}
    said = {name: int(number.replace(",", "")) for number,
            name in re.findall(r"more than ([\d,]+) (calls|whole runs|hostile ones)", text)}
    wrong = [name for name, count in counted.items() if not said.get(name, count) < count]
    for name in wrong:
        print(f"docs/GUARANTEES.md: there are {counted[name]:,} {name}")
    return len(wrong)


def try_made():
    """The pages that scripts make are what they would make."""
    return sum(subprocess.run([sys.executable, ROOT / "house" / script, "--check"], cwd=ROOT).returncode != 0
               for script in MADE.values())


def try_held():
    """The crates have the wrong bodies of house/wrong_bodies.md and the calls of house/calls.txt; what they say of it
    is printed where something is missing."""
    wrong = 0
    for script, *words in HELD:
        ran = subprocess.run([sys.executable, ROOT / "house" / script, *words], cwd=ROOT, stdout=subprocess.PIPE,
                             text=True)
        said = ran.stdout.splitlines()
        print("\n".join(said if ran.returncode else said[-1:]))
        wrong += ran.returncode != 0
    return wrong


def count_words():
    """How many words a reader of the pages has before him, without code and what scripts make; status 1 where they are
    too many."""
    pages = [page for page in LINKED if page.startswith(("README", "docs/")) and page not in MADE]
    texts = [re.sub(r"<!-- made .*?<!-- end .*?-->|```.*?```", "", (ROOT / page).read_text(), flags=re.S)
             for page in pages]
    count = sum(bool(re.search(r"\w", word)) for text in texts for word in text.split())
    print(f"{count:,} words in {len(pages)} pages, which may have {MOST_WORDS:,}; and code, and what scripts make")
    return count > MOST_WORDS


def look_at_readmes():
    """Each crate's README has an example, and few lines; gives how many have not."""
    wrong, pages = 0, [page for page in LINKED if page.startswith("crates/")]
    for page in pages:
        text = (ROOT / page).read_text()
        lines, blocks = text.count("\n"), len(re.findall(r"^```(?:rust|antt|sh|text)$", text, re.M))
        if lines > MOST_LINES or not blocks:
            wrong += 1
            print(f"{page}: " + (f"{lines} lines, of at most {MOST_LINES}" if blocks
                                 else "no example of a call (```rust; of definitions ```antt, of a program ```sh or "
                                 "```text)"))
    print(f"{len(pages)} READMEs of crates, {wrong} of them too long or without an example")
    return wrong


def anchors(path):
    """The anchors of a page, as the sites that show it make them."""
    found = set()
    for line in path.read_text().split("\n"):
        if line.startswith("#"):
            title = re.sub(r"[^\w\- ]", "", line.lstrip("#").strip().lower()).replace(" ", "-")
            found.add(title)
    return found


def follow_links(page):
    wrong, count = 0, 0
    text = re.sub(r"```.*?```", "", (ROOT / page).read_text(), flags=re.S)
    for target in re.findall(r"\]\(([^)\s]+)\)", text):
        if re.match(r"[a-z]+:", target):
            continue
        count += 1
        name, _, anchor = target.partition("#")
        path = (ROOT / page).parent / name if name else ROOT / page
        if not path.exists() or (anchor and path.suffix == ".md" and anchor not in anchors(path)):
            wrong += 1
            print(f"{page}: the link {target} leads nowhere")
    return count, wrong


def names_of_package(page):
    """How many tools and examples of the package a page names that are not there."""
    text = (ROOT / page).read_text()
    named = [f"tools/{it}.py" for it in re.findall(r"\bads-tool ([a-z]+)",
                                                   text)] + re.findall(r"/usr/share/doc/ads/(examples/[\w.@-]+\w)",
                                                                       text)
    wrong = [it for it in named if not (ROOT / it).exists()]
    for it in wrong:
        print(f"{page}: the package has no {it}")
    return len(wrong)


def look_at_pages():
    """What needs no program: how much of it is wrong."""
    counts = [follow_links(page) for page in LINKED]
    wrong = sum(w for _, w in counts)
    print(f"{sum(c for c, _ in counts)} links, {wrong} of them lead nowhere")
    wrong += count_words() + look_at_readmes()
    wrong += sum(names_of_package(page) for page in LINKED)
    return wrong + try_made() + try_held() + connecting.try_table()


def main(words):
    if words == ["--write"]:
        return sum(subprocess.run([sys.executable, ROOT / "house" / it, "--write"], cwd=ROOT,
                                  stdout=subprocess.DEVNULL).returncode != 0
                   for it in ("map.py", *MADE.values()))
    if words == ["--links"]:
        return 1 if look_at_pages() else 0
    pages = [word for word in words if word.endswith(".md")]
    programs = [word for word in words if not word.endswith(".md")]
    program = pathlib.Path(programs[0] if programs else ROOT / "crates/ads/out/ads").resolve()
    if not program.is_file():
        print(f"there is no program at {program}: `rt run` in crates/ads builds it")
        return 2
    wrong = 0
    with tempfile.TemporaryDirectory() as folder:
        for page in pages or PAGES:
            wrong += try_page(page, program, pathlib.Path(folder) / "tried")
        wrong += try_values(program, pathlib.Path(folder)) + count_cases() + connecting.try_steps(program)
    if ADSD.is_file():
        wrong += connecting.try_clients(str(ADSD))
    return 1 if wrong + look_at_pages() else 0


if __name__ == "__main__":
    sys.exit(main(sys.argv[1:]))
