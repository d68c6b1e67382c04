"""The cases of descriptions in crates/cases_description/data: texts with the answer that must come, worked out by hand from the rules. crates/case_sheets/README.md has their form."""
import os
import re

from tries.running import TOOLS

DATA = os.path.join(TOOLS, "..", "crates", "cases_description", "data")
PIECE = re.compile(r'(?:"((?:[^"\\]|\\.)*)"|@([A-Za-z0-9_.]+)|([0-9a-f]+))(?:\*([0-9]+))?\+?')
REPEAT = re.compile(r"\s*#repeat (-?[0-9]+)\.\.(-?[0-9]+) (.*)")


def text_of(name):
    with open(os.path.join(DATA, name), encoding="utf-8", newline="") as file:
        return file.read()


def repeated(text):
    """A text with its lines `#repeat A..B TEXT` written out."""
    lines = []
    for line in text.split("\n"):
        it = REPEAT.fullmatch(line)
        if it:
            numbers = range(int(it[1]), int(it[2]) + 1)
            lines += [it[3].replace("<n>", str(n)).replace("<n-1>", str(n - 1)).replace("<4n>", str(4 * n)) for n in numbers]
        else:
            lines.append(line)
    return "\n".join(lines)


def unquoted(text):
    return re.sub(rb'\\(n|"|\\|x..)', lambda it: b"\n" if it[1] == b"n" else it[1] if len(it[1]) == 1 else bytes([int(it[1][1:], 16)]), text.encode())


def bytes_of(words):
    given = b""
    for quoted, name, digits, times in PIECE.findall(words):
        one = repeated(text_of(name)).encode() if name else bytes.fromhex(digits) if digits else unquoted(quoted)
        given += one * int(times or 1)
    return given


def filled(frame, part):
    """A frame with the part in place of its line `# PART`."""
    part = re.sub(r" ?\\n ?", "\n", part)
    return repeated("\n".join(part if re.fullmatch("# [A-Z]+", line) else line for line in text_of(frame).split("\n"))).encode()


def cases():
    """Texts, numbers of signals, and what must come: `accepted`, `syntax`, or `rule N item I`."""
    lines = []
    for line in text_of("symbol_file.cases").split("\n"):
        if line.startswith(" "):
            lines[-1] += ("" if line.strip().startswith("+") else " ") + line.strip()
        elif line and not line.startswith("#"):
            lines.append(line)
    for line in lines:
        call, _, wanted = line.rpartition(" => ")
        words = call.removeprefix("cuts ").split(" ", 3)
        if words[0] == "symbol_file.read":
            given = bytes_of(" ".join(words[2:]))
            for text in [given[:at] for at in range(len(given))] if call.startswith("cuts ") else [given]:
                yield text, int(words[1]), wanted
        elif words[0] == "symbol_file.fill":
            yield filled(words[2][1:], words[3] if len(words) > 3 else ""), int(words[1]), wanted
