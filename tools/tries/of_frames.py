"""frames.py: that its example is answered as it says, and that words and scripts are each other's."""
import os
import tempfile

from lib.program import run as run_program
from tries.running import EXAMPLES, PLANT, refused, see, tool

WORDS = os.path.join(EXAMPLES, "requests.words")
BAD = [
    ("read 1 Main.count", "no line before it opens the connection 1"),
    ("open 1\nread 1 Nothing", "the description has no Nothing"),
    ("open 1\nread 1 #1", "as the handle #1: say #1:LENGTH"),
    ("open 1\nread 1 0x4040:0", "is not GROUP:OFFSET:LENGTH"),
    ("open 1\nread 1 0x4040:x:1", "is no number"),
    ("open 1\nwrite 1 Main.count x", "is no number from"),
    ("open 1\nwrite 1 Main.count 2147483648", "is no number from"),
    ("open 1\nwrite 1 Main.title Mixtures", "in single quotes"),
    ("open 1\nwrite 1 Main.title 'Mixture1'", "at most 7 bytes"),
    ("open 1\nwrite 1 Main.axis 5", "16#"),
    ("open 1\nshout 1", "is no request"),
    ("open 1\nread 1", "has not 0 words behind it"),
    ("open 1\nsum 1 add Main.count", "a sum is of"),
    ("open 1\nask 1 1:2 16#", "is not GROUP:OFFSET:LENGTH"),
    ("open 1 to 5", "it is not: open C"),
    ("open 1\nopen 1", "was opened before"),
    ("open 1\nbytes 1 0", "is no hexadecimal text"),
    ("reload\nschema = 1", "full stop"),
    ("reload /nowhere.toml", "No such file"),
]
BAD_LOGS = [
    ("out 7 00", "'out 7 00' stands in it"), ("out 1 0", "'0' is no hexadecimal text"), ("ads: script line 2", "'ads: script line 2' stands in it"),
    ("out 1 010020000000", "a frame begins with two bytes that are not zero"), ("out 1 000000000000", "a frame says that it has 0 bytes"),
]


def lines_of(text, comments=True):
    return [line for line in text.splitlines() if not line.startswith("=") and (comments or not line.startswith("#"))]


def both_ways(folder):
    """Words written as a script and read back are the words, and written again the script."""
    with open(WORDS, encoding="utf-8") as file:
        wanted = lines_of(file.read(), comments=False)
    script, back = os.path.join(folder, "script"), os.path.join(folder, "back.words")
    first, _, status = tool("frames.py", "script", PLANT, WORDS, "--bare")
    see(status == 0, first)
    with open(script, "w", encoding="utf-8") as file:
        file.write(first)
    out, _, status = tool("frames.py", "words", PLANT, script)
    came = [line for line in out.splitlines() if line in wanted]
    see(status == 0 and came == [line for line in wanted if not line.startswith("reload ")], "the script of requests.words does not read back as its words")
    with open(back, "w", encoding="utf-8") as file:
        file.write(out)
    second, _, status = tool("frames.py", "script", PLANT, back, "--bare")
    see(status == 0 and second == first, "the words of a script are not its script again")


def bad_words(folder):
    name = os.path.join(folder, "bad.words")
    for text, part in BAD:
        with open(name, "w", encoding="utf-8") as file:
            file.write(text + "\n")
        refused(4 if "nowhere" in text else 3, part, "frames.py", "script", PLANT, name)
    refused(1, "play or verbs is wanted", "frames.py")
    refused(1, "is none of", "frames.py", "speak", PLANT, WORDS)
    refused(1, "behind script", "frames.py", "script", PLANT)
    refused(2, "rule 12 item 1", "frames.py", "script", os.path.join(EXAMPLES, "overlap.toml"), WORDS)
    refused(4, "No such file", "frames.py", "script", PLANT, "/nowhere.words")
    refused(4, "is no program", "frames.py", "play", PLANT, WORDS, "--program", "/nowhere/ads")
    for text, part in BAD_LOGS:
        with open(name, "w", encoding="utf-8") as file:
            file.write(text + "\n")
        refused(3, f"is no log of this script: {part}", "frames.py", "words", PLANT, os.path.join(EXAMPLES, "plant.script"), name)


def tried(program, _size):
    out, _, status = tool("frames.py", "play", PLANT, WORDS, "--expect", "--program", program)
    see(status == 0, f"requests.words is answered otherwise:\n{out}")
    with tempfile.TemporaryDirectory() as folder:
        both_ways(folder)
        with open(os.path.join(folder, "log"), "w", encoding="utf-8") as file:
            file.write(run_program(program, "replay", PLANT, os.path.join(EXAMPLES, "plant.script"))[0])
        out, _, status = tool("frames.py", "words", PLANT, os.path.join(EXAMPLES, "plant.script"), os.path.join(folder, "log"))
        see(status == 0 and "= 1 sample 200000 1 7" in out and "= reload ok 2" in out and "write 2 Main.count 7" in out, f"plant.script in words: {out}")
        bad_words(folder)
    verbs, _, status = tool("frames.py", "verbs")
    see(status == 0 and "handle NAME" in verbs, "frames.py verbs")
    with open(WORDS, encoding="utf-8") as file:
        requests = [line for line in lines_of(file.read(), comments=False) if line.split()[0] not in ("open", "close", "tick", "reload", "room", "fail")]
    return f"{len(requests)} requests in words are answered as they say, and read back; {len(BAD)} wrong lines"
