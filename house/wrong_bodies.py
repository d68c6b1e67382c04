#!/usr/bin/env python3
"""Tries the wrong bodies that the gate does not try: the edits of crates/NAME/wrong-bodies/.

    python3 house/wrong_bodies.py NAME..     at the top of a clone, for these crates
    python3 house/wrong_bodies.py            for each crate that has such a folder, which takes hours
    python3 house/wrong_bodies.py --by COMMAND NAME..     the same by a command of one's own, one edit after another
    python3 house/wrong_bodies.py --table FOLDER
        proves nothing: a table of what the files NAME.txt of a folder say
    python3 house/wrong_bodies.py --look
        proves nothing: tells which edits of must-fail/ and of wrong-bodies/ no longer apply
    python3 house/wrong_bodies.py --named
        proves nothing: the list of wrong_bodies.md; status 1 where an edit or its clause is gone
    python3 house/wrong_bodies.py --due
        proves nothing: which edits that the gate leaves out must be tried again, by refused.txt; status 1 where one
        must
    python3 house/wrong_bodies.py --record FILE..
        puts into refused.txt what rt ci, rt must-fail or this script printed of this text

An edit has the form of those in must-fail/: a line `file: src/lib.rt`, and pairs of lines `old: TEXT` and `new: TEXT`.
The tree is copied into a scratch folder without what rt made; there the edits stand in must-fail/, alone, and `rt
must-fail NAME` tries them. Nothing in the tree is changed. It begins with what `rt check` kept on this machine of the
same crates, so check them first.

With --by, edits of different functions are made together in a scratch copy, and `COMMAND NAME --only FUNCTION ..` is
called there by the shell: as the check of one function rests on the contracts of others and not on their bodies, one
call tries many edits. The command says of each function of the crate, as `rattle check` does, whether it is proved. An
edit of which that call says nothing of its own is tried once more, alone; one outside of functions is tried by `COMMAND
NAME`. Where WRONG_LOGS names a folder, what was printed is written there, and a file NAME.txt with a line an edit; what
such a file tells as refused is not tried again.

It prints for each crate which edits the prover refuses, which are still proved (a contract is too weak there, or the
edit means the same as before), which no longer apply or can't be read, and which were not tried. The status is 0 where
all are refused. What is refused comes into refused.txt, with the day and sums of what its crate promised and of its
text; the gate fails where a crate promises something else since.
"""
import os
import pathlib
import re
import shutil
import subprocess
import sys
import tempfile
import time

sys.dont_write_bytecode = True
import refusals  # noqa: E402

HEADS = (
    ("refused", "refused"),
    ("still proved", "NOT REFUSED"),
    ("no longer apply or can't be read", "BAD EDIT"),
    ("not tried", "NOT TRIED"),
)


def crates_with_edits():
    return sorted(name for name in os.listdir("crates") if os.path.isdir(f"crates/{name}/wrong-bodies"))


def copied(names, room):
    """Copies what rt reads of the tree, with the wrong bodies of these crates in place of what must-fail/ holds."""
    shutil.copytree("crates", f"{room}/crates", ignore=shutil.ignore_patterns("out", "must-fail", "wrong-bodies"))
    for name in ("crates.txt", "HANDLES"):
        if os.path.isfile(name):
            shutil.copy(name, f"{room}/{name}")
    os.mkdir(f"{room}/.git")
    for name in names:
        shutil.copytree(f"crates/{name}/wrong-bodies", f"{room}/crates/{name}/must-fail")


def tried(names):
    """Runs rt must-fail on a scratch copy, passes on what it says, and returns for each edit what rt says of it."""
    with tempfile.TemporaryDirectory(prefix="wrong-bodies-") as room:
        copied(names, room)
        how = {"cwd": room, "stdout": subprocess.PIPE, "stderr": subprocess.STDOUT, "text": True, "errors": "replace"}
        with subprocess.Popen(["rt", "must-fail", *names], **how) as rt:
            said = {}
            for line in rt.stdout:
                print(line, end="", flush=True)
                found = re.match(r"(?:rt: )?must-fail (\w+)/(\S+)\.edit: (.*)", line)
                if found:
                    said[found[1], found[2]] = found[3]
    return said


def scratch(room):
    """Copies what a check reads of the tree, without edits."""
    shutil.copytree("crates", f"{room}/crates", ignore=shutil.ignore_patterns("out", "must-fail", "wrong-bodies"))
    for name in ("crates.txt", "HANDLES"):
        if os.path.isfile(name):
            shutil.copy(name, f"{room}/{name}")
    subprocess.run(["git", "init", "-q", room], check=True)


def called(command, room, seconds):
    """Calls the command in the scratch copy; returns its status, what it printed, and how long it took. Status 124: it
    was ended."""
    began = time.time()
    how = {"cwd": room, "stdout": subprocess.PIPE, "stderr": subprocess.STDOUT, "text": True, "errors": "replace"}
    with subprocess.Popen(command, shell=True, start_new_session=True, **how) as one:
        try:
            said = one.communicate(timeout=seconds)[0]
            status = one.returncode
        except subprocess.TimeoutExpired:
            os.killpg(one.pid, 9)
            said, status = one.communicate()[0], 124
    return status, said, time.time() - began


def function_at(crate, file, old):
    """The function in whose body a text stands, as a check names it; None if it stands in none."""
    with open(f"crates/{crate}/{file}", encoding="utf-8") as it:
        text = it.read()
    place = text.index(old)
    heads = list(re.finditer(r"^( *)(?:pub(?:\([^)]*\))? )?(?:const )?(?:unsafe )?fn (\w+)", text[: place + len(old)],
                             re.MULTILINE))
    if not heads:
        return None
    head = heads[-1]
    end = re.compile(rf"^{head[1]}}}", re.MULTILINE).search(text, head.end())
    if end and end.start() < place:
        return None
    names = file[len("src/") : -len(".rt")].split("/")
    if names == ["lib"] or names == ["main"]:
        names = []
    if names and names[-1] == "mod":
        names = names[:-1]
    if head[1]:
        blocks = re.findall(r"^impl(?:<.*?>)? +(?:(?:\w+::)*(\w+)(?:<[^{]*?>)? for )?&?(?:mut )?(\w+)",
                            text[: head.start()], re.MULTILINE)
        if not blocks:
            return None
        trait, name = blocks[-1]
        # a check names a method by the module of its type, which may be another: the end of the name suffices
        names = [f"{name[0].upper()}{name[1:]}{trait or ''}"]
    return "::".join(names + [head[2]])


def functions_of(crate, edit):
    """The functions that an edit changes; None if it changes anything else."""
    found = set()
    for file, old, _ in pairs_of(edit):
        is_clause = old.lstrip().startswith(("ensures", "requires"))  # who calls it is proved by it
        name = function_at(crate, file, old) if file.startswith("src/") and not is_clause else None
        if name is None:
            return None
        found.add(name)
    return found


def word_of(status, said, crate, functions):
    """What a check says of an edit of these functions; None if it says nothing of its own."""
    if status == 124:
        return "NOT TRIED (it did not end in time)"
    lines = dict(re.findall(rf"^fn {crate}::(\S+): (.*)", said, re.MULTILINE))
    if functions is None:
        bad = sorted(name for name, line in lines.items() if line != "proved") or re.findall(
            r"^\./proofs/\S*?(\w+)\.antt:[\d:]+ error: `", said, re.MULTILINE)[:1]
        return f"refused ({' '.join(bad)})" if bad else "NOT REFUSED" if status == 0 else None
    told = [next((line for full, line in lines.items() if full == name or full.endswith("::" + name)), None)
            for name in functions]
    # one that is not proved since it calls such a one, and for no goal of its own, is told nothing of
    if any(line and line != "proved" and ("did not prove" in line or "it calls" not in line) for line in told):
        return f"refused ({' '.join(sorted(functions))})"
    return "NOT REFUSED" if all(line == "proved" for line in told) else None


def rounds_of(crate, edits):
    """The edits in groups, each of edits of different functions; those of none of the functions come alone."""
    rounds = []
    for edit in edits:
        functions = functions_of(crate, f"crates/{crate}/wrong-bodies/{edit}.edit")
        group = None if functions is None else next((it for it in rounds if it[1] is not None
                                                     and not it[1] & functions), None)
        if group is None:
            rounds.append(([edit], functions))
        else:
            group[0].append(edit)
            group[1].update(functions)
    return [names for names, _ in rounds]


def one_round(command, crate, edits, room, logs):
    """Makes these edits together, calls the command, and returns what it says of each."""
    functions = {it: functions_of(crate, f"crates/{crate}/wrong-bodies/{it}.edit") for it in edits}
    before = {}
    for edit in edits:
        for file, old in applied(f"crates/{crate}/wrong-bodies/{edit}.edit", f"{room}/crates/{crate}").items():
            before.setdefault(file, old)
    only = "".join(f" --only '{name}'" for it in edits for name in sorted(functions[it] or ()))
    status, text, seconds = called(f"{command} {crate}{only}", room, 1200)
    for file, old in before.items():
        with open(file, "w", encoding="utf-8") as it:
            it.write(old)
    if logs:
        with open(f"{logs}/{crate}.log", "a", encoding="utf-8") as it:
            it.write(f"==== {' '.join(edits)}: status {status}, {seconds:.0f} s\n{text}\n")
    return {it: word_of(status, text, crate, functions[it]) for it in edits}


def refused_before(name, logs):
    """What a folder of logs tells as refused: edits and what was said of them."""
    path = f"{logs}/{name}.txt"
    if not logs or not os.path.isfile(path):
        return {}
    with open(path, encoding="utf-8") as it:
        return dict(re.findall(rf"^{name}/(\S+): (refused.*)$", it.read(), re.MULTILINE))


def tried_by(command, name, logs):
    """Tries the edits of a crate by a command."""
    said = {}

    def tell(edit, word):
        said[name, edit] = word
        line = f"{name}/{edit}: {word}"
        print(line, flush=True)
        if logs:
            with open(f"{logs}/{name}.txt", "a", encoding="utf-8") as it:
                it.write(line + "\n")

    with tempfile.TemporaryDirectory(prefix="wrong-bodies-") as room:
        scratch(room)
        left, before = [], refused_before(name, logs)
        for edit in edits_of(name):
            if edit in before:
                said[name, edit] = before[edit]
                continue
            why = why_not(f"crates/{name}/wrong-bodies/{edit}.edit", name)
            if why:
                tell(edit, f"BAD EDIT ({why})")
            else:
                left.append(edit)
        for group in rounds_of(name, left):
            words = one_round(command, name, group, room, logs)
            for edit in group:
                word = words[edit]
                if word is None and len(group) > 1:
                    word = one_round(command, name, [edit], room, logs)[edit]
                tell(edit, word or "BAD EDIT (the check said nothing of it)")
    return said


def applied(edit, folder):
    """Makes an edit in a crate's folder; returns each changed file with its text before."""
    before = {}
    for file, old, new in pairs_of(edit):
        path = f"{folder}/{file}"
        with open(path, encoding="utf-8") as it:
            text = it.read()
        before.setdefault(path, text)
        with open(path, "w", encoding="utf-8") as it:
            it.write(text.replace(old, new, 1))
    return before


def edits_of(name):
    return sorted(it[: -len(".edit")] for it in os.listdir(f"crates/{name}/wrong-bodies") if it.endswith(".edit"))


def told(name, said):
    """Prints what each edit of a crate came to, and returns how many are not refused."""
    left = edits_of(name)
    print(f"\n{name}: {len(left)} wrong bodies")
    count = len(left)
    for head, word in HEADS:
        these = [it for it in left if said.get((name, it), "NOT TRIED").startswith(word)]
        left = [it for it in left if it not in these]
        if these:
            print(f"  {head} ({len(these)}): {' '.join(these)}")
        count -= len(these) if word == "refused" else 0
    if left:
        print(f"  rt said something else of ({len(left)}): {' '.join(left)}")
    return count


def pairs_of(edit):
    """The changes of an edit, in order: the file, the old text and the new one."""
    with open(edit, encoding="utf-8") as it:
        lines = it.read().split("\n")
    file, pairs = "", []
    for line in lines:
        if line.startswith("file: "):
            file = line[len("file: ") :]
        elif line.startswith("old: "):
            pairs.append([file, line[len("old: ") :], None])
        elif line.startswith("new:") and pairs:
            pairs[-1][2] = line[len("new: ") :]
    return pairs


def why_not(edit, crate):
    """Why an edit does not apply to the crate as it stands; None if it does."""
    texts = {}
    for file, old, new in pairs_of(edit):
        path = f"crates/{crate}/{file}"
        if not os.path.isfile(path):
            return f"there is no {file}"
        if path not in texts:
            with open(path, encoding="utf-8") as it:
                texts[path] = it.read()
        count = texts[path].count(old)
        if count != 1 or new is None:
            return (f"its old text stands {count} times in {file}" if new is not None
                    else "it has an old text with no new one")
        texts[path] = texts[path].replace(old, new)
    return None if texts else "it changes nothing"


def look():
    """Prints each edit that does not apply, and returns how many they are."""
    count = lacking = 0
    for crate in sorted(os.listdir("crates")):
        for kind in ("must-fail", "wrong-bodies"):
            folder = f"crates/{crate}/{kind}"
            for name in sorted(os.listdir(folder)) if os.path.isdir(folder) else ():
                if name.endswith(".edit"):
                    why, count = why_not(f"{folder}/{name}", crate), count + 1
                    lacking += why is not None
                    print(f"{folder}/{name}: {why}\n" if why else "", end="")
    print(f"{count} edits, {lacking} no longer apply")
    return lacking


def rows_of_list():
    """The rows of house/wrong_bodies.md: what a body does wrong, its edits, what refuses them, and who tries them."""
    with open("house/wrong_bodies.md", encoding="utf-8") as it:
        for line in it:
            cells = [cell.strip() for cell in line.strip().strip("|").split(" | ")]
            if len(cells) == 4 and cells[1].startswith("`"):
                yield cells[0], re.findall(r"`(\w+)/(\w+)`", cells[1]), cells[2], cells[3]


def clauses_of(crate, function):
    """The names of what the functions of this name in a crate promise, and the empty name where one has a clause
    without a name."""
    heads = []
    for folder, _, files in os.walk(f"crates/{crate}/src"):
        for file in files:
            with open(f"{folder}/{file}", encoding="utf-8") as it:
                heads += re.findall(rf"\bfn {function}\b(.*?)(?:\n *\{{|;)\n", it.read(), re.DOTALL)
    return {name for head in heads for name in re.findall(r"\bensures (?:(\w+) )?\{", head)}, bool(heads)


def lacks(edits, refused, tried_by):
    """What of a row of the list is not there, a sentence each."""
    for crate, name in edits:
        folder = f"crates/{crate}/" + ("must-fail" if tried_by == "the gate" else "wrong-bodies")
        if not os.path.isfile(f"{folder}/{name}.edit"):
            yield f"{folder}/{name}.edit is not there"
        elif why_not(f"{folder}/{name}.edit", crate):
            yield f"{folder}/{name}.edit: {why_not(f'{folder}/{name}.edit', crate)}"
    named = [(clause, function) for clause, function in re.findall(r"`(\w+)` of `(?:\w+::)?(\w+)`", refused)]
    named += [("", function) for function in re.findall(r"the clause of `(?:\w+::)?(\w+)`", refused)]
    for clause, function in named:
        # (the promises of a trait's call stand in its crate)
        clauses, is_there = clauses_of("sum_commands" if "PartService" in refused else edits[0][0], function)
        if not is_there or clause not in clauses:
            yield f"no function {function} of {edits[0][0]} has " + (f"a clause {clause}" if clause
                                                                     else "a clause without a name")
    if not edits or not named:
        yield "a row without an edit or without what refuses it"


def named():
    """Prints the list, and returns how much of it is not there."""
    count = lacking = 0
    for what, edits, refused, tried_by in rows_of_list():
        wrong = list(lacks(edits, refused, tried_by))
        count, lacking = count + len(edits), lacking + len(wrong)
        for crate, name in edits:
            path = next((it for it in (f"crates/{crate}/{kind}/{name}.edit" for kind in ("must-fail", "wrong-bodies"))
                         if os.path.isfile(it)), None)
            where = sorted({f"crates/{crate}/{file}" for file, _, _ in pairs_of(path)}) if path else []
            print(f"{crate}/{name}: {what}\n    in {' '.join(where) or '(no file)'}; refused by {refused}; tried by "
                  f"{tried_by}")
        print("".join(f"    MISSING: {it}\n" for it in wrong), end="")
    print(f"{count} wrong bodies by name, {lacking} of them lack something")
    return lacking if count else 1


def told_in(folder, crate):
    """What the file of a crate says of each edit; the last line on an edit counts."""
    path = f"{folder}/{crate}.txt"
    if not os.path.isfile(path):
        return {}
    with open(path, encoding="utf-8") as it:
        return dict(re.findall(rf"^{crate}/(\S+): (.*)$", it.read(), re.MULTILINE))


def table(folder):
    """Prints a table of what was tried, crate by crate."""
    rows, sums = [], [0, 0, 0]
    for crate in crates_with_edits():
        edits, said = edits_of(crate), told_in(folder, crate)
        of = {word: [it for it in edits if said.get(it, "NOT TRIED").startswith(word)] for _, word in HEADS}
        lacking = [it for it in of["BAD EDIT"] + of["NOT TRIED"] if it in said]
        tried = len(of["refused"]) + len(of["NOT REFUSED"])
        if tried or lacking:
            rest = " ".join(f"`{it}`" for it in of["NOT REFUSED"]) or "none"
            bad = " ".join(f"`{it}`" for it in lacking) or "none"
            rows.append(f"| {crate} | {len(edits)} | {tried} | {len(of['refused'])} | {rest} | {bad} |")
        sums = [sums[0] + len(edits), sums[1] + tried, sums[2] + len(of["refused"])]
    print("| crate | wrong bodies | tried | refused | still proved | no longer apply, or not ended in time |")
    print("|---|---|---|---|---|---|")
    print("".join(f"{row}\n" for row in rows), end="")
    print(f"| all, with the crates not tried | {sums[0]} | {sums[1]} | {sums[2]} | | |")


def main():
    if sys.argv[1:2] == ["--table"] and len(sys.argv) == 3:
        table(sys.argv[2])
        return 0
    if sys.argv[1:] == ["--look"]:
        return 1 if look() else 0
    if sys.argv[1:] == ["--named"]:
        return 1 if named() else 0
    words = sys.argv[1:]
    if words == ["--due"]:
        return 1 if refusals.due() else 0
    if words[:1] == ["--record"]:
        texts = [pathlib.Path(it).read_text(errors="replace") for it in words[1:]]
        print(f"{refusals.record(refusals.refused_in(''.join(texts)))} refused are in {refusals.TABLE.name} now")
        return 0
    command = None
    if words[:1] == ["--by"] and len(words) > 1:
        command, words = words[1], words[2:]
    names = words or crates_with_edits()
    lacking = [it for it in names if it not in crates_with_edits()]
    if lacking:
        print(f"no crates/NAME/wrong-bodies here for {' '.join(lacking)}")
        return 2
    if command is None:
        said = tried(names)
    else:
        said = {}
        for name in names:
            said.update(tried_by(command, name, os.environ.get("WRONG_LOGS")))
    refusals.record({it for it, word in said.items() if word.startswith("refused")})
    return 1 if sum([told(name, said) for name in names]) else 0


if __name__ == "__main__":
    sys.exit(main())
