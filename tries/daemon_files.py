"""Tries of `adsd` and its files: slips that make two of them one, the status file and what stands beside it,
descriptors and files that are used up, a /proc that is away, descriptions that are refused at a start or half written.
They are run by tries/daemon.py."""
import contextlib
import os
import pathlib
import re
import resource
import signal
import stat
import subprocess
import tempfile
import time

from adsd import Daemon, in_order, reading, reply, tried, until
from daemon_store import title_of, write_title
from under_test import PLANT, expect, free_port

TEXT = pathlib.Path(PLANT).read_text()
NOBODY = 65534


def ran(program, folder, *words, before=None):
    """The status of a run that ends by itself, and its two outputs."""
    it = subprocess.run([program, *words], cwd=folder, capture_output=True, timeout=30, preexec_fn=before)
    return it.returncode, it.stdout.decode(), it.stderr.decode()


def held(folder):
    """All names in a folder, with what stands there."""
    return {path.name: (path.lstat().st_mode, path.read_bytes() if path.is_file() else b"")
            for path in pathlib.Path(folder).iterdir()}


def linked(folder, way, name, target):
    """Another name for a file, one that may not be there yet; of the folder itself where the way is a folder's link."""
    path = pathlib.Path(folder, name)
    if way == "name":
        return target
    if way == "dot":
        return f"./{target}"
    if way == "folder":
        pathlib.Path(folder, "round").symlink_to(".")
        return f"round/{target}"
    if way == "symlink":
        path.symlink_to(target)
    elif pathlib.Path(folder, target).exists():
        os.link(os.path.join(folder, target), path)
    else:
        return None
    return name


USES = {
    "description": ("description", "plant.toml"), "the configuration": ("configuration", "adsd.toml"),
    "store": ("store", "kept"),
    "status": ("status", "status.prom"), "stop_file": ("stop_file", "stop"), "[[signal]] 0": ("signal", "numbers.txt"),
    "the description that is kept beside the store": ("kept", "kept.description"),
}
FREE = {("[[signal]] 0", other) for other in ("description", "the configuration", "stop_file")}
FREE.add(("the description that is kept beside the store", "store"))     # the kept one's name follows the store's


def configured(folder, names):
    """Writes a configuration with these files."""
    names = {key: name for key, name in names.items() if key not in ("configuration", "kept")}
    number = names.pop("signal")
    keys = "".join(f'{key} = "{name}"\n' for key, name in names.items())
    pathlib.Path(folder, "adsd.toml").write_text(f'{keys}keep_description = true\n[[signal]]\nfile = "{number}"\n')


@tried
def slips(program):
    """Each two files of a daemon that are one, by name, by a link, by a folder's link, there already or not: refused,
    and nothing is made or changed."""
    count = 0
    for one, (first, target) in USES.items():
        for other, (second, _) in USES.items():
            if one == other or second in ("configuration", "kept") or {(one, other), (other, one)} & FREE:
                continue
            for way in ("name", "dot", "folder", "symlink", "link"):
                for there in (False, True):
                    count += slip(program, one, (first, target), (other, second), way, there)
    return f"{count} slips, each refused twice"


def slip(program, one, first, other, way, there):
    """One of them: how many there are."""
    (first, target), (other, second) = first, other
    with tempfile.TemporaryDirectory() as folder:
        names = {key: name for key, name in USES.values()}
        for name in ("plant.toml", "adsd.toml", "numbers.txt"):
            pathlib.Path(folder, name).write_text({"plant.toml": TEXT}.get(name, "1\n"))
        if there and not pathlib.Path(folder, target).exists():
            pathlib.Path(folder, target).write_bytes(b"")
        name = linked(folder, way, "other", target)
        if name is None:
            return 0
        names[second] = name
        configured(folder, names)
        before = held(folder)
        for words in (["check", "adsd.toml"], ["adsd.toml"]):
            status, _, said = ran(program, folder, *words)
            expect(status == 1 and said.count("\n") == 1 and " are one file, " in said,
                   f"{one} and {other}, {way}: {words} ended with {status} and {said!r}")
            expect(one in said and other in said, f"{one} and {other}, {way}: it says {said!r}")
            expect(held(folder) == before, f"{one} and {other}, {way}: {words} changed the folder")
        return 1


@tried
def log_into_its_files(program):
    """Standard error's file may be none of the others, if the log goes there."""
    with tempfile.TemporaryDirectory() as folder:
        path = pathlib.Path(folder, "plant.toml")
        for name, words in (("plant.toml", []), ("kept", ["--store", "kept"]),
                            ("status.prom", ["--status", "status.prom"])):
            path.write_text(TEXT)
            with open(os.path.join(folder, name), "ab") as error:
                it = subprocess.run([program, "plant.toml", "--listen", "127.0.0.1:1", *words], cwd=folder,
                                    stderr=error, stdout=subprocess.PIPE, timeout=20)
            said = pathlib.Path(folder, name).read_text()
            expect(it.returncode == 1 and "standard error, to which the log goes, are one file" in said,
                   f"it ended with {it.returncode} and {said!r}")
        return "the description, the store, the status file"


@tried
def status_beside(program):
    """A link to the store, a pipe, a folder at names that a status file might be written beside, and at its own
    name."""
    with contextlib.ExitStack() as stack:
        folder = stack.enter_context(tempfile.TemporaryDirectory())
        at = pathlib.Path(folder)
        (at / "precious").write_bytes(b"not to be lost")
        (at / "status.prom.new").symlink_to("precious")
        os.mkfifo(at / "target.new")
        (at / "target").write_text("old")
        (at / "target").chmod(0o640)
        (at / "status.prom").symlink_to("target")
        it = Daemon(stack, program, ["--status", "status.prom"], folder=folder)
        until(lambda: "adsd_ticks_total" in (at / "target").read_text(), "the link's target was not replaced")
        it.asks()
        in_order(*it.stopped(signal.SIGTERM)[::2][:2])
        expect((at / "precious").read_bytes() == b"not to be lost",
               "what a link at a guessed name leads to was changed")
        expect((at / "status.prom").is_symlink() and stat.S_IMODE((at / "target").stat().st_mode) == 0o640,
               "the link or the mode is another")
        expect(set(held(folder)) == {"precious", "status.prom.new", "target.new", "target", "status.prom",
                                     "plant.toml"}, f"left are {sorted(held(folder))}")
        (at / "folder").mkdir()
        for name in ("folder", "target.new", "/dev/null"):
            for words in (["plant.toml", "--status", name],):
                status, out, said = ran(program, folder, *words)
                expect(status == 1 and said.startswith("adsd: status is to be a file or not there yet, and "),
                       f"{name}: {status}, {said!r}")
        return ("a link, a pipe and a folder stay; a link's target is replaced; a folder, a pipe and a device are "
                "refused")


@tried
def status_that_cannot_be_written(program):
    """Told at once with the system's words, not again with the next, and once when it goes well again."""
    with contextlib.ExitStack() as stack:
        folder = stack.enter_context(tempfile.TemporaryDirectory())
        log = pathlib.Path(folder, "log")
        it = Daemon(stack, program, ["--log", "journal", "--status", "there/status.prom"],
                    stderr=stack.enter_context(log.open("wb")), folder=folder)
        until(lambda: "<4>status: the status file cannot be written: " in log.read_text(), "it is not told")
        time.sleep(12)
        pathlib.Path(folder, "there").mkdir()
        until(lambda: "<5>status: the status file is written again" in log.read_text(),
              "it is not told that it goes well again")
        in_order(*it.stopped(signal.SIGTERM)[::2][:2])
        lines = [line for line in log.read_text().splitlines() if "status: " in line]
        expect(len(lines) == 2 and "No such file or directory" in lines[0], f"the log says {lines}")
        return lines[0]


@tried
def folders_that_are_checked(program):
    """The folders of the store and the status file: missing, no folder, closed to this user."""
    with tempfile.TemporaryDirectory() as folder:
        os.chmod(folder, 0o755)
        at = pathlib.Path(folder)
        at.joinpath("plant.toml").write_text(TEXT)
        at.joinpath("file").write_text("")
        at.joinpath("closed").mkdir(0o755)
        as_other = (lambda: os.setuid(NOBODY)) if os.getuid() == 0 else None
        for key in ("store", "status"):
            for name, wanted in (("missing/x", "its folder is not there"), ("file/x", "is no folder"),
                                 ("closed/x", "this user may make no file")):
                at.joinpath("adsd.toml").write_text(f'description = "plant.toml"\n{key} = "{name}"\n')
                if name == "closed/x" and as_other is None:
                    at.joinpath("closed").chmod(0o555)
                status, _, said = ran(program, folder, "check", "adsd.toml", before=as_other)
                expect(status == 1 and said.startswith(f"adsd: {key} {name} cannot be written") and wanted in said,
                       f"{key} {name}: {status}, {said!r}")
        at.joinpath("adsd.toml").write_text('description = "plant.toml"\nstore = "kept"\nstatus = "s.prom"\n')
        status, _, said = ran(program, folder, "check", "adsd.toml")
        expect(status == 0 and said == "", f"a right configuration: {status}, {said!r}")
        return "six folders"


@tried
def descriptors_used_up(program, most=24):
    """No descriptor is left: told once, who is there is served, a new description is taken, and SIGTERM ends it."""
    with contextlib.ExitStack() as stack:
        folder = stack.enter_context(tempfile.TemporaryDirectory())
        log, plant = pathlib.Path(folder, "log"), pathlib.Path(folder, "plant.toml")
        it = Daemon(stack, program, ["--log", "journal"], stderr=stack.enter_context(log.open("wb")), folder=folder,
                    before=lambda: resource.setrlimit(resource.RLIMIT_NOFILE, (most, most)))
        links = [stack.enter_context(it.link()) for _ in range(40)]
        until(lambda: "<4>no descriptor is left for a new connection: raise the limit" in log.read_text(),
              "it is not told")
        links[0].sendall(reading(7))
        expect(reply(links[0]) is not None, "who is there is not served")
        plant.with_suffix(".new").write_text(TEXT + "\n# changed\n")
        plant.with_suffix(".new").replace(plant)
        until(lambda: "reload accepted: version 2" in log.read_text(), "a new description is not taken")
        time.sleep(3)
        _, _, status, took = it.stopped(signal.SIGTERM)
        expect(status == 0 and log.read_text().count("no descriptor is left") == 1, f"{status}, {log.read_text()!r}")
        return f"stopped in {took * 1000:.0f} ms"


@tried
def without_proc(program):
    """/proc is away: the log says that only the stop file ends it, and that does."""
    if os.getuid() != 0 or subprocess.run(["unshare", "-m", "true"], capture_output=True).returncode != 0:
        return "not tried: it needs root"
    with contextlib.ExitStack() as stack:
        folder = stack.enter_context(tempfile.TemporaryDirectory())
        pathlib.Path(folder, "plant.toml").write_text(TEXT)
        away = ["unshare", "-m", "sh", "-c", 'mount -t tmpfs none /proc && exec env --block-signal=TERM,INT,HUP "$@"',
                "sh", program, "plant.toml",
                "--listen", f"127.0.0.1:{free_port()}"]
        it = subprocess.Popen([*away, "--log", "journal", "--stop-file", "stop"], cwd=folder, stdout=subprocess.PIPE,
                              stderr=subprocess.PIPE)
        stack.callback(it.kill)
        expect(it.stdout.readline() == b"listening\n", "it does not listen")
        it.send_signal(signal.SIGTERM)
        time.sleep(1)
        expect(it.poll() is None, "a signal that it can't see ended it")
        pathlib.Path(folder, "stop").touch()
        _, said = it.communicate(timeout=20)
        expect(it.returncode == 0 and b"<3>stop: /proc/self/status cannot be opened" in said,
               f"{it.returncode}, {said!r}")
        return "told, and the stop file ends it"


@tried
def files_that_may_not_grow(program):
    """`ulimit -f` with a blocked SIGXFSZ: a store fault, and service goes on."""
    with contextlib.ExitStack() as stack:
        def small():
            signal.pthread_sigmask(signal.SIG_BLOCK, {signal.SIGXFSZ})
            resource.setrlimit(resource.RLIMIT_FSIZE, (16, 16))
        it = Daemon(stack, program, ["--log", "journal", "--store", "kept", "--save-each", "1"], before=small)
        with it.link() as link:
            write_title(link, 1, title_of(5))
        time.sleep(2.5)
        it.asks()
        _, said, status, _ = it.stopped(signal.SIGTERM)
        expect(status == 14 and "<3>store fault: the disk failed" in said, f"it ended with {status} and {said!r}")
        return "a store fault, and status 14 at the end"


def stops(daemon):
    """A daemon over a store stops in order."""
    out, _, status, _ = daemon.stopped(signal.SIGTERM)
    expect(status == 0 and "\nsaved " in out, f"it ended with {status} and printed {out!r}")


BAD = {"refused": TEXT.replace("offset = 8", "offset = 2"), "no TOML": TEXT[:100] + "[", "empty": ""}


@tried
def kept_description(program):
    """`keep_description`: what was accepted last is served where a start finds a description that is refused or gone;
    it is told, and the named one is taken."""
    with contextlib.ExitStack() as stack:
        folder = stack.enter_context(tempfile.TemporaryDirectory())
        plant, kept = pathlib.Path(folder, "plant.toml"), pathlib.Path(folder, "kept.description")
        words = ["--log", "journal", "--store", "kept", "--keep-description", "true"]
        it = Daemon(stack, program, words, folder=folder)
        it.asks()
        stops(it)
        expect(kept.read_text() == TEXT and stat.S_IMODE(kept.stat().st_mode) == 0o600, "the description is not kept")
        for name, text in (*BAD.items(), ("gone", None)):
            with contextlib.ExitStack() as inner:
                log = pathlib.Path(folder, "log")
                it = Daemon(inner, program, words, folder=folder, stderr=inner.enter_context(log.open("wb")),
                            plant=text)
                it.asks()
                line = "<3>description" + (": cannot be read;" if text is None else " refused: rule ")
                expect(line in log.read_text() and "the last one that was accepted is served, "
                       "kept.description" in log.read_text(), f"{name}: {log.read_text()!r}")
                plant.with_suffix(".new").write_text(TEXT)
                plant.with_suffix(".new").replace(plant)
                until(lambda: "reload accepted" in log.read_text(), f"{name}: the right one is not taken")
                it.asks()
                stops(it)
        for text, status in ((BAD["refused"], 2), (None, 4)):
            plant.unlink(missing_ok=True)
            if text is not None:
                plant.write_text(text)
            got = ran(program, folder, "plant.toml", "--store", "kept")
            expect(got[0] == status, f"without the key it ended with {got}")
            kept.unlink(missing_ok=True)
            got = ran(program, folder, "plant.toml", "--store", "kept", "--keep-description", "true")
            expect(got[0] == status, f"with nothing kept it ended with {got}")
        return f"{', '.join(BAD)}, gone"


@tried
def settle(program):
    """`settle`: a description that is written in place, a line each half second, is taken once, when it stood for so
    long."""
    with contextlib.ExitStack() as stack:
        folder = stack.enter_context(tempfile.TemporaryDirectory())
        plant, log = pathlib.Path(folder, "plant.toml"), pathlib.Path(folder, "log")
        it = Daemon(stack, program, ["--log", "journal", "--settle", "3"], stderr=stack.enter_context(log.open("wb")),
                    folder=folder)
        parts = (TEXT + "\n# one\n# two\n# three\n").split("\n[[port.symbol]]")
        with plant.open("w") as file:
            for n, part in enumerate(parts):
                file.write(part if n == 0 else "\n[[port.symbol]]" + part)
                file.flush()
                time.sleep(0.7)
        expect("reload" not in log.read_text(), f"a part was taken: {log.read_text()!r}")
        began = time.monotonic()
        until(lambda: "reload accepted: version 2" in log.read_text(), "the whole is not taken")
        took = time.monotonic() - began
        in_order(*it.stopped(signal.SIGTERM)[::2][:2])
        expect(took > 2 and log.read_text().count("reload") == 1, f"after {took:.1f} s: {log.read_text()!r}")
        return f"{len(parts)} parts, and taken once, {took:.1f} s behind the last"


@tried
def slips_of_toml(program):
    """What is wrong with a configuration, with its line and column; a value that is refused is told."""
    with tempfile.TemporaryDirectory() as folder:
        pathlib.Path(folder, "plant.toml").write_text(TEXT)
        for text, wanted in (('description = "plant.toml"\nlisten = [\n',
                              r"adsd: this is no configuration: TOML parse error at line \d, column \d+: .+\n"),
                             ('description = "plant.toml"\nlisten = "0.0.0.0"\n',
                              r"adsd: listen takes an address: .*, not 0\.0\.0\.0\n"),
                             ('description = "plant.toml"\nallow = ["10.0.0.0/33"]\n',
                              r"adsd: allow takes a net.*, not 10\.0\.0\.0/33\n"),
                             ('description = "plant.toml"\nsettle = 3601\n',
                              r"adsd: settle takes a number of seconds from 0 to 3600\n"),
                             ('description = "plant.toml"\nkeep_description = "yes"\n',
                              r"adsd: keep_description takes true or false\n"),
                             ('description = "plant.toml"\nkeep_description = true\n',
                              r"adsd: keep_description needs store, .*\n"),
                             ('description = "plant.toml"\nstore = "k"\nstore_damaged = "go"\n',
                              r"adsd: store_damaged takes begin.*, not go\n"),
                             ('description = "plant.toml"\nlisten = "a\\nb"\n',
                              r"adsd: listen takes an address: .*, not a\?b\n")):
            pathlib.Path(folder, "adsd.toml").write_text(text)
            status, _, said = ran(program, folder, "check", "adsd.toml")
            expect(status == 1 and re.fullmatch(wanted, said), f"{text!r}: {status}, {said!r}")
        return "eight"
