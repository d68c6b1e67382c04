#!/usr/bin/env python3
"""`ads keep` over stores that are none: files damaged byte by byte, cut at each byte or longer; and stores that are a
folder, a device, nobody's to read, or on a disk that is full.

    python3 tries/bad_stores.py PROGRAM

PROGRAM is crates/ads/out/ads. Over a file of any bytes it must do what the model of the store says (model/store.py):
the status, each line, and each byte of the file. Over a store that cannot be opened, read or written it must end with
status 14 and its line alone, and what stood must stand. A line a scene, `ok` or what differed; status 1 where one did.
"""
import os
import pathlib
import shutil
import signal
import stat
import subprocess
import sys
import tempfile

sys.dont_write_bytecode = True
sys.path[1:1] = [f"{sys.path[0]}/../{room}" for room in ("model", "tools")]
import hostile  # noqa: E402
import store  # noqa: E402
from under_test import Differs, wanted  # noqa: E402

FAULT = (14, "ads: store fault\n")
EVENTS = [("open", 1), ("bytes", 1, hostile.read(1, 0x4040, 72, 8)), ("tick", 1),
          ("bytes", 1, hostile.write(2, 0x4040, 72, b"\x55")), ("tick", 2)]


def written(folder):
    (folder / "plant.toml").write_bytes(pathlib.Path(hostile.DATA, "plant.toml").read_bytes())
    (folder / "it.script").write_text("".join(line[2:] + "\n" for event in EVENTS
                                              for line in hostile.lines_of(event, "")))


def saved(count):
    """The file that so many saves leave."""
    disk = store.Disk()
    events = [("open", 1)] + [event for k in range(count)
                              for event in (("bytes", 1, hostile.write(k, 0x4040, 72, bytes([k + 65] * 8))),
                                            ("tick", k))]
    store.kept(hostile.PLANT, hostile.SIGNALS, events, disk)
    return bytes(disk.file)


def keep(program, folder, name="store", **more):
    done = subprocess.run([program, "keep", "plant.toml", "it.script", str(name)], cwd=folder, stdout=subprocess.PIPE,
                          stderr=subprocess.DEVNULL, text=True, timeout=60, **more)
    return done.returncode, done.stdout


def like_the_model(program, folder, what, file):
    """A run over a file of these bytes."""
    disk = store.Disk(file)
    status, out, _ = store.kept(hostile.PLANT, hostile.SIGNALS, EVENTS, disk)
    (folder / "store").write_bytes(file)
    came = keep(program, folder)
    if came != (status, out):
        raise Differs(f"{what}: {came}, wanted {(status, out)}")
    if (folder / "store").read_bytes() != bytes(disk.file):
        raise Differs(f"{what}: other bytes are left")


def damaged(program, folder):
    """Each byte of both slots made another."""
    good, tried = saved(2), 0
    ends = store.SECOND + 13 + len(store.standing_of(good)[2])
    for at in [*range(ends - store.SECOND), *range(store.SECOND - 2, min(ends, len(good)))]:
        for turned in (1, 0x80, 0xff, good[at] or 2):
            file = bytearray(good)
            file[at] ^= turned
            like_the_model(program, folder, f"byte {at} turned by {turned}", bytes(file))
            tried += 1
    return f"ok, {tried} files"


def cut(program, folder):
    """Cut at each byte of both slots, and longer by bytes of any kind."""
    good, tried = saved(2), 0
    for end in [*range(100), *range(store.SECOND - 2, len(good) + 1)]:
        like_the_model(program, folder, f"cut behind byte {end}", good[:end])
        tried += 1
    for more in (b"\0", b"\1", b"\xff" * 40, bytes(70000)):
        like_the_model(program, folder, f"{len(more)} bytes more", good + more)
        tried += 1
    return f"ok, {tried} files"


def no_files(program, folder):
    """A folder, a folder that is not there, devices."""
    (folder / "a").mkdir()
    wanted("a folder", keep(program, folder, "a"), FAULT)
    wanted("a folder that is not there", keep(program, folder, "b/store"), FAULT)
    wanted("a file as a folder", keep(program, folder, "plant.toml/store"), FAULT)
    wanted("the empty name", keep(program, folder, ""), (1, "ads: usage\n"))
    wanted("a name of 5,000 bytes", keep(program, folder, "n" * 5000), FAULT)
    wanted("/dev/full", keep(program, folder, "/dev/full"), FAULT)
    (folder / "to itself").symlink_to("to itself")
    wanted("a link to itself", keep(program, folder, "to itself"), FAULT)
    (folder / "link").symlink_to("store")
    (folder / "store").write_bytes(saved(1))
    status, _ = keep(program, folder, "link")
    wanted("a link to a store", status, 0)


def nobodys(program, folder):
    """A file, and a folder, that the program may not read or write; tried as another user where this one is root."""
    it = folder / "ads"
    shutil.copy(program, it)
    it.chmod(0o755)
    folder.chmod(0o777)
    as_other = {"user": 65534, "group": 65534, "extra_groups": []} if os.geteuid() == 0 else {}
    for mode in (0, stat.S_IRUSR, stat.S_IWUSR):
        file = saved(1)
        (folder / "store").write_bytes(file)
        (folder / "store").chmod(mode | mode >> 3 | mode >> 6)
        wanted(f"mode {mode:o}", keep(str(it), folder, **as_other), FAULT)
        (folder / "store").chmod(0o600)
        wanted(f"mode {mode:o}, the file", (folder / "store").read_bytes() == file, True)
    (folder / "sealed").mkdir()
    (folder / "sealed").chmod(0o555)
    wanted("a folder that takes no file", keep(str(it), folder, "sealed/store", **as_other), FAULT)
    wanted("it has none", list((folder / "sealed").iterdir()), [])


def stands(path, body):
    """The file stands for this body or one of the run's."""
    standing = store.standing_of(path.read_bytes())
    return (standing and standing[2]) in body


def limited(program, folder):
    """A file that may not grow beyond a limit, whether the signal of it ends the program or not: what stood, or a save
    of the run, stands."""
    _, _, bodies = store.kept(hostile.PLANT, hostile.SIGNALS, EVENTS, store.Disk(saved(1)))
    for limit in (0, 1, 13, 40, 100, 1048592, 1048593, 1048605, 1048640):
        for ignored in (False, True):
            def before(limit=limit, ignored=ignored):
                import resource
                signal.signal(signal.SIGXFSZ, signal.SIG_IGN if ignored else signal.SIG_DFL)
                resource.setrlimit(resource.RLIMIT_FSIZE, (limit, limit))
            (folder / "store").write_bytes(saved(1))
            came = keep(program, folder, preexec_fn=before, restore_signals=False)
            if came[0] != 0 and came != FAULT and not (not ignored and came == (-signal.SIGXFSZ, "")):
                raise Differs(f"at most {limit} bytes: {came}")
            if not stands(folder / "store", bodies):
                raise Differs(f"at most {limit} bytes: what stood does not stand")


def full(program, folder):
    """A disk that is full: status 14, and what stood stands."""
    place = folder / "small"
    place.mkdir()
    if subprocess.run(["mount", "-t", "tmpfs", "-o", "size=64k", "tmpfs", str(place)],
                      stderr=subprocess.DEVNULL).returncode:
        return "not tried: no file system may be mounted here"
    try:
        _, _, bodies = store.kept(hostile.PLANT, hostile.SIGNALS, EVENTS, store.Disk(saved(1)))
        filled = 0
        for room in (0, 4, 8, 40):
            for file in (saved(1), b""):
                (place / "rest").write_bytes(b"")
                (place / "store").write_bytes(file)
                with open(place / "rest", "wb", buffering=0) as rest:
                    try:
                        while True:
                            rest.write(bytes(1024))
                    except OSError:
                        pass
                    rest.truncate(max(0, rest.tell() - room * 1024))
                came = keep(program, folder, place / "store")
                filled += came == FAULT
                if came[0] != 0 and came != FAULT:
                    raise Differs(f"{room} KiB left: {came}")
                if file and not stands(place / "store", bodies):
                    raise Differs(f"{room} KiB left: what stood does not stand")
        return f"ok, {filled} of 8 runs met a full disk"
    finally:
        subprocess.run(["umount", "-l", str(place)])


def main():
    program, bad = os.path.abspath(sys.argv[1]), False
    for name, scene in (("damaged", damaged), ("cut", cut), ("no files", no_files), ("nobody's", nobodys),
                        ("limited", limited), ("a full disk", full)):
        with tempfile.TemporaryDirectory(dir="/tmp") as folder:
            folder = pathlib.Path(folder)
            written(folder)
            try:
                print(f"{name}: {scene(program, folder) or 'ok'}", flush=True)
            except (Differs, subprocess.TimeoutExpired) as why:
                print(f"{name}: {why}", flush=True)
                bad = True
    return 1 if bad else 0


if __name__ == "__main__":
    sys.exit(main())
