"""package.sh and install.sh: what they put where, that nothing stands outside, the launcher's signals, the package's sums, and which words are refused."""
import gzip
import hashlib
import os
import re
import shutil
import subprocess
import sys
import tarfile
import tempfile

from tries.running import EXAMPLES, PLANT, TOOLS, see

UNITS = ["ads.service", "ads@.service", "adsd.service", "adsd@.service", "ads-discover.service", "ads-page.service", "ads-relay.service"]
# In place of adsd: it prints its words, and which signals are blocked. No shell, since dash lets signals through again.
STAND_IN = f"""#!{sys.executable}
import signal, sys
print(*sys.argv[1:])
print(*sorted(int(it) for it in signal.pthread_sigmask(signal.SIG_BLOCK, [])))
"""
# What each script is given, with PROGRAM and DAEMON where they are other ones; its status, and a part of its sentence.
BAD_INSTALLS = [([], {}, 1, "the first word is PREFIX"), (["usr/local"], {}, 1, "begins with /"), (["/usr/../etc"], {}, 1, "no folder '..'"),
                (["/a b"], {}, 1, "PREFIX has letters"), (["/a#b"], {}, 1, "PREFIX has letters"), (["/usr", "x"], {}, 1, "'x' is no address"),
                (["/usr", "192.168.0.256"], {}, 1, "is no address"), (["/usr", "192.168.0"], {}, 1, "is no address"),
                (["/usr", "1.2.3.4/33"], {}, 1, "is no address"), (["/usr", "192.168.0.9", ""], {}, 1, "'' is no address"),
                (["/usr", "1.2.3.4\nExecStart=x"], {}, 1, "is no address"),
                (["/usr", "fd00::/129"], {}, 1, "is no address"), (["/usr"], {"PROGRAM": "/nowhere/ads"}, 4, "there is no program at /nowhere/ads"),
                (["/usr"], {"DAEMON": PLANT}, 4, "there is no program at"), (["/usr"], {"DAEMON": EXAMPLES}, 4, "there is no program at")]
BAD_PACKAGES = [([], {}, 1, "one word is wanted"), (["/tmp", "/tmp"], {}, 1, "one word is wanted"), (["/nowhere"], {}, 1, "/nowhere is no folder"),
                ([PLANT], {}, 1, "is no folder"), (["."], {"PROGRAM": "/nowhere/ads"}, 4, "there is no program at /nowhere/ads"),
                (["."], {"GATE": "/nowhere/log"}, 4, "/nowhere/log, the output of the gate, can't be read")]


def script(name, words, within, **variables):
    """What a script prints, what it says on standard error, and its status."""
    it = subprocess.run([os.path.join(TOOLS, name), *words], cwd=within, env={**os.environ, **variables}, stdin=subprocess.DEVNULL,
                        capture_output=True, text=True, timeout=120)
    return it.stdout, it.stderr, it.returncode


def files_below(folder):
    return sorted(os.path.join(path, name) for path, _, names in os.walk(folder) for name in names)


def sum_of(path, kind="sha256"):
    with open(path, "rb") as file:
        return hashlib.new(kind, file.read()).hexdigest()


def refusals(folder, programs):
    """Each wrong word ends with one sentence, and nothing is written."""
    empty = os.path.join(folder, "empty")
    os.mkdir(empty)
    for name, table in (("install.sh", BAD_INSTALLS), ("package.sh", BAD_PACKAGES)):
        for words, variables, status, part in table:
            out, err, came = script(name, words, empty, **{"DESTDIR": empty, "FAST": "1", **programs, **variables})
            see(came == status and part in err and out == "", f"{name} {words} {variables}: status {came}, {out + err!r} in place of {status}, {part!r}")
            see(re.fullmatch(f"{name}: .*\n", err, re.S) and len(err.splitlines()) == 1 + "".join(words).count("\n"), f"{name} {words} says {err!r}")
            see(os.listdir(empty) == [], f"{name} {words} {variables} leaves {os.listdir(empty)}")
        out, err, came = script(name, ["--help"], empty)
        see(came == 0 and err == "" and f"tools/{name} " in out and "set -eu" not in out, f"{name} --help: {out + err!r}")
    return len(BAD_INSTALLS) + len(BAD_PACKAGES)


def below_a_folder(folder, programs):
    """With DESTDIR, everything is below it: the files that are printed and no others, with the prefix in the units."""
    dest, before = os.path.join(folder, "dest"), os.path.exists("/etc/ads")
    out, err, status = script("install.sh", ["/opt/ads-of-a-try", "192.168.0.9", "10.1.0.0/16", "fd00::/8"], folder, DESTDIR=dest, **programs)
    see(status == 0 and err == "", f"install.sh: status {status}, {err!r}")
    see(sorted(out.split()) == files_below(dest), f"install.sh prints other files than it wrote: {set(out.split()) ^ set(files_below(dest))}")
    see(not os.path.exists("/opt/ads-of-a-try") and os.path.exists("/etc/ads") == before, "install.sh writes outside of DESTDIR")
    for path in out.split():
        wanted = 0o755 if "/bin/" in path or "/libexec/" in path else 0o644
        see(os.stat(path).st_mode & 0o7777 == wanted, f"{path} has the rights {os.stat(path).st_mode:o}")
    for unit in UNITS:
        with open(f"{dest}/opt/ads-of-a-try/lib/systemd/system/{unit}", encoding="utf-8") as file:
            text = file.read()
        see("/usr/local/" not in text and "/opt/ads-of-a-try/" in text, f"{unit} has not the prefix")
        with open(f"{dest}/etc/systemd/system/{unit}.d/clients.conf", encoding="utf-8") as file:
            allowed = [line for line in file.read().splitlines() if not line.startswith("#")]
        see(allowed == ["[Service]"] + [f"IPAddressAllow={it}" for it in ("192.168.0.9", "10.1.0.0/16", "fd00::/8")], f"{unit}: {allowed}")


def installed(folder, programs):
    """The launcher blocks the signals; ads-tool runs tools by name, which find the program that was installed."""
    prefix = os.path.join(folder, "prefix")
    out, err, status = script("install.sh", [prefix], folder, DESTDIR="/", **programs)
    see(status == 0 and err == "" and "clients.conf" not in out, f"install.sh: status {status}, {err!r}")

    def ran(*words, **variables):
        it = subprocess.run([os.path.join(prefix, "bin", words[0]), *words[1:]], env={**os.environ, **variables}, capture_output=True, text=True, timeout=60)
        return it.stdout, it.stderr, it.returncode

    words, blocked = ran("adsd", "a b", "--c")[0].splitlines()
    see(words == "a b --c" and blocked == "1 2 15 25", f"the launcher: {words!r}, the signals {blocked!r} are blocked in place of 1 2 15 25")
    for name in ("nonesuch", "../tools/why", "lib/words", ""):
        out, err, status = ran("ads-tool", name)
        see(status == 1 and out == "" and len(err.splitlines()) == 1 and f"'{name}' is no tool" in err, f"ads-tool {name}: {status} {out + err!r}")
    see("why" in ran("ads-tool", "--help")[0].split(), "ads-tool --help does not name the tools")
    for name, part in (("", "there is no python3: apt"), ("python3", "lacks its standard library")):
        path = os.path.join(folder, f"bin-{name}")
        os.mkdir(path)
        for own in ("sh", "ls", "sed", "tr"):
            os.symlink(shutil.which(own), os.path.join(path, own))
        if name:
            os.symlink(shutil.which("false"), os.path.join(path, name))
        out, err, status = ran("ads-tool", "why", PLANT, PATH=path)
        see(status == 4 and part in err and len(err.splitlines()) == 1, f"ads-tool with PATH={path}: status {status}, {out + err!r}")
    said = ran("ads-tool", "why", os.path.join(EXAMPLES, "overlap.toml"))
    see(said[2] == 2 and "rule 12" in said[0], f"ads-tool why: {said}")
    said = ran("ads-tool", "frames", "play", PLANT, os.path.join(EXAMPLES, "requests.words"), "--expect")
    see(said[2] == 0, f"ads-tool frames play, with the installed program: {said}")


def manifest_of(root):
    """The sums that a MANIFEST has are those of all files but itself."""
    with open(f"{root}/usr/share/doc/ads/MANIFEST", encoding="utf-8") as file:
        lines = file.read().splitlines()
    sums = dict(reversed(line.split("  ")) for line in lines if "  " in line)
    wanted = {"./" + os.path.relpath(path, root): sum_of(path) for path in files_below(root) if not path.endswith("/MANIFEST")}
    see(sums == wanted, f"MANIFEST differs from the files in {sorted(set(sums.items()) ^ set(wanted.items()))[:3]}")
    heads = [line for line in lines if "  " not in line]
    for start in ("commit ", "kit ", "gate: 7 passed, 0 failed", "gate: parts: 3 passed, 0 failed", "C library 2."):
        see(any(line.startswith(start) for line in heads), f"MANIFEST has no line {start!r}: {heads}")
    return wanted


def control_of(deb, root):
    """The fields, the scripts and the sums of the control part."""
    control = os.path.join(root, "control-part")
    subprocess.run(["dpkg-deb", "-e", deb, control], check=True)
    with open(f"{control}/control", encoding="utf-8") as file:
        text = file.read()
    for line in ("Package: ads", r"Version: 0~\d{12}\.\w+", "Architecture: amd64", r"Installed-Size: \d+", r"Depends: libc6 \(>= 2\.\d+\), libgcc-s1, .*"):
        see(re.search(f"^{line}$", text, re.M), f"control has no line {line!r}: {text}")
    see(max(map(len, text.split("Description:")[1].splitlines())) <= 80, "a line of the package's description is longer than 80")
    for name in ("postinst", "prerm", "postrm"):
        see(os.access(f"{control}/{name}", os.X_OK) and subprocess.run(["sh", "-n", f"{control}/{name}"]).returncode == 0, f"{name} is no script")
    with open(f"{control}/md5sums", encoding="utf-8") as file:
        sums = dict(reversed(line.rstrip("\n").split("  ")) for line in file)
    shutil.rmtree(control)
    see(sums == {os.path.relpath(path, root): sum_of(path, "md5") for path in files_below(root)}, "md5sums differs from the files")


def packages(folder, programs):
    """Both packages have the same files, root's, with their sums; and nothing else is left in the folder."""
    made, root, gate = os.path.join(folder, "made"), os.path.join(folder, "root"), os.path.join(folder, "gate.log")
    os.mkdir(made)
    with open(gate, "w", encoding="utf-8") as file:
        file.write("x: proved\n7 passed, 0 failed\nfailed of itself\nparts: 3 passed, 0 failed\n")
    out, err, status = script("package.sh", [made], folder, GATE=gate, FAST="1", **programs)
    see(status == 0 and err == "" and sorted(out.split()) == files_below(made), f"package.sh: status {status}, {out + err!r}, {files_below(made)}")
    deb, tar = out.split()
    subprocess.run(["dpkg-deb", "-x", deb, root], check=True)
    wanted = manifest_of(root)
    control_of(deb, root)
    with tarfile.open(tar) as whole:
        members = whole.getmembers()
        see({re.sub("^[^/]*", ".", it.name): hashlib.sha256(whole.extractfile(it).read()).hexdigest() for it in members
             if it.isfile() and not it.name.endswith("/MANIFEST")} == wanted, "the .tar.gz has other files than the .deb")
    see(all(it.uid == it.gid == 0 and it.mode in (0o755, 0o644) and (it.isdir() or it.isfile()) for it in members),
        "the .tar.gz has files that are not root's, or writable ones")
    listed = subprocess.run(["dpkg-deb", "-c", deb], capture_output=True, text=True, check=True).stdout.splitlines()
    see(all(re.match(r"(drwxr-xr-x|-rwxr-xr-x|-rw-r--r--) root/root +\d+ \S+ \S+ \./(usr/\S*)?$", line) for line in listed),
        "the .deb has files outside of /usr, or not root's")
    with gzip.open(f"{root}/usr/share/man/man1/adsd.1.gz", "rt") as page:
        see("\n.TH ADSD 1 " in page.read(), "the manual page is none")
    return len(wanted)


def same_bytes(folder, stand_in):
    """Made twice, the packages are the same bytes."""
    sums = []
    for name in ("once", "twice"):
        made = os.path.join(folder, name)
        os.mkdir(made)
        out, err, status = script("package.sh", [made], folder, FAST="1", PROGRAM=stand_in, DAEMON=stand_in)
        see(status == 0, f"package.sh: {err!r}")
        sums.append([sum_of(path) for path in out.split()])
    see(sums[0] == sums[1], "made twice, the packages differ")


def tried(program, size):
    with tempfile.TemporaryDirectory() as folder:
        stand_in = os.path.join(folder, "adsd")
        with open(stand_in, "w", encoding="utf-8") as file:
            file.write(STAND_IN)
        os.chmod(stand_in, 0o755)
        programs = {"PROGRAM": program, "DAEMON": stand_in}
        count = refusals(folder, programs)
        below_a_folder(folder, programs)
        installed(folder, programs)
        if not shutil.which("dpkg-deb"):
            return f"{count} wrong words; files, launcher and tools where they belong; there is no dpkg-deb, so no package was made"
        files = packages(folder, programs)
        same_bytes(folder, stand_in)
        return f"{count} wrong words; files, launcher and tools where they belong; a package of {files} files with their sums, twice the same"
