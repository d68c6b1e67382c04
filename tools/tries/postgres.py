"""A PostgreSQL of this machine, over a folder of its own; Debian's package postgresql has it."""
import glob
import os
import shutil
import subprocess
import tempfile

from tries.running import free_port, see


def programs():
    """The folder of its programs; None where it is not there."""
    found = sorted(glob.glob("/usr/lib/postgresql/*/bin/initdb"))
    return os.path.dirname(found[-1]) if found and shutil.which("psql") else None


class Postgres:
    def __init__(self, tools):
        self.tools, self.port, self.folder = tools, free_port(), tempfile.mkdtemp(prefix="postgres-")
        self.data = os.path.join(self.folder, "data")

    def run(self, name, *words):
        """One of its programs, by the user postgres where root asks, since it refuses root."""
        whole = [os.path.join(self.tools, name), *words]
        if os.geteuid() == 0:
            whole = ["setpriv", "--reuid=postgres", "--regid=postgres", "--init-groups", "--", *whole]
        with open(os.path.join(self.folder, "said"), "a+", encoding="utf-8") as said:
            it = subprocess.run(whole, cwd="/", stdin=subprocess.DEVNULL, stdout=said, stderr=said, timeout=120)
            said.seek(0)
            see(it.returncode == 0, f"{name}: {said.read()[-300:]}")

    def __enter__(self):
        if os.geteuid() == 0:
            shutil.chown(self.folder, "postgres")
        self.run("initdb", "-D", self.data, "-U", "plant", "-A", "trust", "-E", "UTF8", "--no-locale")
        own = f"-p {self.port} -c listen_addresses=127.0.0.1 -c unix_socket_directories='' -c fsync=off"
        self.run("pg_ctl", "-D", self.data, "-w", "-t", "60", "-o", own, "start")
        return self

    def __exit__(self, *_):
        self.run("pg_ctl", "-D", self.data, "-m", "immediate", "stop")
        shutil.rmtree(self.folder, ignore_errors=True)

    def rows(self, text, user="plant"):
        """The rows that a statement gives, of texts."""
        where = ["-h", "127.0.0.1", "-p", str(self.port), "-U", user, "-d", "postgres"]
        it = subprocess.run(
            ["psql", "-X", "-At", "-F", "|", "-v", "ON_ERROR_STOP=1", *where, "-c", text],
            stdin=subprocess.DEVNULL,
            capture_output=True,
            text=True,
            timeout=60,
        )
        see(it.returncode == 0, f"{text[:200]}: {it.stderr}")
        return [tuple(line.split("|")) for line in it.stdout.splitlines()]
