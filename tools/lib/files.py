"""Files of a tool: read whole and written in one step, or a sentence."""
import os
import tempfile

from lib.plant import Plant
from lib.signals import MOST as MOST_SIGNALS
from lib.signals import config_in
from lib.source_meant import source_said
from lib.verdict import verdict_on
from lib.words import Ended


def read_bytes(name, most=-1):
    """The bytes of a file, at most so many of them."""
    try:
        with open(name, "rb") as file:
            return file.read(most)
    except OSError as fault:
        raise Ended(f"{name}: {fault.strerror}", 4) from None


def regular(name, status=4):
    """Sees that a name leads to a file, or to nothing: a pipe could be waited for without end."""
    if os.path.exists(name) and not os.path.isfile(name):
        raise Ended(f"{name} is a folder, a pipe or a device, and a file is wanted", status)


def read_text(name):
    try:
        return read_bytes(name).decode("utf-8")
    except UnicodeDecodeError:
        raise Ended(f"{name} is no UTF-8 text", 4) from None


def read_plant(name):
    """The plant that a description describes, or the one that a configuration of adsd names.

    Who only reads it need not know how many signals there are.
    """
    given = read_bytes(name)
    config = config_in(given, name)
    if config:
        name, given = config.description, read_bytes(config.description)
    verdict = verdict_on(given, MOST_SIGNALS)
    if verdict.status:
        right = source_said(verdict, given, name) or "tools/why.py says why"
        raise Ended(f"{name} is refused: {verdict.lines[0]}; {right}", 2)
    return Plant(verdict)


def write_new(name, ending, text):
    """A text as a new file that its owner alone may read; gives its name, which is numbered where there is one already."""
    folder, count = os.path.dirname(os.path.abspath(name)), 1
    try:
        handle, fresh = tempfile.mkstemp(prefix="." + os.path.basename(name) + ".", dir=folder)
        try:
            with os.fdopen(handle, "wb") as file:
                file.write(text.encode("utf-8", "surrogatepass"))
                file.flush()
                os.fsync(file.fileno())
            while True:
                own = name + (f"-{count}" if count > 1 else "") + ending
                try:
                    os.link(fresh, own)
                    break
                except FileExistsError:
                    count += 1
        finally:
            os.unlink(fresh)
        sync_folder(folder)
    except OSError as fault:
        raise Ended(f"{name}{ending} can't be written: {fault.strerror}", 4) from None
    return own


def sync_folder(folder):
    handle = os.open(folder, os.O_RDONLY)
    try:
        os.fsync(handle)
    finally:
        os.close(handle)


def write_text(name, text):
    """A text as a file: whoever reads it finds the old file or the new one, whole. Its rights and owner stay."""
    place = os.path.realpath(name)
    try:
        if os.path.isdir(place):
            raise IsADirectoryError(0, "Is a directory")
        old = os.stat(place) if os.path.exists(place) else None
        handle, fresh = tempfile.mkstemp(prefix="." + os.path.basename(place) + ".", dir=os.path.dirname(place))
        try:
            with os.fdopen(handle, "wb") as file:
                file.write(text.encode())
                file.flush()
                os.fsync(file.fileno())
            os.chmod(fresh, old.st_mode & 0o777 if old else 0o644)
            if old and os.geteuid() == 0:
                os.chown(fresh, old.st_uid, old.st_gid)
            os.replace(fresh, place)
        except BaseException:
            os.unlink(fresh)
            raise
    except OSError as fault:
        raise Ended(f"{name} can't be written: {fault.strerror}", 4) from None
