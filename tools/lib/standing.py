"""A description in its place: how it is put there, and the note of a change that is not finished."""
import json
import os
import tempfile
from typing import NamedTuple

from lib.files import read_bytes, sync_folder
from lib.page_words import beside, empty_text
from lib.words import Ended


def put(given, place, like=None, rights=None):
    """The bytes in their place, in one step: whoever reads it finds the old file or the new one, whole. The rights
    of the old one stay.
    """
    folder, old, like = os.path.dirname(place), None, like or place
    try:
        if os.path.exists(like):
            old = os.stat(like)
        handle, fresh = tempfile.mkstemp(prefix="." + os.path.basename(place) + ".", dir=folder)
        try:
            with os.fdopen(handle, "wb") as file:
                file.write(given)
                file.flush()
                os.fsync(file.fileno())
            os.chmod(fresh, rights or (old.st_mode & 0o777 if old else 0o644))
            if old and os.geteuid() == 0:
                os.chown(fresh, old.st_uid, old.st_gid)
            os.replace(fresh, place)
        except BaseException:
            os.unlink(fresh)
            raise
        sync_folder(folder)
    except OSError as fault:
        raise Ended(f"{place} can't be written: {fault.strerror}", 4) from None


def swap(given, place, keep, page=None):
    """Puts a description over the one that stands there, which is kept as PLACE.before: at each moment both are
    whole in a file. So it is with the words of a page beside it; `page` is None where they stay.
    """
    words = beside(place)
    if page is not None or os.path.exists(words) or os.path.exists(words + ".before"):
        put(words_at(words) if page is None else page, words + ".next", like=words)
    if keep is not None:
        put(keep, place + ".next", like=place)
    put(given, place)
    swapped(place)


def swapped(place):
    """The last steps of a swap."""
    words = beside(place)
    moved(place + ".next", place + ".before")
    if os.path.exists(words + ".next"):
        put(words_at(words), words + ".before", like=words)
        moved(words + ".next", words)


def words_at(name):
    """The words of a page that stand there; some that say nothing where none do."""
    return read_bytes(name) if os.path.exists(name) else empty_text(os.path.basename(name)).encode()


def moved(name, place):
    if os.path.exists(name):
        try:
            os.replace(name, place)
            sync_folder(os.path.dirname(place))
        except OSError as fault:
            raise Ended(f"{place} can't be written: {fault.strerror}", 4) from None


class Note(NamedTuple):
    """A change that was begun: `kind` is deploy or rollback, `old` and `new` are the digests of the two
    descriptions, `version` is that of the server before, and `files` have the values.
    """

    kind: str
    old: str
    new: str
    version: int
    files: list

    def write(self, place):
        put(json.dumps(self._asdict()).encode(), place + ".unfinished", rights=0o600)


def noted(place):
    """The note of a change of this place; None where there is none."""
    if not os.path.exists(place + ".unfinished"):
        return None
    try:
        it = Note(**json.loads(read_bytes(place + ".unfinished")))
        if not all(isinstance(name, str) for name in it.files) or not isinstance(it.version, int):
            raise TypeError
        return it
    except (ValueError, TypeError, RecursionError):
        raise Ended(f"{place}.unfinished is no note of tools/deploy.py: remove it", 4) from None


def forget(place):
    for name in (place + ".next", beside(place) + ".next", place + ".unfinished"):
        try:
            os.unlink(name)
        except FileNotFoundError:
            pass
        except OSError as fault:
            raise Ended(f"{name} can't be removed: {fault.strerror}", 4) from None
