"""A run of a tool within this process, where many are made."""
import contextlib
import io

from lib.words import Ended


def inside(main, *words):
    """What a tool's `main` prints, what it says on standard error, and its status."""
    out, err = io.StringIO(), io.StringIO()
    with contextlib.redirect_stdout(out), contextlib.redirect_stderr(err):
        try:
            status = main(list(words))
        except Ended as end:
            print(end.why, file=err)
            status = end.status
    return out.getvalue(), err.getvalue(), status
