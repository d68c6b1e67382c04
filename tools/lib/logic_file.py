"""A user's file, read and run once: its functions, with the names that stand in the text of each."""
import gc
import os
import sys
import traceback
import types

from lib.client import NoSymbol
from lib.files import read_text
from lib.logic_functions import BOOK, BadLogic, Book
from lib.logic_source import OPEN, ends_of, tree_of, uses_in
from lib.words import Ended

TOOLS = os.path.dirname(os.path.dirname(os.path.abspath(__file__)))
MOST_TEXT = 300


def loaded(file: str) -> Book:
    """The functions that a file says. It is run as a module of its own, and imports what stands beside it."""
    tree = tree_of(read_text(file), file)
    module = types.ModuleType("plant_logic")
    module.__file__ = file
    sys.modules[module.__name__] = module
    sys.path.append(os.path.dirname(os.path.abspath(file)))
    try:
        exec(compile(tree, file, "exec"), module.__dict__)
    except (KeyboardInterrupt, SystemExit):
        raise
    except BaseException as fault:
        raise Ended(f"{place_of(fault, file)}: {fault_text(fault)}", 2) from None
    if not BOOK.functions and not BOOK.later:
        raise Ended(f"{file} has no function with @every or @when, and no call of after: nothing would run", 2)
    BOOK.uses = [use for use in uses_in(tree) if OPEN not in use.name]
    name_all(ends_of(tree), file)
    # (what stands for good is not looked at again for garbage, which would make cycles late)
    gc.collect()
    gc.freeze()
    return BOOK


def name_all(ends, file):
    """The names in the text of each function."""
    for function in BOOK.functions + BOOK.later:
        lines = range(function.line, ends.get(function.line, function.line) + 1) if function.file == file else ()
        own = [use.name for use in BOOK.uses if use.line in lines and use.verb != "when"]
        function.named = list(dict.fromkeys(function.named + own))


def place_of(fault: BaseException, file: str, else_place: str = "") -> str:
    """The file and line of a fault: the last line of the user's file that had part in it, or of a file beside it."""
    frames = traceback.extract_tb(fault.__traceback__)
    own = [it for it in frames if it.filename == file]
    own = own or [it for it in frames if not os.path.abspath(it.filename).startswith(TOOLS + os.sep)]
    return f"{own[-1].filename}:{own[-1].lineno}" if own else else_place or file


def fault_text(fault: BaseException) -> str:
    """An exception in one line."""
    try:
        words = " ".join(str(fault).split())
    except Exception:
        words = "it has no text"
    words = words if len(words) <= MOST_TEXT else words[:MOST_TEXT] + ".."
    if isinstance(fault, (BadLogic, NoSymbol)):
        return words
    return f"{type(fault).__name__}: {words}" if words else type(fault).__name__
