"""A source, which tools/plant.py builds, in the place of a description."""
import os


def source_said(verdict, given, name):
    """What is to be done with a file that is refused since it is a source; empty where it is none."""
    if verdict.status != 2 or verdict.rule != 2:
        return ""
    from lib.building import build  # (which reads files by what asks here)
    from lib.signals import MOST

    if build(given, os.path.basename(name), None, MOST).faults:
        return ""
    return f"as a source it is right: plant.py build {name} --out FILE makes the description of it"
