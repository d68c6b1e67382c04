"""From a file of TwinCAT to a line: what tools/plant.py import does."""
from lib import import_plcopen, import_twincat
from lib.building import build
from lib.import_model import NoImport
from lib.import_text import ImportText
from lib.xml_tree import read_xml

READERS = {"TcModuleClass": import_twincat.read_tmc, "PlcProjectInfo": import_twincat.read_tpy, "project": import_plcopen.read_plcopen}
PASSED = (*import_twincat.PASSED, *import_plcopen.PASSED)


def widened(root, is_wide):
    """Takes the layout of controllers of 64 bits, where the file has one beside that of 32; a remark on it."""
    nodes = [it for it in root.every("BitSize", "BitOffs") if "X64" in it.attributes]
    if is_wide:
        for it in nodes:
            it.text = it.attributes["X64"]
        return "" if nodes else "the file has one layout alone: --x64 changes nothing"
    some = "sizes and places of its own for controllers of 64 bits"
    return f"the file has {some}; these are those of 32 bits, and --x64 takes the others" if nodes else ""


def imported(given, name, net, routes, port, offsets=False, is_wide=False):
    """The line that a file comes to, and a sentence on it."""
    root = read_xml(given, PASSED)
    wide = widened(root, is_wide)
    if root.tag not in READERS:
        source = ": it is a source of TwinCAT; import the TMC file of its project, or a PLCopen XML export" if root.tag == "TcPlcObject" else ""
        raise NoImport(root.line, f"its root is <{root.tag[:80]}>, and not TcModuleClass (TMC), PlcProjectInfo (TPY) or project (PLCopen XML){source}")
    found = READERS[root.tag](root)
    found.remarks += [wide] if wide else []
    writing = ImportText(found, name, net, routes, port, offsets)
    text = writing.text()
    built = build(text.encode(), name)
    if built.faults:
        raise NoImport(root.line, f"what would be written does not build: line {built.faults[0]}; that is a fault of this tool")
    left = sum(line.startswith(("# left out", "  # left out")) for line in text.split("\n"))
    said = f"{writing.count} symbols and {len(writing.types)} types; {left} left out, each noted in a comment"
    return text, said + (f"; {wide}" if wide else "")
