"""The module class files of TwinCAT 3 (TMC) and the project files of TwinCAT 2 (TPY): written from their published form and from knowledge of them."""
import re

from lib.groups import AREA_OF, BITS
from lib.import_model import Given, Kind, NoImport, Part, number_of

BIT_AREAS = {group: area for area, group in BITS.items()}
AREAS = (("input", "inputs"), ("output", "outputs"), ("marea", "memory"), ("memory", "memory"), ("internal", "data"), ("retain", "data"), ("standard", "data"))
PASSED = ("Method", "Action", "Function", "Relations", "Licenses", "Contexts", "Interfaces", "EventClasses", "ImageDatas", "Hides", "Deployment", "PouNode")
CONSTANT = ("constant", "isconstant", "const", "readonly", "tcreadonly")
LITERALS = ("Value", "String", "EnumText", "Bool", "DateTime")


def read_tmc(root):
    given = Given("TwinCAT 3 module class")
    for node in root.every("DataType"):
        given.add(kind_of(node))
    modules = root.every("Module")
    if not modules:
        raise NoImport(root.line, "it has no <Module>: a file of types alone has no symbols")
    for node in modules[1:]:
        given.remarks.append(f"line {node.line}: the module {node.said('Name')} is left out: a line is written of the first one")
    for node in modules[0].every("Property"):
        it = re.fullmatch(r"Port_([0-9]{1,5})", node.said("Value"))
        if node.said("Name") == "ApplicationName" and it:
            given.port = int(it[1])
    given.name = modules[0].said("Name")
    for area in modules[0].every("DataArea"):
        take_area(given, area)
    return given


def take_area(given, area):
    kind = area.first("AreaNo")
    word = (kind.attributes.get("AreaType", "") if kind is not None else "").lower()
    meant = next((own for head, own in AREAS if word.startswith(head)), None)
    if meant is None and area.all("Symbol"):
        given.remarks.append(f"line {area.line}: the data area {area.said('Name')} is of the kind {word or 'none'}; its symbols stand in data")
    for node in area.all("Symbol"):
        part = part_of(node, "BaseType" if node.first("BaseType") is not None else "Type")
        part.area, part.persistent = meant or "data", part.persistent or word.startswith("retain")
        given.symbols.append(part)


def read_tpy(root):
    given = Given("TwinCAT 2 project")
    for node in root.every("DataType"):
        given.add(kind_of(node))
    given.net, given.port = root.said("RoutingInfo", "AdsInfo", "NetId") or None, number_of(root.said("RoutingInfo", "AdsInfo", "Port"))
    for node in root.every("Symbol"):
        part, group = part_of(node, "Type"), number_of(node.said("IGroup"))
        if part.name.startswith("."):
            part.note, part.name = f"TwinCAT 2 calls it {part.name}; a name here has no full stop in front", part.name[1:]
        offset = number_of(node.said("IOffset"))
        if group in BIT_AREAS:
            part.area, part.at, part.note = BIT_AREAS[group], None, f"it is one bit of the {BIT_AREAS[group]}; a byte of its own stands in its place"
            part.bits = 8
        elif group in AREA_OF:
            part.area, part.at = AREA_OF[group], 8 * offset if offset is not None else None
        elif group is not None:
            part.why = f"the group 0x{group:X} is none of the four areas"
        given.symbols.append(part)
    return given


def kind_of(node):
    name = node.first("Name")
    kind = Kind(name.text.strip() if name is not None else "", node.line)
    kind.bits, kind.extends = number_of(node.said("BitSize")), node.said("ExtendsType")
    kind.parts = [part_of(it, "Type") for it in node.all("SubItem")]
    for it in node.all("EnumInfo"):
        kind.values.append((it.said("Text"), number_of(it.said("Enum"))))
    base = node.first("BaseType") or node.first("Type")
    kind.base, kind.ends = type_text(base), ends_of(node)
    kind.why = None if base is None else odd(base)
    return kind


def part_of(node, tag):
    kind = node.first(tag)
    part = Part(node.said("Name"), type_text(kind), node.line)
    part.ends, part.bits, part.at = ends_of(node), number_of(node.said("BitSize")), number_of(node.said("BitOffs"))
    part.comment, part.initial = node.said("Comment"), default_of(node.first("Default"))
    part.why = odd(kind) if kind is not None else "the file names no type of it"
    marks = [it.said("Name").lower() for it in node.every("Property")] + [it.tag.lower() for it in node.inner]
    part.persistent = any("persistent" in mark or "retain" in mark for mark in marks)
    part.read_only = is_constant(node)
    return part


def is_constant(node):
    """Whether a symbol or a member is a constant, or may only be read: by an attribute, an element or a property."""
    marks = {name.lower(): value for name, value in node.attributes.items()}
    marks.update({it.tag.lower(): it.text for it in node.inner})
    marks.update({it.said("Name").lower(): it.said("Value") for it in node.every("Property")})
    return any(marks[name].strip().lower() not in ("0", "false") for name in CONSTANT if name in marks)


def type_text(node):
    return " ".join(node.text.split()) if node is not None else ""


def odd(node):
    """Why a type that an element names is none of a description; None where its text alone says what it is."""
    if node.attributes.get("PointerTo", "0") not in ("0", "false", ""):
        return "it is a pointer"
    return "it is a reference" if node.attributes.get("ReferenceTo", "false") not in ("0", "false", "") else None


def ends_of(node):
    """The dimensions: pairs of the least and the greatest index."""
    found = []
    for it in node.all("ArrayInfo"):
        low, count = number_of(it.said("LBound")), number_of(it.said("Elements"))
        found.append((low, low + count - 1) if low is not None and count else (0, -1))
    return found


def default_of(node):
    """A default as a literal, or as pairs of a path and a literal."""
    if node is None:
        return None
    found = []
    for it in node.every("SubItem"):
        value = next((it.first(tag) for tag in LITERALS if it.first(tag) is not None), None)
        if value is not None:
            found.append((it.said("Name"), literal(value)))
    value = next((node.first(tag) for tag in LITERALS if node.first(tag) is not None), None)
    return found or (literal(value) if value is not None else None)


def literal(node):
    return node.text if node.tag == "String" else node.text.strip()
