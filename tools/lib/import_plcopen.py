"""PLCopen XML (TC6, versions 1 and 2), as TwinCAT exports it: written from its published form."""
from lib.import_constants import put_numbers
from lib.import_model import Given, Kind, NoImport, Part, number_of

PASSED = ("body", "actions", "transitions", "methods", "coordinateInfo", "fileHeader", "projectStructure", "ObjectId")
# The lists of variables of a program, and of a function block as a structure, in the order of its bytes.
LISTS = ("inputVars", "outputVars", "localVars")
LEFT_OUT = {"inOutVars": "it is VAR_IN_OUT, a reference", "tempVars": "it is VAR_TEMP, which no client sees", "externalVars": None, "accessVars": None}


def read_plcopen(root):
    given, header = Given("PLCopen XML export"), root.first("contentHeader")
    put_numbers(root)
    given.name = header.attributes.get("name", "") if header is not None else ""
    for node in root.every("dataType"):
        given.add(kind_of(node))
    for node in root.every("pou"):
        take_pou(given, node)
    for node in root.every("globalVars"):
        name = node.attributes.get("name", "")
        given.symbols += variables_of(node, f"{name}." if name else "")
    if not given.symbols:
        raise NoImport(root.line, "it has no variable of a program and no global one: export the programs and the lists of global variables, too")
    return given


def take_pou(given, node):
    """A program's variables are symbols; a function block is a structure of its variables."""
    name, what, interface = node.attributes.get("name", ""), node.attributes.get("pouType", ""), node.first("interface")
    if what == "program" and interface is not None:
        for one in interface.inner:
            given.symbols += variables_of(one, f"{name}.") if one.tag in LISTS or LEFT_OUT.get(one.tag) else []
    elif what == "functionBlock":
        kind = Kind(name, node.line)
        kind.note = f"the function block {name} is a structure of its variables here: nothing runs in it"
        for tag in (*LISTS, *(own for own, why in LEFT_OUT.items() if why)):
            for one in interface.all(tag) if interface is not None else []:
                kind.parts += variables_of(one, "")
        extends = next((it for it in node.every("Inheritance", "extends")), None)
        kind.extends = (extends.said("Extends") or extends.text.strip()) if extends is not None else ""
        given.add(kind)


def variables_of(node, head):
    found = []
    for it in node.all("variable"):
        part = part_of(it, head)
        part.why = part.why or LEFT_OUT.get(node.tag)
        part.persistent = any(node.attributes.get(key) == "true" for key in ("persistent", "retain"))
        part.read_only = node.attributes.get("constant") == "true"
        found.append(part)
    return found


def part_of(node, head=""):
    part = Part(head + node.attributes.get("name", ""), "", node.line)
    part.text, part.ends, part.why = type_of(node.first("type"))
    value, said = node.first("initialValue"), node.first("documentation")
    part.comment = said.whole_text() if said is not None else ""
    part.initial = initial_of(value, "") if value is not None else None
    address = node.attributes.get("address", "").upper().replace(" ", "")
    part.area = {"%I": "inputs", "%Q": "outputs", "%M": "memory"}.get(address[:2], "data")
    if address[2:3] == "X":
        part.note = f"it is one bit, {address}; a byte of its own stands in its place"
    return part


def type_of(node):
    """The text of a type, its dimensions, and why it is none."""
    it = node.inner[0] if node is not None and node.inner else None
    if it is None:
        return "", [], "the file names no type of it"
    if it.tag == "derived":
        return it.attributes.get("name", ""), [], None
    if it.tag in ("string", "wstring"):
        length = it.attributes.get("length")
        return it.tag.upper() + (f"({length})" if length else ""), [], it.attributes.get("why")
    if it.tag == "array":
        text, inner, why = type_of(it.first("baseType"))
        why = next((one.attributes["why"] for one in it.all("dimension") if "why" in one.attributes), why)
        return text, [ends_of(one) for one in it.all("dimension")] + inner, why
    if it.tag in ("subrangeSigned", "subrangeUnsigned"):
        (text, ends, why), bounds = type_of(it.first("baseType")), it.first("range")
        low, high = ends_of(bounds) if bounds is not None else ("?", "?")
        return f"{text} ({low}..{high})", ends, why
    if it.tag in ("pointer", "reference"):
        return f"{it.tag.upper()} TO {type_of(it.first('baseType'))[0]}", [], f"it is a {it.tag}"
    if it.tag in ("struct", "enum"):
        return "", [], "its type has no name"
    return it.tag, [], None


def ends_of(node):
    low, high = number_of(node.attributes.get("lower", "")), number_of(node.attributes.get("upper", ""))
    return (low, high) if low is not None and high is not None else (0, -1)


def kind_of(node):
    kind = Kind(node.attributes.get("name", ""), node.line)
    base = node.first("baseType")
    it = base.inner[0] if base is not None and base.inner else None
    if it is not None and it.tag == "struct":
        kind.parts = [part_of(one) for one in it.all("variable")]
    elif it is not None and it.tag == "enum":
        take_values(kind, it)
    else:
        kind.base, kind.ends, kind.why = type_of(base)
    return kind


def take_values(kind, node):
    last, inner = -1, node.first("baseType")
    for one in node.every("value"):
        said = one.attributes.get("value")
        if said is not None:
            last = number_of(said.partition("#")[2] if "#" in said and not said[0].isdigit() else said)
        elif last is not None:
            last += 1
        kind.values.append((one.attributes.get("name", ""), last))
    kind.base = type_of(inner)[0] if inner is not None else "INT"


def initial_of(node, path):
    """An initial value: a literal, or pairs of a path and a literal. An element stands at its place, written #0, #1, ..; many alike at #0*3."""
    it = node.inner[0] if node.inner else None
    if it is None:
        return None
    if it.tag == "simpleValue":
        return it.attributes.get("value", "") if not path else [(path, it.attributes.get("value", ""))]
    found, place = [], 0
    for one in it.all("value"):
        if it.tag == "arrayValue":
            count = number_of(one.attributes.get("repetitionValue", "1")) or 0
            step = f"#{place}*{count}"
            place += count
        else:
            step = f".{one.attributes.get('member', '')}"
        inner = initial_of(one, path + step)
        found += inner if isinstance(inner, list) else []
    return found
