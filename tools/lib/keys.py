"""The tables of a description and their keys: the kind of each value, and whether the key must be there.

A kind is `text`, `number`, `flag`, `texts` (an array of texts), or the name of a table, of which an array stands there.
"""
MUST = object()

TABLES = {
    "document": {"schema": ("number", MUST), "net": ("text", MUST), "route": ("route", None), "type": ("type", None), "port": ("port", MUST)},
    "route": {"net": ("text", MUST), "rights": ("text", MUST)},
    "structure": {"name": ("text", MUST), "member": ("member", MUST)},
    "enumeration": {"name": ("text", MUST), "base": ("text", MUST), "value": ("value", MUST)},
    "member": {"name": ("text", MUST), "type": ("text", MUST), "comment": ("text", "")},
    "value": {"name": ("text", MUST), "number": ("number", MUST)},
    "port": {
        "port": ("number", MUST), "name": ("text", MUST), "major": ("number", MUST), "minor": ("number", MUST), "build": ("number", MUST),
        "inputs": ("number", 0), "outputs": ("number", 0), "memory": ("number", 0), "data": ("number", 0), "symbol": ("symbol", None),
    },
    "symbol": {
        "name": ("text", MUST), "type": ("text", MUST), "area": ("text", MUST), "offset": ("number", MUST), "comment": ("text", ""),
        "persistent": ("flag", False), "read_only": ("flag", False), "initial": ("text", None), "signal": ("number", None), "writers": ("texts", None),
    },
}

# What other systems call a key, in lower case.
CALLED = {
    "persistent": ("retain", "remanent", "retentive", "persist", "keep", "nonvolatile"), "initial": ("default", "init", "start", "value"),
    "offset": ("address", "adr", "byte", "index_offset"), "read_only": ("readonly", "constant"), "type": ("datatype",),
    "comment": ("description", "remark", "text", "unit"), "net": ("netid", "ams_net_id"), "rights": ("access", "right"),
}
MEANT = {word: key for key, words in CALLED.items() for word in words}

# The keys of schema 2 alone.
SECOND = {"enumeration": ("base", "value"), "symbol": ("writers",)}

HEADERS = {
    "document": "the top of a description", "route": "[[route]]", "structure": "a structure, [[type]]", "enumeration": "an enumeration, [[type]]",
    "member": "[[type.member]]", "value": "[[type.value]]", "port": "[[port]]", "symbol": "[[port.symbol]]", "bit": "an element of `bits`",
}

IN_WORDS = {"text": "a text in quotes", "number": "a number without quotes or point", "flag": "true or false", "texts": "an array of texts in quotes"}

# A key that must be there, as it may stand.
EXAMPLES = {
    "schema": "schema = 2", "net": 'net = "5.1.2.3.1.1"', "rights": 'rights = "control"', "major": "major = 1", "minor": "minor = 0", "build": "build = 0",
    "area": 'area = "data"', "type": 'type = "DINT"', "base": 'base = "INT"', "number": "number = 0", "offset": "offset = 0",
}

# What TOML calls the kinds.
KIND_OF = {"text": "string", "number": "integer", "flag": "boolean"}
TOML_WORDS = {
    "string": "a text", "integer": "a number", "float": "a number with a point or an exponent", "boolean": "true or false", "date": "a date or a time",
    "array": "an array", "table": "a table", "broken": "what can't be read",
}
