"""The rules of a description in words, and what the item of each counts."""

WORDS = {
    1: ("the text has at most 16,777,216 bytes", None),
    2: ("every key is one of its table's, every key that must be there is there, and every value is of its kind", None),
    3: ("`schema` is 1 or 2", None),
    4: ("`net` is a NetId, six numbers from 0 to 255 joined by full stops; so is each route's, and no two routes have the same",
        "0 is the description's own, 1 the first route's"),
    5: ("the rights of a route are read, write or control", "routes, from 0"),
    6: ("there are at most 1,000 types (item 1000); the name of each is an identifier of at most 255 bytes, no plain type, not STRING, ARRAY or OF, "
        "and no earlier type's, ASCII case aside", "types, from 0"),
    7: ("a structure has 1 to 1,000 members, an enumeration a base and 1 to 1,000 values, all with different names (item 0 for these); each member has a name "
        "that no earlier member has, a type of plain and earlier types, and a comment of at most 255 printable bytes", "members through all types, from 0"),
    8: ("an array in a member has at most 1,048,576 elements, a structure at most 1,048,576 bytes, and structures are nested at most 16 deep", "types, from 0"),
    9: ("there are 1 to 16 ports (item 16); each has a number of its own from 1 to 65,535, a name of at most 16 printable bytes, major and minor up to 255, "
        "build up to 65,535, areas of at most 1,048,576 bytes together (4,194,304 under schema 2), and at most 10,000 symbols", "ports, from 0"),
    10: ("a symbol's name is identifiers joined by full stops, at most 255 bytes, and neither it nor an earlier one of its port begins with the other, "
         "ASCII case aside", "symbols through all ports, from 0"),
    11: ("a symbol's type is a type text that names types of the description, of at most 1,048,576 elements and bytes", "symbols through all ports, from 0"),
    12: ("a symbol lies within its area, which is inputs, outputs, memory or data, and on no byte of an earlier symbol", "symbols through all ports, from 0"),
    13: ("`initial` is hexadecimal text of exactly the symbol's bytes, and one of the values where its type is an enumeration; a comment has at most 255 "
         "printable bytes; writers are 1 to 64 NetIds of which no two are the same", "symbols through all ports, from 0"),
    14: ("a signal is there (`ads` has 0, 1 and 2, `adsd` those of its configuration), no earlier symbol has it, and the symbol's type is a plain one", "symbols through all ports, from 0"),
    15: ("the upload of a port has at most 2,000,000 bytes: 33 for each symbol, and its name, its type's text and its comment", "ports, from 0"),
}
