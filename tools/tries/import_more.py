"""plant.py import: bits in bytes, constants, the layout of controllers of 64 bits, and who can connect."""
import os

from lib.building import build
from lib.importing import imported
from tries.running import ME, NET, see, tool

MEMBER = "<SubItem><Name>{}</Name><Type>{}</Type><BitSize>{}</BitSize><BitOffs>{}</BitOffs>{}</SubItem>"
# An alarm word whose bits are members, bits between other members, and one with a comment and a default.
BITS = (
    "<TcModuleClass><DataTypes><DataType><Name>ST_Alarms</Name><BitSize>48</BitSize>"
    + "".join(
        MEMBER.format(*it)
        for it in (
            ("bHot", "BIT", 1, 0, "<Comment>too hot</Comment>"),
            ("bDry", "BIT", 1, 1, "<Default><Bool>TRUE</Bool></Default>"),
            ("bLast", "BIT", 1, 7, ""),
            ("bNext", "BIT", 1, 8, ""),
            ("nCode", "INT", 16, 16, ""),
            ("bEnd", "BIT", 1, 35, ""),
        )
    )
    + "</DataType></DataTypes><Modules><Module><Name>Bits</Name><DataAreas><DataArea>"
    '<AreaNo AreaType="Internal">3</AreaNo><Symbol><Name>MAIN.al</Name><BitSize>48</BitSize>'
    "<BaseType>ST_Alarms</BaseType><BitOffs>64</BitOffs></Symbol>"
    "<Symbol><Name>MAIN.bOne</Name><BitSize>1</BitSize><BaseType>BIT</BaseType><BitOffs>131</BitOffs></Symbol>"
    "</DataArea></DataAreas></Module></Modules></TcModuleClass>"
)
BIT_LINES = (
    '  { name = "bits_0", type = "BYTE", initial = 0x02, bits = ["bHot", "bDry", { name = "bLast", bit = 7 }], '
    'comment = "bHot: too hot" },',
    '  { name = "bits_1", type = "BYTE", bits = ["bNext"] },',
    '  { name = "nCode", type = "INT" },',
    '  { name = "bits_3", type = "BYTE", bits = [{ name = "bEnd", bit = 3 }] },',
    "# MAIN.bOne: it is one bit; a byte of its own stands in its place",
)
# How the files of TwinCAT say that a symbol is a constant, and that it is none.
CONSTANTS = (
    ("", "<Properties><Property><Name>TcReadOnly</Name></Property></Properties>", True),
    ("", "<Properties><Property><Name>Constant</Name><Value>1</Value></Property></Properties>", True),
    (' Constant="true"', "", True),
    (' IsConstant="1"', "", True),
    ("", "<Constant/>", True),
    (' Constant="false"', "", False),
    ("", "<Constant>0</Constant>", False),
    ("", "<Properties><Property><Name>Other</Name><Value>1</Value></Property></Properties>", False),
)
TMC = (
    "<TcModuleClass><Modules><Module><Name>C</Name><DataAreas><DataArea><AreaNo AreaType='Internal'>3</AreaNo>"
    "<Symbol{}><Name>G.c</Name><BitSize>16</BitSize><BaseType>INT</BaseType><BitOffs>0</BitOffs>{}</Symbol>"
    "</DataArea></DataAreas></Module></Modules></TcModuleClass>"
)
TPY = (
    "<PlcProjectInfo><Symbols><Symbol{}><Name>G.c</Name><Type>INT</Type><IGroup>16448</IGroup><IOffset>0</IOffset>"
    "<BitSize>16</BitSize>{}</Symbol></Symbols></PlcProjectInfo>"
)
WIDE = (
    "<TcModuleClass><DataTypes><DataType><Name>FB</Name><BitSize X64='128'>64</BitSize>"
    "<SubItem><Name>p</Name><Type PointerTo='1'>INT</Type><BitSize X64='64'>32</BitSize><BitOffs>0</BitOffs></SubItem>"
    "<SubItem><Name>n</Name><Type>DINT</Type><BitSize>32</BitSize><BitOffs X64='64'>32</BitOffs></SubItem></DataType>"
    "</DataTypes><Modules><Module><Name>W</Name><DataAreas><DataArea><AreaNo AreaType='Internal'>3</AreaNo>"
    "<Symbol><Name>MAIN.fb</Name><BitSize X64='128'>64</BitSize><BaseType>FB</BaseType><BitOffs>0</BitOffs></Symbol>"
    "</DataArea></DataAreas></Module></Modules></TcModuleClass>"
)
ARRAY = (
    '<variable name="{}"><type><array><dimension lower="{}" upper="{}"/><baseType><INT/></baseType></array></type>'
    "</variable>"
)
CONSTANT = (
    '<variable name="{}"><type><INT/></type><initialValue><simpleValue value="{}"/></initialValue></variable>'
)
# An array's bounds, and what comes of them.
BOUNDS = (
    ("a0", "1", "cMost", 'type = "ARRAY [1..10] OF INT"'),
    ("a1", "-cOwn", "2*(GVL.cMost-1)+cOwn", 'type = "ARRAY [-2..20] OF INT"'),
    ("a2", "1", "16#10", 'type = "ARRAY [1..16] OF INT"'),
    ("a3", "cSame", "cTwo", 'type = "ARRAY [5..20] OF INT"'),
    ("a4", "1", "cNone", "its bound cNone: the file has no constant cNone: write its number there"),
    ("a5", "1", "cOther", "its bound cOther: the file has no constant cOther"),
    ("a6", "1", "cLoop", "cLoop is a constant of itself"),
    ("a7", "1", "cMost+", "cMost+ is no sum of numbers"),
    ("a8", "1", "cMost/2", "its bound cMost/2: /2 is no number"),
    ("a9", "1", "(cMost", "(cMost wants a )"),
)
PLCOPEN = (
    '<project><contentHeader name="a"/><types><pous>'
    '<pou name="OTHER" pouType="program"><interface><localVars constant="true">'
    + CONSTANT.format("cOther", "3")
    + '</localVars></interface></pou><pou name="MAIN" pouType="program"><interface><localVars constant="true">'
    + CONSTANT.format("cOwn", "INT#2")
    + CONSTANT.format("cSame", "5")
    + "</localVars><localVars>"
    + "".join(ARRAY.format(*it[:3]) for it in BOUNDS)
    + '<variable name="s"><type><string length="cMost"/></type></variable>'
    '</localVars></interface></pou></pous></types><globalVars name="GVL" constant="true">'
    + CONSTANT.format("cMost", "10")
    + CONSTANT.format("cTwo", "cMost * 2")
    + CONSTANT.format("cSame", "6")
    + CONSTANT.format("cLoop", "cLoop + 1")
    + "</globalVars></project>"
)


def line_of(text, **words):
    """What a file comes to, which builds."""
    line, said = imported(text.encode(), "file", None, [], None, **words)
    built = build(line.encode(), "file.toml")
    see(not built.faults, f"{built.faults}\n{line}")
    return line, said, built


def bits():
    line, _, built = line_of(BITS)
    for wanted in BIT_LINES:
        see(wanted in line.split("\n"), f"the bits of a structure: {wanted} is not in\n{line}")
    see('{ name = "bDry" }, { name = "bLast", bit = 7 }]' in built.page, f"the names of bits: {built.page}")


def constants():
    for text in (TMC, TPY):
        for attributes, inside, is_constant in CONSTANTS:
            line = line_of(text.format(attributes, inside))[0]
            see(("read_only = true" in line) == is_constant, f"a constant {attributes}{inside}: {line}")


def wide():
    line, said, _ = line_of(WIDE)
    see("--x64 takes the others" in line and "--x64 takes the others" in said, f"a layout of 64 bits: {said}\n{line}")
    see('"fill_0", type = "ARRAY [0..3] OF BYTE"' in line, f"the layout of 32 bits: {line}")
    line, said, _ = line_of(WIDE, is_wide=True)
    see('"fill_0", type = "ARRAY [0..7] OF BYTE"' in line and '"fill_2", ' in line, f"the layout of 64 bits: {line}")
    see("--x64" not in said, said)
    see("--x64 changes nothing" in line_of(BITS, is_wide=True)[1], "a file without a layout of 64 bits")


def bounds():
    line = line_of(PLCOPEN)[0]
    for name, low, high, part in BOUNDS:
        own = next(it for it in line.split("\n\n") if f"MAIN.{name}" in it)
        see(part in own, f"the bounds {low}..{high}: {own}")
    see('type = "STRING(10)"' in line, "the length of a text")


def routes(folder):
    """Without a route nobody can connect, and both say so."""
    file, line, plant = (os.path.join(folder, name) for name in ("bits.tmc", "bits.toml", "bits.plant.toml"))
    with open(file, "w", encoding="utf-8") as it:
        it.write(BITS)
    nobody = 'nobody can connect, as it has no route; add for each client [[route]] with net = "192.168.0.9.1.1"'
    words = ("import", file, "--net", NET, "--out", line)
    for words in (words, ("build", line, "--out", plant), ("import", file, "--x64", "--out", line)):
        out, err, status = tool("plant.py", *words)
        see(status == 0 and nobody in out, f"plant.py {words}: {out}{err}")
    out, err, status = tool("plant.py", "import", file, "--route", f"{ME}=read", "--out", line)
    see(status == 0 and "nobody" not in out, f"plant.py import with a route: {out}{err}")
    out, err, status = tool("plant.py", "build", line, "--out", plant)
    see(status == 0 and "nobody" not in out, f"plant.py build with a route: {out}{err}")


def more_imports(folder):
    bits()
    constants()
    wide()
    bounds()
    routes(folder)
