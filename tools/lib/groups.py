"""Index groups: the areas of a port with their groups of bytes, bits and sizes, and the groups of names, handles, uploads and sums."""

BYTES = {"inputs": 0xF020, "outputs": 0xF030, "memory": 0x4020, "data": 0x4040}
BITS = {"inputs": 0xF021, "outputs": 0xF031, "memory": 0x4021}
SIZES = {"inputs": 0xF025, "outputs": 0xF035, "memory": 0x4025, "data": 0x4045}
AREA_OF = {group: area for area, group in BYTES.items()}
SIZED = {group: area for area, group in SIZES.items()}

HANDLE, VALUE, BY_HANDLE, RELEASE, PLACE, VERSION, ENTRY = 0xF003, 0xF004, 0xF005, 0xF006, 0xF007, 0xF008, 0xF009
SYMBOLS, COUNTS, TYPES, TYPE_COUNTS = 0xF00B, 0xF00C, 0xF00E, 0xF00F
SUM_READ, SUM_WRITE, SUM_ASK = 0xF080, 0xF081, 0xF082
