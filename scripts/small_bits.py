"""Two small indexes in version 3 of the format, and damages of them with what docs/FORMAT.md says of each: for scripts/check_reader."""

HEADER = 72

# The rows of each, under CELL 1, TICK 1 and PERIOD 4, and its file.
SMALL = {
    "of one object": (
        "7,0,10,10\n7,1,11,10\n7,2,12,11\n",
        bytes.fromhex(
            "4752414354303033 04000000 02000000 01000000 03000000 02000000 00000000 0000000000000000 0a00000000000000 0a00000000000000"
            "0100000000000000 0100000000000000 043a08")),
    "of two objects": (
        "".join(f"7,{t},{10 + t},10\n" for t in range(8)) + "9,1,10,12\n9,6,10,13\n",
        bytes.fromhex(
            "4752414354303033 04000000 03000000 02000000 08000000 02000000 02000000 0000000000000000 0a00000000000000 0a00000000000000"
            "0100000000000000 0100000000000000 04528a54095c16088c01")),
}


def cut(size):
    """The first bytes alone."""
    return lambda data: data[:size]


def byte(place, value):
    """Another byte at a place."""
    return lambda data: data[:place] + bytes([value]) + data[place + 1:]


def bits(text):
    """Other bytes behind the header."""
    return lambda data: data[:HEADER] + bytes.fromhex(text)


SMALL_DAMAGES = [
    *(("of one object", damage, flaw) for damage, flaw in [
        (cut(0), "header period 0 place 0: short"),
        (cut(71), "header period 0 place 11: short"),
        (byte(7, 0x34), "header period 0 place 0: magic"),
        (byte(12, 25), "header period 0 place 2: field"),
        (byte(20, 2), "end period 0 place 0: pad"),
        (byte(28, 1), "rules period 0 place 0: short"),
        (bits("00"), "objects period 0 place 0: large"),
        (bits("40"), "objects period 0 place 0: large"),
        (bits("20"), "objects period 0 place 0: short"),
        (bits(""), "objects period 0 place 0: short"),
        (bits("60feffffffffffffffffff07"), "objects period 0 place 0: large"),
        (bits("6008000000d041"), "objects period 0 place 0: field"),
        (bits("044a6110"), "alphabet period 0 place 1: code"),
        (bits("04da01"), "starts period 0 place 0: offset"),
        (bits("04da00"), None),
        (bits("04fa08"), "log period 0 place 0: offgrid"),
        (bits("043a"), "anchors period 0 place 0: short"),
        (bits("043a18"), "end period 0 place 0: pad"),
        (bits("043a0800"), "end period 0 place 0: extra"),
    ]),
    *(("of two objects", damage, flaw) for damage, flaw in [
        (bits("045254a44ae0b240600c"), "layers period 0 place 0: field"),
        (bits("04528a56095c16088c01"), "rules period 0 place 0: rule"),
        (bits("04528a540d5c16088c01"), "rules period 0 place 1: rule"),
        (bits("04528a5409acb240600c"), "log period 1 place 1: duration"),
        (bits("04528a54095c1608080c"), "gaps period 1 place 1: offset"),
        (bits("04528a54095c16088d01"), "log period 0 place 3: duration"),
        (bits("04528a54095c16088c"), "anchors period 1 place 1: short"),
    ]),
]
