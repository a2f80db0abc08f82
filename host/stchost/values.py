"""Values of the language: as `stc` shows and takes them, as whole numbers, and as they lie in coils and registers of Modbus."""
import re
import struct
from .plant import BITS, Place

SIGNED = {"SINT": 8, "INT": 16, "DINT": 32, "LINT": 64, "TIME": 64}
BITS_OF = {"BOOL": 1, "USINT": 8, "UINT": 16, "UDINT": 32, "ULINT": 64, "BYTE": 8, "WORD": 16, "DWORD": 32, "LWORD": 64} | SIGNED
NUMBER = re.compile(r"T#(?P<TIME>-?\d+)ms|16#(?P<hex>[\dA-F]+)|(?P<plain>-?\d+)", re.I)
LETTERS = {"INT16": "h", "UINT16": "H", "INT32": "i", "UINT32": "I"}  # of forms, as `struct` has them
ORDERS = {"big": (">", 1), "little": ("<", -1)}  # of bytes, as `struct` has it, and the step from word to word

def range_of(bits: int, signed: bool) -> range:
    return range(-(1 << (bits - 1)), 1 << (bits - 1)) if signed else range(1 << bits)

def fits(kind: str, number: int) -> bool:
    """Whether a type has a number; TIME has milliseconds."""
    return number in range_of(BITS_OF[kind], kind in SIGNED)

def to_text(kind: str, number: int) -> str:
    """A number as a value that a session line takes."""
    return str(bool(number)).upper() if kind == "BOOL" else f"T#{number}ms" if kind == "TIME" else str(number)

def to_number(kind: str, text: str) -> int:
    """The number of a value as `stc` shows it. ValueError where it is none of the type."""
    if kind == "BOOL":
        text = {"TRUE": "1", "FALSE": "0"}.get(text.upper(), text)
    match = NUMBER.fullmatch(text)
    number = int(match[match.lastgroup or 0], 16 if match["hex"] else 10) if match else -1
    if match is None or (kind == "TIME") is not (match["TIME"] is not None) or not fits(kind, number):
        raise ValueError(f"{text} is no {kind}")
    return number

def _letter(place: Place, kind: str) -> str:
    """The form of a variable in registers: the file's, or the one that its type has."""
    return LETTERS[place.form or ("INT" if kind in SIGNED else "UINT") + ("16" if BITS_OF[kind] <= 16 else "32")]

def size_of(place: Place, kind: str) -> int:
    """How many coils or registers it takes."""
    return 1 if place.table in BITS else struct.calcsize(">" + _letter(place, kind)) // 2

def pack(place: Place, kind: str, number: int) -> list[int]:
    """The coil or registers of a number. One that the form doesn't have is held at the form's end."""
    if place.table in BITS:
        return [int(number != 0)]
    letter, size = _letter(place, kind), size_of(place, kind)
    has = range_of(16 * size, letter.islower())
    data = struct.pack(">" + letter, min(has[-1], max(has[0], number)))
    return list(struct.unpack(f"{ORDERS[place.bytes][0]}{size}H", data))[::ORDERS[place.words][1]]

def unpack(place: Place, kind: str, words: list[int]) -> int:
    """The number in a coil or in registers."""
    if place.table in BITS:
        return int(bool(words[0]))
    data = struct.pack(f"{ORDERS[place.bytes][0]}{len(words)}H", *words[::ORDERS[place.words][1]])
    return int(struct.unpack(">" + _letter(place, kind), data)[0])
