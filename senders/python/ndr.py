"""Record files in the sender's own memory layout: formats, writing from values, reading into values.

Python 3.9 or later and the standard library alone; NumPy is used for structured arrays where it is
there. docs/FORMATS.md has the byte formats, and the words of each fault. A value is an int, None or
bytes (a string), a list (an array), or a dict from names to values (a record).

    fmt = ndr.lay_out("le64", [("p", [("x", "integer", 4)])])
    with ndr.Writer("a.ndr") as out:
        kind = out.add_format(fmt)
        out.write(kind, {"x": 7})
    formats, records = ndr.read_file(open("a.ndr", "rb").read())

Run as a program, `ndr.py FILE` writes a file's formats and records as `stones show FILE` does.
"""
import ctypes
import hashlib
import re
import struct
import sys
from dataclasses import dataclass
from typing import Optional, Union

WORDS = ("integer", "unsigned integer", "char", "boolean", "enumeration", "string", "float")
RESERVED = ("integer", "unsigned", "char", "boolean", "enumeration", "string", "float")
SIGNED = ("integer", "enumeration")
PROFILES = {"le64": ("little", 8, 8), "le32": ("little", 4, 4),
            "be64": ("big", 8, 8), "be32": ("big", 4, 8)}
LIMITS = {"types": 64, "fields": 1024, "all fields": 4096, "nesting": 16, "length": 65536}
MOST_RECORDS, MOST_FORMATS, LONGEST_RECORD = 131072, 1024, 262144
LARGEST_FILE = 16 * 1024 * 1024

_NAME = re.compile(r"[A-Za-z_][A-Za-z0-9_]{0,63}\Z")
_TYPE_TEXT = re.compile(r"(unsigned integer|[A-Za-z_][A-Za-z0-9_]{0,63})"
                        r"(?:\[(?:([1-9][0-9]{0,4})|([A-Za-z_][A-Za-z0-9_]{0,63}))\])?\Z")


class Fault(ValueError):
    """Why bytes or values were refused: `cause` in the program's words, `at` an offset or None."""

    def __init__(self, cause: str, at: Optional[int] = None):
        super().__init__(cause if at is None else f"at {at} {cause}")
        self.cause, self.at = cause, at


# Formats


@dataclass(frozen=True)
class Field:
    """A field: `word` is a type word or a type's name, `nested` that type's number or None,
    `array` None, a number of elements, or the name of the field that counts them."""
    name: str
    word: str
    nested: Optional[int]
    array: Union[None, int, str]
    size: int
    offset: int
    default: int = 0

    @property
    def type_text(self) -> str:
        return self.word if self.array is None else f"{self.word}[{self.array}]"

    @property
    def is_number(self) -> bool:
        return self.nested is None and self.word != "string"

    def extent(self, pointer: int) -> int:
        """Bytes that the field takes inside its record."""
        if self.array is None:
            return self.size
        return self.array * self.size if isinstance(self.array, int) else pointer


@dataclass(frozen=True)
class RecordType:
    name: str
    length: int
    fields: tuple


@dataclass(frozen=True)
class Format:
    """How a machine lays out the records of one kind; the last type is the record."""
    order: str
    pointer: int
    types: tuple

    def description(self) -> bytes:
        """The one description of the format."""
        plain = all(f.default == 0 for t in self.types for f in t.fields)
        out = [b"NDF1" if plain else b"NDF2", bytes([self.order == "big", self.pointer]),
               struct.pack(">H", len(self.types))]
        for t in self.types:
            out += [_short_text(t.name), struct.pack(">IH", t.length, len(t.fields))]
            for f in t.fields:
                out += [_short_text(f.name), _short_text(f.type_text),
                        struct.pack(">II", f.size, f.offset)]
                if not plain:
                    out.append(f.default.to_bytes(16, "big", signed=True))
        return b"".join(out)

    def identifier(self) -> bytes:
        """The SHA-256 of the description: 32 bytes."""
        return hashlib.sha256(self.description()).digest()


def _short_text(text: str) -> bytes:
    return bytes([len(text)]) + text.encode("ascii")


def number_range(word: str, size: int) -> tuple:
    """The least and the greatest number of a type word and a size in bytes."""
    if word == "boolean":
        return 0, 1
    if word in SIGNED:
        return -(1 << (8 * size - 1)), (1 << (8 * size - 1)) - 1
    return 0, (1 << (8 * size)) - 1


class _Types:
    """The types of a format so far, and the tests that descriptions and declarations share."""

    def __init__(self, pointer: int, count: int):
        self.pointer, self.types, self.depths, self.all_fields = pointer, [], [], 0
        self._limit("types", count)

    def _limit(self, which: str, n: int, also: bool = True):
        if n > LIMITS[which] or (also and n == 0):
            raise Fault(f"limit {which}: {n}")

    def begin(self, name: str):
        if not _NAME.match(name) or name in RESERVED:
            raise Fault(f"bad name, type {len(self.types)}")
        if any(t.name == name for t in self.types):
            raise Fault(f"type twice, type {len(self.types)}")
        self.name, self.fields = name, []

    def count(self, n: int):
        self._limit("fields", n)
        self.all_fields += n
        self._limit("all fields", self.all_fields, also=False)

    def refuse(self, cause: str):
        raise Fault(f"{cause}, type {len(self.types)} field {len(self.fields)}")

    def field_name(self, name: str):
        if not _NAME.match(name):
            self.refuse("bad name")
        if any(f.name == name for f in self.fields):
            self.refuse("field twice")

    def type_text(self, text: str) -> tuple:
        """The word, the nested type's number and the array of a type text."""
        found = _TYPE_TEXT.match(text) if text.isascii() else None
        word = found and found[1]
        elements = int(found[2]) if found and found[2] else None
        if not found or word == "unsigned" or (elements and elements > 65536):
            self.refuse("type text")
        if word == "float":
            self.refuse("float")
        nested = None
        if word not in WORDS:
            nested = next((k for k, t in enumerate(self.types) if t.name == word), None)
            if nested is None:
                self.refuse("unknown type")
        return word, nested, elements if elements else found[3]

    def size_of(self, word: str, nested: Optional[int]) -> tuple:
        """The sizes that are allowed."""
        if nested is not None:
            return (self.types[nested].length,)
        return {"string": (self.pointer,), "char": (1,)}.get(word, (1, 2, 4, 8))

    def size(self, word: str, nested: Optional[int], size: int):
        if size not in self.size_of(word, nested):
            self.refuse("size")

    def default(self, f: Field):
        if f.default == 0:
            return
        low, high = number_range(f.word, f.size) if f.is_number else (0, 0)
        if f.array is not None or not low <= f.default <= high:
            self.refuse("default")

    def counts(self):
        """The tests at a type's end: counts, their defaults, the nesting."""
        here, counted = len(self.types), [f.array for f in self.fields if isinstance(f.array, str)]
        single = {f.name for f in self.fields
                  if f.array is None and f.word in ("integer", "unsigned integer")}
        for k, f in enumerate(self.fields):
            if isinstance(f.array, str) and f.array not in single:
                raise Fault(f"count field, type {here} field {k}")
        for k, f in enumerate(self.fields):
            if f.default and f.name in counted:
                raise Fault(f"count default, type {here} field {k}")
        depth = 1 + max((self.depths[f.nested] for f in self.fields if f.nested is not None),
                        default=0)
        self._limit("nesting", depth)
        self.depths.append(depth)

    def overlap(self):
        spans = sorted((f.offset, f.offset + f.extent(self.pointer), k)
                       for k, f in enumerate(self.fields))
        if all(a[1] <= b[0] for a, b in zip(spans, spans[1:])):
            return
        pairs = ((f, g) for _, _, f in sorted(spans, key=lambda s: s[2])
                 for g in range(f + 1, len(self.fields)))
        for f, g in pairs:
            a, b = self.fields[f], self.fields[g]
            if (a.offset < b.offset + b.extent(self.pointer)
                    and b.offset < a.offset + a.extent(self.pointer)):
                raise Fault(f"overlap, type {len(self.types)} fields {f} and {g}")

    def end(self, length: int):
        self.types.append(RecordType(self.name, length, tuple(self.fields)))


class _Cursor:
    """Bytes read from left to right; a part that is cut is a fault at its first byte."""

    def __init__(self, data: bytes):
        self.data, self.at = data, 0

    def take(self, size: int) -> bytes:
        if len(self.data) - self.at < size:
            raise Fault(f"short at {self.at}")
        self.at += size
        return self.data[self.at - size:self.at]

    def number(self, size: int) -> int:
        return int.from_bytes(self.take(size), "big")

    def text(self) -> str:
        size = self.data[self.at] if self.at < len(self.data) else 0
        return self.take(1 + size)[1:].decode("latin-1")


def read_description(data: bytes) -> Format:
    """The format that a description states, or its first fault from left to right."""
    part = _Cursor(data)
    magic = part.take(4)
    if magic not in (b"NDF1", b"NDF2"):
        raise Fault("magic")
    order = part.number(1)
    if order > 1:
        raise Fault("byte order")
    pointer = part.number(1)
    if pointer not in (4, 8):
        raise Fault("pointer size")
    count = part.number(2)
    so_far = _Types(pointer, count)
    for _ in range(count):
        _read_type(part, so_far, magic == b"NDF2")
    if magic == b"NDF2" and all(f.default == 0 for t in so_far.types for f in t.fields):
        raise Fault("plain")
    if part.at < len(data):
        raise Fault(f"trailing at {part.at}")
    return Format("big" if order else "little", pointer, tuple(so_far.types))


def _read_type(part: _Cursor, so_far: _Types, stated: bool):
    so_far.begin(part.text())
    length = part.number(4)
    so_far._limit("length", length)
    count = part.number(2)
    so_far.count(count)
    for _ in range(count):
        name = part.text()
        so_far.field_name(name)
        word, nested, array = so_far.type_text(part.text())
        size = part.number(4)
        so_far.size(word, nested, size)
        f = Field(name, word, nested, array, size, part.number(4))
        if f.offset + f.extent(so_far.pointer) > length:
            so_far.refuse("outside")
        if stated:
            default = int.from_bytes(part.take(16), "big", signed=True)
            f = Field(name, word, nested, array, size, f.offset, default)
            so_far.default(f)
        so_far.fields.append(f)
    so_far.counts()
    so_far.overlap()
    so_far.end(length)


def lay_out(profile: str, types: list) -> Format:
    """Declared types as C lays them out on a profile's machine. A type is (name, fields), a field
    (name, type text, size, default); size and default may be left out where they are 0."""
    order, pointer, greatest = PROFILES[profile]
    so_far, aligns = _Types(pointer, len(types)), []
    for name, fields in types:
        so_far.begin(name)
        so_far.count(len(fields))
        for declared in fields:
            field_name, text, size, default = (*declared, 0, 0)[:4]
            so_far.field_name(field_name)
            word, nested, array = so_far.type_text(text)
            if word == "string" or nested is not None:
                size = so_far.size_of(word, nested)[0]
            so_far.size(word, nested, size)
            f = Field(field_name, word, nested, array, size, 0, default)
            so_far.default(f)
            so_far.fields.append(f)
        so_far.counts()
        end, align = _place(so_far.fields, pointer, greatest, aligns)
        if end > LIMITS["length"]:
            raise Fault(f"limit length: {min(end, 2 ** 32 - 1)}")
        aligns.append(align)
        so_far.end(end)
    return Format(order, pointer, tuple(so_far.types))


def _place(fields: list, pointer: int, greatest: int, aligns: list) -> tuple:
    """Gives each field its offset; the length and the alignment of their type."""
    end, widest = 0, 1
    for k, f in enumerate(fields):
        if isinstance(f.array, str) or f.word == "string":
            align = min(pointer, greatest)
        else:
            align = min(f.size, greatest) if f.nested is None else aligns[f.nested]
        offset = -(-end // align) * align
        fields[k] = Field(f.name, f.word, f.nested, f.array, f.size, offset, f.default)
        end, widest = offset + f.extent(pointer), max(widest, align)
    return -(-end // widest) * widest, widest


# Records


def value_text(value) -> str:
    """A value as the program prints it."""
    if value is None:
        return "null"
    if isinstance(value, bytes):
        return quoted(value)
    if isinstance(value, list):
        return "[" + ",".join(map(value_text, value)) + "]"
    if isinstance(value, dict):
        return "{" + ",".join(f"{k}={value_text(v)}" for k, v in value.items()) + "}"
    return str(value)


def quoted(text: bytes) -> str:
    """Bytes in double quotes: 0x20 to 0x7e as they are, but `\\"` and `\\\\`; others as `\\x..`."""
    out = "".join("\\" + chr(b) if b in b'"\\' else chr(b) if 0x20 <= b <= 0x7e else f"\\x{b:02x}"
                  for b in text)
    return f'"{out}"'


class _View:
    """The walk of a record's bytes, with the mark behind which the next block may begin."""

    def __init__(self, fmt: Format, data: bytes):
        self.fmt, self.data, self.mark = fmt, data, fmt.types[-1].length
        if len(data) < self.mark:
            raise Fault("short record")

    def number(self, word: str, size: int, at: int) -> int:
        n = int.from_bytes(self.data[at:at + size], self.fmt.order, signed=word in SIGNED)
        return int(n != 0) if word == "boolean" else n

    def pointer(self, at: int) -> int:
        return int.from_bytes(self.data[at:at + self.fmt.pointer], self.fmt.order)

    def record(self, t: RecordType, at: int, path: str) -> dict:
        value = {}
        for f in t.fields:
            value[f.name] = self.field(t, f, at, f"{path}.{f.name}" if path else f.name)
        return value

    def field(self, t: RecordType, f: Field, at: int, path: str):
        if f.array is None:
            return self.part(f, at + f.offset, path)
        first, count = at + f.offset, f.array
        if isinstance(f.array, str):
            counter = next(c for c in t.fields if c.name == f.array)
            count = self.number(counter.word, counter.size, at + counter.offset)
            first = self.block(f, count, at + f.offset, path)
        return [self.part(f, first + k * f.size, f"{path}[{k}]") for k in range(count)]

    def block(self, f: Field, count: int, at: int, path: str) -> int:
        """Where a counted array's elements begin; the mark goes behind them."""
        if count < 0:
            raise Fault(f"negative count {path}")
        if count == 0:
            return 0
        first = self.pointer(at)
        if first == 0:
            raise Fault(f"null list {path}")
        if first < self.mark or first + count * f.size > len(self.data):
            raise Fault(f"block place {path}")
        self.mark = first + count * f.size
        return first

    def part(self, f: Field, at: int, path: str):
        if f.nested is not None:
            return self.record(self.fmt.types[f.nested], at, path)
        return self.text(at, path) if f.word == "string" else self.number(f.word, f.size, at)

    def text(self, at: int, path: str):
        first = self.pointer(at)
        if first == 0:
            return None
        if first < self.mark or first >= len(self.data):
            raise Fault(f"block place {path}")
        end = self.data.find(b"\0", first)
        if end < 0:
            raise Fault(f"no end {path}")
        self.mark = end + 1
        return self.data[first:end]


def view(fmt: Format, data: bytes) -> dict:
    """The value of a record's bytes, or the first fault of the walk with its path."""
    walk = _View(fmt, data)
    return walk.record(fmt.types[-1], 0, "")


class _Pack:
    def __init__(self, fmt: Format):
        self.fmt, self.out = fmt, bytearray(fmt.types[-1].length)

    def grow(self, size: int) -> int:
        """A new block of zeros at the next multiple of 8."""
        first = -(-len(self.out) // 8) * 8
        self.out.extend(bytes(first + size - len(self.out)))
        return first

    def put(self, at: int, size: int, n: int):
        self.out[at:at + size] = (n % (1 << (8 * size))).to_bytes(size, self.fmt.order)

    def record(self, t: RecordType, value: dict, at: int, path: str):
        for f in t.fields:
            here = f"{path}.{f.name}" if path else f.name
            if f.name not in value:
                raise Fault(f"no value of {here}")
            self.field(f, value, value[f.name], at + f.offset, here)

    def field(self, f: Field, record: dict, value, at: int, path: str):
        if f.array is None:
            return self.part(f, value, at, path)
        wanted = record.get(f.array) if isinstance(f.array, str) else f.array
        if len(value) != wanted:
            raise Fault(f"unfit {path}")
        if isinstance(f.array, str):
            first = self.grow(len(value) * f.size) if value else 0
            self.put(at, self.fmt.pointer, first)
            at = first
        for k, element in enumerate(value):
            self.part(f, element, at + k * f.size, f"{path}[{k}]")

    def part(self, f: Field, value, at: int, path: str):
        if f.nested is not None:
            return self.record(self.fmt.types[f.nested], value, at, path)
        if f.word == "string":
            return self.text(value, at, path)
        low, high = number_range(f.word, f.size)
        if not low <= value <= high:
            raise Fault(f"unfit {path}")
        self.put(at, f.size, int(value))

    def text(self, value, at: int, path: str):
        if value is None:
            return
        data = value.encode() if isinstance(value, str) else bytes(value)
        if 0 in data:
            raise Fault(f"unfit {path}")
        first = self.grow(len(data) + 1)
        self.out[first:first + len(data)] = data
        self.put(at, self.fmt.pointer, first)


def pack(fmt: Format, value: dict) -> bytes:
    """The packed record of a value: zero padding, each block at the next multiple of 8. Strings may
    be given as str, which are written as UTF-8. `unfit PATH` where a number is out of its range,
    a list hasn't its count's length, or a string has a zero byte."""
    packing = _Pack(fmt)
    packing.record(fmt.types[-1], value, 0, "")
    return bytes(packing.out)


# Record files


class Writer:
    """Writes a record file: formats, records, the end. As a context it writes the end only where
    nothing was raised, so a file that wasn't ended is told from a whole one."""

    def __init__(self, path, limit: int = LONGEST_RECORD):
        self.file = open(path, "wb") if isinstance(path, str) else path
        self.limit, self.formats, self.records, self.size = limit, [], 0, 0
        self._put(b"NDR1")

    def __enter__(self):
        return self

    def __exit__(self, kind, _value, _trace):
        if kind is None and self.file is not None:
            self.end()
        elif self.file is not None:
            self.file.close()
            self.file = None

    def _put(self, data: bytes):
        if self.file is None:
            raise Fault("closed")
        if self.size + len(data) > LARGEST_FILE - 1:
            raise Fault("too long")
        self.file.write(data)
        self.size += len(data)

    def add_format(self, fmt: Format, by_identifier: bool = False) -> int:
        """Writes the format, or its identifier alone for receivers that know it; its number."""
        if len(self.formats) == MOST_FORMATS:
            raise Fault("formats")
        description = fmt.description()
        self._put(b"I" + fmt.identifier() if by_identifier
                  else b"F" + struct.pack(">I", len(description)) + description)
        self.formats.append(fmt)
        return len(self.formats) - 1

    def write(self, number: int, value: dict):
        self.write_bytes(number, pack(self.formats[number], value))

    def write_bytes(self, number: int, record: bytes):
        """Writes a record that is bytes already; its view is the caller's care."""
        if len(record) > self.limit:
            raise Fault("too large")
        if self.records == MOST_RECORDS:
            raise Fault("records")
        self._put(b"R" + struct.pack(">HI", number, len(record)) + record)
        self.records += 1

    def write_array(self, number: int, array):
        """Writes each record of a NumPy structured array whose dtype is the format's
        (`format_of_dtype`), without a loop."""
        import numpy
        head = [("letter", "S1"), ("number", ">u2"), ("length", ">u4")]
        size = array.dtype.itemsize
        if size > self.limit:
            raise Fault("too large")
        if self.records + array.size > MOST_RECORDS:
            raise Fault("records")
        frames = numpy.empty(array.size, head + [("record", f"V{size}")])
        frames["letter"], frames["number"], frames["length"] = b"R", number, size
        flat = numpy.ascontiguousarray(array).reshape(-1)
        frames["record"] = flat.view(f"V{size}")
        self._put(frames.tobytes())
        self.records += array.size

    def end(self):
        """Writes the end and closes the file."""
        if self.file is None:
            raise Fault("closed")
        self.file.write(b"E")
        self.file.close()
        self.file = None


def read_file(data: bytes, known: tuple = (), limit: int = LONGEST_RECORD) -> tuple:
    """The formats of a record file and its records, each a format's number and a value; or its
    first fault with the offset of the frame. `known` are formats that go by identifier."""
    if data[:4] != b"NDR1":
        raise Fault("magic", 0)
    by_identifier = {f.identifier(): f for f in reversed(known)}
    at, formats, records = 4, [], []
    while True:
        letter = data[at:at + 1]
        if letter == b"E":
            if at + 1 < len(data):
                raise Fault("trailing", at + 1)
            return formats, records
        if letter in (b"F", b"I"):
            at = _read_format(data, at, letter, formats, by_identifier)
        elif letter == b"R":
            at = _read_record(data, at, formats, records, limit)
        else:
            raise Fault("frame kind" if letter else "short", at)


def _read_format(data: bytes, at: int, letter: bytes, formats: list, known: dict) -> int:
    head = 5 if letter == b"F" else 33
    if len(data) < at + head:
        raise Fault("short", at)
    if len(formats) == MOST_FORMATS:
        raise Fault("formats", at)
    if letter == b"I":
        if data[at + 1:at + 33] not in known:
            raise Fault("unknown id", at)
        formats.append(known[data[at + 1:at + 33]])
        return at + 33
    end = at + 5 + int.from_bytes(data[at + 1:at + 5], "big")
    if end > len(data):
        raise Fault("short", at)
    try:
        formats.append(read_description(data[at + 5:end]))
    except Fault as fault:
        raise Fault(f"layout {fault.cause}", at) from None
    return end


def _read_record(data: bytes, at: int, formats: list, records: list, limit: int) -> int:
    if len(data) < at + 7:
        raise Fault("short", at)
    number, size = struct.unpack(">HI", data[at + 1:at + 7])
    if len(records) == MOST_RECORDS:
        raise Fault("records", at)
    if number >= len(formats):
        raise Fault("format number", at)
    if size > limit:
        raise Fault("too large", at)
    if at + 7 + size > len(data):
        raise Fault("short", at)
    try:
        records.append((number, view(formats[number], data[at + 7:at + 7 + size])))
    except Fault as fault:
        raise Fault(f"broken {fault.cause}", at) from None
    return at + 7 + size


# Formats of ctypes structures and NumPy arrays

_SIGNED_C = (ctypes.c_byte, ctypes.c_short, ctypes.c_int, ctypes.c_long, ctypes.c_longlong)
_UNSIGNED_C = (ctypes.c_ubyte, ctypes.c_ushort, ctypes.c_uint, ctypes.c_ulong, ctypes.c_ulonglong)


def format_of(structure) -> Format:
    """The format of a ctypes.Structure class, as it lies in this machine's memory. `char *` is
    `c_char_p`. `_counts_ = {"v": "n"}` names the count of a pointer to elements, and
    `_enumerations_ = ("kind",)` the numbers that are enumerations."""
    found, names = [], {}
    _add_structure(structure, found, names)
    big = sys.byteorder == "big"
    if issubclass(structure, (ctypes.BigEndianStructure, ctypes.LittleEndianStructure)):
        swapped = hasattr(structure, "_swappedbytes_")
        big = big != swapped
    made = Format("big" if big else "little", ctypes.sizeof(ctypes.c_void_p), tuple(found))
    return read_description(made.description())


def _add_structure(structure, found: list, names: dict):
    fields = []
    counts = getattr(structure, "_counts_", {})
    enumerations = getattr(structure, "_enumerations_", ())
    for name, kind, *bits in structure._fields_:
        if bits:
            raise Fault(f"bit field {structure.__name__}.{name}")
        array = None
        if name in counts:
            kind, array = kind._type_, counts[name]
        elif issubclass(kind, ctypes.Array):
            kind, array = kind._type_, kind._length_
        if issubclass(kind, ctypes.Structure) and kind not in names:
            _add_structure(kind, found, names)
        word = names[kind] if kind in names else _c_word(kind, name in enumerations)
        nested = next((k for k, t in enumerate(found) if t.name == word), None)
        fields.append(Field(name, word, nested, array, ctypes.sizeof(kind),
                            getattr(structure, name).offset))
    names[structure] = structure.__name__
    found.append(RecordType(structure.__name__, ctypes.sizeof(structure), tuple(fields)))


def _c_word(kind, is_enumeration: bool) -> str:
    native = getattr(kind, "__ctype_le__", kind) if sys.byteorder == "little" else \
        getattr(kind, "__ctype_be__", kind)
    for word, kinds in (("string", (ctypes.c_char_p,)), ("char", (ctypes.c_char,)),
                        ("boolean", (ctypes.c_bool,)), ("unsigned integer", _UNSIGNED_C),
                        ("integer", _SIGNED_C)):
        if native in kinds or kind in kinds:
            return "enumeration" if is_enumeration and word.endswith("integer") else word
    raise Fault(f"no type word for {kind.__name__}")


def format_of_dtype(dtype, name: str = "record") -> Format:
    """The format of a NumPy structured dtype of whole numbers, booleans and arrays of these."""
    orders = {"<": "little", ">": "big", "=": sys.byteorder}
    fields, order = [], None
    for field_name in dtype.names:
        kind, offset = dtype.fields[field_name][:2]
        base, shape = kind.subdtype or (kind, ())
        word = {"i": "integer", "u": "unsigned integer", "b": "boolean"}.get(base.kind)
        own = orders.get(base.byteorder)
        if word is None or len(shape) > 1 or (own and order and own != order):
            raise Fault(f"no type word for {field_name}")
        order = own or order
        fields.append(Field(field_name, word, None, shape[0] if shape else None,
                            base.itemsize, offset))
    made = RecordType(name, dtype.itemsize, tuple(fields))
    fmt = Format(order or sys.byteorder, ctypes.sizeof(ctypes.c_void_p), (made,))
    return read_description(fmt.description())


# The program


def shown(data: bytes) -> str:
    """What `stones show` writes of a file."""
    formats, records = read_file(data)
    lines = []
    for k, fmt in enumerate(formats):
        lines.append(f"format {k} {fmt.order} pointer {fmt.pointer} {fmt.identifier().hex()}")
        for t in fmt.types:
            lines.append(f"type {t.name} length {t.length}")
            lines += [f"field {f.name} {f.type_text} size {f.size} offset {f.offset}"
                      for f in t.fields]
    lines += [f"#{i} format {k} {value_text(v)}" for i, (k, v) in enumerate(records)]
    return "".join(line + "\n" for line in lines)


def main(words: list) -> int:
    if len(words) != 1:
        print("usage: ndr.py FILE", file=sys.stderr)
        return 1
    try:
        with open(words[0], "rb") as file:
            data = file.read(LARGEST_FILE + 1)
        if len(data) > LARGEST_FILE:
            raise Fault("too long")
        sys.stdout.write(shown(data))
    except Fault as fault:
        print(f"ndr: data {quoted(words[0].encode())} {fault}")
        return 7
    return 0


if __name__ == "__main__":
    sys.exit(main(sys.argv[1:]))
