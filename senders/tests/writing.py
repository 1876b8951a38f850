"""Holds the Python writer to the reader, to the C example's files, and to the profiles.

    python3 writing.py FOLDER OUT      FOLDER has the files that the C example wrote, OUT gets some by Python
"""
import ctypes
import io
import os
import sys

sys.path.insert(0, os.path.join(os.path.dirname(os.path.abspath(__file__)), "..", "python"))
import ndr  # noqa: E402


class Item(ctypes.Structure):
    _fields_ = [("id", ctypes.c_uint32), ("label", ctypes.c_char_p), ("qty", ctypes.c_int16)]


class Sensor(ctypes.Structure):
    _fields_ = [("id", ctypes.c_uint32), ("name", ctypes.c_char_p), ("n", ctypes.c_int32),
                ("v", ctypes.POINTER(ctypes.c_int16))]
    _counts_ = {"v": "n"}


class Order(ctypes.Structure):
    _fields_ = [("customer", ctypes.c_char_p), ("n", ctypes.c_uint16),
                ("items", ctypes.POINTER(Item)), ("total", ctypes.c_int64)]
    _counts_ = {"items": "n"}


class Row(ctypes.Structure):
    _fields_ = [("index", ctypes.c_uint32), ("cells", ctypes.c_int32 * 4)]


for _kind, _name in ((Item, "item"), (Sensor, "sensor"), (Order, "order"), (Row, "row")):
    _kind.__name__ = _name

# The records of senders/c/example.c.
RECORDS = {
    "sensor": (Sensor, [{"id": 7, "name": b"north", "n": 3, "v": [21, -4, 300]},
                        {"id": 8, "name": None, "n": 0, "v": []},
                        {"id": 9, "name": b"", "n": 1, "v": [21]}]),
    "order": (Order, [{"customer": b"Ada Lovelace", "n": 2, "total": 4200000000,
                       "items": [{"id": 1, "label": b"bolt", "qty": 12},
                                 {"id": 2, "label": None, "qty": -1}]},
                      {"customer": None, "n": 0, "items": [], "total": -1}]),
    "row": (Row, [{"index": 0, "cells": [1, 2, 3, 4]}, {"index": 1, "cells": [-1, -2, -3, -4]}]),
}

# Refused values of {n unsigned integer 1, v integer[n] 1, s string}: the value, and the words.
REFUSED = [
    ({"n": 256, "v": [], "s": None}, "unfit n"),
    ({"n": 1, "v": [], "s": None}, "unfit v"),
    ({"n": 1, "v": [128], "s": None}, "unfit v[0]"),
    ({"n": 0, "v": [], "s": b"a\0b"}, "unfit s"),
    ({"n": 0, "v": []}, "no value of s"),
]


def written(fmt: ndr.Format, values: list) -> bytes:
    out = io.BytesIO()
    out.close = lambda: None
    with ndr.Writer(out) as writer:
        number = writer.add_format(fmt)
        for value in values:
            writer.write(number, value)
    return out.getvalue()


def expect(what: str, wanted, given):
    if wanted != given:
        print(f"{what}: wanted {wanted!r}, given {given!r}")
        sys.exit(1)


def keep(out: str, name: str, data: bytes):
    with open(os.path.join(out, name + ".ndr"), "wb") as file:
        file.write(data)


def same_as_c(folder: str):
    """What Python writes from values is what C writes from memory, byte for byte."""
    for name, (kind, values) in RECORDS.items():
        with open(os.path.join(folder, name + ".ndr"), "rb") as file:
            of_c = file.read()
        expect(f"{name} by C", ([0] * len(values), values),
               tuple(list(part) for part in zip(*ndr.read_file(of_c)[1])))
        expect(f"{name} by Python", of_c, written(ndr.format_of(kind), values))


def by_profiles(out: str):
    """Each profile's file is read back as it was written, whatever this machine is."""
    types = [("item", [("id", "unsigned integer", 4), ("label", "string"), ("qty", "integer", 2)]),
             ("order", [("customer", "string"), ("n", "unsigned integer", 2),
                        ("items", "item[n]"), ("total", "integer", 8)])]
    for profile in ndr.PROFILES:
        values = RECORDS["order"][1]
        data = written(ndr.lay_out(profile, types), values)
        expect(profile, [(0, value) for value in values], ndr.read_file(data)[1])
        keep(out, profile, data)


def refusals():
    fmt = ndr.lay_out("be32", [("t", [("n", "unsigned integer", 1), ("v", "integer[n]", 1),
                                      ("s", "string")])])
    for value, words in REFUSED:
        try:
            ndr.pack(fmt, value)
        except ndr.Fault as fault:
            expect(repr(value), words, fault.cause)
        else:
            expect(repr(value), words, "nothing")


def not_ended():
    """A file whose writing was broken off has no end."""
    out = io.BytesIO()
    out.close = lambda: None
    try:
        with ndr.Writer(out) as writer:
            writer.add_format(ndr.format_of(Row))
            raise KeyError
    except KeyError:
        pass
    try:
        ndr.read_file(out.getvalue())
    except ndr.Fault as fault:
        expect("a file that wasn't ended", ("short", len(out.getvalue())), (fault.cause, fault.at))
    else:
        expect("a file that wasn't ended", "short", "nothing")


if __name__ == "__main__":
    same_as_c(sys.argv[1])
    by_profiles(sys.argv[2])
    refusals()
    not_ended()
    print("ndr.py: writing ok")
