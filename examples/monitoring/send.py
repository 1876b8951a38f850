#!/usr/bin/env python3
"""Writes the files of the monitoring job: three machines, each with 500 readings, in the layout of its own
memory. The folder to write to may be named; else it is this one."""
import os
import sys

HERE = os.path.dirname(os.path.abspath(__file__))
sys.path.insert(0, os.path.join(HERE, "..", "..", "senders", "python"))
import ndr  # noqa: E402  the sender stands in the folder above

READING = [("reading", [("id", "unsigned integer", 4), ("name", "string", 0),
                        ("n", "integer", 4), ("v", "integer[n]", 2)])]


def reading(i: int) -> dict:
    return {"id": i, "name": b"bad" if i % 2 else b"ok", "n": i % 3,
            "v": [k + 1 for k in range(i % 3)]}


def main(folder: str) -> None:
    for name, profile in (("a", "le32"), ("b", "be32"), ("c", "le64")):
        with ndr.Writer(os.path.join(folder, name + ".ndr")) as out:
            number = out.add_format(ndr.lay_out(profile, READING))
            for i in range(500):
                out.write(number, reading(i))


if __name__ == "__main__":
    main(sys.argv[1] if len(sys.argv) > 1 else HERE)
