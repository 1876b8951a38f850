"""Holds ndr.py to the conformance cases: what `show` writes, and the first fault of each file."""
import json
import os
import re
import sys

TOP = os.path.dirname(os.path.dirname(os.path.dirname(os.path.abspath(__file__))))
sys.path.insert(0, os.path.join(TOP, "senders", "python"))
import ndr  # noqa: E402

FAULT = re.compile(r'stones: data ("(?:[^"\\]|\\.)*") at ([0-9]+) (.*)\n')


def file_bytes(content) -> bytes:
    return bytes.fromhex(content["hex"]) if isinstance(content, dict) else content.encode("latin-1")


def show_answer(name: str, data: bytes) -> str:
    """What the program writes for `show` of a file of at most 16 MiB."""
    try:
        return ndr.shown(data)
    except ndr.Fault as fault:
        return f"stones: data {ndr.quoted(name.encode())} {fault}\n"


def known_formats(case: dict) -> tuple:
    """The formats of the case's job, and its limit; none and the greatest for `show`."""
    if case["words"][0] == "show":
        return (), ndr.LONGEST_RECORD
    job = json.loads(file_bytes(case["files"][case["words"][1]]))
    formats = [ndr.lay_out(f["profile"], [(t["name"], t["fields"]) for t in f["types"]])
               for f in job["formats"]]
    return tuple(formats), job.get("limit", 4096)


def first_fault(data: bytes, known: tuple, limit: int) -> tuple:
    try:
        ndr.read_file(data, known, limit)
    except ndr.Fault as fault:
        return fault.at, fault.cause
    return None, None


def checked(case: dict) -> tuple:
    """What is wanted of a case and what ndr.py gives; two equal values where it says nothing."""
    found = FAULT.fullmatch(case["output"])
    if case["words"][:1] == ["show"] and len(case["words"]) == 2 and case["status"] in (0, 7):
        name = case["words"][1]
        return case["output"], show_answer(name, file_bytes(case["files"][name]))
    if found and found[3] != "order":
        named = {ndr.quoted(name.encode()): content for name, content in case["files"].items()}
        if found[1] in named:
            known, limit = known_formats(case)
            wanted = (int(found[2]), found[3])
            return wanted, first_fault(file_bytes(named[found[1]]), known, limit)
    return None, None


def main() -> int:
    tried = wrong = 0
    with open(os.path.join(TOP, "conformance", "cases.jsonl"), encoding="utf-8") as cases:
        for line in cases:
            case = json.loads(line)
            wanted, given = checked(case)
            tried += wanted is not None
            if wanted != given:
                wrong += 1
                print(f"{case['name']}: wanted {wanted!r}, given {given!r}")
    print(f"ndr.py: {tried} conformance cases, {wrong} wrong")
    return 1 if wrong or not tried else 0


if __name__ == "__main__":
    sys.exit(main())
