"""Holds ndr.py to the built program, over the files that the senders wrote, those of examples/, and each file and job
of the conformance cases: `show` and `convert` give the same formats and values, or the same fault at the same place.

    python3 program.py FOLDER      FOLDER and the folders in it have the senders' files
"""
import glob
import json
import os
import subprocess
import sys
import tempfile

TOP = os.path.dirname(os.path.dirname(os.path.dirname(os.path.abspath(__file__))))
PROGRAM = os.path.join(TOP, "crates", "evp_stones", "out", "evp_stones")
sys.path.insert(0, os.path.join(TOP, "senders", "python"))
import ndr  # noqa: E402


class Comparison:
    """Runs the program over one file `f` and one job `j` at a time, and counts what differs."""

    def __init__(self, folder: str):
        self.folder, self.compared, self.wrong = folder, 0, 0

    def put(self, name: str, data: bytes):
        with open(os.path.join(self.folder, name), "wb") as out:
            out.write(data)

    def answer(self, *words) -> tuple:
        done = subprocess.run([PROGRAM, *words], cwd=self.folder, stdout=subprocess.PIPE)
        return done.returncode, done.stdout.decode("latin-1")

    def expect(self, what: str, wanted: tuple, given: tuple):
        self.compared += 1
        if wanted != given:
            self.wrong += 1
            print(f"{what}: ndr.py says {str(wanted)[:300]}, the program {str(given)[:300]}")

    def show(self, what: str, data: bytes):
        self.put("f", data)
        self.expect(f"show {what}", show_answer(data), self.answer("show", "f"))

    def convert_to_itself(self, what: str, data: bytes):
        """A file of one format, converted to the same fields as each profile lays them out."""
        formats, records = ndr.read_file(data)
        if len(formats) != 1:
            return
        self.put("f", data)
        self.put("j", json.dumps(job_of(formats[0])).encode())
        values = "".join(f"#{i} {ndr.value_text(value)}\n" for i, (_, value) in enumerate(records))
        for profile in ndr.PROFILES:
            self.expect(f"convert {what} to {profile}", (0, values), self.answer("convert", "j", profile, "f"))

    def convert_by_job(self, what: str, job: bytes, data: bytes):
        """A file that is read with a job's formats and limit, where that job is one: its fault or none."""
        try:
            name = json.loads(job)["formats"][0]["name"]
        except (ValueError, KeyError, TypeError, IndexError):
            return
        self.put("j", job)
        self.put("f", data)
        status, output = self.answer("convert", "j", name, "f")
        if status in (0, 7):
            given = (status, output if status == 7 else output.count("\n"))
            self.expect(f"convert {what}", convert_answer(json.loads(job), data), given)


def fault_answer(fault: ndr.Fault) -> tuple:
    return 7, f'stones: data "f" {fault}\n'


def show_answer(data: bytes) -> tuple:
    try:
        return 0, ndr.shown(data)
    except ndr.Fault as fault:
        return fault_answer(fault)


def convert_answer(job: dict, data: bytes) -> tuple:
    """The file's fault; where there is none the number of its records, a line each."""
    known = tuple(ndr.lay_out(f["profile"], [(t["name"], t["fields"]) for t in f["types"]]) for f in job["formats"])
    try:
        return 0, len(ndr.read_file(data, known, job.get("limit", 4096))[1])
    except ndr.Fault as fault:
        return fault_answer(fault)


def job_of(fmt: ndr.Format) -> dict:
    """A job that declares the format's fields for each profile."""
    types = [{"name": t.name, "fields": [[f.name, f.type_text, f.size, f.default] for f in t.fields]}
             for t in fmt.types]
    return {"limit": ndr.LONGEST_RECORD,
            "formats": [{"name": profile, "profile": profile, "types": types} for profile in ndr.PROFILES],
            "sources": [{"name": "a", "file": "f", "stone": 0}], "stones": [{"kind": "split", "targets": []}],
            "rounds": [{"submit": [0], "frozen": []}]}


def compare_files(comparison: Comparison, folder: str):
    for path in sorted(glob.glob(os.path.join(folder, "**", "*.ndr"), recursive=True)):
        with open(path, "rb") as file:
            data = file.read()
        comparison.show(path, data)
        comparison.convert_to_itself(path, data)


def compare_cases(comparison: Comparison):
    shown, jobs = set(), set()
    with open(os.path.join(TOP, "conformance", "cases.jsonl"), encoding="utf-8") as cases:
        for case in map(json.loads, cases):
            held = {name: bytes.fromhex(text["hex"]) if isinstance(text, dict) else text.encode("latin-1")
                    for name, text in case["files"].items()}
            for name, data in held.items():
                if data not in shown:
                    shown.add(data)
                    comparison.show(f"{name} of {case['name']}", data)
                job = held.get(case["words"][1]) if len(case["words"]) > 1 else None
                if job not in (None, data) and (job, data) not in jobs:
                    jobs.add((job, data))
                    comparison.convert_by_job(f"{name} of {case['name']}", job, data)


def main(folder: str) -> int:
    # Builds the program where it isn't there, or older than a source.
    subprocess.run([os.path.join(TOP, "stones"), "words"], stdout=subprocess.DEVNULL)
    with tempfile.TemporaryDirectory() as place:
        comparison = Comparison(place)
        compare_files(comparison, folder)
        compare_files(comparison, os.path.join(TOP, "examples"))
        compare_cases(comparison)
    print(f"ndr.py: {comparison.compared} answers of the program, {comparison.wrong} differ")
    return 1 if comparison.wrong or not comparison.compared else 0


if __name__ == "__main__":
    sys.exit(main(sys.argv[1]))
