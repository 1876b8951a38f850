"""Holds docs/job.schema.json to the jobs of examples/ and of the conformance cases, and to edits of one of them that
the built program is asked about: what the program reads it accepts, and what the program refuses as a member or a
limit it refuses, but for what a schema can't say. Each member of it has a description."""
import copy
import glob
import json
import os
import re
import subprocess
import sys
import tempfile

import jsonschema

TOP = os.path.dirname(os.path.dirname(os.path.dirname(os.path.abspath(__file__))))
PROGRAM = os.path.join(TOP, "crates", "evp_stones", "out", "evp_stones")
REFUSED = re.compile(r"stones: job (member|limit at) ")
# Faults that are found when the document is read already: by the files of its sources, or by a word.
FILLED = re.compile(r"stones: job (source|carried|limit at formats:|unknown format at \.)")
SPLIT, FIELD = {"kind": "split", "targets": []}, ["formats", 0, "types", 0, "fields", 1]

# Edits of the orders' job: a path, and the values that are put there one by one (`...` takes the member away).
READ = [
    (["limit"], [64, 262144]), (["queue"], [1, 4096]),
    (FIELD, [["label", "string", 4], ["a", "unsigned integer", 8, 2**64 - 1], ["a", "integer", 8, -2**63]]),
    (["sources", 0, "name"], ["n" * 64, "integer"]), (["sources", 0, "file"], ["f" * 255]),
    (["stones", 0, "targets"], [[], [1] * 16]), (["stones", 3, "set"], [[], [["pieces", "1"]] * 64]),
    (["stones", 2], [{"kind": "router", "format": "bill", "expr": "n", "targets": [1, 3]}]),
    (["rounds", 0, "submit"], [[0], [131072]]), (["rounds", 0, "frozen"], [[1, 1, 0]]),
]
REFUSE = [
    (["limit"], [63, 262145, -1, "64", 64.5, None]), (["queue"], [0, 4097, True]), (["extra"], [1]),
    (["formats"], [..., {}, [{"name": "f", "profile": "le64", "types": []}] * 257]),
    (["sources"], [..., [], [{"name": "a", "file": "f", "stone": 0}] * 65]),
    (["stones"], [..., [], [SPLIT] * 257]), (["rounds"], [..., [], [{"submit": [0], "frozen": []}] * 65]),
    (["formats", 0, "name"], [..., "", "a-b", "9a", "a\n", "n" * 65, 1]), (["formats", 0, "profile"], [..., "le16"]),
    (["formats", 0, "types"], [..., {}]), (["formats", 0, "extra"], [1]), (["formats", 0, "types", 0, "extra"], [1]),
    (["formats", 0, "types", 0, "name"], [..., 1]), (["formats", 0, "types", 0, "fields"], [..., {}]),
    (FIELD, [["a"], ["a", "integer", 4, 0, 0], [1, "integer", 4], ["a", 1, 4], ["a", "integer", "4"],
             ["a", "integer", -1], ["a", "integer", 2**32], ["a", "integer", 8, 2**64], ["a", "integer", 8, -2**63 - 1],
             ["a", "integer", 8, 0.5], ["a", "integer", 8, "0"]]),
    (["sources", 0, "name"], [..., "", "a b"]), (["sources", 0, "file"], [..., "", "f" * 256, 1]),
    (["sources", 0, "stone"], [..., -1, 65536, "0"]), (["sources", 0, "extra"], [1]),
    (["stones", 0, "kind"], [..., "join", 1]), (["stones", 0, "target"], [1]), (["stones", 1, "targets"], [[0]]),
    (["stones", 0, "targets"], [..., [1] * 17, [-1], [65536], ["1"]]), (["stones", 1, "format"], [..., 1]),
    (["stones", 2, "expr"], [..., 1]), (["stones", 2, "target"], [..., -1, 65536]), (["stones", 3, "into"], [..., 1]),
    (["stones", 3, "set"], [..., {}, [["pieces", "1"]] * 65, [["pieces"]], [["pieces", "1", "2"]], [[1, "1"]]]),
    (["rounds", 0, "submit"], [..., [131073], [-1], ["1"]]), (["rounds", 0, "frozen"], [..., [-1], ["1"]]),
    (["rounds", 0, "extra"], [1]),
]
# Refused by the program, and beyond a schema.
BEYOND = [
    (["limit"], [64.0]), (["sources", 0, "file"], ["\u00e9" * 200]), (["rounds", 0, "submit"], [[], [1, 1]]),
    (["rounds", 0, "frozen"], [[5]]),
]


def edited(job: dict, path: list, value) -> dict:
    job = copy.deepcopy(job)
    place = job
    for step in path[:-1]:
        place = place[step]
    if value is ...:
        del place[path[-1]]
    else:
        place[path[-1]] = value
    return job


def program_reads(job: dict) -> bool:
    """Whether `check` of the job is done; else it has to be refused as a member or a limit."""
    with tempfile.TemporaryDirectory() as folder:
        with open(os.path.join(folder, "j.json"), "w", encoding="utf-8") as out:
            json.dump(job, out)
        done = subprocess.run([PROGRAM, "check", "j.json"], cwd=folder, stdout=subprocess.PIPE)
    if done.returncode and not REFUSED.match(done.stdout.decode()):
        raise ValueError(done.stdout)
    return done.returncode == 0


def jobs_of_edits():
    """Each edit with what the program and the schema are to say."""
    with open(os.path.join(TOP, "examples", "orders", "j.json"), encoding="utf-8") as file:
        job = json.load(file)
    for edits, reads, accepts in ((READ, True, True), (REFUSE, False, False), (BEYOND, False, True)):
        for path, values in edits:
            for value in values:
                yield f"{path} {value}"[:100], edited(job, path, value), reads, accepts


def jobs_of_cases():
    """Each job of the cases that the program read, or refused as a member or a limit."""
    with open(os.path.join(TOP, "conformance", "cases.jsonl"), encoding="utf-8") as cases:
        for case in map(json.loads, cases):
            words, files, output = case["words"], case["files"], case["output"]
            content = files.get(words[1]) if len(words) > 2 or words[:1] == ["check"] else None
            if content is None or case["status"] not in (0, 6, 7):
                continue
            read = case["status"] != 6 or bool(FILLED.match(output))
            if read or REFUSED.match(output):
                text = content if isinstance(content, str) else bytes.fromhex(content["hex"])
                yield case["name"], json.loads(text), read


def jobs_of_examples():
    for path in glob.glob(os.path.join(TOP, "examples", "**", "*.json"), recursive=True):
        with open(path, encoding="utf-8") as file:
            yield path, json.load(file), True


def undescribed(schema, root: dict, name: str = "schema"):
    """The members that have no description, of their own or where they refer to."""
    if isinstance(schema, list):
        for part in schema:
            yield from undescribed(part, root, name)
    if not isinstance(schema, dict):
        return
    for member, part in schema.get("properties", {}).items():
        target = root["$defs"][part["$ref"].rsplit("/", 1)[1]] if "$ref" in part else {}
        if "const" not in part and "description" not in part and "description" not in target:
            yield f"{name}: {member}"
    for key, part in schema.items():
        yield from undescribed(part, root, f"{name}/{key}")


def main() -> int:
    subprocess.run([os.path.join(TOP, "stones"), "words"], stdout=subprocess.DEVNULL)
    with open(os.path.join(TOP, "docs", "job.schema.json"), encoding="utf-8") as file:
        schema = json.load(file)
    jsonschema.Draft202012Validator.check_schema(schema)
    validator = jsonschema.Draft202012Validator(schema)
    wrong = [f"no description: {member}" for member in undescribed(schema, schema)]
    stated = [*jobs_of_cases(), *jobs_of_examples()]
    for name, job, reads, accepts in jobs_of_edits():
        if program_reads(job) != reads:
            wrong.append(f"{name}: the program says {not reads}")
        stated.append((name, job, accepts))
    for name, job, wanted in stated:
        if validator.is_valid(job) != wanted:
            wrong.append(f"{name}: the schema says {not wanted}")
    print("".join(line + "\n" for line in wrong), end="")
    print(f"job.schema.json: {len(stated)} jobs, {len(wrong)} wrong")
    return 1 if wrong else 0


if __name__ == "__main__":
    sys.exit(main())
