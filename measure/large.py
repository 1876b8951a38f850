"""The large inputs of docs/FORMATS.md: a job and its four files, made of a number of records, 1 to 20,000; and the
report of that job, worked out record by record.

    python3 large.py N FOLDER      writes j.json and a.ndr to d.ndr
"""
import json
import os
import sys

sys.path.insert(0, os.path.join(os.path.dirname(os.path.abspath(__file__)), "..", "senders", "python"))
import ndr  # noqa: E402

PROFILES = ("le64", "le32", "be64", "be32")
SENT = [("s", [("id", "unsigned integer", 4), ("x", "integer", 4), ("tag", "string"), ("n", "integer", 4),
               ("v", "integer[n]", 2)])]
FORMATS = [
    ("wide", "be64", [["x", "integer", 8], ["id", "unsigned integer", 8], ["tag", "string"], ["n", "integer", 8],
                      ["v", "integer[n]", 8]]),
    ("calc", "le64", [["y", "integer", 8], ["id", "unsigned integer", 8], ["x", "integer", 8]]),
    ("short", "le32", [["x", "integer", 2], ["tag", "string"], ["extra", "unsigned integer", 4]]),
    ("full", "be32", [["y", "integer", 4], ["id", "unsigned integer", 4]]),
    ("tight", "le64", [["y", "integer", 2], ["id", "unsigned integer", 2]]),
]
NONE = {"passed": 0, "dropped": 0, "refused": 0, "held": 0}


def record(s: int, i: int) -> dict:
    return {"id": i, "x": (37 * i + 11 * s) % 1009 - 500, "tag": None if i % 5 == 4 else str(i % 100),
            "n": i % 4, "v": [(i + k) % 100 - 50 for k in range(i % 4)]}


def stones() -> list:
    """The 32 stones, four of a kind."""
    four = range(4)
    return [
        *({"kind": "split", "targets": [4 + k, 8 + k]} for k in four),
        *({"kind": "filter", "format": "wide", "expr": "x % 3 != 0", "target": 12 + k} for k in four),
        *({"kind": "transform", "format": "wide", "into": "calc", "set": [["y", f"x*x - {k}"]], "target": 16 + k}
          for k in four),
        *({"kind": "router", "format": "wide", "expr": "(x + 500) % 5", "targets": [20, 21, 22, 23]} for _ in four),
        *({"kind": "filter", "format": "calc", "expr": "y % 2 == 0", "target": 24 + k} for k in four),
        *({"kind": "terminal", "format": "short"} for _ in four),
        *({"kind": "split", "targets": [28, 29, 30, 31]} for _ in four),
        *({"kind": "terminal", "format": name} for name in ("full", "full", "tight", "tight")),
    ]


def job(count: int) -> dict:
    quarter = count // 4
    frozen = ([], [12], [16], [16])
    submitted = (quarter, quarter, quarter, count - 3 * quarter)
    return {
        "limit": 256, "queue": 16,
        "formats": [{"name": name, "profile": profile, "types": [{"name": name, "fields": fields}]}
                    for name, profile, fields in FORMATS],
        "sources": [{"name": name, "file": name + ".ndr", "stone": s} for s, name in enumerate("abcd")],
        "stones": stones(),
        "rounds": [{"submit": [n] * 4, "frozen": kept} for n, kept in zip(submitted, frozen)],
    }


def make(count: int, folder: str):
    with open(os.path.join(folder, "j.json"), "w", encoding="utf-8") as file:
        json.dump(job(count), file)
    for s, (name, profile) in enumerate(zip("abcd", PROFILES)):
        with ndr.Writer(os.path.join(folder, name + ".ndr")) as out:
            number = out.add_format(ndr.lay_out(profile, SENT))
            for i in range(count):
                out.write(number, record(s, i))


def text_of(tag) -> str:
    return "null" if tag is None else f'"{tag}"'


def act(stone: int, item: dict) -> tuple:
    """What a stone does with a record: the outcome, what is told of it, and the positions of the targets it goes to."""
    x, kind = item["x"], stone // 4
    if kind in (1, 4):
        goes = x % 3 != 0 if kind == 1 else item["y"] % 2 == 0
        return "passed" if goes else "dropped", None, (0,)
    if kind == 2:
        item["y"] = x * x - stone % 4
    if kind == 3:
        position = (x + 500) % 5
        return "passed" if position < 4 else "dropped", None, (position,)
    if kind == 5:
        return "passed", f"{{x={x},tag={text_of(item['tag'])},extra=0}}", ()
    if kind == 7:
        small = stone < 30 or item["y"] < 2**15
        told = f"{{y={item['y']},id={item['id']}}}" if small else "unfit y"
        return "passed" if small else "refused", told, ()
    return "passed", None, range(4)


def targets(stone: dict) -> list:
    return stone.get("targets", [stone["target"]] if "target" in stone else [])


def routes(stones: list, stone: int, steps: tuple = ()):
    """The routes that begin with these steps and lead to the stone: a step is a stone and the position behind it."""
    yield steps, stone
    for position, target in enumerate(targets(stones[stone])):
        yield from routes(stones, target, steps + ((stone, position),))


def through(steps: tuple, last: int, rounds: list, items: list):
    """The account of the route's last stone for each round: its counts and lines."""
    kept = {stone: [] for stone, _ in steps + ((last, 0),)}
    begin = 0
    for a_round in rounds:
        submitted = a_round["submit"][0]
        there, begin = items[begin:begin + submitted], begin + submitted
        for stone, position in steps + ((last, None),):
            kept[stone] += there
            there, counts, told = [], dict(NONE), {"refused": [], "passed": []}
            if stone in a_round["frozen"]:
                counts["held"] = len(kept[stone])
                continue
            for item in kept[stone]:
                item = dict(item)
                outcome, text, onward = act(stone, item)
                counts[outcome] += 1
                if text:
                    told[outcome].append(f"#{item['id']} {text}")
                if outcome == "passed" and position in onward:
                    there.append(item)
            kept[stone] = []
        yield counts, told["refused"] + told["passed"]


def report(count: int) -> tuple:
    """The report, how many routes there are, and the sums of the counts, held in the last round."""
    made, accounts, sums = job(count), [], dict(NONE)
    for s, source in enumerate(made["sources"]):
        items = [record(s, i) for i in range(count)]
        for steps, last in routes(made["stones"], source["stone"]):
            name = ">".join([source["name"], *(str(stone) for stone, _ in steps), str(last)])
            accounts.append((name, list(through(steps, last, made["rounds"], items))))
    lines = []
    for j in range(len(made["rounds"])):
        lines.append(f"round {j}")
        for name, rounds in accounts:
            counts, told = rounds[j]
            lines += [name + "".join(f" {key} {n}" for key, n in counts.items()), *told]
            for key in ("passed", "dropped", "refused"):
                sums[key] += counts[key]
    sums["held"] = sum(rounds[-1][0]["held"] for _, rounds in accounts)
    return "".join(line + "\n" for line in lines).encode(), len(accounts), sums


if __name__ == "__main__":
    make(int(sys.argv[1]), sys.argv[2])
