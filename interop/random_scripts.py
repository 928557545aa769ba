"""Compares `scenetool mix` with a reading of scene scripts in Python, on random scripts, most of them with faults.

Usage: random_scripts.py SCENETOOL COUNT FIRST   (scripts FIRST to FIRST + COUNT - 1, in a directory that goes away)
"""
import pathlib
import random
import re
import subprocess
import tomllib

import random_runs

LAST = 16777216  # the greatest frame number that a script may say
WHOLE = object()  # the key must be there


class Fault(Exception):
    """Why a script is refused, as scenetool says it."""


# A key: its name, what it is (a text, a name, a truth, or the least and the greatest number and the word for that limit),
# and its default.
SCENE = [("rate", (1, 768000, "Rate"), WHOLE), ("channels", (1, 2, "Channels"), WHOLE), ("width", (16, 24, "Width"), WHOLE),
         ("length", (0, LAST, "Length"), WHOLE)]
RESOURCE = [("name", "name", WHOLE), ("file", "text", WHOLE)]
TIMES = [("started", "truth", True), ("from", (0, LAST, "From"), 0), ("until", (0, LAST, "Until"), LAST)]
NODES = {
    "sound": [("name", "name", WHOLE), ("resource", "name", WHOLE), ("loop", "truth", False)] + TIMES,
    "group": [("name", "name", WHOLE)] + TIMES,
    "splitter": [("name", "name", WHOLE), ("outputs", (2, 4, "Outputs"), WHOLE)] + TIMES,
}
OUT = ("out", (0, 255, "Out"), 0)
BUS = [("node", "name", WHOLE), OUT, ("to", "name", None), ("gain", (0, 2**32 - 1, "Gain"), 65536)]
VALUES = {"gain": 2**32 - 1, "from": LAST, "until": LAST, "seek": 140737488355327, "loop": 1}


def edit_keys(op):
    keys = [("at", (0, LAST, "At"), WHOLE), ("node", "name", WHOLE)]
    keys += [OUT] if op in ("attach", "detach", "gain") else []
    keys += [("to", "name", WHOLE)] if op == "attach" else []
    keys += [("value", (0, VALUES[op], "Value"), WHOLE)] if op in VALUES else []
    return keys + [("editor", (0, 3, "Editor"), 0)]


EDITS = {op: edit_keys(op) for op in ("attach", "detach", "gain", "start", "stop", "from", "until", "seek", "loop")}


# ---- The reading ----

def is_number(value):
    return isinstance(value, int) and not isinstance(value, bool)


def checked(value, what, place):
    """The value of a key that is there."""
    if what == "name":
        right = isinstance(value, str) and re.fullmatch(r"[A-Za-z0-9_.-]{1,64}", value)
    elif what == "text":
        right = isinstance(value, str)
    else:
        right = isinstance(value, bool) if what == "truth" else is_number(value)
    if not right:
        raise Fault(f"WrongKind {place}")
    least, most, which, found = (1, 255, "FileName", len(value.encode())) if what == "text" else (0, 0, "", 0)
    if isinstance(what, tuple):
        (least, most, which), found = what, value
    if not least <= found <= most or (which == "Width" and found not in (16, 24)):
        raise Fault(f"Limit {which} {found} {most if found > most or which == 'Width' else least}")
    return value


def row_of(row, keys, place):
    """The values of a row's keys, with the defaults of those that aren't there."""
    values = {}
    for key, what, default in keys:
        if key in row:
            values[key] = checked(row[key], what, place)
        elif default is WHOLE:
            raise Fault(f"MissingKey {place}")
        else:
            values[key] = default
    return values


def keys_of(row, word, kinds, place):
    """The kind of a row that has one, and its keys."""
    if word not in row:
        raise Fault(f"MissingKey {place}")
    if not isinstance(row[word], str) or row[word] not in kinds:
        raise Fault(f"WrongKind {place}")
    return row[word], kinds[row[word]]


def only(row, keys, place):
    if set(row) - {key for key, _, _ in keys}:
        raise Fault(f"UnknownKey {place}")


def rows(script, table, most, which):
    """The rows of a table with their places."""
    found = script.get(table, [])
    if not isinstance(found, list) or not all(isinstance(row, dict) for row in found):
        raise Fault(f"WrongKind {table} 0")
    if len(found) > most:
        raise Fault(f"Limit {which} {len(found)} {most}")
    return [(row, f"{table} {n}") for n, row in enumerate(found, 1)]


def read_top(script):
    if "version" not in script:
        raise Fault("MissingKey scene 0")
    if not is_number(script["version"]):
        raise Fault("WrongKind scene 0")
    if script["version"] != 1:
        raise Fault(f"Version {script['version']}")
    if set(script) - {"version", "resource", "node", "bus", "edit"} - {key for key, _, _ in SCENE}:
        raise Fault("UnknownKey scene 0")
    row_of(script, SCENE, "scene 0")


def read_nodes(script):
    """The names, kinds and numbers of outputs of the nodes."""
    resources, nodes = [], {}
    for row, place in rows(script, "resource", 64, "Resources"):
        only(row, RESOURCE, place)
        name = row_of(row, RESOURCE, place)["name"]
        if name in resources:
            raise Fault(f"DoubleName {place}")
        resources.append(name)
    for row, place in rows(script, "node", 128, "Nodes"):
        kind, keys = keys_of(row, "kind", NODES, place)
        only(row, keys + [("kind", "", WHOLE)], place)
        values = row_of(row, keys, place)
        if values["name"] in nodes or values["name"] == "endpoint":
            raise Fault(f"DoubleName {place}")
        if kind == "sound" and values["resource"] not in resources:
            raise Fault(f"UnknownName {place}")
        nodes[values["name"]] = kind, values.get("outputs", 1)
    buses = sum(outputs for _, outputs in nodes.values())
    if buses > 256:
        raise Fault(f"Limit Buses {buses} 256")
    return nodes


def known(values, nodes, place):
    if values["node"] not in nodes or values.get("to") not in [None, "endpoint", *nodes]:
        raise Fault(f"UnknownName {place}")
    return values


class Plan:
    """What is attached to what."""

    def __init__(self, nodes):
        self.nodes, self.to = nodes, {}

    def reaches(self, start, node):
        seen, left = set(), [start]
        while left:
            name = left.pop()
            if name not in seen:
                seen.add(name)
                left += [to for (of, _), to in self.to.items() if of == name]
        return node in seen

    def refusal(self, op, values):
        """Makes an edit, or says why it is refused."""
        node, out, to = values["node"], values.get("out"), values.get("to")
        numbers = {name: n for n, name in enumerate([*self.nodes, "endpoint"])}
        if out is not None and out >= self.nodes[node][1]:
            return "NoSuchBus"
        if op == "attach":
            if to != "endpoint" and self.nodes[to][0] == "sound":
                return "NoInput"
            if (node, out) in self.to:
                return f"AlreadyAttached {numbers[self.to[node, out]]}"
            if self.reaches(to, node):
                return f"Cycle {numbers[to]}"
            self.to[node, out] = to
        elif op == "detach" and not self.to.pop((node, out), None):
            return "NotAttached"
        elif op == "gain" and values["value"] > 1048576:
            return "GainTooLarge"
        elif op in ("seek", "loop") and self.nodes[node][0] != "sound":
            return "NotSound"
        return None


def read_script(text):
    """Reads a whole script."""
    try:
        script = tomllib.loads(text)
    except tomllib.TOMLDecodeError:
        raise Fault("NotToml") from None
    read_top(script)
    nodes = read_nodes(script)
    made = []
    for row, place in rows(script, "bus", 256, "BusRows"):
        only(row, BUS, place)
        values = known(row_of(row, BUS, place), nodes, place)
        made.append(("gain", values | {"value": values["gain"]}, place))
        made += [("attach", values, place)] if values["to"] else []
    edits = []
    for row, place in rows(script, "edit", 4096, "Edits"):
        op, keys = keys_of(row, "op", EDITS, place)
        only(row, keys + [("op", "", WHOLE)], place)
        edits.append((op, known(row_of(row, keys, place), nodes, place), place))
    plan = Plan(nodes)
    for op, values, place in made + sorted(edits, key=lambda edit: edit[1]["at"]):
        reply = plan.refusal(op, values)
        if reply:
            raise Fault(f"EditRefused {place} {reply}")


# ---- The scripts ----

ODD = ["-1", "0", "1", "2", "3", "4", "5", "16", "24", "255", "256", "257", "1000000", str(LAST), str(LAST + 1), "1048577", str(2**32 - 1),
       str(2**32), "140737488355327", "140737488355328", str(2**63 - 1), str(-2**63), "true", "false", '""', '"a"', '"n0"', '"r0"',
       '"endpoint"', f'"{"x" * 64}"', f'"{"x" * 65}"', '"\u00e4"', '"a b"', '"sound"', '"seek"', "1.5", "[]", "[1]", "1979-05-27",
       f'"{"y" * 255}"', f'"{"y" * 256}"', '"']
KEYS = ["version", "name", "file", "kind", "resource", "loop", "outputs", "started", "from", "until", "node", "out", "to", "gain", "op",
        "at", "value", "editor", "other"]


def random_rows(r):
    """The rows of a script: the table's name, and pairs of key and value."""
    top = [("version", "1"), ("rate", "8000"), ("channels", "1"), ("width", r.choice(("16", "24"))), ("length", r.choice(("0", "10")))]
    found = [("", top)]
    resources, names = range(r.randrange(4)), [f"n{n}" for n in range(r.randrange(7))]
    found += [("resource", [("name", f'"r{n}"'), ("file", '"absent.wav"')]) for n in resources]
    for name in names:
        kind = r.choice(("sound", "group", "splitter") if resources else ("group", "splitter"))
        row = [("kind", f'"{kind}"'), ("name", f'"{name}"')]
        row += [("resource", f'"r{r.choice(resources)}"')] if kind == "sound" else []
        row += [("outputs", str(r.randrange(2, 5)))] if kind == "splitter" else []
        found.append(("node", row + ([("from", "7")] if r.random() < 0.2 else [])))
    for _ in range(r.randrange(len(names) + 1)):
        row = [("node", f'"{r.choice(names)}"'), ("to", f'"{r.choice(names + ["endpoint"] * 3)}"')]
        found.append(("bus", row + ([("out", r.choice("0123"))] if r.random() < 0.2 else [])))
    for _ in range(r.randrange(8) if names else 0):
        op = r.choice(list(EDITS))
        values = {"at": str(r.randrange(12)), "node": f'"{r.choice(names)}"', "to": f'"{r.choice(names + ["endpoint"])}"',
                  "value": r.choice("011"), "out": r.choice("00012"), "editor": r.choice("0123")}
        keys = [key for key, _, default in EDITS[op] if default is WHOLE or r.random() < 0.3]
        found.append(("edit", [("op", f'"{op}"')] + [(key, values[key]) for key in keys]))
    return found


def random_script(r):
    """A script, with no to three changes."""
    found = random_rows(r)
    for _ in range(r.choice((0, 1, 1, 2, 3))):
        row = r.choice([found[0], r.choice(found)])[1]
        change = r.randrange(5)
        if change == 0 and row:
            del row[r.randrange(len(row))]
        elif change in (1, 2) and row:
            place = r.randrange(len(row))
            row[place] = row[place][0], r.choice(ODD)
        elif change == 3:
            row.append((r.choice(KEYS), r.choice(ODD)))
        else:
            found.insert(r.randrange(1, len(found) + 1), r.choice(found[1:] or [("bus", [])]))
    if r.random() < 0.02:
        found[0][1].append((r.choice(("resource", "node", "bus", "edit")), r.choice(("[]", "[1]", "5"))))
    lines = [line for table, row in found for line in ([f"[[{table}]]"] if table else []) + [f"{key} = {value}" for key, value in row]]
    return "\n".join(lines) + "\n"


def compare(scenetool, seed):
    text = random_script(random.Random(seed))
    pathlib.Path("scene.toml").write_text(text)
    told = subprocess.run([scenetool, "mix", "scene.toml", "out.wav"], capture_output=True, text=True)
    found = None
    try:
        read_script(text)
        right = told.returncode == 0 or told.returncode == 4 and told.stdout.startswith("absent: ")
        wanted = "no refusal of the script"
    except Fault as fault:
        found = fault
        wanted = f"script: {fault}"
        right = (told.returncode, told.stdout) == (6, wanted + "\n")
    return found, None if right else f"{told.returncode} {told.stdout!r}, not {wanted!r}"


random_runs.run("script", compare)
