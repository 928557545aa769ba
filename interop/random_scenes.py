"""Compares `scenetool mix` with a plain C program of bench/ on random scenes: the bytes written and the lines printed.

Usage: random_scenes.py SCENETOOL PLAIN COUNT FIRST     (scenes FIRST to FIRST + COUNT - 1, in a directory that goes away)
"""
import pathlib
import random
import struct
import subprocess
import sys

RATES = (1, 7, 997, 8000, 11025, 22050, 44099, 44100, 48000, 96000, 192000, 767999, 768000)
MAX_PLACE = 140737488355327


def sound_file(r, name):
    """Writes a WAVE file of random bytes, of any kind that scenetool reads."""
    kind = r.choice(("pcm", "pcm", "pcm", "alaw", "ulaw", "ima"))
    channels, rate, frames, fact = r.choice((1, 1, 2, 2, 3, 5, 8)), r.choice(RATES), r.randrange(400), None
    if kind == "ima":
        groups = r.randrange(6)
        align = 4 * channels * (1 + groups)
        data = bytearray()
        for _ in range(r.randrange(8)):
            for _ in range(channels):
                data += r.randbytes(2) + bytes((r.randrange(89), r.randrange(256)))
            data += r.randbytes(4 * channels * groups)
        data = bytes(data[:len(data) - r.randrange(4) * r.randrange(align)])
        fact, tag, bits = r.choice((None, None, 0, r.randrange(1, 200))), 17, 4
    elif kind == "pcm":
        container = r.randrange(1, 5)
        align, tag, bits = channels * container, 1, 8 * container
        data = r.randbytes(frames * align + r.randrange(align))
    else:
        align, tag, bits = channels, 6 if kind == "alaw" else 7, 8
        data = r.randbytes(frames * align)
    form = struct.pack("<HHIIHH", tag, channels, rate, rate * align % 2**32, align, bits)
    body = b"fmt " + struct.pack("<I", len(form)) + form
    if fact is not None:
        body += b"fact" + struct.pack("<II", 4, fact)
    if r.random() < 0.3:
        body += b"LIST" + struct.pack("<I", 3) + b"abc\0"
    body += b"data" + struct.pack("<I", len(data)) + data + b"\0" * (len(data) % 2)
    pathlib.Path(name).write_bytes(b"RIFF" + struct.pack("<I", 4 + len(body)) + b"WAVE" + body)


class Plan:
    """Which bus is attached to what, so that only edits are made that scenetool takes."""

    def __init__(self, kinds, outputs):
        self.kinds, self.outputs = kinds, outputs
        self.to = {(n, k): None for n, count in enumerate(outputs) for k in range(count)}

    def reaches(self, start, node):
        seen, left = set(), [start]
        while left:
            n = left.pop()
            if n == node:
                return True
            if n not in seen:
                seen.add(n)
                left += [t for (m, _), t in self.to.items() if m == n and t is not None]
        return False

    def target(self, r, bus):
        """A node that an unattached bus may be attached to: the endpoint, the number after the last, always may."""
        nodes = [n for n, kind in enumerate(self.kinds) if kind != "sound" and not self.reaches(n, bus[0])]
        return r.choice(nodes + [len(self.kinds)] * 2)


def gain(r):
    return r.choice((0, 1, 65535, 65536, 65537, 1048576, r.randrange(1048577), r.randrange(131072)))


def edit(r, plan, names, length):
    """The lines of an edit, after its `at`."""
    n = r.randrange(len(names))
    k = r.randrange(plan.outputs[n])
    free = plan.to[n, k] is None
    op = r.choice(("attach" if free else "detach", "attach" if free else "detach", "gain", "start", "stop", "from", "until",
                   "seek" if plan.kinds[n] == "sound" else "gain", "loop" if plan.kinds[n] == "sound" else "start"))
    lines = [f'op = "{op}"', f'node = "{names[n]}"']
    if op in ("attach", "detach", "gain"):
        lines.append(f"out = {k}")
    if op == "attach":
        plan.to[n, k] = plan.target(r, (n, k))
        lines.append(f'to = "{(names + ["endpoint"])[plan.to[n, k]]}"')
    elif op == "detach":
        plan.to[n, k] = None
    elif op not in ("start", "stop"):
        value = {"gain": gain(r), "loop": r.randrange(2), "seek": r.choice((0, r.randrange(400), r.randrange(20000), MAX_PLACE))}
        lines.append(f"value = {value.get(op, r.choice((0, 16777216, r.randrange(length + 1))))}")
    return lines


def scene(r):
    """Writes a scene's script and its sound files."""
    rate, length = r.choice(RATES), r.choice((0, 1, 511, 512, 513, r.randrange(3000)))
    text = ["version = 1", f"rate = {rate}", f"channels = {r.randrange(1, 3)}", f"width = {r.choice((16, 24))}", f"length = {length}"]
    count = r.randrange(1, 5)
    for i in range(count):
        sound_file(r, f"{i}.wav")
        text += ["[[resource]]", f'name = "r{i}"', f'file = "{i}.wav"']
    kinds = [r.choice(("sound", "sound", "group", "splitter")) for _ in range(r.randrange(1, 12))]
    outputs = [r.randrange(2, 5) if kind == "splitter" else 1 for kind in kinds]
    names = [f"n{n}" for n in range(len(kinds))]
    for n, kind in enumerate(kinds):
        text += ["[[node]]", f'kind = "{kind}"', f'name = "{names[n]}"']
        text += [f'resource = "r{r.randrange(count)}"', f"loop = {r.choice(('true', 'false'))}"] if kind == "sound" else []
        text += [f"outputs = {outputs[n]}"] if kind == "splitter" else []
        text += ["started = false"] if r.random() < 0.15 else []
        text += [f"from = {r.randrange(length + 1)}"] if r.random() < 0.2 else []
        text += [f"until = {r.randrange(length + 1)}"] if r.random() < 0.2 else []
    plan = Plan(kinds, outputs)
    for (n, k) in plan.to:
        if r.random() < 0.8:
            plan.to[n, k] = plan.target(r, (n, k))
            text += ["[[bus]]", f'node = "{names[n]}"', f"out = {k}", f'to = "{(names + ["endpoint"])[plan.to[n, k]]}"', f"gain = {gain(r)}"]
    times = sorted(r.randrange(length + 2) for _ in range(r.randrange(40)))
    rows = [["[[edit]]", f"at = {at}"] + edit(r, plan, names, length) for at in times]
    # The order of the rows counts only among edits of one frame.
    r.shuffle(moved := sorted(set(times)))
    text += [line for at in moved for row in rows if row[1] == f"at = {at}" for line in row]
    pathlib.Path("scene.toml").write_text("\n".join(text) + "\n")


def main():
    scenetool, plain, count, first = sys.argv[1], sys.argv[2], int(sys.argv[3]), int(sys.argv[4])
    heard = 0
    for number in range(first, first + count):
        scene(random.Random(number))
        told = [subprocess.run([program, "mix", "scene.toml", out], capture_output=True)
                for program, out in ((scenetool, "ours.wav"), (plain, "plain.wav"))]
        if [(t.returncode, t.stdout) for t in told] != [(0, told[0].stdout)] * 2 or \
                pathlib.Path("ours.wav").read_bytes() != pathlib.Path("plain.wav").read_bytes():
            sys.exit(f"scene {number} differs: {[(t.returncode, t.stdout, t.stderr) for t in told]}")
        heard += b" peak 0 " not in told[0].stdout
    print(f"{count} random scenes from number {first} on, {heard} of them not silent: the same bytes and lines")


main()
