"""Writes what `scenetool gen NUMBER PREFIX` writes, by a generator of our own: interop/scenetool.sh compares the two.

Usage: gen.py NUMBER PREFIX
"""
import pathlib
import struct
import sys

FRAMES = 220500


def draws(state):
    """The upper 16 bits of each state of a linear congruential generator."""
    while True:
        state = (state * 1664525 + 1013904223) % 2**32
        yield state >> 16


def sound(draw, number):
    """A WAVE file of noise: mono where its number is even, and stereo where it is odd."""
    channels, rate = 1 + number % 2, 44100 if number < 4 else 48000
    data = struct.pack(f"<{FRAMES * channels}h", *(next(draw) - 32768 for _ in range(FRAMES * channels)))
    return struct.pack("<4sI4s4sIHHIIHH4sI", b"RIFF", 36 + len(data), b"WAVE", b"fmt ", 16, 1, channels, rate,
                       rate * 2 * channels, 2 * channels, 16, b"data", len(data)) + data


def script(draw, prefix):
    lines = ["version = 1", "rate = 48000", "channels = 2", "width = 24", "length = 480000"]
    for i in range(8):
        lines += ["[[resource]]", f'name = "r{i}"', f'file = "{prefix}-{i}.wav"']
    for j in range(4):
        lines += ["[[node]]", 'kind = "group"', f'name = "g{j}"']
    for k in range(32):
        lines += ["[[node]]", 'kind = "sound"', f'name = "s{k}"', f'resource = "r{k % 8}"', "loop = true"]
    for j in range(4):
        lines += ["[[bus]]", f'node = "g{j}"', 'to = "endpoint"']
    for k in range(32):
        lines += ["[[bus]]", f'node = "s{k}"', f'to = "g{k % 4}"', f"gain = {next(draw) // 16}"]
    for e in range(256):
        at, node, value = 7 * next(draw), next(draw) % 32, next(draw)
        lines += ["[[edit]]", 'op = "seek"' if e % 2 else 'op = "gain"', f"at = {at}", f'node = "s{node}"',
                  f"value = {value if e % 2 else value // 16}"]
    return "\n".join(lines) + "\n"


def main():
    prefix, draw = sys.argv[2], draws(int(sys.argv[1]))
    for number in range(8):
        pathlib.Path(f"{prefix}-{number}.wav").write_bytes(sound(draw, number))
    pathlib.Path(f"{prefix}.toml").write_text(script(draw, prefix))


main()
