"""Writes the scenes of bench/blocks.sh and their sound files into the current directory, the same bytes at each run.

Usage: block_scenes.py PART     (times and edits are divided by PART; gen.toml, pcm16-stereo.wav and ima-stereo.wav, of
44100 Hz, are there already, and the two sounds last 20 / PART seconds or more)
"""
import json
import pathlib
import random
import struct
import sys

part = int(sys.argv[1])
draws = random.Random(1)


def sound(name, channels, rate, data):
    """A WAVE file of PCM, 16 bits."""
    form = struct.pack("<4sIHHIIHH", b"fmt ", 16, 1, channels, rate, rate * channels * 2, channels * 2, 16)
    body = form + struct.pack("<4sI", b"data", len(data)) + data
    pathlib.Path(name).write_bytes(struct.pack("<4sI4s", b"RIFF", 4 + len(body), b"WAVE") + body)


def noise(name, channels, rate, frames):
    sound(name, channels, rate, draws.randbytes(frames * channels * 2))


def table(which, /, **keys):
    """A row of a table."""
    lines = [f"{key} = {json.dumps(value)}" for key, value in keys.items()]
    return "\n".join([f"[[{which}]]", *lines, ""])


def scene(name, rate, channels, length, rows):
    head = f"version = 1\nrate = {rate}\nchannels = {channels}\nwidth = 24\nlength = {length}\n"
    pathlib.Path(f"{name}.toml").write_text(head + "".join(rows))


def sounds(files, count, **keys):
    """Resources of these files, and `count` sounds that play them in turn."""
    return ([table("resource", name=f"r{k}", file=file) for k, file in enumerate(files)]
            + [table("node", kind="sound", name=f"s{k}", resource=f"r{k % len(files)}", **keys) for k in range(count)])


def buses(count, to, gain):
    """The buses of `count` sounds, to the node whose name `to` gives."""
    return [table("bus", node=f"s{k}", to=to(k), gain=gain) for k in range(count)]


def long_sounds():
    """One stereo sound of PCM 16 at the scene's rate and at another one, and eight of IMA ADPCM."""
    samples = pathlib.Path("pcm16-stereo.wav").read_bytes()[44:]
    sound("pcm16-48000.wav", 2, 48000, (samples * 2)[:960000 // part * 4])
    one = buses(1, lambda k: "endpoint", 49152)
    scene("own_rate", 48000, 2, 960000 // part, sounds(["pcm16-48000.wav"], 1) + one)
    scene("other_rate", 48000, 2, 960000 // part, sounds(["pcm16-stereo.wav"], 1) + one)
    files = [f"ima-{k}.wav" for k in range(8)]
    for file in files:
        pathlib.Path(file).write_bytes(pathlib.Path("ima-stereo.wav").read_bytes())
    scene("ima", 44100, 2, 882000 // part, sounds(files, 8) + buses(8, lambda k: "endpoint", 8192))


def eight_channels():
    """Sixteen sounds of eight channels and 96000 Hz, in a mono scene of 44100 Hz."""
    files = [f"eight-{k}.wav" for k in range(16)]
    for file in files:
        noise(file, 8, 96000, 192000 // part)
    scene("eight", 44100, 1, 88200 // part, sounds(files, 16) + buses(16, lambda k: "endpoint", 16384))


def short_sounds():
    """The files of a second, mono and stereo, at the scene's rate and at another one."""
    files = [f"short-{k}.wav" for k in range(4)]
    for k, file in enumerate(files):
        noise(file, 1 + k % 2, 48000 if k < 2 else 44100, 48000)
    return files


def graph(files):
    """Thirty-two sounds to twenty splitters of three outputs, these to thirty groups, and these by ten more to the endpoint."""
    rows = sounds(files, 32, loop=True)
    rows += [table("node", kind="splitter", name=f"p{k}", outputs=3) for k in range(20)]
    rows += [table("node", kind="group", name=f"g{k}") for k in range(40)]
    rows += buses(32, lambda k: f"p{k % 20}", 16384)
    rows += [table("bus", node=f"p{k}", out=j, to=f"g{(2 * k + 13 * j) % 30}", gain=30000) for k in range(20) for j in range(3)]
    rows += [table("bus", node=f"g{k}", to=f"g{30 + k % 10}", gain=40000) for k in range(30)]
    rows += [table("bus", node=f"g{k}", to="endpoint", gain=20000) for k in range(30, 40)]
    scene("graph", 48000, 2, 240000 // part, rows)


def edits(files):
    """Sixteen sounds through four groups, and an edit of one of them each five frames; and the same scene without a frame."""
    rows = sounds(files, 16, loop=True)
    rows += [table("node", kind="group", name=f"g{k}") for k in range(4)]
    rows += buses(16, lambda k: f"g{k % 4}", 16384) + [table("bus", node=f"g{k}", to="endpoint") for k in range(4)]
    count = 4096 // part
    for e in range(count):
        k, at = e // 8 % 16, 5 * e
        keys = [dict(op="gain", value=draws.randrange(32768)), dict(op="seek", value=draws.randrange(40000)),
                dict(op="stop"), dict(op="start"), dict(op="detach"), dict(op="attach", to=f"g{draws.randrange(4)}"),
                dict(op="from", value=at + 2), dict(op="loop", value=1)][e % 8]
        rows.append(table("edit", at=at, node=f"s{k}", **keys))
    scene("edits", 48000, 2, 5 * count + 512, rows)
    scene("edits_read", 48000, 2, 0, rows)


text = pathlib.Path("gen.toml").read_text()
pathlib.Path("gen.toml").write_text(text.replace("length = 480000", f"length = {480000 // part}"))
long_sounds()
eight_channels()
files = short_sounds()
graph(files)
edits(files)
