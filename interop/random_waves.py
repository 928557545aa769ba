"""Compares `scenetool info` with a reading of WAVE files in Python, on random files, most of them with a fault.

Usage: random_waves.py SCENETOOL COUNT FIRST     (files FIRST to FIRST + COUNT - 1, in a directory that goes away)
"""
import pathlib
import random
import struct
import subprocess

import random_runs

GUID_TAIL = bytes.fromhex("000000001000800000AA00389B71")
KINDS = {1: "pcm", 6: "alaw", 7: "ulaw", 17: "ima"}


class Fault(Exception):
    """Why a file is refused, as scenetool says it."""


def number(data, at, size):
    return int.from_bytes(data[at:at + size], "little")


# ---- The reading ----

def read_format(body):
    """The kind, channels, rate and align of a format chunk."""
    if len(body) < 16:
        raise Fault(f"FmtShort {len(body)}")
    tag, channels, rate, align, bits = (number(body, at, size) for at, size in ((0, 2), (2, 2), (4, 4), (12, 2), (14, 2)))
    if tag == 0xFFFE:
        if len(body) < 40:
            raise Fault(f"FmtShort {len(body)}")
        if body[26:40] != GUID_TAIL:
            raise Fault(f"Unsupported {tag}")
        tag = number(body, 24, 2)
    if tag not in KINDS:
        raise Fault(f"Unsupported {tag}")
    if not 1 <= channels <= 8:
        raise Fault(f"Channels {channels}")
    if not 1 <= rate <= 768000:
        raise Fault(f"Rate {rate}")
    container = align // channels
    if tag == 1 and (align % channels or not 1 <= container <= 4 or not 1 <= bits <= 8 * container):
        raise Fault(f"Width {bits} {align}")
    if tag in (6, 7) and align != channels:
        raise Fault(f"Width {bits} {align}")
    if tag == 17 and (align < 4 * channels or align % (4 * channels)):
        raise Fault(f"ImaAlign {align}")
    return tag, channels, rate, align


def read_chunks(file):
    """The format, where the data is, and the count of a fact chunk."""
    at, data_size, form, data, fact = 12, None, None, None, None
    if file[:4] == b"RF64":
        if file[12:16] != b"ds64" or len(file) < 20 or number(file, 16, 4) < 28 or 20 + number(file, 16, 4) > len(file):
            raise Fault("Ds64Missing")
        data_size = number(file, 28, 8)
    while len(file) - at >= 8:
        name, size, body = file[at:at + 4], number(file, at + 4, 4), at + 8
        if name == b"data":
            size = data_size if data_size is not None and size == 0xFFFFFFFF else size
            data = data or (body, min(size, len(file) - body))
        elif body + size > len(file):
            if form and data:
                break
            raise Fault(f"ChunkPastEnd {at}")
        elif name == b"fmt " and not form:
            form = read_format(file[body:body + size])
        elif name == b"fact" and size >= 4 and fact is None:
            fact = number(file, body, 4)
        at = body + size + size % 2
    if not form:
        raise Fault("NoFmt")
    if not data:
        raise Fault("NoData")
    return form, data, fact


def ima_block_frames(size, channels):
    return 0 if size < 4 * channels else 1 + 8 * ((size - 4 * channels) // (4 * channels))


def info(file):
    """The line on a file."""
    if file[:4] not in (b"RIFF", b"RF64"):
        raise Fault("NotRiff")
    if file[8:12] != b"WAVE":
        raise Fault("NotWave")
    (tag, channels, rate, align), (start, size), fact = read_chunks(file)
    frames, width = size // align, 8 * (align // channels)
    if tag == 17:
        width, block_frames = 4, ima_block_frames(align, channels)
        frames = size // align * block_frames + ima_block_frames(size % align, channels)
        frames = min(frames, fact) if fact else frames
        for block in range(-(-frames // block_frames)):
            for channel in range(channels):
                index = file[start + block * align + 4 * channel + 2]
                if index > 88:
                    raise Fault(f"StepIndex {block} {channel} {index}")
    pages = -(-frames // 8192)
    return f"{KINDS[tag]} channels {channels} rate {rate} width {width} align {align} frames {frames} pages {pages}"


# ---- The files ----

def chunk(name, body, size=None):
    """A chunk, which says another size where one is given."""
    return name + struct.pack("<I", len(body) if size is None else size) + body + b"\0" * (len(body) % 2)


def random_format(r):
    """The body of a format chunk, and its tag."""
    channels = r.choice((0, 1, 1, 1, 2, 2, 2, 3, 8, 9))
    rate = r.choice((0, 1, 8000, 44100, 44100, 44100, 44100, 768000, 768001))
    tag = r.choice((1, 1, 1, 6, 7, 17, 17, 3))
    if tag == 17:
        align = 4 * channels * r.randrange(4) + (r.random() < 0.1)
    elif tag in (6, 7):
        align = channels + (r.random() < 0.1)
    else:
        align = channels * r.randrange(6)
    bits = r.choice((0, 1, 8, 16, 24, 32, 33, 8 * (align // max(channels, 1))))
    fields = struct.pack("<HIIHH", channels, rate, r.randrange(2**32), align, bits)
    if r.random() < 0.3:
        guid = bytearray(struct.pack("<H", tag) + GUID_TAIL)
        if r.random() < 0.1:
            guid[r.randrange(16)] ^= 1 << r.randrange(8)
        body = b"\xFE\xFF" + fields + struct.pack("<HHI", 22, 16, 3) + guid
    else:
        body = struct.pack("<H", tag) + fields
    return (body[:r.randrange(len(body))] if r.random() < 0.05 else body + r.randbytes(r.choice((0, 0, 0, 2, 3)))), tag


def random_file(r):
    form, tag = random_format(r)
    data = bytearray(r.randbytes(r.randrange(120)))
    if tag == 17 and r.random() < 0.8:
        data[2::4] = bytes(byte % 89 for byte in data[2::4])
    chunks = [chunk(b"fmt ", form)]
    if r.random() < 0.4:
        chunks.append(chunk(b"fact", struct.pack("<I", r.choice((0, 1, 5, 20, 1000)))[:r.choice((4, 4, 4, 2))]))
    if r.random() < 0.3:
        chunks.append(chunk(b"LIST", r.randbytes(r.randrange(9))))
    chunks.append(chunk(b"data", bytes(data), r.choice((None, None, None, 0xFFFFFFFF, len(data) + r.randrange(9)))))
    if r.random() < 0.3:
        chunks.append(chunk(r.choice((b"LIST", b"fmt ", b"data", b"fact")), r.randbytes(r.randrange(20)), r.choice((None, None, 50))))
    if r.random() < 0.1:
        r.shuffle(chunks)
    start = b"RIFF"
    if r.random() < 0.25:
        start = b"RF64"
        sizes = struct.pack("<QQQI", 0, r.choice((len(data), len(data), 2**40, 0, 3)), 0, 0)
        if r.random() < 0.9:
            chunks.insert(0, chunk(b"ds64", sizes, r.choice((None, None, None, 27, 28, 200))))
    file = start + r.randbytes(4) + (b"WAVE" if r.random() < 0.97 else b"WAVX") + b"".join(chunks)
    return file[:r.randrange(len(file))] if r.random() < 0.1 else file


def compare(scenetool, seed):
    file = random_file(random.Random(seed))
    pathlib.Path("file.wav").write_bytes(file)
    found = None
    try:
        wanted = 0, info(file) + "\n"
    except Fault as fault:
        found = fault
        wanted = 7, f"file: 0: {fault}\n"
    told = subprocess.run([scenetool, "info", "file.wav"], capture_output=True, text=True)
    if (told.returncode, told.stdout) != wanted:
        return found, f"{told.returncode} {told.stdout!r}, not {wanted}"
    return found, None


random_runs.run("WAVE file", compare)
