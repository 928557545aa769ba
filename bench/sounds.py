#!/usr/bin/env python3
"""Writes WAVE files for bench/run.sh, the same bytes at each run: a chord with a little noise, at 44100 Hz.

Usage: sounds.py DIRECTORY SECONDS [NAME..]      (the names of KINDS; all of them where none is given)

One second is computed, and repeated: pcm16-stereo.wav, pcm24-stereo.wav, alaw-stereo.wav, ima-stereo.wav, and
pcm16-mono.wav.
"""
import math
import pathlib
import struct
import sys

RATE = 44100
IMA_ALIGN = 2048  # bytes a block of two channels: 2041 frames
STEPS = [
    7, 8, 9, 10, 11, 12, 13, 14, 16, 17, 19, 21, 23, 25, 28, 31, 34, 37, 41, 45, 50, 55, 60, 66, 73, 80, 88, 97, 107, 118,
    130, 143, 157, 173, 190, 209, 230, 253, 279, 307, 337, 371, 408, 449, 494, 544, 598, 658, 724, 796, 876, 963, 1060,
    1166, 1282, 1411, 1552, 1707, 1878, 2066, 2272, 2499, 2749, 3024, 3327, 3660, 4026, 4428, 4871, 5358, 5894, 6484, 7132,
    7845, 8630, 9493, 10442, 11487, 12635, 13899, 15289, 16818, 18500, 20350, 22385, 24623, 27086, 29794, 32767]
CHANGES = [-1, -1, -1, -1, 2, 4, 6, 8]


def second():
    """The samples of a second, 24 bits, left and right by turns."""
    noise, samples = 1, []
    for t in range(RATE):
        for notes in ((220, 277, 330), (220, 275, 440)):
            noise = (noise * 1664525 + 1013904223) & 0xFFFFFFFF
            tone = sum(math.sin(2 * math.pi * note * t / RATE) for note in notes)
            samples.append(int(tone * 2_000_000) + (noise >> 15) - 65536)
    return samples


def alaw(sample):
    """The A-law code of a 24-bit sample."""
    size = min(abs(sample) >> 8, 32767)
    exponent = max(0, size.bit_length() - 8)
    mantissa = size >> (exponent + 3 if exponent else 4) & 15
    return (exponent << 4 | mantissa) ^ (0xD5 if sample >= 0 else 0x55)


def ima_channel(samples, state):
    """The header of a block's channel, and a code a sample after the first. `state` is the index that runs on."""
    predictor, index = samples[0], state[0]
    header, codes = struct.pack("<hBB", predictor, index, 0), []
    for sample in samples[1:]:
        step = STEPS[index]
        code = min(abs(sample - predictor) * 4 // step, 7)
        difference = (step >> 3) + (step if code & 4 else 0) + (step >> 1 if code & 2 else 0) + (step >> 2 if code & 1 else 0)
        negative = sample < predictor
        predictor = max(-32768, min(32767, predictor - difference if negative else predictor + difference))
        index = max(0, min(88, index + CHANGES[code]))
        codes.append(code | 8 if negative else code)
    state[0] = index
    return header, bytes(low | high << 4 for low, high in zip(codes[::2], codes[1::2]))


def ima_blocks(samples):
    """As many whole blocks of two channels as the samples fill."""
    frames = (IMA_ALIGN - 8) + 1
    states, blocks = ([0], [0]), bytearray()
    for first in range(0, len(samples) // 2 - frames + 1, frames):
        block = [samples[2 * first + c:2 * (first + frames):2] for c in range(2)]
        (left, left_codes), (right, right_codes) = (ima_channel(b, s) for b, s in zip(block, states))
        blocks += left + right
        for k in range(0, len(left_codes), 4):
            blocks += left_codes[k:k + 4] + right_codes[k:k + 4]
    return bytes(blocks)


def write(path, tag, channels, align, bits, more, fact, data, seconds):
    """A WAVE file of that data, repeated. `more` is what the format chunk has after its 16 bytes."""
    size = len(data) * seconds
    form = struct.pack("<HHIIHH", tag, channels, RATE, RATE * align, align, bits) + more
    chunks = struct.pack("<4sI", b"fmt ", len(form)) + form
    if fact:
        chunks += struct.pack("<4sII", b"fact", 4, fact * seconds)
    chunks += struct.pack("<4sI", b"data", size)
    with open(path, "wb") as file:
        file.write(struct.pack("<4sI4s", b"RIFF", 4 + len(chunks) + size + size % 2, b"WAVE") + chunks)
        for _ in range(seconds):
            file.write(data)
        file.write(b"\0" * (size % 2))


def main():
    directory, seconds = pathlib.Path(sys.argv[1]), int(sys.argv[2])
    both = second()
    whole = [sample >> 8 for sample in both]
    kinds = {
        "pcm16-stereo": lambda p: write(p, 1, 2, 4, 16, b"", 0, struct.pack(f"<{len(whole)}h", *whole), seconds),
        "pcm16-mono": lambda p: write(p, 1, 1, 2, 16, b"", 0, struct.pack(f"<{RATE}h", *whole[::2]), seconds),
        "pcm24-stereo": lambda p: write(p, 1, 2, 6, 24, b"", 0,
                                        b"".join((s & 0xFFFFFF).to_bytes(3, "little") for s in both), seconds),
        "alaw-stereo": lambda p: write(p, 6, 2, 2, 8, b"\0\0", RATE, bytes(map(alaw, both)), seconds),
        "ima-stereo": lambda p: write_ima(p, ima_blocks(whole), seconds),
    }
    for name in sys.argv[3:] or kinds:
        kinds[name](directory / f"{name}.wav")


def write_ima(path, blocks, seconds):
    frames = len(blocks) // IMA_ALIGN * (IMA_ALIGN - 8 + 1)
    write(path, 17, 2, IMA_ALIGN, 4, struct.pack("<HH", 2, IMA_ALIGN - 8 + 1), frames, blocks, seconds)


main()
