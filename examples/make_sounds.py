#!/usr/bin/env python3
"""Writes the sound files of the examples, each into its directory beside this script. They depend on nothing but Python:
the encoders of G.711 and IMA ADPCM are the plainest ones, here and nowhere else in the repository."""
import math
import os
import struct

HERE = os.path.dirname(os.path.abspath(__file__))


def bell(rate, seconds, hertz):
    """A struck bell: four partials that die away. Samples are on the scale of 16 bits."""
    for t in range(int(rate * seconds)):
        s = t / rate
        yield 9000 * sum(math.exp(-s * (2 + 2 * k)) * math.sin(2 * math.pi * hertz * p * s) / (k + 1)
                         for k, p in enumerate((1.0, 2.76, 5.4, 8.93)))


def pluck(rate, seconds, hertz, loudness=9000):
    """A plucked string: five harmonics that die away, and a last tenth that fades to silence."""
    count = int(rate * seconds)
    for t in range(count):
        s = t / rate
        fade = min(1, (count - t) / (count / 10))
        yield fade * loudness * sum(math.exp(-s * (3 + k)) * math.sin(2 * math.pi * hertz * k * s) / k for k in range(1, 6))


def drum(rate, seconds):
    """A low drum: a sine that falls from 160 Hz to 50 Hz and dies away."""
    phase = 0
    for t in range(int(rate * seconds)):
        s = t / rate
        phase += 2 * math.pi * (50 + 110 * math.exp(-s * 30)) / rate
        yield 15000 * math.exp(-s * 12) * math.sin(phase)


def held(x, bits):
    return max(-(1 << bits - 1), min((1 << bits - 1) - 1, round(x)))


def write(path, tag, channels, rate, align, bits, data, more=b"", chunks=b""):
    """A WAVE file: `fmt ` with `more` at its end, then other chunks, then `data` with its pad byte."""
    form = struct.pack("<HHIIHH", tag, channels, rate, rate * align if tag != 17 else rate * align // block_frames(align, channels),
                       align, bits) + more
    body = b"WAVE" + struct.pack("<4sI", b"fmt ", len(form)) + form + chunks
    body += struct.pack("<4sI", b"data", len(data)) + data + bytes(len(data) % 2)
    with open(os.path.join(HERE, path), "wb") as f:
        f.write(struct.pack("<4sI", b"RIFF", len(body)) + body)


def write_pcm16(path, rate, channels, samples):
    write(path, 1, channels, rate, 2 * channels, 16, b"".join(struct.pack("<h", held(s, 16)) for s in samples))


def write_pcm24(path, rate, channels, samples):
    data = b"".join(struct.pack("<i", held(256 * s, 24))[:3] for s in samples)
    write(path, 1, channels, rate, 3 * channels, 24, data)


# ---- ITU-T G.711: of the 256 codes the one whose value is nearest

def alaw_value(code):
    code ^= 0x55
    e, m = code >> 4 & 7, code & 15
    magnitude = 16 * m + 8 if e == 0 else (16 * m + 264) << e - 1
    return magnitude if code & 0x80 else -magnitude


def ulaw_value(code):
    code ^= 0xFF
    e, m = code >> 4 & 7, code & 15
    magnitude = (8 * m + 132 << e) - 132
    return -magnitude if code & 0x80 else magnitude


def write_g711(path, tag, value, rate, samples):
    codes = sorted((value(code), code) for code in range(256))

    def nearest(x):
        return min(codes, key=lambda pair: abs(pair[0] - x))[1]

    data = bytes(nearest(s) for s in samples)
    write(path, tag, 1, rate, 1, 8, data, struct.pack("<H", 0), struct.pack("<4sII", b"fact", 4, len(data)))


# ---- IMA ADPCM

STEPS = [7, 8, 9, 10, 11, 12, 13, 14, 16, 17, 19, 21, 23, 25, 28, 31, 34, 37, 41, 45, 50, 55, 60, 66, 73, 80, 88, 97, 107, 118,
         130, 143, 157, 173, 190, 209, 230, 253, 279, 307, 337, 371, 408, 449, 494, 544, 598, 658, 724, 796, 876, 963, 1060,
         1166, 1282, 1411, 1552, 1707, 1878, 2066, 2272, 2499, 2749, 3024, 3327, 3660, 4026, 4428, 4871, 5358, 5894, 6484, 7132,
         7845, 8630, 9493, 10442, 11487, 12635, 13899, 15289, 16818, 18500, 20350, 22385, 24623, 27086, 29794, 32767]
CHANGES = [-1, -1, -1, -1, 2, 4, 6, 8]


def block_frames(align, channels):
    return 2 * (align - 4 * channels) // channels + 1


def ima_code(predictor, index, x):
    """The code that comes nearest to x from here, and the predictor and the index after it."""
    step, code, difference = STEPS[index], 0, STEPS[index] >> 3
    left = abs(x - predictor)
    for bit, part in ((4, step), (2, step >> 1), (1, step >> 2)):
        if left >= part:
            code, left, difference = code | bit, left - part, difference + part
    sign = 8 if x < predictor else 0
    predictor = held(predictor - difference if sign else predictor + difference, 16)
    return code | sign, predictor, max(0, min(88, index + CHANGES[code]))


def write_ima(path, rate, channels, align, sides):
    """`sides` has a list of samples for each channel. The last block is filled up with silence, and `fact` has the frames."""
    per_block, frames = block_frames(align, channels), len(sides[0])
    sides = [[held(s, 16) for s in side] + [0] * (-frames % per_block) for side in sides]
    index, data = [0] * channels, b""
    for start in range(0, len(sides[0]), per_block):
        nibbles = []
        for c, side in enumerate(sides):
            predictor, codes = side[start], []
            data += struct.pack("<hBB", predictor, index[c], 0)
            for x in side[start + 1:start + per_block]:
                code, predictor, index[c] = ima_code(predictor, index[c], x)
                codes.append(code)
            nibbles.append(codes)
        for group in range(0, per_block - 1, 8):
            for codes in nibbles:
                data += bytes(codes[i] | codes[i + 1] << 4 for i in range(group, group + 8, 2))
    write(path, 17, channels, rate, align, 4, data, struct.pack("<HH", 2, per_block),
          struct.pack("<4sII", b"fact", 4, frames))


# ---- the files

write_pcm16("first/bell.wav", 16000, 1, bell(16000, 1.5, 440))

write_pcm16("groups/drum.wav", 16000, 1, drum(16000, 0.5))
write_pcm16("groups/tune.wav", 16000, 1, [s for hertz in (262, 330, 392, 523) for s in pluck(16000, 0.5, hertz, 5000)])

write_g711("formats/alaw.wav", 6, alaw_value, 8000, pluck(8000, 0.5, 262))
write_g711("formats/ulaw.wav", 7, ulaw_value, 8000, pluck(8000, 0.5, 330))
write_ima("formats/ima.wav", 22050, 2, 256, [list(pluck(22050, 0.5, 392)), list(pluck(22050, 0.5, 392, 3000))])
write_pcm24("formats/pcm24.wav", 32000, 1, pluck(32000, 0.5, 523))
