"""The comparing of interop/wave_files.sh, in a directory that goes away.

Usage: wave_files.py SCENETOOL
"""
import pathlib
import random
import re
import shutil
import struct
import subprocess
import sys

SCENETOOL = sys.argv[1]
RATE, FRAMES = 44100, 10001  # an odd number of frames, so that some data has an odd size
HAS = {tool: bool(shutil.which(tool)) for tool in ("sox", "soxi", "ffmpeg", "ffprobe", "sndfile-convert", "sndfile-info")}


def run(*words, into=None):
    """What a command printed. With `into`, its standard output goes through a pipe to that file."""
    done = subprocess.run(words, check=True, capture_output=True)
    if into:
        pathlib.Path(into).write_bytes(done.stdout)
    return done.stdout.decode(errors="replace")


# ---- The files ----

def source(channels):
    """A plain file of 32 bits to encode from: noise in all bits with a tone, and the greatest and least samples."""
    noise = random.Random(channels)
    samples = [noise.choice((-2**31, 2**31 - 1)) if k % 97 == 0 else noise.randrange(-2**31, 2**31) >> noise.randrange(12)
               for k in range(FRAMES * channels)]
    data = struct.pack(f"<{len(samples)}i", *samples)
    name = f"source{channels}.wav"
    pathlib.Path(name).write_bytes(
        struct.pack("<4sI4s4sIHHIIHH4sI", b"RIFF", 36 + len(data), b"WAVE", b"fmt ", 16, 1, channels, RATE,
                    RATE * 4 * channels, 4 * channels, 32, b"data", len(data)) + data)
    return name


SOX = {"pcm8": "-b 8 -e unsigned", "pcm16": "-b 16 -e signed", "pcm24": "-b 24 -e signed", "pcm32": "-b 32 -e signed",
       "alaw": "-e a-law", "ulaw": "-e mu-law", "ima": "-e ima-adpcm"}
FFMPEG = {"pcm8": "pcm_u8", "pcm16": "pcm_s16le", "pcm24": "pcm_s24le", "pcm32": "pcm_s32le", "alaw": "pcm_alaw",
          "ulaw": "pcm_mulaw", "ima": "adpcm_ima_wav"}
SNDFILE = {"pcm8": "-pcmu8", "pcm16": "-pcm16", "pcm24": "-pcm24", "pcm32": "-pcm32", "alaw": "-alaw", "ulaw": "-ulaw",
           "ima": "-ima-adpcm"}


def files():
    """Writes all files, and gives for each what it is and its name."""
    for channels in (1, 2):
        name, count = source(channels), ("mono", "stereo")[channels - 1]
        for kind in SOX:
            pcm = kind.startswith("pcm")
            if HAS["sox"]:
                sox = ["sox", "-D", name, *SOX[kind].split()]
                run(*sox, f"sox-{kind}-{channels}.wav")
                yield f"sox {kind} {count}", f"sox-{kind}-{channels}.wav"
                run(*sox, "-t", "wav", "-", into=f"sox-{kind}-{channels}-pipe.wav")
                yield f"sox {kind} {count}, through a pipe", f"sox-{kind}-{channels}-pipe.wav"
            if HAS["sox"] and kind in ("pcm24", "pcm32"):  # of these SoX writes the extensible form where it isn't told
                run(*sox, "-t", "wavpcm", f"sox-{kind}-{channels}-plain.wav")
                yield f"sox {kind} {count}, plain", f"sox-{kind}-{channels}-plain.wav"
            if HAS["ffmpeg"]:
                ffmpeg = ["ffmpeg", "-v", "error", "-y", "-i", name, "-metadata", "title=a title", "-c:a", FFMPEG[kind]]
                run(*ffmpeg, f"ffmpeg-{kind}-{channels}.wav")
                yield f"ffmpeg {kind} {count}, with LIST", f"ffmpeg-{kind}-{channels}.wav"
                run(*ffmpeg, "-f", "wav", "-", into=f"ffmpeg-{kind}-{channels}-pipe.wav")
                yield f"ffmpeg {kind} {count}, through a pipe", f"ffmpeg-{kind}-{channels}-pipe.wav"
                run(*ffmpeg, "-rf64", "always", f"ffmpeg-{kind}-{channels}-rf64.wav")
                yield f"ffmpeg {kind} {count}, RF64", f"ffmpeg-{kind}-{channels}-rf64.wav"
            if HAS["sndfile-convert"]:
                for form in ("wav",) + (("wavex", "rf64") if pcm else ()):
                    run("sndfile-convert", SNDFILE[kind], name, f"sndfile-{kind}-{channels}.{form}")
                    yield f"sndfile {kind} {count}, {form}", f"sndfile-{kind}-{channels}.{form}"
        yield f"{count} of 32 bits, with chunks before and after", with_chunks(name, f"chunks{channels}.wav")


def with_chunks(name, new):
    """The same file with chunks of odd sizes before and after its data."""
    file = pathlib.Path(name).read_bytes()
    data = file.index(b"data")
    odd = b"LIST" + struct.pack("<I", 25) + b"INFOISFT" + struct.pack("<I", 13) + b"an odd number" + b"\0"
    other = b"junk" + struct.pack("<I", 3) + b"abc\0"
    body = file[8:data] + other + odd + file[data:] + odd + other
    pathlib.Path(new).write_bytes(b"RIFF" + struct.pack("<I", len(body)) + body)
    return new


# ---- What the tools say of a file: channels, rate, width, frames, where they say it ----

def scenetool_info(name):
    told = run(SCENETOOL, "info", name)
    number = {key: int(value) for key, value in re.findall(r"(channels|rate|width|frames) (\d+)", told)}
    return number["channels"], number["rate"], number["width"], number["frames"]


def soxi(name):
    return tuple(int(run("soxi", flag, name) or 0) for flag in ("-c", "-r", "-b", "-s"))


def ffprobe(name):
    told = run("ffprobe", "-v", "error", "-show_entries", "stream=channels,sample_rate,bits_per_sample,duration_ts",
               "-of", "default=nw=1", name)
    number = {key: int(value) for key, value in re.findall(r"(\w+)=(\d+)", told)}
    return number["channels"], number["sample_rate"], number["bits_per_sample"], number.get("duration_ts")


def sndfile_info(name):
    told = run("sndfile-info", name)
    number = {key: int(value) for key, value in re.findall(r"^\s*(Channels|Sample Rate|Bit Width|Frames)\s*: (\d+)", told, re.M)}
    return number["Channels"], number["Sample Rate"], number.get("Bit Width"), number["Frames"]


# ---- What they play of it: bytes of 24-bit samples ----

def scenetool_mix(name, channels, frames):
    pathlib.Path("scene.toml").write_text(
        f'version = 1\nrate = {RATE}\nchannels = {channels}\nwidth = 24\nlength = {frames}\n'
        f'[[resource]]\nname = "r"\nfile = "{name}"\n[[node]]\nkind = "sound"\nname = "s"\nresource = "r"\n'
        '[[bus]]\nnode = "s"\nto = "endpoint"\n')
    run(SCENETOOL, "mix", "scene.toml", "mixed.wav")
    return pathlib.Path("mixed.wav").read_bytes()[44:44 + 3 * channels * frames]


def sox_raw(name):
    run("sox", "-D", name, "-t", "raw", "-e", "signed", "-b", "24", "-L", "decoded.raw")
    return pathlib.Path("decoded.raw").read_bytes()


def ffmpeg_raw(name):
    run("ffmpeg", "-v", "error", "-y", "-i", name, "-f", "s24le", "-c:a", "pcm_s24le", "decoded.raw")
    return pathlib.Path("decoded.raw").read_bytes()


def sndfile_raw(name):
    run("sndfile-convert", "-pcm24", "-endian=little", name, "decoded.raw")
    return pathlib.Path("decoded.raw").read_bytes()


def samples(data):
    return [int.from_bytes(data[k:k + 3], "little", signed=True) for k in range(0, len(data) - 2, 3)]


TOOLS = (("soxi", soxi, "sox", sox_raw), ("ffprobe", ffprobe, "ffmpeg", ffmpeg_raw),
         ("sndfile-info", sndfile_info, "sndfile-convert", sndfile_raw))


# ---- What differs, and why ----

ROUNDED = "SoX rounds 32 bits to the nearest of 24; scenetool rounds down"
LEFT_OPEN = "a size that was left open for a pipe: SoX counts it whole, and FFmpeg guesses the frames of IMA"
NO_FACT = "SoX and libsndfile count all frames of IMA's blocks; scenetool those that the file's `fact` says"
HALF_FACT = "libsndfile says half of the frames of stereo IMA in `fact`, and scenetool plays what `fact` says"
MULTIPLIED = "FFmpeg's IMA multiplies where the recommendation adds shifted steps, so samples run apart"
NOT_READ = "libsndfile reads no IMA in RF64"


def reason_of_field(what, field, teller, ours, theirs):
    """Why a tool says something else than scenetool does, where that is known."""
    if field != "frames":
        return None
    if "sndfile ima stereo" in what and theirs >= 2 * ours:
        return HALF_FACT
    if "through a pipe" in what and (teller == "soxi" or "ima" in what):
        return LEFT_OPEN if "ffmpeg" in what else NO_FACT
    return NO_FACT if "ima" in what and teller != "ffprobe" and theirs > ours else None


def reason_of_sound(what, player, ours, theirs, most):
    """Why a tool plays something else than scenetool does, where that is known: `most` is the greatest difference."""
    if "ima" in what and player == "ffmpeg":
        return MULTIPLIED if len(ours) <= len(theirs) else None
    if "ima" in what and most == 0 and len(ours) < len(theirs):
        return HALF_FACT if "sndfile ima stereo" in what else NO_FACT
    return ROUNDED if "32" in what and player == "sox" and most == 1 and len(ours) == len(theirs) else None


def fields(what, ours, teller, theirs):
    """What a tool says otherwise than scenetool does, and why."""
    return [(f"{what}: {field} {a}, and {teller} says {b}", reason_of_field(what, field, teller, a, b))
            for field, a, b in zip(("channels", "rate", "width", "frames"), ours, theirs) if b is not None and a != b]


def sounds(what, ours, player, theirs):
    """What a tool plays otherwise than scenetool does, and why."""
    if ours == theirs:
        return []
    a, b = samples(ours), samples(theirs)
    wrong = [abs(x - y) for x, y in zip(a, b) if x != y]
    most = max(wrong, default=0)
    return [(f"{what}: {len(a)} samples, and {player} plays {len(b)}; {len(wrong)} of the first ones differ, by {most} at most",
             reason_of_sound(what, player, a, b, most))]


def compare(what, name):
    """What the tools say and play of a file otherwise than scenetool does, and the number of comparisons."""
    ours = scenetool_info(name)
    played = scenetool_mix(name, ours[0], ours[3])
    found, count = [], 0
    for teller, info, player, raw in TOOLS:
        try:
            if HAS[teller]:
                count += 1
                found += fields(what, ours, teller, info(name))
            if HAS[player]:
                count += 1
                found += sounds(what, played, player, raw(name))
        except subprocess.CalledProcessError as error:
            known = "ffmpeg ima" in what and "RF64" in what and player == "sndfile-convert"
            said = error.stderr.decode(errors="replace").strip()[:200]
            found.append((f"{what}: {error.cmd[0]} refuses it: {said}", NOT_READ if known else None))
    return found, count


def main():
    compared, names, reasons, differences = 0, 0, {}, []
    for what, name in files():
        found, count = compare(what, name)
        compared, names = compared + count, names + 1
        for text, reason in found:
            if reason:
                reasons.setdefault(reason, []).append(text)
            else:
                differences.append(text)
    print(f"{names} files, {compared} comparisons")
    for reason, texts in reasons.items():
        print(f"known, {len(texts)} times: {reason}\n    for one, {texts[0]}")
    print("\n".join(["DIFFERENCES:"] + differences) if differences else "nothing else differs")
    sys.exit(bool(differences))


main()
