"""The measuring of bench/run.sh, in the directory that it made.

Usage: measure.py SCENETOOL RUNS SECONDS COMPILER..     (the programs of the compilers are ./COMPILER,
and ./used is that of bench/used.c)
"""
import filecmp
import pathlib
import re
import shutil
import statistics
import subprocess
import sys

scenetool, runs, seconds, compilers = sys.argv[1], int(sys.argv[2]), int(sys.argv[3]), sys.argv[4:]
differences = []


def run(words):
    """The status, what was printed, and wall seconds, processor seconds and peak MiB of one run."""
    told = subprocess.run(["./used", "printed", *words], check=True, capture_output=True, text=True).stdout.split()
    return int(told[0]), pathlib.Path("printed").read_text(), (float(told[1]), float(told[2]), int(told[3]) / 1024)


def medians(programs, status):
    """The medians of each program, run in turn; all of them are to end with that status and print the same."""
    found, printed = {name: [] for name in programs}, {}
    for _ in range(runs):
        for name, words in programs.items():
            code, printed[name], numbers = run(words)
            if code != status:
                differences.append(f"{' '.join(words)}: status {code}, not {status}: {printed[name]}")
            found[name].append(numbers)
    ours = printed.pop("scenetool")
    for name, theirs in printed.items():
        if theirs != ours and name != "sox":
            differences.append(f"{name} printed {theirs!r}, and scenetool {ours!r}")
    return {name: [statistics.median(column) for column in zip(*rows)] for name, rows in found.items()}


def instructions(words):
    """The instructions of a run, in millions, by callgrind, or None where it counted none."""
    told = subprocess.run(["valgrind", "--tool=callgrind", "--callgrind-out-file=/dev/null", *words],
                          capture_output=True, text=True).stderr
    count = re.search(r"refs:\s+([\d,]+)", told)
    return int(count[1].replace(",", "")) / 1e6 if count else None


def programs_for(script, out, sox=None):
    """How each program is called."""
    words = {"scenetool": [scenetool, "mix", script, f"scenetool{out}"]}
    for name in compilers:
        words[name] = [f"./{name}", "mix", script, f"{name}{out}"]
    if sox and shutil.which("sox"):
        words["sox"] = sox
    return words


def one_sound(script, file, rate, frames):
    """Writes the script of a scene of one stereo sound, a little softer."""
    pathlib.Path(script).write_text(
        f'version = 1\nrate = {rate}\nchannels = 2\nwidth = 24\nlength = {frames}\n'
        f'[[resource]]\nname = "r"\nfile = "{file}"\n'
        '[[node]]\nkind = "sound"\nname = "s"\nresource = "r"\n'
        '[[bus]]\nnode = "s"\nto = "endpoint"\ngain = 49152\n')


def full_script(script, size):
    """Writes a script with as much of everything as a scene may have, and a comment up to `size` bytes. Its sounds play
    into a chain of splitters, all of whose buses go to the next one, and its edits detach and attach buses of the chain."""
    text = ['version = 1', 'rate = 48000', 'channels = 2', 'width = 24', 'length = 48000']
    for i in range(64):
        text += ['[[resource]]', f'name = "resource-{i}"', f'file = "no-such-file-{i}.wav"']
    for i in range(64):
        text += ['[[node]]', 'kind = "sound"', f'name = "sound-{i}"', f'resource = "resource-{i}"', 'loop = true']
    for i in range(64):
        text += ['[[node]]', 'kind = "splitter"', f'name = "splitter-{i}"', 'outputs = 3']
    targets = [(f"splitter-{i}", k, f"splitter-{i + 1}" if i < 63 else "endpoint") for i in range(64) for k in range(3)]
    for node, out, to in [(f"sound-{i}", 0, "splitter-0") for i in range(64)] + targets:
        text += ['[[bus]]', f'node = "{node}"', f'out = {out}', f'to = "{to}"', 'gain = 20000']
    for e in range(4096):
        node, out, to = targets[e // 2 * 7 % len(targets)]
        text += ['[[edit]]', 'op = "detach"' if e % 2 == 0 else 'op = "attach"', f'at = {e * 11}', f'node = "{node}"', f'out = {out}']
        text += [f'to = "{to}"'] if e % 2 else []
    text = '\n'.join(text) + '\n'
    rest = max(0, size - len(text))
    line = '# ' + 'as a comment, nothing is said here ' * 2 + '\n'
    padding = line * (rest // len(line)) + '#' * (rest % len(line))
    pathlib.Path(script).write_text(text + padding)


def ratios(name, measured, counts):
    """The rows of the table for one workload."""
    ours = measured["scenetool"]
    for other in measured:
        if other == "scenetool":
            continue
        theirs = measured[other]
        count = f"{counts['scenetool'] / counts[other]:.2f}" if counts.get("scenetool") and counts.get(other) else "-"
        print(f"| {name} | {other} | {ours[0]:.3f} | {theirs[0]:.3f} | {ours[0] / theirs[0]:.2f} | {ours[1] / theirs[1]:.2f} |"
              f" {count} | {ours[2]:.1f} | {theirs[2]:.1f} | {ours[2] / theirs[2]:.2f} |", flush=True)


def mixes(name, script, short, sox=None):
    """Measures a scene, and counts the instructions of a short one of its kind."""
    measured = medians(programs_for(script, ".wav", sox), 0)
    counts = {}
    if short and shutil.which("valgrind"):
        counts = {program: instructions(words) for program, words in programs_for(short, "-short.wav").items()}
    for out in [".wav"] + (["-short.wav"] if counts else []):
        for program in compilers:
            if not filecmp.cmp(f"scenetool{out}", f"{program}{out}", shallow=False):
                differences.append(f"{name}: {program}{out} differs")
    ratios(name, measured, counts)


print(f"medians of {runs} runs; files of {seconds} seconds; seconds of wall time; peak memory in MiB")
print("| Workload | Against | scenetool, s | other, s | Wall | Processor | Instructions | scenetool, MiB | other, MiB | Memory |")
print("|---|---|---|---|---|---|---|---|---|---|")

short = pathlib.Path("gen.toml").read_text().replace("length = 480000", "length = 96000")
pathlib.Path("gen-short.toml").write_text(short)
mixes("gen 1", "gen.toml", "gen-short.toml")
for name, file, rate in (
    ("PCM 16", "pcm16-stereo", 44100),
    ("PCM 16 to 48000 Hz", "pcm16-stereo", 48000),
    ("PCM 24", "pcm24-stereo", 44100),
    ("A-law", "alaw-stereo", 44100),
    ("IMA ADPCM", "ima-stereo", 44100),
):
    one_sound("single.toml", f"{file}.wav", rate, rate * seconds)
    one_sound("short.toml", f"short/{file}.wav", rate, rate * 2)
    sox = ["sox", "-D", f"{file}.wav", "-b", "24", "sox.wav", "vol", "0.75"]
    mixes(name, "single.toml", "short.toml", sox + (["rate", "-q", str(rate)] if rate != 44100 else []))
for name, size in (("a full script, read", 0), ("the same of 4 MiB, read", 4194304)):
    full_script("full.toml", size)
    ratios(name, medians(programs_for("full.toml", ".wav"), 4), {})

print("bytes and lines: the same" if not differences else "DIFFERENCES:\n" + "\n".join(differences))
sys.exit(bool(differences))
