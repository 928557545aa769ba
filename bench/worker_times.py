"""The measuring of bench/workers.sh, in the directory that it made.

Usage: worker_times.py SCENETOOL SCENERENDER RUNS     (gen.toml and its files and ima-stereo.wav are there already)
"""
import pathlib
import shutil
import statistics
import subprocess
import sys
import time

scenetool, scenerender, runs = sys.argv[1], sys.argv[2], int(sys.argv[3])
WORKERS = ["0", "1", "2", "3"]
FILES = 8


def decoding():
    """Eight stereo files of IMA ADPCM, of which two seconds are heard."""
    rows = ["version = 1\nrate = 44100\nchannels = 2\nwidth = 16\nlength = 88200\n"]
    for k in range(FILES):
        shutil.copy("ima-stereo.wav", f"ima-{k}.wav")
        rows.append(f'[[resource]]\nname = "r{k}"\nfile = "ima-{k}.wav"\n')
    for k in range(FILES):
        rows.append(f'[[node]]\nkind = "sound"\nname = "s{k}"\nresource = "r{k}"\n')
    for k in range(FILES):
        rows.append(f'[[bus]]\nnode = "s{k}"\nto = "endpoint"\ngain = 8192\n')
    pathlib.Path("decoding.toml").write_text("".join(rows))


def run(words, out):
    """The line and the wall seconds of one run, which writes OUT."""
    start = time.perf_counter()
    line = subprocess.run(words, check=True, capture_output=True).stdout
    return line, pathlib.Path(out).read_bytes(), time.perf_counter() - start


def compare(script, title):
    """A row of the table; whether all bytes and lines were the same."""
    programs = {"mix": [scenetool, "mix", script, "out.wav"]}
    programs |= {n: [scenerender, "render", script, "out.wav", n] for n in WORKERS}
    times, told = {name: [] for name in programs}, set()
    for _ in range(runs):
        for name, words in programs.items():
            line, out, seconds = run(words, "out.wav")
            told.add((line, out))
            times[name].append(seconds)
    medians = {name: statistics.median(column) for name, column in times.items()}
    ratios = " | ".join(f"{medians[n] / medians['mix']:.2f}" for n in WORKERS)
    print(f"| {title} | {medians['mix'] * 1000:.0f} | {ratios} |", flush=True)
    return len(told) == 1


decoding()
print("| Workload | mix, ms | 0 workers | 1 | 2 | 3 |")
print("|---|---|---|---|---|---|")
same = [
    compare("gen.toml", "gen 1"),
    compare("decoding.toml", f"{FILES} stereo files of IMA ADPCM, two seconds heard"),
]
if not all(same):
    sys.exit("DIFFERENT bytes or lines")
print("bytes and lines: the same")
