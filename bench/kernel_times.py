"""Times programs that do the same job in rounds and print a checksum.

Usage: kernel_times.py ROUNDS UNIT NAME=COMMAND.. -- LABEL:WORDS:ROUND:PART..

Each job runs `COMMAND WORDS N`. COMMAND is a program, and may go on with words that this program alone is given. ROUND is how
many units a round does, and PART the part of ROUNDS that the job takes. For each job it prints nanoseconds a unit, and the
ratio of the first program to each other one, by the least and in brackets by the median of eleven runs, which are taken in
turn. A time is the processor time that the rounds take more than none. It ends with status 1 where checksums differ."""
import resource
import statistics
import subprocess
import sys

RUNS = 11


def run(command, words, rounds):
    """The checksum, and the processor seconds of one run."""
    before = resource.getrusage(resource.RUSAGE_CHILDREN)
    out = subprocess.run(command.split() + words.split() + [str(rounds)], check=True, capture_output=True)
    after = resource.getrusage(resource.RUSAGE_CHILDREN)
    return out.stdout.strip(), after.ru_utime + after.ru_stime - before.ru_utime - before.ru_stime


def measured(programs, words, rounds, units):
    """Of each program: its checksums of no rounds and of all, and nanoseconds a unit, least and median."""
    seconds = {name: ([], []) for name in programs}
    sums = {name: [None, None] for name in programs}
    for _ in range(RUNS):
        for name, command in programs.items():
            for at, n in enumerate((0, rounds)):
                sums[name][at], spent = run(command, words, n)
                seconds[name][at].append(spent)
    return {name: (sums[name], [(of(full) - of(none)) / units * 1e9 for of in (min, statistics.median)])
            for name, (none, full) in seconds.items()}


def main():
    rounds, unit, rest = int(sys.argv[1]), sys.argv[2], sys.argv[3:]
    programs = dict(word.split("=", 1) for word in rest[:rest.index("--")])
    failed = False
    for job in rest[rest.index("--") + 1:]:
        label, words, units, part = job.split(":")
        count = max(1, rounds // int(part))
        (first, (sums, ours)), *others = measured(programs, words, count, count * int(units)).items()
        print(f"{label}: {first} {ours[0]:.2f} ({ours[1]:.2f}) ns a {unit}")
        for name, (their_sums, theirs) in others:
            failed |= sums != their_sums
            print(f"  {name} {theirs[0]:.2f} ({theirs[1]:.2f}), ratio {ours[0] / theirs[0]:.2f} ({ours[1] / theirs[1]:.2f}),"
                  f" checksums {'agree' if sums == their_sums else 'DIFFER'}")
    return failed


sys.exit(main())
