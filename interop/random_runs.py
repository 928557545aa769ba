"""Runs a comparison on random inputs by their numbers, and counts the refusals: for random_waves.py and random_scripts.py."""
import collections
import sys


def run(what, compare):
    """Takes the words SCENETOOL, COUNT and FIRST. compare(SCENETOOL, NUMBER) answers the fault that both found, or None, and
    what differs, or None."""
    scenetool, count, first = sys.argv[1], int(sys.argv[2]), int(sys.argv[3])
    refused = collections.Counter()
    for number in range(first, first + count):
        fault, difference = compare(scenetool, number)
        if difference is not None:
            sys.exit(f"{what} {number}: {difference}")
        if fault is not None:
            refused[str(fault).split()[0]] += 1
    names = ", ".join(f"{name} {times}" for name, times in sorted(refused.items()))
    print(f"{count} random {what}s from number {first} on: the same answers, {sum(refused.values())} refusals ({names})")
