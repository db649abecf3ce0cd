#!/usr/bin/env python3
"""What the program takes for a byte that it reads, in two builds beside each other.

    python3 benchmarks/reading.py BEFORE [AFTER]

BEFORE and AFTER are compiled programs; AFTER is crates/bench/out/bench where it is not given. Instructions are counted by
callgrind, and CPU time is taken, as in ratios.py, in one run for both. The first table is of inputs that differ in their
length alone, none of which runs a step: the difference of two counts, by the bytes that one input is longer, is what a byte
takes. The second is of whole inputs, those among them. Two outputs that differ are an error.
"""
import sys

from ratios import BENCH, BYTES, VECTORS, by_turns, counted, heading, largest, row


def field(byte, last=b""):
    """A line of a letter and one long field, as long as asked."""
    return lambda size: b"W\t" + byte * (size - 3 - len(last)) + last + b"\n"


def lines(line):
    """Lines of steps, the last one at fault, about as long as asked."""
    return lambda size: b"W\t1\n" + line * ((size - 6) // len(line)) + b"x\n"


# what grows, how an input of some size is made, and two sizes
KINDS = [
    ("a field that is no number", field(b"x"), BYTES // 2, BYTES),
    ("a number's leading zeros", field(b"0", b"1"), BYTES // 2, BYTES),
    ("steps of five fields with one digit each", lines(b"S\t2\t1\t0\t0\n"), 5000, 10000),
    ("steps of 17 value words of seven digits", lines(b"S\t1\t1\t0\t0" + b"\t4000015" * 17 + b"\n"), BYTES // 2, BYTES),
]


def counts(programs, data):
    """The instructions of each program on an input."""
    found = [counted(program, data, VECTORS) for program in programs]
    if found[0][1] != found[1][1]:
        sys.exit("two outputs differ")
    return [count for count, _ in found]


def main():
    if not 2 <= len(sys.argv) <= 3:
        sys.exit(__doc__)
    programs = [sys.argv[1], sys.argv[2] if len(sys.argv) == 3 else BENCH]
    heading("instructions for a byte of", "before", "after", "ratio")
    for name, make, small, large in KINDS:
        short, long = make(small), make(large)
        pairs = zip(counts(programs, short), counts(programs, long))
        before, after = [(more - less) / (len(long) - len(short)) for less, more in pairs]
        row(name, "%.2f" % before, "%.2f" % after, "%.2f" % (after / before))
    heading("input", "bytes", "instructions before", "after", "ratio", "CPU time before, µs", "after", "ratio")
    longest = [(name, make(large)) for name, make, _, large in KINDS]
    for name, data in [("nothing", b"")] + longest + [(name, data) for name, data, _ in largest()]:
        before, after = counts(programs, data)
        was, takes = by_turns(*[(program, data) for program in programs])
        row(name, len(data), before, after, "%.3f" % (after / before), round(was), round(takes), "%.2f" % (takes / was))


main()
