#!/usr/bin/env python3
"""What checking a table costs, in instructions, as tables grow.

Feeds tables of growing size to the compiled test program crates/tables_test/out/tables_test (made by `rt run` in crates/tables_test) under
`valgrind --tool=callgrind`, which counts instructions and not seconds. The cost of one table is the difference between a
run on eleven copies and a run on one, over ten; so it includes reading the table's text, which grows with its words.
"""
import os
import re
import subprocess
import sys
import tempfile

PROGRAM = os.path.join(os.path.dirname(os.path.abspath(__file__)), "..", "crates", "tables_test", "out", "tables_test")


def spine(n):
    """A spine of parallels: n nodes (odd), every leaf an output of a 3-word value."""
    nodes = []
    for k in range(0, n - 1, 2):
        nodes.append((1, k + 1, k + 2, 0, 0))
        nodes.append((4, 1, 0, 0, 0))
    nodes.append((4, 1, 0, 0, 0))
    return nodes, [4000002, 10, 10]


def inputs(n):
    """Nested inputs with wildcard patterns: n nodes, the last nil."""
    return [(5, 1, 0, 0, k + 1) for k in range(n - 1)] + [(0, 0, 0, 0, 0)], [4999999]


def scopes(n):
    """Eight bound names over a spine of outputs that use them in a 16-word value."""
    nodes = [(3, 10 + k, k + 1, 0, 0) for k in range(8)]
    body, _ = spine(n - 8)
    for kind, a, b, c, d in body:
        nodes.append((1, a + 8, b + 8, 0, 0) if kind == 1 else (4, 17, 0, 0, 0))
    return nodes, [4000015] + [17] * 15


def text(nodes, pool, copies):
    words = " ".join(str(w) for node in nodes for w in node)
    one = "T t\nN %s\nV %s\n.\n" % (words, " ".join(map(str, pool)))
    return (one * copies).encode()


def instructions(data):
    with tempfile.TemporaryDirectory() as folder:
        run = subprocess.run(
            ["valgrind", "--tool=callgrind", "--callgrind-out-file=" + os.path.join(folder, "out"), PROGRAM],
            input=data, capture_output=True, check=True)
        if b"refused" in run.stdout:
            sys.exit("a table of the benchmark was refused: " + run.stdout.decode()[:200])
        return int(re.search(rb"Collected : (\d+)", run.stderr).group(1))


def main():
    print("%-28s %6s %14s %14s" % ("tables", "nodes", "instructions", "for each node"))
    for name, make in (("a spine of parallels", spine), ("nested inputs", inputs), ("eight names, 16-word values", scopes)):
        for n in (32, 64, 128, 256):
            nodes, pool = make(n - 1 if make is not inputs else n)
            cost = (instructions(text(nodes, pool, 11)) - instructions(text(nodes, pool, 1))) // 10
            print("%-28s %6d %14d %14d" % (name, len(nodes), cost, cost // len(nodes)))


main()
