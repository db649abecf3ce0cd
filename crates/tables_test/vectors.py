#!/usr/bin/env python3
"""Writes this crate's stdin and stdout: tables, and what document 01 says of each.

The answers are worked out by hand from document 01, none is taken from a run. A table that passes has the counts that node 0
unfolds to (particles, boxes, new names), the names in force at its last node, and whether name 20 is used as a channel, tag or box
name where it is free.
"""
import os
import textwrap

NIL = [0, 0, 0, 0, 0]
out_in, out_vec = [], []


def par(l, r): return [1, l, r, 0, 0]
def box(n, b): return [2, n, b, 0, 0]
def new(n, b): return [3, n, b, 0, 0]
def out(c, g, v): return [4, c, g, v, 0]
def inp(c, g, p, b): return [5, c, g, p, b]
def rep(c, g, p, b): return [6, c, g, p, b]


def lines(letter, words):
    """A letter and words, over as many lines as they need."""
    return "\n".join(textwrap.wrap(" ".join([letter] + [str(w) for w in words]), 120))


def test(name, nodes, pool, answer):
    words = [w for n in nodes for w in (n if isinstance(n, list) else [n])]
    out_in.append("T%s\n%s\n%s\n.\n" % (name, lines("N", words), lines("V", pool)))
    out_vec.append("%s: %s\n" % (name, answer))


def no(number, node): return "refused %d %d" % (number, node)
def ok(particles=0, boxes=0, names=0, force=0, use="free"):
    return "passed %d %d %d %d %s" % (particles, boxes, names, force, use)


WILD = 4999999
def tup(k): return 4000000 + k


# ---- 1: words not a multiple of 5; 0 or over 256 nodes; pool over 1,024
test("1 no nodes", [], [], no(1, 0))
test("1 no nodes, a pool", [], [20], no(1, 0))
test("1 four words", [0, 0, 0, 0], [], no(1, 0))
test("1 one node", [NIL], [], ok())
test("1 six words", [0, 0, 0, 0, 0, 0], [], no(1, 0))
# a new over a spine of 127 parallels with 128 outputs: 1 + 127 + 128 nodes; parallels at 1, 3, .. 253
spine = [par(k + 1, k + 2) if k % 2 else out(1, 1, 0) for k in range(1, 255)] + [out(1, 1, 0)]
test("1 256 nodes, a spine of parallels", [new(3, 1)] + spine, [20], ok(128, 0, 1, 1))
more = [[n[0], n[1] + 1, n[2] + 1, 0, 0] if n[0] == 1 else n for n in spine]
test("1 257 nodes", [new(3, 1), new(3, 2)] + more, [20], no(1, 0))
test("1 1280 words of kind 7 and one more", [7] * 1281, [], no(1, 0))
test("1 pool of 1024 words", [NIL], [0] * 1024, ok())
test("1 pool of 1025 words", [NIL], [0] * 1025, no(1, 0))

# ---- 2: unknown kind, unused field not 0
test("2 kind 0", [NIL], [], ok())
test("2 kind 1", [par(1, 2), NIL, NIL], [], ok())
test("2 kind 2", [box(5, 1), NIL], [], ok(boxes=1))
test("2 kind 3", [new(5, 1), NIL], [], ok(names=1, force=1))
test("2 kind 4", [out(1, 1, 0)], [10], ok(particles=1))
test("2 kind 5", [inp(0, 1, 0, 1), NIL], [10], ok(particles=1, force=1))
test("2 kind 6", [rep(0, 1, 0, 1), NIL], [10], ok(particles=1, force=1))
test("2 kind 7", [[7, 0, 0, 0, 0]], [], no(2, 0))
test("2 kind 7 at node 1", [par(1, 2), [7, 0, 0, 0, 0], NIL], [], no(2, 1))
test("2 kind 4294967280", [[4294967280, 0, 0, 0, 0]], [], no(2, 0))
for f in (1, 2, 3, 4):
    n = list(NIL); n[f] = 1
    test("2 nil with field %d" % f, [n], [], no(2, 0))
for f in (3, 4):
    n = par(1, 2); n[f] = 1
    test("2 parallel with field %d" % f, [n, NIL, NIL], [], no(2, 0))
    n = box(5, 1); n[f] = 1
    test("2 box with field %d" % f, [n, NIL], [], no(2, 0))
    n = new(5, 1); n[f] = 1
    test("2 new with field %d" % f, [n, NIL], [], no(2, 0))
n = out(1, 1, 0); n[4] = 1
test("2 output with field 4", [n], [10], no(2, 0))

# ---- 3: child not above its parent or not in the table; a node other than 0 not a child exactly once
test("3 child is its parent", [box(5, 0)], [], no(3, 0))
test("3 child is lower", [box(5, 1), box(5, 0)], [], no(3, 1))
test("3 child is the last node", [box(5, 1), NIL], [], ok(boxes=1))
test("3 child is past the table", [box(5, 1)], [], no(3, 0))
test("3 right child is past the table", [par(1, 2), NIL], [], no(3, 0))
test("3 body is past the table", [inp(0, 1, 0, 1)], [10], no(3, 0))
test("3 body is its parent", [rep(0, 1, 0, 0)], [10], no(3, 0))
test("3 twice a child of one node", [par(1, 1), NIL], [], no(3, 1))
test("3 a child of two nodes", [par(1, 2), box(5, 3), box(5, 3), NIL], [], no(3, 3))
test("3 never a child", [NIL, NIL], [], no(3, 1))
test("3 a backward field counts: its child has two", [par(1, 2), NIL, box(5, 1)], [], no(3, 1))
test("3 a backward field counts: its child has one", [box(5, 2), NIL, box(5, 1)], [], no(3, 2))
test("3 a node that names itself counts", [box(5, 1), box(5, 1)], [], no(3, 1))
test("3 a field past the table counts nothing", [par(1, 4294967280), NIL], [], no(3, 0))
test("3 unused fields name no child", [out(1, 1, 1), NIL], [10, 11], no(3, 1))

# ---- 4: box, new or channel name over 63; tag over 65
test("4 box named 63", [box(63, 1), NIL], [], ok(boxes=1))
test("4 box named 64", [box(64, 1), NIL], [], no(4, 0))
test("4 new 63", [new(63, 1), NIL], [], ok(names=1, force=1))
test("4 new 64", [new(64, 1), NIL], [], no(4, 0))
test("4 output on 63", [out(63, 1, 0)], [10], ok(particles=1))
test("4 output on 64", [out(64, 1, 0)], [10], no(4, 0))
test("4 input on 63", [inp(63, 1, 0, 1), NIL], [10], ok(particles=1, force=1))
test("4 input on 64", [inp(64, 1, 0, 1), NIL], [10], no(4, 0))
test("4 replicated input on 64", [rep(64, 1, 0, 1), NIL], [10], no(4, 0))
test("4 output with tag 65", [out(1, 65, 0)], [10], ok(particles=1))
test("4 output with tag 66", [out(1, 66, 0)], [10], no(4, 0))
test("4 input with tag 65", [inp(0, 65, 0, 1), NIL], [10], ok(particles=1, force=1))
test("4 input with tag 66", [inp(0, 66, 0, 1), NIL], [10], no(4, 0))
test("4 replicated input with tag 66", [rep(0, 66, 0, 1), NIL], [10], no(4, 0))

# ---- 5: value or pattern malformed, over 16 words, past the pool, repeated name in a pattern
test("5 value at the last place", [out(1, 1, 1)], [0, 63], ok(particles=1))
test("5 value past the pool", [out(1, 1, 2)], [0, 63], no(5, 0))
test("5 value at a far place", [out(1, 1, 4294967280)], [0, 63], no(5, 0))
test("5 value in an empty pool", [out(1, 1, 0)], [], no(5, 0))
test("5 value of 16 words", [out(1, 1, 0)], [tup(15)] + [10] * 15, ok(particles=1))
test("5 value of 17 words", [out(1, 1, 0)], [tup(2), tup(14)] + [10] * 15, no(5, 0))
test("5 value of 16 words, nested", [out(1, 1, 0)], [tup(2), tup(13)] + [10] * 14, ok(particles=1))
test("5 value cut by the end of the pool", [out(1, 1, 0)], [tup(2), 10], no(5, 0))
test("5 the empty tuple", [out(1, 1, 0)], [tup(0)], ok(particles=1))
test("5 tuple word 4000016", [out(1, 1, 0)], [4000016] + [10] * 16, no(5, 0))
test("5 word 3999999", [out(1, 1, 0)], [3999999], no(5, 0))
test("5 name 64 in a value", [out(1, 1, 0)], [64], no(5, 0))
test("5 a minted name in a value", [out(1, 1, 0)], [65536], no(5, 0))
test("5 a wildcard in a value", [out(1, 1, 0)], [WILD], no(5, 0))
test("5 a wildcard in a pattern", [inp(0, 1, 0, 1), NIL], [WILD], ok(particles=1))
test("5 name 63 in a pattern", [inp(0, 1, 0, 1), NIL], [63], ok(particles=1, force=1))
test("5 name 64 in a pattern", [inp(0, 1, 0, 1), NIL], [64], no(5, 0))
test("5 pattern past the pool", [inp(0, 1, 1, 1), NIL], [10], no(5, 0))
test("5 pattern of 16 words", [inp(0, 1, 0, 1), NIL], [tup(15)] + [WILD] * 15, ok(particles=1))
test("5 pattern of 17 words", [inp(0, 1, 0, 1), NIL], [tup(2), tup(14)] + [WILD] * 15, no(5, 0))
test("5 two names in a pattern", [inp(0, 1, 0, 1), NIL], [tup(2), 10, 11], ok(particles=1, force=2))
test("5 a repeated name in a pattern", [inp(0, 1, 0, 1), NIL], [tup(2), 10, 10], no(5, 0))
test("5 a repeated name, nested", [rep(0, 1, 0, 1), NIL], [tup(2), 10, tup(2), WILD, 10], no(5, 0))
test("5 a repeated wildcard in a pattern", [inp(0, 1, 0, 1), NIL], [tup(2), WILD, WILD], ok(particles=1))
test("5 a repeated name in a value", [out(1, 1, 0)], [tup(2), 10, 10], ok(particles=1))
test("5 values that overlap", [par(1, 2), out(1, 1, 0), out(1, 1, 1)], [tup(2), tup(1), 10, 11], ok(particles=2))
test("5 a value that is a pattern too", [par(1, 2), out(1, 1, 0), inp(0, 1, 0, 3), NIL], [10], ok(particles=2, force=1))
test("5 a word that no value has", [out(1, 1, 0)], [10, 4294967280], ok(particles=1))

# ---- 6: over 8 bound names in force; the binder is not at fault, its body is
def news(k, body): return [new(10 + i, i + 1) for i in range(k)] + body
test("6 8 new", news(8, [NIL]), [], ok(names=8, force=8))
test("6 9 new", news(9, [NIL]), [], no(6, 9))
test("6 9 new of one name", [new(5, i + 1) for i in range(9)] + [NIL], [], no(6, 9))
test("6 10 new", news(10, [NIL]), [], no(6, 9))
test("6 a pattern of 8 names", [inp(0, 1, 0, 1), NIL], [tup(8)] + list(range(10, 18)), ok(particles=1, force=8))
test("6 a pattern of 9 names", [inp(0, 1, 0, 1), NIL], [tup(9)] + list(range(10, 19)), no(6, 1))
test("6 8 new over an output", news(8, [out(1, 1, 0)]), [10], ok(particles=1, names=8, force=8))
test("6 8 new over an input with a wildcard", news(8, [inp(0, 1, 0, 9), NIL]), [WILD], ok(particles=1, names=8, force=8))
test("6 8 new over an input with a name", news(8, [inp(0, 1, 0, 9), NIL]), [10], no(6, 9))
test("6 7 new over an input with a name", news(7, [inp(0, 1, 0, 8), NIL]), [10], ok(particles=1, names=7, force=8))
test("6 two branches over, the lower", news(8, [par(10, 9), new(5, 12), new(5, 11), NIL, NIL]), [], no(6, 11))
test("6 names of a branch end with it", news(7, [par(8, 10), new(5, 9), NIL, new(5, 11), NIL]), [], ok(names=9, force=8))

# ---- several faults: the lowest number, then the lowest node
test("2 before 3", [box(5, 0), NIL, [7, 0, 0, 0, 0]], [], no(2, 2))
test("3 before 4", [box(64, 1), NIL, NIL], [], no(3, 2))
test("4 before 5", [par(1, 2), out(1, 1, 0), box(64, 3), NIL], [], no(4, 2))
test("5 before 6", news(9, [out(1, 1, 0)]), [WILD], no(5, 9))
test("6 alone", news(9, [out(1, 1, 0)]), [10], no(6, 9))
test("1 before 2", [7, 0, 0, 0, 0, 0], [], no(1, 0))
test("2 twice", [par(1, 2), [8, 0, 0, 0, 0], [7, 0, 0, 0, 0]], [], no(2, 1))
test("3 twice", [NIL, NIL, NIL], [], no(3, 1))
test("4 twice", [par(1, 2), box(64, 3), box(70, 4), NIL, NIL], [], no(4, 1))
test("5 twice", [par(1, 2), out(1, 1, 5), out(1, 1, 6)], [10], no(5, 1))

# ---- the deepest tables
chain = [inp(0, 1, 0, i + 1) for i in range(255)] + [NIL]
test("deep 255 nested inputs with wildcards", chain, [WILD], ok(particles=1))
chain = [inp(0, 1, 0, i + 1) for i in range(255)] + [out(20, 1, 1)]
test("deep 255 nested inputs, the output uses 20", chain, [WILD, 10], ok(particles=1, use="used"))
chain = [box(5, i + 1) for i in range(255)] + [NIL]
test("deep 255 nested boxes", chain, [], ok(boxes=255))
chain = [box(5, i + 1) for i in range(15)] + [out(1, 1, 0)]
test("deep 15 boxes", chain, [10], ok(particles=1, boxes=15))
# parallels 0 to 126, each with the next as its left child; leaves 127 to 254
left = [par(k + 1, 254 - k) for k in range(126)] + [par(127, 128)] + [out(1, 1, 0)] * 128
test("deep 127 parallels to the left", left, [10], ok(particles=128))
deep = news(8, [box(5, i + 9) for i in range(15)] + [inp(0, 1, 0, i + 24) for i in range(232)] + [NIL])
test("deep 8 new, 15 boxes, 232 inputs", deep, [WILD], ok(particles=1, boxes=15, names=8, force=8))
# a parallel over nil and a box, 85 times: 255 nodes, and the last body
tree = []
for i in range(85):
    k = 3 * i
    tree += [par(k + 1, k + 2), NIL, box(5, k + 3)]
tree += [NIL]
test("deep 85 parallels, each over a box", tree, [], ok(boxes=85))

# ---- 15: name 20 bound to a tuple is free as a channel, tag or box name, however deep
test("15 channel of an output", [out(20, 1, 0)], [10], ok(particles=1, use="used"))
test("15 channel of another output", [out(21, 1, 0)], [10], ok(particles=1))
test("15 tag of an output", [out(1, 22, 0)], [10], ok(particles=1, use="used"))
test("15 tag word 20 is child 18", [out(1, 20, 0)], [10], ok(particles=1))
test("15 value of an output", [out(1, 1, 0)], [20], ok(particles=1))
test("15 name of a box", [box(20, 1), NIL], [], ok(boxes=1, use="used"))
test("15 channel of an input", [inp(20, 1, 0, 1), NIL], [20], ok(particles=1, force=1, use="used"))
test("15 tag of a replicated input", [rep(0, 22, 0, 1), NIL], [20], ok(particles=1, force=1, use="used"))
test("15 hidden by new", [new(20, 1), out(20, 1, 0)], [10], ok(particles=1, names=1, force=1))
test("15 hidden by a pattern", [inp(0, 1, 0, 1), out(20, 22, 0)], [20], ok(particles=1, force=1))
test("15 hidden in one branch only", [par(1, 3), new(20, 2), out(20, 1, 0), out(20, 1, 0)], [10], ok(particles=2, names=1, use="used"))
test("15 under two inputs", [inp(0, 1, 0, 1), inp(0, 1, 0, 2), box(20, 3), NIL], [10], ok(particles=1, force=2, use="used"))

here = os.path.dirname(os.path.abspath(__file__))
open(os.path.join(here, "stdin"), "w").write("".join(out_in))
open(os.path.join(here, "stdout"), "w").write("".join(out_vec))
