#!/usr/bin/env python3
"""What a whole run of bench costs, beside the separate implementation.

Makes the largest inputs that the format allows, runs the compiled program crates/bench/out/bench (made by `rt run` in crates/bench) and
the separate implementation in reference/ (built here with cargo) on each under `valgrind --tool=callgrind`, which counts
instructions and not seconds, and prints Markdown tables: both counts and their ratio, how they grow with steps, nodes and
particles, in which functions bench's instructions fall, and the peaks of its stack and of its resident memory. Two outputs
that differ in a byte are an error; so is an input that is not what its name says.

The first table is CPU time, which a person waits for: that of the process and of the system for it, the middle one of many
runs, the programs by turns. It holds the start of a process. Beside it stands a floor: what bench takes for the same lines
where each step's kind is 9, which is refused before any state is looked at.

Large copies are counted in two ways. On many machines the C library copies over 2 KB by one repeated string instruction,
and callgrind counts that once for each byte. So the first count is made with the library told to copy by vector registers,
32 bytes at a time, and the second with what the library does by itself, in which a byte copied is about one instruction.
Growth is given in the first way.

    python3 benchmarks/ratios.py               all tables; some minutes
    python3 benchmarks/ratios.py --times       only the first table
    python3 benchmarks/ratios.py --inputs DIR  only writes the inputs into a folder
"""
import os
import re
import statistics
import subprocess
import sys
import tempfile

HERE = os.path.dirname(os.path.abspath(__file__))
TOP = os.path.dirname(HERE)
BENCH = os.path.join(TOP, "crates", "bench", "out", "bench")
REFERENCE = os.path.join(TOP, "reference", "target", "release", "reference")

BYTES = 65536
STEPS = 1024
NODES = 256
POOL = 1024
WILDCARD = 4999999
AIM = 50_000_000
RUNS = 300

# How the C library is to copy and fill: by vector registers whatever the size, or as it chooses.
VECTORS = "glibc.cpu.x86_rep_movsb_threshold=1000000000:glibc.cpu.x86_rep_stosb_threshold=1000000000"
BY_ITSELF = ""

# ---------------------------------------------------------------------------------------------------------------- terms
# A process is a nested tuple; `Table` numbers its nodes, each before those below it, and puts its values in the pool.

NIL = ("nil",)


def par(left, right):
    return ("par", left, right)


def output(channel, tag, value):
    return ("output", channel, tag, tuple(value))


def waiting(channel, tag, pattern, body, again=False):
    return ("input", channel, tag, tuple(pattern), body, again)


def spine(leaves):
    """Leaves under parallels that lean to the right."""
    term = leaves[-1]
    for leaf in reversed(leaves[:-1]):
        term = par(leaf, term)
    return term


def left_spine(leaves):
    """The same leaves in the same order, under parallels that lean to the left."""
    term = leaves[0]
    for leaf in leaves[1:]:
        term = par(term, leaf)
    return term


def pair(word):
    return (4000002, word, word)


class Table:
    def __init__(self, term):
        self.nodes = []
        self.pool = []
        self.places = {}
        self.add(term)

    def add(self, term):
        number = len(self.nodes)
        self.nodes.append(None)
        if term[0] == "nil":
            row = (0, 0, 0, 0, 0)
        elif term[0] == "par":
            left = self.add(term[1])
            row = (1, left, self.add(term[2]), 0, 0)
        elif term[0] == "output":
            row = (4, term[1], term[2], self.place(term[3]), 0)
        else:
            place = self.place(term[3])
            row = (6 if term[5] else 5, term[1], term[2], place, self.add(term[4]))
        self.nodes[number] = row
        return number

    def place(self, words):
        if words not in self.places:
            self.places[words] = len(self.pool)
            self.pool.extend(words)
        return self.places[words]


def size(term):
    """How many nodes a process has."""
    return 1 + sum(size(part) for part in term[1:] if isinstance(part, tuple) and part and isinstance(part[0], str))


# ---------------------------------------------------------------------------------------------------------------- inputs


def line(letter, *numbers):
    return "\t".join([letter] + [str(n) for n in numbers])


def text(wrapper, tables, steps):
    """The lines of an input. Tables are for side 1 and, if there is another, for side 2."""
    lines = [line("W", wrapper)]
    for side, table in enumerate(tables, 1):
        lines += [line("N", side, *row) for row in table.nodes]
    for side, table in enumerate(tables, 1):
        lines += [line("V", side, word) for word in table.pool]
    lines += [line("S", *step) for step in steps]
    return ("\n".join(lines) + "\n").encode()


def padded(data):
    """An input made as long as it may be: zeros before the first number of its steps, which do not change the number."""
    lines = data.decode().splitlines()
    steps = [k for k, one in enumerate(lines) if one[0] == "S"]
    each, rest = divmod(BYTES - len(data), len(steps))
    for count, k in enumerate(steps):
        lines[k] = "S\t" + "0" * (each + (count < rest)) + lines[k][2:]
    return ("\n".join(lines) + "\n").encode()


def seven(k):
    """A value of seven words. A pair of it has fifteen."""
    return (4000006,) + tuple(10 + (k + n) % 50 for n in range(6))


def sixteen(k):
    """A value of sixteen words."""
    return (4000015,) + tuple(10 + (k + n) % 50 for n in range(15))


def copier(channel, name, more=NIL):
    """A replicated input from the parent that sends what came up on `out`, twice; and has `more` beside that."""
    sends = output(1, 1, pair(name))
    return waiting(channel, 1, (name,), sends if more == NIL else par(sends, more), again=True)


def round_trip(side, at, inputs, value):
    """A message in and its copy out, where the side has so many inputs and no output: they meet at the input `at`."""
    return [(1, side, 0, 0) + value, (2, side, 0, 0), (5, side, inputs, at), (3, side, inputs, 0), (6, side, 0, 0),
            (7, side, 0, 0)]


def pipeline_pair():
    """Two handlers with two copiers each. Side 1's first copier sends what came on `mid` too, and side 2's takes it."""
    first = waiting(0, 1, (10,), par(output(1, 1, pair(10)), output(2, 1, (10,))), again=True)
    return [Table(par(first, copier(0, 11))), Table(par(copier(2, 10), copier(0, 11)))]


def pipeline_steps():
    """1,024 steps that all have a label: the shelf is filled and taken, then both sides copy by turns."""
    steps = []
    for k in range(32):
        steps += [(1, 1, 0, 0) + seven(k), (2, 1, 0, 0), (5, 1, 2, 0), (3, 1, 2, 0), (3, 1, 2, 0), (6, 1, 0, 0), (7, 1, 0, 0)]
        steps += [(8, 2, k, 0), (2, 2, 0, 0), (5, 2, 2, 0), (3, 2, 2, 0), (6, 2, 0, 0), (7, 2, 0, 0)]
    k = 0
    while len(steps) < STEPS:
        steps += round_trip(1 + k % 2, 1, 2, seven(k))
        k += 1
    return steps[:STEPS]


def refused_steps():
    """1,024 steps that are all refused, with 10 or 13, where both sides have two inputs and nothing else."""
    asked = [(9, 1, 0, 0), (2, 1, 0, 0), (5, 1, 0, 0), (3, 2, 1, 0), (5, 2, 1, 0), (8, 2, 0, 0), (4, 1, 1, 0), (7, 2, 15, 0),
             (1, 3, 0, 0, 20), (5, 1, 31, 31), (3, 1, 0, 0), (6, 1, 0, 0, 20)]
    return [asked[k % len(asked)] for k in range(STEPS)]


def full_table(nodes, pool):
    """A copier with a body of about half the nodes, beside an input that never meets, over outputs of 16-word values."""
    names = tuple(range(40, 48))
    leaves = [output(1, 1, (4000015,) + tuple(names[(k + n) % 8] if n < 8 else (k + n) % 40 for n in range(15)))
              for k in range(nodes // 4 - 2)]
    idle = waiting(9, 0, (4000008,) + names, spine(leaves), again=True)
    left = nodes - 1 - size(idle) - size(copier(0, 10, par(NIL, NIL)))
    body = spine([NIL] * (2 + left // 2))
    if left % 2:  # an output in the place of two leaves would be a particle more, so an odd node goes to the idle part
        idle = waiting(9, 0, (4000008,) + names, spine(leaves[:-1] + [waiting(9, 0, (WILDCARD,), leaves[-1])]), again=True)
    table = Table(par(copier(0, 10, body), idle))
    table.pool += [4000015 - k % 16 for k in range(pool - len(table.pool))]
    if len(table.nodes) != nodes or len(table.pool) != pool:
        sys.exit("a table has %d nodes and %d pool words" % (len(table.nodes), len(table.pool)))
    return table


def trips(count):
    """So many steps with a label on two such tables, by turns on both sides."""
    steps = []
    k = 0
    while len(steps) < count:
        steps += round_trip(1 + k % 2, 0, 2, seven(k))
        k += 1
    return steps[:count]


def binders(body):
    """Eight inputs from the parent, one below the other, each with a name; then the body."""
    term = body
    for name in reversed(range(50, 58)):
        term = waiting(0, 1, (name,), term)
    return term


def environments(particles, turning, nodes=None, lean=spine):
    """A handler that takes eight values and then has so many particles, each input among them with eight names bound.

    If `turning`, one of them is an output and one a replicated input whose body is that output again, and what is left of
    the nodes are parallels over nil in that body; the rest are inputs that never meet.
    """
    idle = [waiting(20 + k % 20, 0, (WILDCARD,), NIL) for k in range(particles - (2 if turning else 0))]
    if not turning:
        return Table(binders(spine(idle)))
    again = output(9, 0, (57,))

    def whole(fill):
        body = lean([again] + [NIL] * fill) if fill else again
        return binders(spine([again, waiting(9, 0, (WILDCARD,), body, again=True)] + idle))

    fill = (nodes - size(whole(0))) // 2 if nodes else 0
    return Table(whole(fill))


def filling():
    """The 24 steps for each side after which its eight names are bound to values of sixteen words."""
    steps = []
    for k in range(8):
        for side in (1, 2):
            steps += [(1, side, 0, 0) + sixteen(k), (2, side, 0, 0), (5, side, 1, 0)]
    return steps


def turning_steps(particles, count=STEPS):
    """After filling, meetings by turns on both sides: the output goes, and its like comes last."""
    steps = filling()
    steps += [(5, side, 0, 1) for side in (1, 2)]
    while len(steps) < count:
        steps.append((5, 1 + len(steps) % 2, particles - 1, 0))
    return steps[:count]


def idle_steps(particles):
    """After filling, meetings by turns on both sides that are refused with 13: each names two inputs."""
    steps = filling()
    while len(steps) < STEPS:
        steps.append((5, 1 + len(steps) % 2, particles - 1, 0))
    return steps


def crowd_table(nodes):
    """Eight values are taken; then one input sends on within what comes from the parent, and one what comes within."""
    again = output(9, 0, (57,))

    def whole(fill):
        body = spine([again] + [NIL] * fill) if fill else again
        return binders(par(waiting(0, 1, (WILDCARD,), again, again=True), waiting(9, 0, (WILDCARD,), body, again=True)))

    return Table(whole((nodes - size(whole(0))) // 2))


def crowd_steps():
    """After filling, 30 messages come down and are sent on; then the oldest meets again and again, and all others move up."""
    steps = filling()
    for k in range(30):
        for side in (1, 2):
            steps += [(1, side, 0, 0) + sixteen(k), (2, side, 0, 0)]
    for k in range(30):
        for side in (1, 2):
            steps.append((5, side, 2, 0))
    while len(steps) < STEPS:
        steps.append((5, 1 + len(steps) % 2, 2, 1))
    return steps


def crowded_out_table():
    """Eight values are taken; then a message meets an input whose body has far more outputs than there is room for."""
    names = range(50, 58)
    leaves = [output(1, 1, (4000015,) + tuple(names[(k + n) % 8] if n else 10 + k % 40 for n in range(15)))
              for k in range(122)]
    table = Table(binders(par(output(9, 0, (50,)), waiting(9, 0, (WILDCARD,), spine(leaves), again=True))))
    if len(table.nodes) > NODES or len(table.pool) > POOL:
        sys.exit("a table has %d nodes and %d pool words" % (len(table.nodes), len(table.pool)))
    return table


def crowded_out_steps():
    """Eight names bound to names, then meetings that are all refused with 17."""
    steps = []
    for k in range(8):
        for side in (1, 2):
            steps += [(1, side, 0, 0, 30 + k), (2, side, 0, 0), (5, side, 1, 0)]
    while len(steps) < STEPS:
        steps.append((5, 1 + len(steps) % 2, 0, 1))
    return steps


def deepest():
    """Inputs for the stack alone: as many nodes as there may be one below the other, where the walks over them go."""
    spread = waiting(0, 1, (10,), left_spine([output(1, 1, (10,))] + [NIL] * 127), again=True)
    chain = output(1, 1, (10,))
    for _ in range(NODES - 1):
        chain = waiting(0, 1, (WILDCARD,), chain)
    chain = chain[:3] + ((10,),) + chain[4:]
    first = [(1, side, 0, 0) + sixteen(1) for side in (1, 2)] + [(2, side, 0, 0) for side in (1, 2)]
    meet = [(5, side, 1, 0) for side in (1, 2)]
    return [
        ("127 parallels, one below the other", text(2, [Table(spread)] * 2, first + meet), "labels"),
        ("255 inputs, one below the other", text(2, [Table(chain)] * 2, first + meet), "labels"),
    ]


def largest():
    """The inputs of the first table, with what their steps must come to; none where nothing is asked."""
    twice = [full_table(NODES, POOL)] * 2
    pair_tables = pipeline_pair()
    whole = padded(text(2, twice, trips(STEPS)))
    with open(os.path.join(TOP, "examples", "listing-a.in"), "rb") as source:
        listing = source.read()
    return [
        ("listing A", listing, None),
        ("pipeline pair, all labelled", text(2, pair_tables, pipeline_steps()), "labels"),
        ("pipeline pair, all refused", text(2, pair_tables, refused_steps()), "refusals"),
        ("full tables, few steps", text(2, twice, trips(12)), "labels"),
        ("full tables, all labelled, padded", whole, "labels"),
        ("the same, its last line at fault", whole[:-2] + b"x\n", "line"),
        ("full environments, small bodies", text(2, [environments(32, True)] * 2, turning_steps(32)), "labels"),
        ("full environments, full bodies", text(2, [environments(32, True, NODES)] * 2, turning_steps(32)), "labels"),
        ("the same, leaning to the left", text(2, [environments(32, True, NODES, left_spine)] * 2, turning_steps(32)), "labels"),
        ("30 messages, full bodies", text(2, [crowd_table(NODES)] * 2, crowd_steps()), "labels"),
        ("meetings refused with 17", text(2, [crowded_out_table()] * 2, crowded_out_steps()), "no room"),
    ]


# ---------------------------------------------------------------------------------------------------------------- runs


def run(command, data, copies=BY_ITSELF):
    # the environment stands on the stack, where its length moves what is copied: so it is the same for every run
    around = {"PATH": os.environ["PATH"], "GLIBC_TUNABLES": copies}
    done = subprocess.run(command, input=data, capture_output=True, env=around)
    if done.returncode != 0:
        sys.exit("%s ended with %d: %s" % (" ".join(command), done.returncode, done.stderr.decode()[-400:]))
    return done


def counted(program, data, copies, read=None):
    """Instructions and output of a program on an input, and what `read` makes of the profile."""
    with tempfile.TemporaryDirectory() as folder:
        target = os.path.join(folder, "profile")
        done = run(["valgrind", "--tool=callgrind", "--callgrind-out-file=" + target, program], data, copies)
        count = int(re.search(rb"Collected : (\d+)", done.stderr).group(1))
        if read:
            with open(target) as profile:
                return count, read(profile)
        return count, done.stdout


def check(name, data, wanted, out):
    """That an input is legal and does what its name says."""
    if len(data) > BYTES:
        sys.exit("%s: %d bytes" % (name, len(data)))
    lines = out.decode().splitlines()
    answers = [one.split("\t", 1)[1] for one in lines[1:]]
    refusals = set(one for one in answers if one.startswith("no\t"))
    if wanted == "line":
        right = lines == ["line\t%d" % data.count(b"\n")]
    elif wanted == "labels":
        right = lines[0] == "ok" and not refusals
    elif wanted == "refusals":
        right = lines[0] == "ok" and refusals == set(answers) == {"no\t10", "no\t13"}
    elif wanted == "no room":
        right = lines[0] == "ok" and refusals == {"no\t17"}
    elif wanted == "no pair":
        right = lines[0] == "ok" and refusals == {"no\t13"}
    else:
        right = lines[0] == "ok"
    if not right:
        sys.exit("%s: not what was meant: %s, %s" % (name, lines[0], sorted(refusals)))


def both(name, data, wanted, copies):
    ours, out = counted(BENCH, data, copies)
    theirs, expected = counted(REFERENCE, data, copies)
    if out != expected:
        sys.exit("%s: the outputs differ" % name)
    check(name, data, wanted, out)
    return ours, theirs


def steps_in(data):
    return data.count(b"\nS\t")


def row(*cells):
    print("| " + " | ".join("{:,}".format(c) if isinstance(c, int) else c for c in cells) + " |", flush=True)


def heading(*cells):
    print()
    row(*cells)
    row(*(["---"] * len(cells)))


def cpu(program, path):
    """CPU time in microseconds of a program that reads a file, its output thrown away."""
    actions = [(os.POSIX_SPAWN_OPEN, 0, path, os.O_RDONLY, 0), (os.POSIX_SPAWN_OPEN, 1, os.devnull, os.O_WRONLY, 0)]
    child = os.posix_spawn(program, [program], {"PATH": os.environ["PATH"]}, file_actions=actions)
    _, status, used = os.wait4(child, 0)
    if status != 0:
        sys.exit("%s ended with status %d" % (program, status))
    return 1e6 * (used.ru_utime + used.ru_stime)


def by_turns(*what):
    """The middle CPU time of each program on its input, over runs by turns."""
    with tempfile.TemporaryDirectory() as folder:
        paths = []
        for n, (program, data) in enumerate(what):
            paths.append(os.path.join(folder, str(n)))
            with open(paths[n], "wb") as target:
                target.write(data)
        taken = [[cpu(program, path) for (program, _), path in zip(what, paths)] for _ in range(RUNS)]
    return [statistics.median(column) for column in zip(*taken)]


def without_a_state(data):
    """The same lines, with a kind for each step that is refused before any state is looked at."""
    return re.sub(rb"(?m)^S\t0*\d", lambda found: found.group()[:-1] + b"9", data)


def times(inputs):
    heading("input", "steps", "bench, µs", "reference, µs", "ratio", "floor, µs")
    for name, data, wanted in inputs:
        ours, theirs, floor = by_turns((BENCH, data), (REFERENCE, data), (BENCH, without_a_state(data)))
        row(name, steps_in(data), round(ours), round(theirs), "%.2f" % (ours / theirs), round(floor))
    empty, theirs = by_turns((BENCH, b""), (REFERENCE, b""))
    print("\nAn empty input takes bench {:,.0f} and the reference {:,.0f} µs.".format(empty, theirs))


def growth(title, unit, sizes, make, wanted):
    heading(title + ": " + unit, "bytes", "steps", "bench", "to the smallest", "reference", "to the smallest", "ratio")
    first = None
    for n in sizes:
        data = make(n)
        ours, theirs = both("%s %d" % (title, n), data, wanted, VECTORS)
        first = first or (ours, theirs)
        row(n, len(data), steps_in(data), ours, "%.2f" % (ours / first[0]), theirs, "%.2f" % (theirs / first[1]),
            "%.2f" % (ours / theirs))


def stack(data):
    """The peak of bench's stack in bytes."""
    with tempfile.TemporaryDirectory() as folder:
        target = os.path.join(folder, "massif")
        run(["valgrind", "--tool=massif", "--stacks=yes", "--heap=no", "--peak-inaccuracy=0.0", "--massif-out-file=" + target,
             BENCH], data, VECTORS)
        with open(target) as source:
            return max(int(n) for n in re.findall(r"mem_stacks_B=(\d+)", source.read()))


def resident(data, program=BENCH):
    """The peak of a program's resident memory in kilobytes, never less than that of the program that measures it."""
    return int(run(["/usr/bin/time", "-f", "%M", program], data).stderr.split()[-1])


def own_costs(profile):
    """Own instructions for each function of a profile; copying and filling are put down to the function that asks for it."""
    names = {}

    def name(field):
        number, _, rest = field.partition(" ")
        if rest:
            names[number] = re.sub(r"'\d+$", "", rest)  # a recursive call is the same function
        return names[number] if number in names else names[number.split("'")[0]]

    own = {}
    asked = {}
    here = called = None
    in_call = False
    for one in profile:
        if one.startswith("fn="):
            here = name(one[3:].strip())
        elif one.startswith("cfn="):
            called = name(one[4:].strip())
        elif one.startswith("calls="):
            in_call = True
        elif re.match(r"[+\-*\d]", one):
            cost = int(one.split()[1])
            costs, key = (asked, (here, called)) if in_call else (own, here)
            costs[key] = costs.get(key, 0) + cost
            in_call = False
    for library in [f for f in own if re.search(r"mem(cpy|move|set)", f)]:
        del own[library]
        kind = "filling" if "memset" in library else "copying"
        for (caller, callee), cost in asked.items():
            if callee == library:
                key = "%s for %s" % (kind, caller)
                own[key] = own.get(key, 0) + cost
    return own


def functions(name, data, copies, how):
    total, own = counted(BENCH, data, copies, own_costs)
    heading("bench on: %s, copies %s" % (name, how), "own instructions", "share", "for each step")
    for function, cost in sorted(own.items(), key=lambda item: -item[1])[:10]:
        row(function, cost, "%.1f %%" % (100 * cost / total), cost // steps_in(data))


def main():
    if sys.argv[1:2] == ["--inputs"]:
        for name, data, _ in largest() + deepest():
            with open(os.path.join(sys.argv[2], re.sub(r"[^a-z0-9]+", "-", name.lower()) + ".in"), "wb") as target:
                target.write(data)
        return
    if not os.path.exists(BENCH):
        sys.exit("no %s: run `rt run` in crates/bench first" % os.path.relpath(BENCH))
    subprocess.run(["cargo", "build", "--release", "--quiet"], cwd=os.path.join(TOP, "reference"), check=True)

    inputs = largest()
    times(inputs)
    if sys.argv[1:2] == ["--times"]:
        return
    heading("input", "bytes", "steps", "bench", "reference", "ratio", "bench, a byte copied as one", "reference, the same",
            "ratio")
    most = (0, 0), "", b""
    for name, data, wanted in inputs:
        ours, theirs = both(name, data, wanted, VECTORS)
        more, theirs_more = both(name, data, wanted, BY_ITSELF)
        row(name, len(data), steps_in(data), ours, theirs, "%.2f" % (ours / theirs), more, theirs_more,
            "%.2f" % (more / theirs_more))
        most = max(most, ((ours, more), name, data))
    empty = [counted(BENCH, b"", copies)[0] for copies in (VECTORS, BY_ITSELF)]
    print("\nAn empty input costs bench {:,} and {:,}. The most is {:,} and {:,}, for: {}. The aim is at most {:,}.".format(
        *empty, *most[0], most[1], AIM))

    steps = pipeline_steps()
    growth("the pipeline pair", "steps", (0, 128, 256, 512, 1024), lambda n: text(2, pipeline_pair(), steps[:n]), "labels")
    growth("full tables, 12 steps", "nodes of a side", (32, 64, 128, 256),
           lambda n: text(2, [full_table(n, 4 * n)] * 2, trips(12)), "labels")
    growth("full tables, 1,024 steps", "nodes of a side", (32, 64, 128, 256),
           lambda n: text(2, [full_table(n, 4 * n)] * 2, trips(STEPS)), "labels")
    growth("full environments, refused", "particles of a side", (1, 8, 16, 32),
           lambda n: text(2, [environments(n, False)] * 2, idle_steps(n)), "no pair")
    growth("full environments, meetings", "particles of a side", (2, 8, 16, 32),
           lambda n: text(2, [environments(n, True)] * 2, turning_steps(n)), "labels")

    for name, data, _ in inputs:
        if name in ("pipeline pair, all labelled", "full environments, full bodies", most[1]):
            functions(name, data, VECTORS, "by vectors")
            functions(name, data, BY_ITSELF, "a byte as one")

    heading("input", "peak stack of bench, bytes", "peak resident memory, KB")
    for name, data, wanted in inputs + deepest():
        out = run([BENCH], data).stdout
        if out != run([REFERENCE], data).stdout:
            sys.exit("%s: the outputs differ" % name)
        check(name, data, wanted, out)
        row(name, stack(data), resident(data))
    print("\nThe program `true`, measured likewise, has a peak resident memory of {:,} KB.".format(resident(b"", "true")))


if __name__ == "__main__":
    main()
