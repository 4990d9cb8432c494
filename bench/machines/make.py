#!/usr/bin/env python3
"""Writes a text of machines, or a trace for it, to standard output: see README.md beside it."""

import sys

CASES = 64
INSTANCES = 60
OUTPUTS = 64
DEPTH = 299
LONGEST = 70
WIDTH = 499


def machine(name, inputs, outputs, mems, insts, step):
    return (
        f"machine {name}\nin ( {inputs} )\nout ( {outputs} )\nvar ( )\nmem ( {mems} )\n"
        f"inst ( {insts} )\nstep\n{step}end\n"
    )


def counter():
    """Goes from phase to phase while its input is true, and adds up the numbers of the phases."""
    arms = "".join(
        f"| P{k}\nset total @add total {k}\ncase up\n| false\n| true\nset at P{(k + 1) % CASES}\nend\n" for k in range(CASES)
    )
    constructors = "\n| ".join(f"P{k}" for k in range(CASES))
    body = machine(
        "counter", "up : bool", "n : int", "at : phase = P0 , total : int = 0", "", f"case at\n{arms}end\nset n total\n"
    )
    return f"obc 1\ntype phase = {constructors}\n{body}"


def chain():
    """Machines of which each adds what it took one step before to what the one before it gives."""
    first = machine("c0", "x : int", "y : int", "kept : int = 0", "", "set y kept\nset kept x\n")
    others = "".join(
        machine(
            f"c{k}", "x : int", "y : int", "kept : int = 0", f"i : c{k - 1}", "call i ( y ) ( x )\nset y @add y kept\nset kept x\n"
        )
        for k in range(1, INSTANCES)
    )
    return f"obc 1\n{first}{others}"


def phases():
    return "type phase = " + "\n| ".join(f"P{k}" for k in range(CASES)) + "\n"


def copy():
    """Gives its input."""
    return "obc 1\n" + machine("copy", "x : bool", "y : bool", "", "", "set y x\n")


def wide():
    """Goes from phase to phase while its input is true, and gives the phase by many outputs."""
    arms = "".join(f"| P{k}\nset at P{(k + 1) % CASES}\n" for k in range(CASES))
    outputs = "".join(f"set o{k} at\n" for k in range(OUTPUTS))
    names = " , ".join(f"o{k} : phase" for k in range(OUTPUTS))
    step = f"case up\n| false\n| true\ncase at\n{arms}end\nend\n{outputs}"
    return f"obc 1\n{phases()}" + machine("wide", "up : bool", names, "at : phase = P0", "", step)


def deep():
    """Machines on the longest chain, of which each goes through the deepest cases to a call of the one before it."""
    head, tail = "case x\n| false\n| true\n" * DEPTH, "end\n" * DEPTH
    first = machine("d0", "x : bool", "y : bool", "", "", f"{head}set y x\n{tail}")
    others = "".join(
        machine(f"d{k}", "x : bool", "y : bool", "", f"i : d{k - 1}", f"{head}call i ( y ) ( x )\n{tail}") for k in range(1, LONGEST)
    )
    return f"obc 1\n{first}{others}"


def many():
    """A machine with nearly as many instances as may be, of which each counts."""
    leaf = machine("leaf", "x : bool", "n : int", "kept : int = 0", "", "case x\n| false\n| true\nset kept @add kept 1\nend\nset n kept\n")

    def above(name, below):
        insts = " , ".join(f"i{k} : {below}" for k in range(WIDTH))
        calls = "".join(f"call i{k} ( n ) ( x )\n" for k in range(WIDTH))
        return machine(name, "x : bool", "n : int", "", insts, calls)

    return "obc 1\n" + leaf + above("row", "leaf") + above("grid", "row")


def trace(lines, word):
    return "".join(f"{word(k)}\n" for k in range(lines))


MACHINES = {"counter": counter, "chain": chain, "copy": copy, "wide": wide, "deep": deep, "many": many}


def main():
    what = sys.argv[1]
    if what in MACHINES:
        print(MACHINES[what](), end="")
    elif what == "chain-trace":
        print(trace(int(sys.argv[2]), lambda k: (k * 7919) % 20011 - 10000), end="")
    elif what.removesuffix("-trace") in MACHINES:
        print(trace(int(sys.argv[2]), lambda k: "true" if k % 3 else "false"), end="")
    else:
        sys.exit("usage: make.py MACHINE | make.py MACHINE-trace LINES, where MACHINE is one of " + ", ".join(MACHINES))


main()
