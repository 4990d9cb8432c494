"""Writes a program whose one node (the last, where there are more) has about PLACES places, 58,000 where none is given.

usage: make.py chain|modes|inlined|samples [PLACES]
"""
import sys


def chain(places):
    """Variables in a chain: each reads the one before it, at once and delayed."""
    count = places // 10
    names = "; ".join(f"v{k} : int" for k in range(1, count + 1))
    lines = [f"  v{k} = if c then v{k - 1} + 1 else 0 -> pre v{k};" for k in range(1, count + 1)]
    return f"node f(c : bool; v0 : int) returns (y : int)\nvar {names};\nlet\n" + "\n".join(lines) + f"\n  y = v{count}\ntel\n"


def modes(places):
    """As many `switch` equations, in a chain."""
    count = places // 5
    names = "; ".join(f"v{k} : int" for k in range(1, count + 1))
    lines = [f"  switch c | true do v{k} = v{k - 1} | false do v{k} = 0 end;" for k in range(1, count + 1)]
    return f"node f(c : bool; v0 : int) returns (y : int)\nvar {names};\nlet\n" + "\n".join(lines) + f"\n  y = v{count}\ntel\n"


def inlined(places):
    """As many inlined calls of a node that counts."""
    count = places // 15
    names = "; ".join(f"v{k} : int" for k in range(1, count + 1))
    lines = [f"  v{k} = inlined sum(c, v{k - 1});" for k in range(1, count + 1)]
    small = "node sum(r : bool; x : int) returns (s : int)\nlet s = if r then 0 else (0 fby s) + x tel\n"
    return small + f"node f(c : bool; v0 : int) returns (y : int)\nvar {names};\nlet\n" + "\n".join(lines) + f"\n  y = v{count}\ntel\n"


def samples(places):
    """Samples of up to 64 steps, and what is merged of them."""
    count = places // 9
    names = "; ".join(f"a{k}, v{k} : int" for k in range(1, count + 1))
    lines = [f"  a{k} = v{k - 1} when c; v{k} = merge c (true -> a{k}) (false -> v{k - 1} whenot c);" for k in range(1, count + 1)]
    return f"node f(c : bool; v0 : int) returns (y : int)\nvar {names};\nlet\n" + "\n".join(lines) + f"\n  y = v{count}\ntel\n"


KINDS = {"chain": chain, "modes": modes, "inlined": inlined, "samples": samples}

if __name__ == "__main__":
    if len(sys.argv) < 2 or sys.argv[1] not in KINDS:
        sys.exit(__doc__.strip())
    sys.stdout.write(KINDS[sys.argv[1]](int(sys.argv[2]) if len(sys.argv) > 2 else 58000))
