#!/usr/bin/env python3
"""Writes a program, or a trace for it, to standard output: see README.md beside it."""

import sys

STATES = 20
CALLS = 60


def counter():
    """Counts the instants at which its first input is true, since the last one at which the second was."""
    return "node counter(up, again : bool) returns (n : int)\nlet reset n = (0 fby n) + (if up then 1 else 0) every again tel\n"


def states(count=STATES):
    """Goes from state to state while its input is true, and adds up the numbers of the states."""
    bodies = "".join(f"    state S{k} do n = last n + {k} until up then S{(k + 1) % count}\n" for k in range(count))
    return f"node states(up : bool) returns (last n : int = 0)\nlet\n  automaton\n{bodies}  end\ntel\n"


def nested():
    """An automaton in a state of another, with counters that restarts take back."""
    return """node nested(o, i : bool) returns (x : int)
let
  automaton
    state Work do
      automaton
        state Rise do x = 0 -> pre x + 1 until i then Fall
        state Fall do x = 100 -> pre x - 1 until i continue Rise
      end
      until o then Rest
    state Rest do x = -1 -> pre x - 1
      unless i then Work
      until o continue Work
  end
tel
"""


def filtered():
    """A sum over the samples of its input, which stands between them."""
    return """node filtered(x : int; c : bool) returns (z : int)
var y, s : int;
let
  y = x when c;
  s = y + (0 fby s);
  z = merge c (true -> s) (false -> (0 fby z) whenot c)
tel
"""


def calls():
    """Nodes of which each adds what it took one instant before to what the one before it gives."""
    first = "node c0(x : int) returns (y : int) let y = 0 fby x tel\n"
    others = "".join(f"node c{k}(x : int) returns (y : int) let y = c{k - 1}(x) + (0 fby x) tel\n" for k in range(1, CALLS))
    return first + others


PROGRAMS = {"counter": counter, "states": states, "states200": lambda: states(200), "nested": nested, "filtered": filtered, "calls": calls}


def word(test):
    return "true" if test else "false"


WORDS = {
    "counter": lambda k: f"{word(k % 3)} {word(k % 1000 == 999)}",
    "states": lambda k: word(k % 3),
    "states200": lambda k: word(k % 3),
    "nested": lambda k: f"{word(k % 17 == 0)} {word(k % 5 == 0)}",
    "filtered": lambda k: f"{(k * 7919) % 20011 - 10000} {word(k % 4 == 0)}",
    "calls": lambda k: str((k * 7919) % 20011 - 10000),
}


def main():
    if len(sys.argv) == 2 and sys.argv[1] in PROGRAMS:
        print(PROGRAMS[sys.argv[1]](), end="")
    elif len(sys.argv) == 3 and sys.argv[1] in WORDS:
        for k in range(int(sys.argv[2])):
            print(WORDS[sys.argv[1]](k))
    else:
        sys.exit(f"usage: make.py {' | '.join(PROGRAMS)} [LINES]")


main()
