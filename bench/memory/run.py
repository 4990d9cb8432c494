#!/usr/bin/env python3
"""Refuses each growth of memory in turn, over each command: see README.md. Its argument, if there is one, is the greatest number of growths that are refused of one call."""
import os
import subprocess
import sys
import tempfile

HERE = os.path.dirname(os.path.realpath(__file__))
TOP = os.path.dirname(os.path.dirname(HERE))
HEPT = os.path.join(TOP, "crates", "hp_main", "out", "hp_main")
EXAMPLES = os.path.join(TOP, "examples")

# The words of a call, its input, and the status that it has where no growth is refused.
CALLS = [
    (["check", "lights.ept"], None, 0),
    (["check", "lights.ept", "--print"], None, 0),
    (["check", "tasks.ept"], None, 0),
    (["check", "alarm.ept"], None, 1),
    (["check", "none.ept"], None, 4),
    (["run", "lights.ept", "lights"], "lights.trace", 0),
    (["run", "updown.ept", "updown"], "updown.trace", 0),
    (["run", "updown.ept", "none"], "updown.trace", 1),
    (["compile", "updown.ept", "updown.obc"], None, 0),
    (["exec", "delay.obc", "f"], "p1.trace", 0),
    (["prove", "tasks.ept", "tasks", "tasks.cert"], None, 0),
    (["verify", "tasks.ept", "tasks", "tasks.cert"], None, 0),
    (["run", "tasks.ept", "tasks"], "tasks.trace", 0),
    (["run", "tasks.ept", "tasks", "--contract"], "tasks.trace", 0),
    (["compile", "tasks.ept", "tasks.obc"], None, 0),
    (["exec", "tasks.obc", "tasks"], "tasks.trace", 0),
    (["sweep", "2", "6"], None, 0),
    (["run"], None, 2),
]


def call(wrapper, folder, words, trace, number):
    """The status of a call of which one growth is refused, how many bytes of its input were taken, what it said, and how many growths there were."""
    counted = os.path.join(folder, "growths")
    environment = dict(os.environ, LD_PRELOAD=wrapper, REFUSE=str(number), GROWTHS=counted)
    with open(os.path.join(EXAMPLES, trace) if trace else os.devnull, "rb") as given:
        done = subprocess.run([HEPT] + words, stdin=given, capture_output=True, env=environment, cwd=folder)
        taken = os.lseek(given.fileno(), 0, os.SEEK_CUR) if trace else 0
    with open(counted) as file:
        return done.returncode, taken, done.stdout, int(file.read())


def differs(status, taken, said, wanted, wanted_said):
    """What is wrong of a call of which a growth was refused, if anything is."""
    if status == 6:
        if taken or said:
            return "6 after input was asked for, or something was said"
        return None
    if (status, said) != (wanted, wanted_said):
        return f"status {status}, wanted {wanted}, or other bytes were said"
    return None


def main():
    most = int(sys.argv[1]) if len(sys.argv) > 1 else None
    if not os.access(os.path.join(TOP, "crates", "hp_main", "out", "hp_main"), os.X_OK):
        sys.exit("crates/hp_main/out/hp_main is not there: rt ci builds it")
    wrong = 0
    with tempfile.TemporaryDirectory() as folder:
        wrapper = os.path.join(folder, "refuse.so")
        subprocess.run(["cc", "-O1", "-shared", "-fPIC", "-o", wrapper, os.path.join(HERE, "refuse.c"), "-ldl"], check=True)
        for name in os.listdir(EXAMPLES):
            with open(os.path.join(EXAMPLES, name), "rb") as source, open(os.path.join(folder, name), "wb") as copy:
                copy.write(source.read())
        for words, trace, wanted in CALLS:
            status, _, said, growths = call(wrapper, folder, words, trace, 0)
            if status != wanted:
                print(f"{' '.join(words)}: status {status}, wanted {wanted}")
                wrong += 1
                continue
            numbers = range(1, growths + 1)
            if most and growths > most:
                numbers = sorted({1 + i * (growths - 1) // (most - 1) for i in range(most)})
            sixes = 0
            for number in numbers:
                status, taken, found, _ = call(wrapper, folder, words, trace, number)
                sixes += status == 6
                what = differs(status, taken, found, wanted, said)
                if what:
                    print(f"{' '.join(words)}, growth {number}: {what}")
                    wrong += 1
            print(f"{' '.join(words)}: {growths} growths, {len(numbers)} of them refused in turn, {sixes} times status 6", flush=True)
    sys.exit(1 if wrong else 0)


if __name__ == "__main__":
    main()
