#!/usr/bin/env python3
"""Stops a run over real folders with a signal at many moments, and goes on each time.

    bench/stop_and_go_on.py PROGRAM [STOPS] [SEED]

PROGRAM is the built scfs (crates/scfs_cli/out/scfs_cli). In a folder of its own it runs a script of a few hundred calls of two agents over
four folders, kills the program at a moment drawn at random, and goes on with the rest of the script, which begins behind the last call
whose line the journal has whole. At the end each file reads back as the last close whose `committed` line the journal has, and a replay of the
journal gives the lines that it kept."""
import random, subprocess, sys, tempfile, time
from pathlib import Path

HEADER = ["scfs 1", "f 1", "lease 1000000", "stale 0", "agent 0 blocking " + "00" * 32, "agent 1 blocking " + "11" * 32, "begin"]


def script(rounds):
    """The calls: each round one agent writes a file and closes it, and the other reads it."""
    calls, opens, written = [], [0, 0], {}
    for file in range(4):
        calls.append(f"call 0 create /f{file}")
    for number in range(rounds):
        writer, file = number % 2, number % 4
        opens[writer] += 1
        body = f"{number:08x}" * (number % 7 + 1)
        calls += [f"call {writer} open /f{file} w", f"call {writer} truncate {opens[writer]} 0",
                  f"call {writer} write {opens[writer]} 0 {body}", f"call {writer} close {opens[writer]}"]
        opens[1 - writer] += 1
        calls += [f"call {1 - writer} open /f{file} r", f"call {1 - writer} read {opens[1 - writer]} 0 100",
                  f"call {1 - writer} close {opens[1 - writer]}"]
    return calls, opens


def text(calls):
    return "\n".join(HEADER + calls + ["end"]) + "\n"


def whole_lines(folder):
    path = Path(folder, "scfs.journal")
    lines = path.read_bytes().decode().split("\n")[:-1] if path.exists() else []
    return [line for line in lines if not line.endswith("~")]


def done(folder):
    return sum(line.startswith("call ") for line in whole_lines(folder))


def run(program, folder, calls, wait=None):
    """One run; with a time, it is killed then. Gives whether it came to its end, and its output."""
    process = subprocess.Popen([program, "run"], cwd=folder, stdin=subprocess.PIPE, stdout=subprocess.PIPE)
    if wait is not None:
        process.stdin.write(text(calls).encode())
        process.stdin.close()
        time.sleep(wait)
        process.kill()
        process.wait()
        return False, ""
    out, _ = process.communicate(text(calls).encode())
    assert process.returncode == 0, out.decode()[-300:]
    return True, out.decode()


def main():
    program, stops = str(Path(sys.argv[1]).resolve()), int(sys.argv[2]) if len(sys.argv) > 2 else 50
    random.seed(int(sys.argv[3]) if len(sys.argv) > 3 else 1)
    calls, opens = script(40)
    with tempfile.TemporaryDirectory() as folder:
        began = time.time()
        run(program, folder, calls)
        took = time.time() - began
    with tempfile.TemporaryDirectory() as folder:
        killed = 0
        for stop in range(stops):
            before = done(folder)
            run(program, folder, calls[before:], random.uniform(0, 2.5 * took / stops))
            killed += done(folder) < len(calls)
        run(program, folder, calls[done(folder):])
        journal = whole_lines(folder)
        begun = journal.index("begin") + 1
        kept = [line[1:] for line in journal[begun:] if line.startswith(" ")]
        schedule = journal[:begun] + [line for line in journal[begun:] if not line.startswith(" ")] + ["end"]
        replay = subprocess.run([program, "replay"], input=("\n".join(schedule) + "\n").encode(), stdout=subprocess.PIPE).stdout.decode().split("\n")
        assert replay[:-2] == kept, "the replay differs from what the journal kept"
        bodies, last = {}, {}
        for call in (call.split() for call in calls):
            if call[2] == "write":
                bodies[(call[1], call[3])] = call[5]
        for number, call in enumerate(calls):
            words = call.split()
            if words[2] == "open" and words[4] == "w":
                path = words[3]
            if words[2] == "close" and calls[number - 1].split()[2] == "write":
                last[path] = bodies.get((words[1], words[3]), "")
        more = []
        for file in range(4):
            opens[0] += 1
            more += [f"call 0 open /f{file} r", f"call 0 read {opens[0]} 0 100", f"call 0 close {opens[0]}"]
        _, out = run(program, folder, more)
        shown = [line.split()[4] for line in out.split("\n") if " data " in line]
        assert shown == [last[f"/f{file}"] for file in range(4)], (shown, last)
        events = sum(not line.startswith(" ") for line in journal[begun:])
        committed = sum(" committed " in line for line in kept)
        print(f"{killed} of {stops} runs were killed before their end; {events} events, {committed} commits; each file reads back as its last close; "
              f"{events / took:.0f} events a second without stops")


if __name__ == "__main__":
    main()
