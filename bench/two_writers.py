#!/usr/bin/env python3
"""Writes a schedule of two agents that write the same eight files in turn over four clouds: two_writers.py BYTES ROUNDS [restarts].

A round is 20 events: the agent whose turn it is opens the next of the files for writing, is given the version that the other wrote
by the clouds 0 and 1, writes so many bytes at 0, reads 64 bytes, and closes; every cloud stores its object, and the commit is told.
The agents change after every eight rounds, so no agent opens what it wrote itself. A file's first round has no version to be given,
so its four events at the clouds find empty queues.

With the word restarts a round is 28 events: before the close the clock goes on and the lock is renewed, and after it the agent goes down and
comes up.
"""

import sys

FILES = 8


def header(lease):
    lines = ["scfs 1", "f 1", f"lease {lease}", "stale 0"]
    for agent in (0, 1):
        lines.append(f"agent {agent} blocking {agent + 1:064x}")
    return lines + ["begin"]


def creation(file):
    return [f"call 0 create /f{file}", "space 0", "told 0"]


def renewal(agent):
    return ["tick 60", f"turn {agent}", f"space {agent}", f"told {agent}"]


def restart(agent):
    return [f"crash {agent}", f"start {agent}", f"space {agent}", f"told {agent}"]


def round_of(agent, file, session, text, restarts):
    lines = [f"call {agent} open /f{file} w", f"space {agent}", f"told {agent}"]
    lines += ["serve 0", "give 0", "serve 1", "give 1"]
    lines += [f"call {agent} write {session} 0 {text}", f"call {agent} read {session} 0 64"]
    lines += renewal(agent) if restarts else []
    lines += [f"call {agent} close {session}"]
    for cloud in range(4):
        lines += [f"serve {cloud}", f"give {cloud}"]
    lines += [f"space {agent}", f"told {agent}"]
    return lines + (restart(agent) if restarts else [])


def main():
    if len(sys.argv) not in (3, 4) or sys.argv[3:] not in ([], ["restarts"]):
        sys.exit("usage: two_writers.py BYTES ROUNDS [restarts]")
    size, rounds, restarts = int(sys.argv[1]), int(sys.argv[2]), len(sys.argv) == 4
    write = lambda lines: sys.stdout.write("\n".join(lines) + "\n")
    write(header(100 if restarts else 1000000000))
    for file in range(FILES):
        write(creation(file))
    opened = [0, 0]
    for number in range(rounds):
        agent = number // FILES % 2
        opened[agent] = 1 if restarts else opened[agent] + 1
        text = bytes((number + place) % 251 for place in range(size)).hex() or "-"
        write(round_of(agent, number % FILES, opened[agent], text, restarts))
    write(["end"])


main()
