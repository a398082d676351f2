#!/usr/bin/env python3
"""Damages, deletes or swaps objects of one folder between runs; every open still gives the newest close.

    bench/damage.py PROGRAM [ROUNDS] [SEED]

PROGRAM is the built scfs (crates/scfs_cli/out/scfs_cli). Four folders bear one that lies. Each round writes a file, then one folder, the same in
all rounds, has some of its objects damaged, cut, emptied, deleted or swapped, and then every file is opened and read in a further run."""
import random, sys, tempfile
from pathlib import Path

from stop_and_go_on import run


def harm(folder, cloud):
    """Does something to each of some objects of a cloud; gives how many."""
    objects = sorted(Path(folder, f"cloud{cloud}").glob("u_*"))
    chosen = random.sample(objects, min(len(objects), random.randint(1, 3)))
    for path in chosen:
        body = bytearray(path.read_bytes())
        kind = random.choice(["damage", "cut", "empty", "delete", "swap"])
        if kind == "damage" and body:
            body[random.randrange(len(body))] ^= random.randint(1, 255)
            path.write_bytes(body)
        elif kind == "cut":
            path.write_bytes(body[: len(body) // 2])
        elif kind == "empty":
            path.write_bytes(b"")
        elif kind == "delete":
            path.unlink()
        else:
            other = random.choice(objects)
            if other.exists():
                theirs = other.read_bytes()
                other.write_bytes(bytes(body))
                path.write_bytes(theirs)
    return len(chosen)


def main():
    program, rounds = str(Path(sys.argv[1]).resolve()), int(sys.argv[2]) if len(sys.argv) > 2 else 40
    random.seed(int(sys.argv[3]) if len(sys.argv) > 3 else 1)
    cloud, opens, newest, harmed, read = random.randrange(4), [0, 0], {}, 0, 0
    with tempfile.TemporaryDirectory() as folder:
        run(program, folder, [f"call 0 create /f{file}" for file in range(4)])
        for number in range(rounds):
            writer, file, body = number % 2, random.randrange(4), f"{number:08x}" * random.randint(1, 40)
            opens[writer] += 1
            session = opens[writer]
            run(program, folder, [f"call {writer} open /f{file} w", f"call {writer} truncate {session} 0", f"call {writer} write {session} 0 {body}",
                                  f"call {writer} close {session}"])
            newest[file] = body
            harmed += harm(folder, cloud)
            for file in sorted(newest):
                opens[0] += 1
                _, out = run(program, folder, [f"call 0 open /f{file} r", f"call 0 read {opens[0]} 0 1000", f"call 0 close {opens[0]}"])
                shown = [line.split()[4] for line in out.split("\n") if " data " in line]
                assert shown == [newest[file]], (file, out)
                read += 1
    print(f"{harmed} times an object of cloud {cloud} was damaged, cut, emptied, deleted or swapped; each of {read} opens gave the newest close")


if __name__ == "__main__":
    main()
