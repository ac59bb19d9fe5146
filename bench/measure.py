#!/usr/bin/env python3
"""Times `routes` beside the peer on the maps of a folder, and prints tables.

    python3 measure.py FOLDER ROUTES PEER [REPETITIONS]

FOLDER holds a folder a map, made by towns.py, each with its map.img. Times are processor time (user and system)
of the whole program, the best of some repetitions that take turns; from each the time of the same script without
its `next` lines is taken off, which leaves what the nexts took. Each table says how far repetitions lay apart.
"""
import os
import sys

NEXT = "next\n"


def run(program, folder, script, replies):
    """the processor seconds that a program takes for a script"""
    child = os.fork()
    if child == 0:
        os.chdir(folder)
        os.dup2(os.open(script, os.O_RDONLY), 0)
        os.dup2(os.open(replies, os.O_WRONLY | os.O_CREAT | os.O_TRUNC, 0o644), 1)
        os.execv(program, [program])
    _, status, usage = os.wait4(child, 0)
    if status != 0:
        sys.exit("%s failed on %s/%s" % (program, folder, script))
    return usage.ru_utime + usage.ru_stime


def read(*path):
    with open(os.path.join(*path)) as file:
        return file.read()


def without_nexts(folder, script):
    """writes the script without its nexts, and gives its name"""
    name = script + "-without-next"
    with open(os.path.join(folder, name), "w") as file:
        file.write(read(folder, script).replace(NEXT, ""))
    return name


class Timing:
    """the seconds of the nexts of a script, and how far the repetitions lay apart"""

    def __init__(self, times, times_without):
        self.seconds = max(min(times) - min(times_without), 0)
        self.spread = max(times) / min(times)


def time_both(programs, folder, script, repetitions):
    """the timings of the programs on a script; their replies stay in the folder"""
    bare = without_nexts(folder, script)
    times = {program: ([], []) for program in programs}
    for _ in range(repetitions):
        for k, program in enumerate(programs):
            times[program][0].append(run(program, folder, script, "replies-%d" % k))
            times[program][1].append(run(program, folder, bare, "replies-without-next"))
    return [Timing(*times[program]) for program in programs]


def costs(folder, replies):
    """the replies, of routes only their number and their cost"""
    return [reply.split(" links ")[0] for reply in read(folder, replies).splitlines()]


def same_costs(folder):
    ours, peers = costs(folder, "replies-0"), costs(folder, "replies-1")
    if ours == peers:
        return "same"
    differing = [n for n, (a, b) in enumerate(zip(ours, peers), 1) if a != b]
    return "DIFFERENT from line %d" % (differing[0] if differing else min(len(ours), len(peers)) + 1)


def longest_route(folder):
    links = [int(reply.split()[6]) for reply in read(folder, "replies-0").splitlines() if reply.startswith("route")]
    return max(links, default=0)


def table(head, folder, programs, script, unit, repetitions):
    """prints a table of the maps that have the script; says whether all costs are the same"""
    print(head)
    print("%-12s %6s %6s %10s %10s %6s %13s  %s"
          % ("map", "links", "most", "routes", "peer", "ratio", "spread", "costs"))
    all_same = True
    for name in sorted(os.listdir(folder)):
        place = os.path.join(folder, name)
        if not os.path.exists(os.path.join(place, script)):
            continue
        ours, peers = time_both(programs, place, script, repetitions)
        nexts = read(place, script).count(NEXT)
        verdict = same_costs(place)
        all_same = all_same and verdict == "same"
        print("%-12s %6d %6d %10.3f %10.3f %6.2f %6.2f %6.2f  %s"
              % (name, read(place, "town.txt").count("link "), longest_route(place), ours.seconds / nexts / unit,
                 peers.seconds / nexts / unit, ours.seconds / max(peers.seconds, 1e-9), ours.spread, peers.spread,
                 verdict), flush=True)
    print()
    return all_same


def main():
    folder, *programs = [os.path.abspath(path) for path in sys.argv[1:4]]
    repetitions = int(sys.argv[4]) if len(sys.argv) > 4 else 5
    single = table("One search: microseconds, 1,000 questions between random nodes", folder, programs, "single", 1e-6,
                   repetitions)
    sixteen = table("Sixteen nexts a question: milliseconds for one next", folder, programs, "sixteen", 1e-3, repetitions)
    print("most: the links of the longest route that came; ratio: routes to peer")
    print("spread: the slowest of %d repetitions to the fastest, of routes and of the peer" % repetitions)
    sys.exit(0 if single and sixteen else "the costs differ")


main()
