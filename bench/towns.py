#!/usr/bin/env python3
"""Makes maps and questions to measure with.

    python3 towns.py FOLDER [SEED]

writes for each map a folder FOLDER/NAME with

    town.txt    the map as a town text, for the program `lay`
    sixteen     a script: some questions, each with `ask`, sixteen times `next`, and `end`
    single      a script: 1,000 questions between random nodes, each with `ask`, `next` and `end` (towns only)

The same seed gives the same files.

    town706-1, -2     223 nodes, 706 links: a town of two-way and one-way streets
    town1024-1, -2    512 nodes, 1,024 links: a town of one-way streets in alternating directions
    skips             a long street of 512 nodes, with links that skip a node and cost a little more
    serpentine        22 x 22 nodes along one winding street, with dear links across
    lanes             a long street of 461 nodes, two lanes between each two

In the towns turning left costs little, turning right and back more, and some turns are barred (traffic keeps to
the left). On the last three maps the routes have 400 to 500 links.
"""
import math
import os
import random
import sys

TURNS = 2048


def letter(a, b, c):
    """the letter of the turn from the street a to b into the street b to c, by their positions"""
    before = math.atan2(b[1] - a[1], b[0] - a[0])
    after = math.atan2(c[1] - b[1], c[0] - b[0])
    angle = math.degrees((after - before + 3 * math.pi) % (2 * math.pi) - math.pi)
    if abs(angle) > 150:
        return "U"
    if abs(angle) < 40:
        return "S"
    return "L" if angle > 0 else "R"


def entry(rnd, into, out, kind):
    """a turn entry of a kind, or a barred one"""
    if kind == "L":
        return (into, out, "L", rnd.randint(5, 30))
    if kind == "R":
        return (into, out, "X", 0) if rnd.random() < .12 else (into, out, "R", rnd.randint(40, 120))
    return (into, out, "X", 0) if rnd.random() < .7 else (into, out, "U", rnd.randint(150, 300))


def town(rnd, position, streets):
    """links and turns of a town; a street is (node, node, whether it goes both ways)"""
    links = []
    for a, b, both in streets:
        length = round(math.dist(position[a], position[b]))
        tightness = rnd.choice([1, 1, 2, 3, 4, 6, 9])
        links.append((a, b, length, tightness))
        if both:
            links.append((b, a, length, tightness))
    links.sort(key=lambda link: link[:2])
    turns = []
    for into, (a, b, _, _) in enumerate(links, 1):
        for out, (start, c, _, _) in enumerate(links, 1):
            if start == b:
                kind = letter(position[a], position[b], position[c])
                if kind != "S":
                    turns.append(entry(rnd, into, out, kind))
    return links, turns[:TURNS]


def two_way_town(seed):
    """15 x 15 nodes without two corners: 290 streets go both ways, 126 one way"""
    rnd = random.Random(seed)
    cells = [(x, y) for y in range(15) for x in range(15) if (x, y) not in ((0, 0), (14, 14))]
    node = {cell: n for n, cell in enumerate(cells, 1)}
    position = {node[x, y]: (150 * x + rnd.uniform(-40, 40), 130 * y + rnd.uniform(-40, 40)) for x, y in cells}
    pairs = [(node[x, y], node[to]) for x, y in cells for to in ((x + 1, y), (x, y + 1)) if to in node]
    one_way = set(rnd.sample(range(len(pairs)), 126))
    streets = []
    for k, (a, b) in enumerate(pairs):
        if k in one_way and rnd.random() < .5:
            a, b = b, a
        streets.append((a, b, k not in one_way))
    links, turns = town(rnd, position, streets)
    assert len(node) == 223 and len(links) == 706
    return links, turns


def one_way_town(seed):
    """32 x 16 nodes, streets in alternating directions, 48 of them both ways"""
    rnd = random.Random(seed)
    node = {(x, y): 1 + x + 32 * y for y in range(16) for x in range(32)}
    position = {n: (100 * x + rnd.uniform(-25, 25), 120 * y + rnd.uniform(-25, 25)) for (x, y), n in node.items()}
    pairs = []
    for (x, y), n in node.items():
        if x < 31:
            pairs.append((n, node[x + 1, y]) if y % 2 == 0 else (node[x + 1, y], n))
        if y < 15:
            pairs.append((n, node[x, y + 1]) if x % 2 == 1 else (node[x, y + 1], n))
    both = set(rnd.sample(range(len(pairs)), 48))
    links, turns = town(rnd, position, [(a, b, k in both) for k, (a, b) in enumerate(pairs)])
    assert len(node) == 512 and len(links) == 1024
    return links, turns


def skips(seed):
    rnd = random.Random(seed)
    length = {k: rnd.randint(10, 50) for k in range(1, 512)}
    links = []
    for k in range(1, 512):
        links.append((k, k + 1, length[k], rnd.randint(0, 9)))
        if k <= 510:
            links.append((k, k + 2, length[k] + length[k + 1] + rnd.randint(0, 400), rnd.randint(0, 9)))
    links += [(512, 1, 5, 0), (512, 512, 0, 0)]
    return links, []


def serpentine(seed):
    rnd = random.Random(seed)
    wide = 22
    way = [(x if y % 2 == 0 else wide - 1 - x, y) for y in range(wide) for x in range(wide)]
    node = {cell: n for n, cell in enumerate(way, 1)}
    links = [(n, n + 1, rnd.randint(20, 60), 1) for n in range(1, len(way))]
    while len(links) < 1000:
        x, y = rnd.choice(way)
        to = rnd.choice([(x + 1, y), (x - 1, y), (x, y + 1), (x, y - 1)])
        if to in node:
            links.append((node[x, y], node[to], rnd.randint(3000, 60000), rnd.randint(2, 9)))
    links.sort(key=lambda link: link[0])
    return links, []


def lanes(seed):
    rnd = random.Random(seed)
    links = [(k, k + 1, rnd.randint(50, 900), rnd.randint(0, 20)) for k in range(1, 461) for _ in range(2)]
    pairs = [(i, i + i % 2 + k) for i in range(1, len(links) - 1) for k in (1, 2)]
    turns = [(i, o, rnd.choice("SLRU"), rnd.randint(0, 200)) for i, o in sorted(rnd.sample(pairs, 900))]
    return links, turns


def reached(links, node):
    """the nodes to which links lead from a node, whatever the turns"""
    ends = {}
    for start, end, _, _ in links:
        ends.setdefault(start, []).append(end)
    seen, waiting = {node}, [node]
    while waiting:
        for end in ends.get(waiting.pop(), []):
            if end not in seen:
                seen.add(end)
                waiting.append(end)
    return seen


def random_questions(rnd, links, count):
    """questions between random nodes, where links lead from the one to the other"""
    nodes = sorted({node for link in links for node in link[:2]})
    ends = {}
    questions = []
    while len(questions) < count:
        a, b = rnd.choice(nodes), rnd.choice(nodes)
        if a not in ends:
            ends[a] = reached(links, a)
        if b in ends[a]:
            questions.append((a, b))
    return questions


def script(questions, nexts):
    return "".join("ask %d %d\n" % question + "next\n" * nexts + "end\n" for question in questions)


def write(folder, name, made, sixteen, single=()):
    links, turns = made
    place = os.path.join(folder, name)
    os.makedirs(place)
    files = {
        "town.txt": "".join("link %d %d %d %d\n" % link for link in links)
        + "".join("turn %d %d %s %d\n" % turn for turn in turns),
        "sixteen": script(sixteen, 16),
    }
    if single:
        files["single"] = script(single, 1)
    for file, text in files.items():
        with open(os.path.join(place, file), "w") as out:
            out.write(text)


def main():
    folder = sys.argv[1]
    seed = int(sys.argv[2]) if len(sys.argv) > 2 else 71
    rnd = random.Random(seed)
    for size, make in ((706, two_way_town), (1024, one_way_town)):
        for k in (1, 2):
            made = make(seed + k)
            questions = random_questions(rnd, made[0], 1020)
            write(folder, "town%d-%d" % (size, k), made, questions[:20], questions[20:])
    write(folder, "skips", skips(seed), [(1, 481), (20, 500), (200, 100), (35, 440)])
    write(folder, "serpentine", serpentine(seed), [(1, 484), (1, 470), (15, 484), (8, 480)])
    write(folder, "lanes", lanes(seed), [(1, 461), (1, 420), (30, 461), (20, 450)])


main()
