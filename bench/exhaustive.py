#!/usr/bin/env python3
"""What the program `towns` has to print, found by trying every list of links.

    python3 bench/exhaustive.py > crates/towns/stdout

A simple route is a list of one or more different links, none of them closed, each starting where the one before
it ends, no two neighbours barred, the first starting at the origin and the last ending at the destination. All of
them are listed here, for each question of each town below; their costs are worked out under the three measures
and sorted. Nothing is searched cleverly, and nothing is taken from the program.

A town is written as a town text. Beside `link START END LENGTH TIGHTNESS` and `turn IN OUT LETTER EXTRA` it has
`close LINK` and `change IN OUT LETTER EXTRA`, which are made once the town is sealed, `ask FROM TO`, and
`write LINK ...`: links that are written over the first route of each question.

For each question and measure one line is printed: the costs of the sixteen cheapest routes in their order; then
`refused 14` where there are sixteen or more, as the book is full, and else `none` with the number of links that
all the routes have together. Which of equally dear routes comes first is not told by any of it. Where links are
written over the first route, they count as listed: the other routes come, one fewer fit, and next answers
`refused 15` where the links are no simple route of the question.
"""
import os

ROOT = os.path.dirname(os.path.dirname(os.path.abspath(__file__)))
ROUTES = 16
ONE_TURN = 2 ** 32


class Town:
    def __init__(self, text):
        self.links, self.turns, self.closed, self.questions, self.written = {}, {}, set(), [], []
        for line in text.split("\n"):
            word, *rest = line.split() or ["#"]
            if word == "link":
                self.links[len(self.links) + 1] = tuple(int(x) for x in rest)
            elif word in ("turn", "change"):
                into, out, letter, extra = rest
                self.turns[int(into), int(out)] = (letter, int(extra))
            elif word == "close":
                self.closed.add(int(rest[0]))
            elif word == "ask":
                self.questions.append((int(rest[0]), int(rest[1])))
            elif word == "write":
                self.written = [int(x) for x in rest]
            else:
                assert word.startswith("#"), line

    def turn(self, into, out):
        return self.turns.get((into, out), ("S", 0))

    def may_go_on(self, beginning, number):
        """whether a link may come after a list of links; the first link may be any"""
        if number in self.closed or number in beginning:
            return False
        if not beginning:
            return True
        last = beginning[-1]
        return self.links[last][1] == self.links[number][0] and self.turn(last, number)[0] != "X"

    def routes(self, start, end):
        found, beginnings = [], [[]]
        while beginnings:
            beginning = beginnings.pop()
            for number in self.links:
                if not beginning and self.links[number][0] != start:
                    continue
                if self.may_go_on(beginning, number):
                    beginnings.append(beginning + [number])
                    if self.links[number][1] == end:
                        found.append(beginning + [number])
        return found

    def metres(self, route):
        lengths = sum(self.links[number][2] for number in route)
        return lengths + sum(self.turn(*pair)[1] for pair in zip(route, route[1:]))

    def turns_first(self, route):
        turns = sum(self.turn(*pair)[0] in "LRU" for pair in zip(route, route[1:]))
        return turns * ONE_TURN + self.metres(route)

    def narrowest(self, route):
        return max(self.links[number][3] for number in route)


MEASURES = [
    ("metres", Town.metres, lambda rank: "%d m" % rank),
    ("turns-first", Town.turns_first, lambda rank: "%d t %d m" % divmod(rank, ONE_TURN)),
    ("narrowest", Town.narrowest, lambda rank: "tight %d" % rank),
]


def line(town, question, cost, text):
    routes = town.routes(*question)
    room = ROUTES
    if town.written:
        if town.written not in routes:
            return "refused 15"
        routes.remove(town.written)
        room -= 1
    costs = [text(rank) for rank in sorted(cost(town, route) for route in routes)]
    if len(routes) >= room:
        return ", ".join(costs[:room] + ["refused 14"])
    return ", ".join(costs + ["none", "links in all: %d" % sum(map(len, routes))])


def sample():
    with open(os.path.join(ROOT, "sample.town")) as file:
        return file.read()


THROUGH = """
link 1 2 100 2
link 2 3 10 3
link 2 4 20 1
link 3 2 10 5
link 4 2 30 0
turn 1 2 R 5
turn 4 2 X 0
turn 4 3 L 7
turn 5 2 U 0
turn 5 3 X 0
"""
ZERO_LENGTHS = """
link 1 2 0 0
link 1 3 0 0
link 2 1 0 0
link 2 3 0 0
link 3 1 0 0
link 3 2 0 0
turn 1 3 X 0
turn 2 6 L 0
turn 5 2 U 1
turn 3 2 X 1000000
"""
SIXTEEN = """
link 1 2 10 1
link 1 2 11 2
link 2 3 20 3
link 2 3 22 4
link 3 4 40 5
link 3 4 44 6
link 4 5 80 7
link 4 5 88 8
"""
BLOCK = """
link 1 2 50 1
link 2 3 50 1
link 2 4 30 2
link 4 5 30 5
link 5 2 30 2
link 5 3 500 0
turn 1 2 X 0
turn 5 2 R 10
turn 1 3 L 5
"""
BLOCK_QUESTIONS = "ask 1 3\nask 1 2\nask 2 3\nask 2 2\n"

TOWNS = [
    ("sample", sample() + """
ask 1 4
ask 3 3
ask 4 4
ask 2 3
ask 4 2
ask 1 1
ask 4 1
"""),
    ("sample, link 5 closed", sample() + """
close 5
ask 1 4
ask 3 3
ask 3 4
ask 4 4
"""),
    ("sample, all closed", sample() + """
close 1
close 2
close 3
close 4
close 5
close 6
ask 1 4
ask 3 3
ask 3 2
"""),
    ("second", """
link 1 2 4 3
link 1 3 2 1
link 2 4 2 2
link 3 2 1 4
link 3 4 3 5
turn 2 5 L 4
turn 4 3 R 2
ask 1 4
ask 1 2
ask 3 4
"""),
    ("no links", """
ask 1 2
ask 512 512
"""),
    ("parallel links", """
link 1 2 100 1
link 1 2 100 2
link 1 2 70 9
link 2 3 50 3
link 2 3 60 1
link 2 3 50 4
turn 1 4 L 0
turn 3 6 X 0
turn 2 5 R 40
ask 1 3
ask 1 2
ask 3 1
"""),
    ("loops", """
link 1 1 10 1
link 1 1 20 7
link 1 2 100 2
link 2 2 5 4
link 2 2 0 0
turn 1 2 U 3
turn 4 5 X 0
ask 1 2
ask 1 1
ask 2 2
ask 2 1
"""),
    ("through the destination", THROUGH + """
ask 1 2
ask 1 3
ask 2 2
ask 3 4
"""),
    ("round trips", """
link 1 2 40 3
link 1 3 60 2
link 2 1 50 1
link 2 3 10 6
link 3 1 30 4
turn 3 1 U 100
turn 3 2 L 15
turn 5 1 S 8
ask 1 1
ask 2 2
ask 3 3
"""),
    ("turn-backs", """
link 1 2 100 2
link 2 1 100 2
link 2 3 80 3
link 3 2 80 3
link 3 4 60 1
link 4 3 60 1
turn 1 2 U 250
turn 3 4 X 0
turn 5 6 U 90
turn 6 5 U 90
turn 4 3 X 0
turn 2 1 U 5
ask 1 4
ask 1 1
ask 4 4
ask 2 3
ask 1 3
"""),
    ("zero lengths", ZERO_LENGTHS + """
ask 1 3
ask 1 1
ask 2 3
"""),
    ("ties", """
link 1 2 100 5
link 1 4 100 5
link 2 3 100 5
link 2 5 100 5
link 3 6 100 5
link 4 5 100 5
link 4 7 100 5
link 5 6 100 5
link 5 8 100 6
link 6 9 100 5
link 7 8 100 5
link 8 9 100 5
turn 1 4 R 0
turn 2 6 L 0
turn 4 8 L 0
turn 6 9 R 0
ask 1 9
ask 1 5
ask 4 6
ask 9 1
"""),
    ("sixteen", SIXTEEN + """
ask 1 5
ask 1 4
ask 2 5
"""),
    ("twenty-seven", """
link 1 2 100 9
link 1 2 101 8
link 1 2 102 7
link 2 3 200 6
link 2 3 203 5
link 2 3 206 4
link 3 4 300 3
link 3 4 309 2
link 3 4 318 1
turn 1 5 R 20
turn 1 6 R 20
turn 2 4 L 20
turn 2 6 R 20
turn 3 4 L 20
turn 3 5 L 20
ask 1 4
ask 1 3
"""),
    ("greatest", """
link 1 512 1000000 255
link 1 512 0 0
link 512 1 1000000 255
link 512 512 1000000 254
turn 1 4 R 1000000
turn 4 3 U 1000000
turn 1 3 X 1000000
ask 1 512
ask 1 1
ask 512 512
ask 512 1
"""),
    ("detour", BLOCK + BLOCK_QUESTIONS),
    ("detour, turns changed", BLOCK + """
change 1 2 S 7
change 4 6 X 0
change 5 2 X 10
change 3 4 R 2
""" + BLOCK_QUESTIONS),
    ("detour, no way on", BLOCK + """
close 6
change 5 2 X 10
""" + BLOCK_QUESTIONS),
    ("apart", """
link 1 2 10 1
link 2 1 10 1
link 3 4 10 1
link 4 3 0 2
ask 1 3
ask 1 4
ask 3 1
ask 1 2
ask 3 3
ask 5 6
ask 1 512
"""),
    ("bridge closed", """
link 1 2 10 1
link 1 2 20 2
link 2 3 30 3
link 3 4 5 4
link 3 4 5 0
close 3
ask 1 4
ask 1 2
ask 2 3
ask 3 4
"""),
    ("crowded", """
link 1 2 13 4
link 1 3 29 2
link 1 4 71 8
link 2 1 17 3
link 2 3 11 6
link 2 4 43 5
link 3 1 23 1
link 3 2 19 7
link 3 4 31 2
link 4 1 37 3
link 4 2 41 9
link 4 3 7 1
turn 1 4 X 0
turn 5 8 U 50
turn 5 9 L 25
turn 2 9 X 0
turn 9 12 X 0
turn 12 9 U 3
turn 6 11 X 0
turn 1 6 R 9
turn 8 6 R 2
close 10
change 2 8 R 14
ask 1 4
ask 2 2
ask 4 1
"""),
    ("sample, 1 3 6 5 written", sample() + "ask 1 4\nwrite 1 3 6 5\n"),
    ("sample, 2 4 3 6 5 written", sample() + "ask 1 4\nwrite 2 4 3 6 5\n"),
    ("through the destination, 1 2 4 3 5 written", THROUGH + "ask 1 2\nwrite 1 2 4 3 5\n"),
    ("zero lengths, 2 6 4 written", ZERO_LENGTHS + "ask 1 3\nwrite 2 6 4\n"),
    ("sixteen, 2 4 6 8 written", SIXTEEN + "ask 1 5\nwrite 2 4 6 8\n"),
    ("sample, 2 4 written", sample() + "ask 1 4\nwrite 2 4\n"),
    ("sample, 1 3 6 5 6 5 written", sample() + "ask 1 4\nwrite 1 3 6 5 6 5\n"),
]


def main():
    for name, text in TOWNS:
        town = Town(text)
        for word, cost, show in MEASURES:
            for question in town.questions:
                print("%s, %d to %d, %s: %s" % (name, *question, word, line(town, question, cost, show)))


if __name__ == "__main__":
    main()
