"""Files of words made at random: those of meshes, damaged ones, and such as lie on no sphere."""

from fuzz.mesh import other

from .claim import text_of_surface
from .made import grid, sphere


def places(lines, word):
    """The lines that begin so: with F, or with out."""
    return [place for place, line in enumerate(lines) if line and line[0].startswith(word)]


def filled(lines, word):
    return [place for place in places(lines, word) if len(lines[place]) > 1]


def any_place(lines, chooser, word):
    """Where some half edge stands."""
    line = lines[chooser.choice(filled(lines, word))]
    return line, chooser.randrange(1, len(line))


def move(lines, chooser, word):
    """Moves a half edge to another line, or elsewhere in its own."""
    line, place = any_place(lines, chooser, word)
    half, goal = line.pop(place), lines[chooser.choice(places(lines, word))]
    goal.insert(chooser.randrange(1, len(goal) + 1), half)


def exchange(lines, chooser, word):
    """Exchanges two half edges."""
    (one, place), (two, other_place) = any_place(lines, chooser, word), any_place(lines, chooser, word)
    one[place], two[other_place] = two[other_place], one[place]


def put(lines, chooser, word, number):
    line, place = any_place(lines, chooser, word)
    line[place] = str(number)


def leave_out(lines, chooser, word):
    line, place = any_place(lines, chooser, word)
    line.pop(place)


def turn(lines, chooser, word):
    """Has a line begin with another half edge."""
    line, place = any_place(lines, chooser, word)
    line[1:] = line[place:] + line[1:place]


def turn_back(lines, chooser, word):
    line, _ = any_place(lines, chooser, word)
    line[1:] = line[:0:-1]


def exchange_lines(lines, chooser, word, is_whole):
    """Exchanges two lines, or what stands in them."""
    one, two = (chooser.choice(places(lines, word)) for _ in range(2))
    lines[one], lines[two] = lines[two], lines[one]
    if not is_whole:
        lines[one][0], lines[two][0] = lines[two][0], lines[one][0]


def join_lines(lines, chooser, word):
    """Puts what stands in a line into another one."""
    one, two = (lines[chooser.choice(places(lines, word))] for _ in range(2))
    if one is not two:
        one += two[1:]
        del two[1:]


def count(lines, chooser, place, step):
    lines[0][place] = str(max(0, int(lines[0][place]) + step))


def add_line(lines, chooser):
    lines.insert(chooser.randrange(1, len(lines) + 1), chooser.choice([[], ["out"], ["F0"], ["F1", "0"], ["ok"], list(chooser.choice(lines))]))


def turn_over(lines, chooser):
    """Exchanges the two half edges of an edge in words and turns, or in one of them."""
    half = 2 * chooser.randrange(int(lines[0][3]))
    names = {str(half): str(other(half)), str(other(half)): str(half)}
    for word in chooser.choice([["F"], ["out"], ["F", "out"]]):
        for place in places(lines, word):
            lines[place][1:] = [names.get(name, name) for name in lines[place][1:]]


def put_beside(lines, chooser, is_joined):
    """Adds another mesh, whose half edges come behind, and if it is joined, with a vertex of both."""
    added = [line.split() for line in text_of_surface(sphere(chooser)).split("\n")[:-1]]
    behind, faces = 2 * int(lines[0][3]), int(lines[0][5])
    added[1:] = [[line[0], *(str(int(half) + behind) for half in line[1:])] for line in added[1:]]
    words = [[f"F{faces + place}", *line[1:]] for place, line in enumerate(added[1:1 + int(added[0][5])])]
    turns = added[1 + int(added[0][5]):]
    lines[0][1::2] = [str(int(one) + int(two)) for one, two in zip(lines[0][1::2], added[0][1::2])]
    lines[1 + faces:] = [*words, *lines[1 + faces:], *turns]
    if is_joined:
        lines[-1] += lines[len(lines) - len(turns) - 1][1:]
        del lines[len(lines) - len(turns) - 1][1:]


ANY_NUMBER = [0, 1, 2 ** 31 - 1, 2 ** 31, 2 ** 32 - 1, 2 ** 32, 2 ** 64, -1, "x", "1.5"]

DAMAGES = {
    "nothing": lambda l, c: None,
    "a half edge of another word": lambda l, c: move(l, c, "F"),
    "a half edge of another vertex": lambda l, c: move(l, c, "out"),
    "two half edges exchanged in words": lambda l, c: exchange(l, c, "F"),
    "two half edges exchanged in turns": lambda l, c: exchange(l, c, "out"),
    "a half edge left out": lambda l, c: leave_out(l, c, c.choice(["F", "out"])),
    "another half edge": lambda l, c: put(l, c, c.choice(["F", "out"]), c.randrange(2 * int(l[0][3]) + 2)),
    "any number": lambda l, c: put(l, c, c.choice(["F", "out"]), c.choice(ANY_NUMBER)),
    "a word begun elsewhere": lambda l, c: turn(l, c, "F"),
    "a turn begun elsewhere": lambda l, c: turn(l, c, "out"),
    "a word turned back": lambda l, c: turn_back(l, c, "F"),
    "a turn turned back": lambda l, c: turn_back(l, c, "out"),
    "a word left out": lambda l, c: l.pop(c.choice(places(l, "F"))),
    "a turn left out": lambda l, c: l.pop(c.choice(places(l, "out"))),
    "a line more": add_line,
    "another face's number": lambda l, c: l[c.choice(places(l, "F"))].__setitem__(0, f"F{c.randrange(int(l[0][5]) + 1)}"),
    "two words exchanged": lambda l, c: exchange_lines(l, c, "F", True),
    "two faces exchanged": lambda l, c: exchange_lines(l, c, "F", False),
    "two vertices exchanged": lambda l, c: exchange_lines(l, c, "out", True),
    "two words joined": lambda l, c: join_lines(l, c, "F"),
    "two vertices joined": lambda l, c: join_lines(l, c, "out"),
    "an edge turned over": turn_over,
    "another count": lambda l, c: count(l, c, c.choice([1, 3, 5]), c.choice([-1, 1, 2 ** 31, 2 ** 32])),
    "two parts": lambda l, c: put_beside(l, c, False),
    "two parts at a vertex": lambda l, c: put_beside(l, c, True),
}


def damaged(text, kind, chooser):
    """The text of a mesh's file after a damage, for one in six after two."""
    lines = [line.split() for line in text.split("\n")[:-1]]
    DAMAGES[kind](lines, chooser)
    if chooser.random() < 1 / 6 and filled(lines, "F") and filled(lines, "out"):
        DAMAGES[chooser.choice(list(DAMAGES))](lines, chooser)
    return "".join(" ".join(line) + "\n" for line in lines)


def torus(chooser):
    """A closed surface that is no sphere, of which the first face is made the outer one."""
    return text_of_surface(grid(chooser, False, True))
