"""Whether the reason holds that dcel_convert gives where it refuses a file of words."""

import re

from fuzz.mesh import other

from .claim import NUMBERS, numbers_of, pairs_of

KINDS = r"(words|out lines)"


def lists(claim, kind):
    return claim.words if kind == "words" else claim.turns


def word_line(claim, half):
    return next((face + 2 for face, word in enumerate(claim.words) if half in word), None)


def turn_line(claim, vertex):
    return claim.faces + vertex + 2


def tokens(claim, line):
    """What stands in a line behind its first word."""
    return claim.lines[line - 1][1:] if line <= len(claim.lines) else []


def is_misnamed(claim, line):
    """Whether the line has to be there, is there, and begins otherwise."""
    return claim.counts is not None and line <= min(len(claim.lines), 1 + claim.faces + claim.vertices) and claim.lines[line - 1][:1] != [
        claim.name_of(line)]


def is_second(claim, line, half, kind):
    """Whether a half edge stands in this line, and there or in a line of its kind before it once more."""
    first = 2 if kind == "words" else turn_line(claim, 0)
    return first <= line and str(half) in tokens(claim, line) and sum(
        tokens(claim, at).count(str(half)) for at in range(first, line + 1)) > 1


def genus(claim):
    return (2 - claim.euler()) / 2


# Before the links: what may be said, and whether that is so of a line.
OF_LINES = [
    (r"the file doesn't begin with 'vertices N edges N faces N'", lambda c, line: line == 1 and c.counts is None),
    (r"a number is not written as one, or out of range: '[^']*'",
     lambda c, line: (c.counts is None if line == 1 else numbers_of(tokens(c, line)) is None)),
    (r"the word of face (\d+) is missing, a line that begins with F\1",
     lambda c, line, face: line == face + 2 and face < c.faces and is_misnamed(c, line)),
    (r"the half edges out of vertex (\d+) are missing, a line that begins with out",
     lambda c, line, vertex: line == turn_line(c, vertex) and vertex < c.vertices and is_misnamed(c, line)),
    (r"there is no half edge (\d+)", lambda c, line, half: half not in c.halves and half in NUMBERS and str(half) in tokens(c, line)),
    (r"there are more vertices and faces than the counts say", lambda c, line: line == c.faces + c.vertices + 2 <= len(c.lines)),
    (r"the file ends before all vertices and faces that the counts say",
     lambda c, line: line == len(c.lines) + 1 and c.counts is not None and len(c.lines) < 1 + c.faces + c.vertices),
    (rf"half edge (\d+) stands twice in the {KINDS}", lambda c, line, half, kind: c.is_readable() and is_second(c, line, half, kind)),
    (rf"half edge (\d+) stands nowhere in the {KINDS}",
     lambda c, line, half, kind: line == 1 and c.is_readable() and half in c.halves and c.count(half, lists(c, kind)) == 0),
]

# Of links: what may be said; the line that shows it, if one does; and whether it is so.
OF_LINKS = [
    (r"there is no outer face", lambda c: 1, lambda c: c.faces == 0),
    (r"there are more faces than edges and two", lambda c: 1, lambda c: c.faces > c.edges + 2),
    (r"half edge (\d+) starts and ends at one vertex", lambda c, half: turn_line(c, c.origins()[half]), lambda c, half: half in c.flat()),
    (r"what comes after half edge (\d+) doesn't start where it ends", word_line, lambda c, half: half in c.apart()),
    (r"the half edges of vertex (\d+) are no single turn", turn_line, lambda c, vertex: vertex in c.parted()),
    (r"no half edge lies on the outer face", lambda c: 2, lambda c: 0 in c.unused()),
    (r"no half edge lies on face (\d+)", lambda c, face: face + 2, lambda c, face: face > 0 and face in c.unused()),
    (r"half edge (\d+) isn't reached from half edge 0", word_line, lambda c, half: half in c.halves and half not in c.reached()),
    (r"the surface has genus (\d+), so it is not a sphere", lambda c, number: None, lambda c, number: genus(c) == number > 0),
    (r"after half edge (\d+) comes half edge (\d+) by ccw, and not (\d+)", lambda c, half, *_: turn_line(c, c.origins()[half]),
     lambda c, half, after, said: c.next()[other(after)] == half and after != said and (half, said) in pairs_of(c.turns[c.origins()[half]])),
]


def holds(claim, words):
    """Whether what the program says of the claim's file is so, and of the line that it names."""
    found = re.fullmatch(r"dcel_convert: (?:line (\d+): )?(.*)\n", words)
    if not found:
        return False
    line, said = found.groups()
    line = line and int(line)
    for pattern, check in OF_LINES:
        if found := re.fullmatch(pattern, said):
            return line is not None and check(claim, line, *numbers(found))
    for pattern, named, check in OF_LINKS:
        if found := re.fullmatch(pattern, said):
            return claim.is_readable() and claim.is_listed() and check(claim, *numbers(found)) and line == named(claim, *numbers(found))
    return False


def numbers(found):
    return [int(word) if word.isdecimal() else word for word in found.groups()]
