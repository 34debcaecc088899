"""Texts with history that are changed by a rule, each with what run_judge says of it."""
import re

from judging import ANSWERS, HISTORY, LEGAL, PARCELS

# a note at an object: which object of which kind, its number, and what was done
AT_OBJECT = re.compile(r"note \d+ ((arena|cache|bin|root|mail)(?: \d+)+?) (\d+) ([a-z]+)")


def numbered(text):
    """The text with one note at an object changed: with a number that no note has, twice, or left out before a later one. Each with its place:
    the number that no note has then, or that two have; of the k-th post or fetch of a mail, twice, the second is the one too many."""
    lines = text.splitlines(keepends=True)
    found = [AT_OBJECT.match(line) for line in lines]
    last = {note[1]: int(note[3]) for note in sorted(filter(None, found), key=lambda note: int(note[3]))}
    for at, (line, note) in enumerate(zip(lines, found)):
        if note is None:
            continue
        (of, kind, _, did), number = note.groups(), int(note[3])
        is_mail, tells = kind == "mail", did in ("take", "birth")
        why = PARCELS if is_mail else HISTORY
        other = line[: note.start(3)] + str(number + 1000) + line[note.end(3) :]
        changes = [("with another number", [other], number)]
        if did != "birth":
            changes.append(("twice", [line, line], number + is_mail))
        if number < last[of] and not (is_mail or tells):
            changes.append(("left out", [], number))
        for what, instead, place in changes:
            changed = "".join([*lines[:at], *instead, *lines[at + 1 :]])
            yield f"{line.strip()} {what}", changed, f"1 not legal: {of} number {place}: {why}"


def neighbours(text, counts):
    """The text of a run of one lane, whose commands made so many notes each, with two neighbouring notes exchanged: of one object the first of
    them then stands behind a later one, and of two the command that made the first made another."""
    lines = text.splitlines(keepends=True)
    begin = next(at for at, line in enumerate(lines) if line.startswith("note "))
    notes = [line for line in lines if line.startswith("note ")]
    command_of = [command for command, count in enumerate(counts) for _ in range(count)]
    command_of += [len(counts)] * (len(notes) - len(command_of))
    for at in range(len(notes) - 1):
        first, second = (AT_OBJECT.match(line) for line in notes[at : at + 2])
        changed = lines[: begin + at] + [notes[at + 1], notes[at]] + lines[begin + at + 2 :]
        is_one = first and second and first[1] == second[1]
        place = f"{first[1]} number {first[3]}: {HISTORY}" if is_one else f"0.{command_of[at]}: {ANSWERS}"
        # a birth before its region is taken: which uses the lines behind it mean is not said, and so not where it is wrong first
        is_early = first and second and (first[4], second[4]) == ("take", "birth")
        yield f"{notes[at].strip()} behind the next", "".join(changed), f"1 not legal: {'' if is_early else place}"


# What is said of the notes of a lane that stand in the log of another: the region was taken by lane 1 then, and its third note at the cache
# of lane 0 brings it there.
EXCHANGED = f"1 not legal: cache 0 0 number 3: {HISTORY}"


def exchanged(text):
    """The text with the notes of its lanes 0 and 1 exchanged, and in the order of the lanes."""
    lines = text.splitlines(keepends=True)
    notes = {lane: [line for line in lines if line.startswith(f"note {lane} ")] for lane in "01"}
    swapped = [re.sub(r"^note \d", f"note {lane}", line) for lane, other in ("01", "10") for line in notes[other]]
    at = lines.index(notes["0"][0])
    return "".join(lines[:at] + swapped + lines[at + len(swapped) :])


# A lane whose allocation by the command 8,194 is the 8,192nd that asks a cache, so that it sweeps its 40 caches behind it: two regions of the
# first, which weren't needed, go to their arena. All but the first two find the arena full, one of them behind the sweep.
SWEEPING, SWEPT = 8194, 40
SWEEP_WORDS = ["--history", "--order", "3", "--arenas", "1", "--chunks", "1", "--level", "disabled"]
SWEEP_TRACE = (
    '[[["alloc","a",8],["alloc","b",8],["release","a"],["release","b"],["alloc","c",57344]' + ',["alloc","d",32768]' * (SWEEPING - 3) + "]]"
)


def renumbered(lines):
    """Lines of a run of one lane, in which the notes of each object have the numbers of their order."""
    counts = {}
    for line in lines:
        note = AT_OBJECT.match(line)
        if note is None:
            yield line
            continue
        counts[note[1]] = counts.get(note[1], 0) + 1
        yield line[: note.start(3)] + str(counts[note[1]]) + line[note.end(3) :]


def swept(text):
    """The text of that lane, and what comes of it where it sweeps a command too early, or too late, not at all, one cache too few, or sheds
    one region too many."""
    lines = text.splitlines(keepends=True)
    trims = [at for at, line in enumerate(lines) if " trim " in line]
    begin, end = trims[0], trims[-1] + 1
    before, sweep, behind = lines[:begin], lines[begin:end], lines[end:]
    # of an allocation that finds the arena full: the handle, the cache, the arena, the handle again
    full = 4
    # what the sweep sheds is left to the closing
    shed = [line for line in sweep if " trim " not in line]
    first = next(at for at, line in enumerate(behind) if " cache 0 0 " in line)
    few = [line for line in sweep if " cache 0 39 " not in line]
    more = [line.replace(" trim 0", " trim 1") if " cache 0 1 " in line else line for line in sweep]
    for what, changed, place in (
        ("a sweep", lines, None),
        ("a sweep too early", [*before[:-full], *sweep, *before[-full:], *behind], f"0.{SWEEPING - 1}: {ANSWERS}"),
        ("a sweep too late", [*before, *behind[:full], *sweep, *behind[full:]], f"0.{SWEEPING}: {ANSWERS}"),
        ("no sweep", [*before, *behind[:first], behind[first].replace("close 0", "close 2"), *shed, *behind[first + 1 :]], f"0.{SWEEPING}: {ANSWERS}"),
        ("a sweep without the last cache", [*before, *few, *behind], f"0.{SWEEPING}: {ANSWERS}"),
        ("a sweep that sheds more", [*before, *more, *behind], f"cache 0 1 number 1: {HISTORY}"),
    ):
        yield what, "".join(renumbered(changed)), f"1 not legal: {place}" if place else LEGAL


def stopped(lanes, lane, line):
    """A trace that makes the notes which the lanes of another make where one of them is stopped at a line: that lane does nothing from there on
    but send what it has no name for; and how its text becomes that of the stopped lane."""
    own = lanes[lane]
    sends = [["send", "none", command[2]] for command in own[line:] if command[0] == "send"]
    instead = [*lanes[:lane], [*own[:line], *sends], *lanes[lane + 1 :]]
    replies = [f"{lane}.{line + k} {command[0]} stopped\n" for k, command in enumerate(own[line:])]

    def told(text):
        lines = text.splitlines(keepends=True)
        at = sum(map(len, lanes[:lane])) + line
        return "".join([*lines[:at], *replies, *lines[at + len(sends) :]])

    return instead, told


# Lanes of which any may be stopped at any line: a buffer is handed over; one is retained 16 times, read, and released as often as it is
# counted; and three clients send a server so many buffers each.
HANDED = [[["alloc", "a", 4], ["set", "a", 0, "0a0b"], ["send", "a", 1]], [["recv", "x", 0], ["get", "x", 0, 2], ["release", "x"]]]
RETAINED = [[["alloc", "a", 4], ["write", "a", "61626364"], *[["retain", "a"]] * 16, *[["get", "a", 0, 4], ["release", "a"]] * 17]]


def served(asked, clients=3):
    lanes = [[command for number in range(asked) for command in asks(client, number, clients)] for client in range(clients)]
    names = [(f"x{client}_{number}", client) for number in range(asked) for client in range(clients)]
    return [*lanes, [command for name, client in names for command in (["recv", name, client], ["read", name, 16], ["release", name])]]


def asks(client, number, server):
    name, part = f"a{number}", f"s{number}"
    size = (number * 4363 + client * 97) % 8701 + 300
    write = ["write", name, f"{client:016}{number:016}"]
    return [["alloc", name, size], write, ["slice", part, name, 0, 16], ["get", part, 0, 16], ["send", name, server]]


# Of each its lanes, the words of a pool that has room for them, and the places: all of the small ones, and of a large server one at its begin,
# two in its middle and one at its end.
SMALL, LARGE = "--order 6 --chunks 1 --handles 16", "--chunks 1 --handles 256"
STOPPED = [
    (lanes, SMALL, [(lane, line) for lane, own in enumerate(lanes) for line in range(len(own))]) for lanes in (HANDED, RETAINED, served(2))
]
STOPPED.append((served(200), LARGE, [(0, 0), (1, 501), (2, 999), (3, 902)]))


def generated(start, lanes, commands):
    """A generated trace, written out."""
    state, blocks = start % 2**31, commands // (8 * lanes)
    trace = []
    for lane in range(lanes):
        trace.append([])
        for block in range(blocks):
            draws = []
            for _ in range(2):
                state = (state * 1103515245 + 12345) % 2**31
                draws.append(state // 256)
            size, part = draws[0] % 1009 + 16, f"{draws[1] % 256:02x}" * 4
            a, s, r = (f"{letter}{block}" for letter in "asr")
            trace[lane] += [["alloc", a, size], ["set", a, 0, part], ["slice", s, a, 2, 8], ["get", s, 0, 4]]
            trace[lane] += [["send", a, (lane + 1) % lanes], ["recv", r, (lane - 1) % lanes], ["get", r, 0, 4], ["release", r]]
    return trace
