"""The rows of run_view, and what a picture of a run must show, found in the picture and in the run's text apart."""
import re
import xml.etree.ElementTree as xml

from judging import GIVEN_TWICE
from trying import HERE, REFUSED, TEXT_LIMIT, UNREAD, WHOLE, WORDS, WRITE_FAULT
from trying import case_of, cut_off, expect, json_of, run, try_ends

# The moments end here, in tenths of a pixel from the left.
RIGHT = 12_500
LABEL, NUMBER = 130, 100

# Examples of which pictures are drawn, and a server with four lanes; and the roots that are to have a track.
SERVER = "../docs/pictures/server"
DRAWN = [
    ("smallest", []),
    ("smallest", ["0.1"]),
    ("chunk_lists", []),
    (SERVER, []),
    (SERVER, ["0.1", "3.1"]),
    ("hand_over", ["0.1"]),
    ("composite_parts", []),
    ("leaks", []),
    ("cache_full", []),
    ("no_commands", ["0.1"]),
]

# Those that the manual has, and its pictures of them.
STORED = {("smallest", "0.1"): "smallest", ("chunk_lists",): "chunk_lists", (SERVER,): "server"}

# Words, and whether they name roots.
NAMED = [
    (["--root", "0.1"], True),
    (["--root=0.1"], True),
    (["--root", "0.1", "--root=0.1", "--root", "7.0"], True),
    (["--root", "4294967295.4294967295"], True),
    (["--root", "00000000000000000000.01"], True),
    (["--root"], False),
    (["--root", "0.1", "--root"], False),
    (["0.1"], False),
    (["--roots", "0.1"], False),
    (["--root", "0"], False),
    (["--root", "0."], False),
    (["--root", ".1"], False),
    (["--root", "0.1.2"], False),
    (["--root", "0.-1"], False),
    (["--root", "+0.1"], False),
    (["--root", "0,1"], False),
    (["--root", "4294967296.1"], False),
    (["--root", "0.000000000000000000001"], False),
    ([""], False),
]

TAKING = re.compile(
    r"taking (\d+) at (\d+\.\d+)\+(\d+), bytes (\d+), class (\d+); taken by note (\d+) by lane (\d+); "
    r"(?:still out|given back by note (\d+) by lane (\d+))"
)


def marks(svg):
    """The marks of a picture, in order: of each its element, its class, its numbers and its text."""
    for mark in xml.fromstring(svg.encode()):
        kind = mark.tag.removeprefix("{http://www.w3.org/2000/svg}")
        if kind in ("rect", "text") and mark.get("class") not in (None, "page"):
            numbers = {key: int(value) for key, value in mark.attrib.items() if key != "class"}
            yield kind, mark.get("class"), numbers, "".join(mark.itertext())


def takings_drawn(svg):
    """What the titles of rectangles say of takings."""
    titles = [TAKING.fullmatch(text).groups() for _, style, _, text in marks(svg) if style == "block"]
    return sorted((*title[:3], *title[4:]) for title in titles)


def takings_told(text):
    """The same from the notes of a text: each take, and the first give of its taking."""
    takes, gives = {}, {}
    for line in text.splitlines():
        match line.split(" "):
            case ["note", lane, "arena", arena, number, "take", of_class, place, taking]:
                takes[arena, taking] = (place, of_class, number, lane)
            case ["note", lane, "arena", arena, number, "give", place, taking]:
                gives.setdefault((arena, taking), (number, lane))
    told = []
    for (arena, taking), (place, of_class, number, lane) in takes.items():
        chunk, offset = place.split("+")
        told.append((taking, f"{arena}.{chunk}", offset, of_class, number, lane, *gives.get((arena, taking), (None, None))))
    return sorted(told)


def edges_of(svg):
    """Of each chunk the height of its top, and at which heights which of its bytes begin, by page numbers and by titles."""
    size = int(re.search(r"bytes of a page: (\d+)", svg)[1])
    pages = 2 ** int(re.search(r"pages of a chunk: 2\^(\d+)", svg)[1])
    tops = {text.removeprefix("chunk "): at["y"] - LABEL for _, style, at, text in marks(svg) if style == "label" and text.startswith("chunk ")}
    strips = {name: {} for name in tops}
    chunk_at = lambda y: max((top, name) for name, top in tops.items() if top <= y)[1]
    for kind, style, at, text in marks(svg):
        if style == "number" and text.isdecimal() and at["y"] - NUMBER >= min(tops.values(), default=10**9):
            strips[chunk_at(at["y"] - NUMBER)].setdefault(at["y"] - NUMBER, int(text) * size)
        elif style == "open" and text:
            strips[chunk_at(at["y"])][at["y"] + at["height"]] = pages * size
        elif style == "subpage" and text:
            strips[chunk_at(at["y"])][at["y"]] = int(text.rsplit(" ", 1)[1]) * size
        elif style == "block":
            _, chunk, offset, length, *_ = TAKING.fullmatch(text).groups()
            strips[chunk].setdefault(at["y"], int(offset))
            strips[chunk].setdefault(at["y"] + at["height"], int(offset) + int(length))
    return strips, chunk_at


def shaded(svg):
    """Of each chunk how many bytes are shaded at the right edge: takings and subpages, each byte once."""
    strips, chunk_at = edges_of(svg)
    spans = {name: [] for name in strips}
    for kind, style, at, text in marks(svg):
        if kind == "rect" and style in ("block", "subpage") and text and at["x"] + at["width"] == RIGHT and "given back" not in text:
            spans[chunk_at(at["y"])].append((at["y"], at["y"] + at["height"]))
    return {name: covered(sorted(spans[name]), strips[name]) for name in strips if spans[name]}


def covered(spans, bytes_at):
    """How many bytes spans of heights cover together."""
    joined = []
    for upper, lower in spans:
        if joined and upper <= joined[-1][1]:
            joined[-1][1] = max(joined[-1][1], lower)
        else:
            joined.append([upper, lower])
    return sum(bytes_at[lower] - bytes_at[upper] for upper, lower in joined)


def used(text):
    """What the chunk lines of a text say is used."""
    lines = re.findall(r"^chunk (\d+\.\d+) \w+ used (\d+) free \d+$", text, re.MULTILINE)
    return {name: int(bytes) for name, bytes in lines if int(bytes)}


def picture_in_manual(name):
    with open(f"{HERE}/../docs/pictures/{name}.svg", encoding="utf-8") as it:
        return it.read()


def try_picture(view, poolrun, name, roots):
    """A picture is XML, has a rectangle for each taking that the text tells, shades what is used at the end, and tracks the roots; those of
    the manual are its own."""
    case = case_of(poolrun, name, {})
    words = [word for root in roots for word in ("--root", root)]
    status, svg, said = run(view, words, json_of(case))
    stored = STORED.get((name, *roots))
    expect(
        f"run_view {words} < {name}",
        status=((status, said), (WHOLE, "")),
        takings=(takings_drawn(svg), takings_told(case["text"])),
        shaded=(shaded(svg), used(case["text"])),
        stored=(stored is None or svg == picture_in_manual(stored), True),
        tracks=([text for _, style, _, text in marks(svg) if style == "label" and text.startswith("root ")], [f"root {root}" for root in roots]),
    )


def try_refusals(view, poolrun):
    """Words that name no roots, input that asks about no run, and texts that aren't read; an illegal run is drawn."""
    case = case_of(poolrun, "smallest", {})
    for words, is_named in NAMED:
        status, svg, said = run(view, words, json_of(case))
        want = (WHOLE, True, "") if is_named else (WORDS, False, "refused words\n")
        expect(f"run_view {words}", ran=((status, svg != "", said), want))
    for key in case:
        less = {other: value for other, value in case.items() if other != key}
        for text in (json_of(less), json_of({**case, key: 1})):
            expect(f"run_view < {text[:200]}", ran=(run(view, [], text), (REFUSED, "", "refused input\n")))
    for change in ({"words": ["--generate", "1"]}, {"words": ["--order", "2"]}, {"trace": "[[["}, {"more": ""}):
        expect(f"run_view < {change}", ran=(run(view, [], json_of({**case, **change})), (REFUSED, "", "refused input\n")))
    for text, line in (("", 1), (case["text"] + "end", case["text"].count("\n") + 1), (case["text"].replace("0.1 set ok", "0.1 set good"), 2)):
        want = (UNREAD, "", f"refused text line {line}: no run of this trace has such a line here\n")
        expect(f"run_view < text {text[:50]}", ran=(run(view, [], json_of({**case, "text": text})), want))
    illegal = case_of(poolrun, "smallest", {"get ok 68656c6c6f": "get ok 68656c6c70"})
    expect("run_view < an illegal run", status=(run(view, [], json_of(illegal))[0], WHOLE))
    twice = case_of(poolrun, "smallest", GIVEN_TWICE)
    status, svg, _ = run(view, [], json_of(twice))
    expect("run_view < a region that is given twice", status=(status, WHOLE), takings=(takings_drawn(svg), takings_told(twice["text"])))


def try_view(view, poolrun):
    for name, roots in DRAWN:
        try_picture(view, poolrun, name, roots)
    try_refusals(view, poolrun)
    case = json_of(case_of(poolrun, "smallest", {}))
    whole = run(view, [], case)[1]
    expect("run_view twice", text=(run(view, [], case)[1], whole))
    for room in (4096, 8192):
        expect(f"run_view > {room} bytes", ran=(cut_off(view, [], case, room), (WRITE_FAULT, whole.encode()[:room].decode(), "write fault\n")))
    try_ends("run_view", view, case, b" " * TEXT_LIMIT, TEXT_LIMIT)
