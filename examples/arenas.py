"""What an arena does, region by region, as runs show it that take sizes which no cache keeps: where each lies, and in which list its chunk is."""
import json

from trying import LIVE, WHOLE, expect, run

ONE, TWO = "--order 9 --arenas 1 --chunks 1", "--order 9 --arenas 1 --chunks 2"
SMALL = "--order 4 --arenas 1 --chunks 1"
QUARTER = 1_048_576


def quarters(*names):
    """Takes a quarter of a chunk for each name that is new, and gives one back for each that was there."""
    taken = set()
    for name in names:
        yield ["release", name] if name in taken else ["alloc", name, QUARTER]
        taken.add(name)


def at(chunk, offset):
    return f"alloc ok {QUARTER} 0.{chunk}+{offset}"


def chunk(number, which, used, of=4_194_304):
    return f"chunk 0.{number} {which} used {used} free {of - used}"


# Words, commands, and of each command what it is answered, and the chunks as a run ends that ends there.
STEPS = [
    # a chunk goes through all lists, and a new one begins where it was destroyed
    (
        ONE,
        [*quarters(*"abcdabcde")],
        [
            (at(0, 0), [chunk(0, "q000", QUARTER)]),
            (at(0, QUARTER), [chunk(0, "q025", 2 * QUARTER)]),
            (at(0, 2 * QUARTER), [chunk(0, "q050", 3 * QUARTER)]),
            (at(0, 3 * QUARTER), [chunk(0, "q100", 4 * QUARTER)]),
            ("release freed", [chunk(0, "q075", 3 * QUARTER)]),
            ("release freed", [chunk(0, "q050", 2 * QUARTER)]),
            ("release freed", [chunk(0, "q025", QUARTER)]),
            ("release freed", []),
            (at(0, 0), [chunk(0, "q000", QUARTER)]),
        ],
    ),
    # a second chunk opens where the first is full, and is asked before the first, which is the fuller
    (
        TWO,
        [*quarters(*"abcdeafbcdef")],
        [
            (at(0, 0), [chunk(0, "q000", QUARTER)]),
            (at(0, QUARTER), [chunk(0, "q025", 2 * QUARTER)]),
            (at(0, 2 * QUARTER), [chunk(0, "q050", 3 * QUARTER)]),
            (at(0, 3 * QUARTER), [chunk(0, "q100", 4 * QUARTER)]),
            (at(1, 0), [chunk(0, "q100", 4 * QUARTER), chunk(1, "q000", QUARTER)]),
            ("release freed", [chunk(0, "q075", 3 * QUARTER), chunk(1, "q000", QUARTER)]),
            (at(1, QUARTER), [chunk(0, "q075", 3 * QUARTER), chunk(1, "q025", 2 * QUARTER)]),
            ("release freed", [chunk(0, "q050", 2 * QUARTER), chunk(1, "q025", 2 * QUARTER)]),
            ("release freed", [chunk(0, "q025", QUARTER), chunk(1, "q025", 2 * QUARTER)]),
            ("release freed", [chunk(1, "q025", 2 * QUARTER)]),
            ("release freed", [chunk(1, "q025", QUARTER)]),
            ("release freed", []),
        ],
    ),
    # the whole chunk, once
    (
        "--order 3 --arenas 1 --chunks 1",
        [["alloc", "a", 65_536], ["alloc", "b", 16]],
        [("alloc ok 65536 0.0+0", [chunk(0, "q100", 65_536, 65_536)]), ("alloc full", [chunk(0, "q100", 65_536, 65_536)])],
    ),
    (
        "--order 9 --arenas 1 --chunks 4",
        [["alloc", "a", 4_194_304], ["release", "a"]],
        [("alloc ok 4194304 0.0+0", [chunk(0, "q100", 4_194_304)]), ("release freed", [])],
    ),
    # three runs of five pages leave none of four
    (
        SMALL,
        [["alloc", "a", 40_960], ["alloc", "b", 40_960], ["alloc", "c", 40_960], ["alloc", "d", 32_768]],
        [
            ("alloc ok 40960 0.0+0", [chunk(0, "q000", 40_960, 131_072)]),
            ("alloc ok 40960 0.0+40960", [chunk(0, "q025", 81_920, 131_072)]),
            ("alloc ok 40960 0.0+81920", [chunk(0, "q050", 122_880, 131_072)]),
            ("alloc full", [chunk(0, "q050", 122_880, 131_072)]),
        ],
    ),
    # a run that is given back is merged with the rest of a chunk that stays
    (
        ONE,
        [["alloc", "a", 40_960], ["release", "a"], ["alloc", "b", 4_194_304]],
        [
            ("alloc ok 40960 0.0+0", [chunk(0, "qInit", 40_960)]),
            ("release freed", [chunk(0, "qInit", 0)]),
            ("alloc ok 4194304 0.0+0", [chunk(0, "q100", 4_194_304)]),
        ],
    ),
]

# The page, the sizes of the last small class and of the first normal one, and the bytes of the chunk. The small one's subpage stays, which is
# twice as long.
EDGES = [(4096, 14_336, 16_384, 2_097_152), (8192, 28_672, 32_768, 4_194_304), (32_768, 114_688, 131_072, 16_777_216)]


def try_steps(poolrun):
    for words, commands, want in STEPS:
        for k, (reply, chunks) in enumerate(want):
            status, text, said = run(poolrun, words.split(), json.dumps([commands[: k + 1]]).encode())
            lines = text.splitlines()
            expect(
                f"{commands[: k + 1]} with {words}",
                status=(status in (WHOLE, LIVE), True),
                error=(said, ""),
                reply=(lines[k], f"0.{k} {reply}"),
                chunks=([line for line in lines if line.startswith("chunk ")], chunks),
            )


def try_edges(poolrun):
    for page, small, normal, all in EDGES:
        commands = [["alloc", "a", small], ["alloc", "b", normal], ["release", "b"], ["release", "a"]]
        trace = {"version": 2, "options": {"page": page, "order": 9, "arenas": 1, "chunks": 1}, "lanes": [commands]}
        text = f"0.0 alloc ok {small} 0.0+0\n0.1 alloc ok {normal} 0.0+{2 * small}\n0.2 release freed\n0.3 release freed\n"
        text += f"chunk 0.0 qInit used {2 * small} free {all - 2 * small}\nend roots 2 live 0 leaks 0\n"
        expect(f"both sides of {small} with pages of {page}", ran=(run(poolrun, [], json.dumps(trace).encode()), (WHOLE, text, "")))


def try_takings(poolrun):
    """The takings of an arena are counted, and not what it refuses."""
    for words, commands, want in (
        (ONE, [*quarters(*"abcdabcde")], "take 59 0+0 5"),
        ("--order 3 --arenas 1 --chunks 1", [["alloc", "a", 65_536], ["alloc", "b", 16]], "take 43 0+0 1"),
    ):
        _, text, said = run(poolrun, ["--history", *words.split()], json.dumps([commands]).encode())
        takes = [line for line in text.splitlines() if " arena 0 " in line and " take " in line]
        expect(f"takings of {commands}", error=(said, ""), last=(takes[-1].split(" ", 5)[5], want), many=(len(takes), int(want.split()[-1])))


def try_idle(poolrun):
    """A subpage that is idle is a run again, but the last of its class stays. With its 8,192nd request the lane sweeps its caches, so that
    what they kept is the arena's again: the second subpage's one element, and one of the first's two."""
    allocs = [["alloc", name, 28_672] for name in "abc"]
    commands = [*allocs, ["release", "a"], ["release", "c"], *[["capacity", "b", 32_768]] * 8189, ["alloc", "d", 57_344]]
    words = [*SMALL.split(), "--level", "disabled"]
    status, text, said = run(poolrun, words, json.dumps([[*commands, ["release", "b"], ["release", "d"]]]).encode())
    lines = text.splitlines()
    places = [f"0.{k} alloc ok 28672 0.0+{28_672 * k}" for k in range(3)]
    end = ["0.8194 alloc ok 57344 0.0+57344", "0.8195 release freed", "0.8196 release freed"]
    end += ["chunk 0.0 q025 used 57344 free 73728", "end roots 4 live 0 leaks 0"]
    refused = {line.split(" ", 1)[1] for line in lines[5:8194]}
    found = (status, said, lines[:3], refused, lines[8194:])
    expect("a subpage that is idle", found=(found, (WHOLE, "", places, {"capacity full"}, end)))


def try_arenas(poolrun):
    for part in (try_steps, try_edges, try_takings, try_idle):
        part(poolrun)
