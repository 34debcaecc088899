"""What the objects of a pool do, as the histories and the last lines of runs show it: bins, caches, samplers and trackers."""
import json
import re

from trying import LIVE, WHOLE, expect, run

NOTE = re.compile(r"note \d+ (\D+(?: \d+)+?) (\d+ [a-z].*)")


def notes_of(text):
    """Of each object its notes, in the order of their numbers."""
    notes = {}
    for note in filter(None, map(NOTE.fullmatch, text.splitlines())):
        notes.setdefault(note[1], []).append(note[2])
    return {of: sorted(told, key=lambda note: int(note.split()[0])) for of, told in notes.items()}


def lives(count, size, name):
    """So many buffers, one after another."""
    return [command for k in range(count) for command in (["alloc", f"{name}{k}", size], ["release", f"{name}{k}"])]


# Words, lanes, and of an object its notes.
NOTED = [
    # a lane's handles are its places in ascending order; one that comes home stands behind the others
    (
        "--handles 3",
        [[], [], [*lives(1, 16, "a"), *(["alloc", name, 16] for name in "bcde")]],
        "bin 2",
        ["1 handle 6", "2 home 6", "3 handle 7", "4 handle 8", "5 handle 6", "6 none"],
    ),
    # what a cache kept first it gives first
    (
        "",
        [[*(["alloc", name, 24] for name in "ab"), *(["release", name] for name in "ab"), *(["alloc", name, 24] for name in "cde")]],
        "cache 0 1",
        ["1 miss", "2 miss", "3 kept 1", "4 kept 2", "5 hit 1", "6 hit 2", "7 miss", "8 close 0"],
    ),
]

# Words, lanes, and what is told of the roots that stay, with the last line.
LEFT = [
    # by lane, and then by number
    (
        "--interval 1",
        [[["alloc", f"a{k}", 16] for k in range(10)] + [["release", f"a{k}"] for k in range(8)], [["alloc", "a", 16]]],
        [*(f"leak {which} capacity 16 count 1 records 0 dropped 0" for which in ("0.9", "0.10", "1.1")), "end roots 11 live 3 leaks 3"],
    ),
    # the last four of twelve accesses
    (
        "--level paranoid",
        [[["alloc", "a", 16], *(["set", "a", k, "00"] for k in range(12))]],
        ["leak 0.1 capacity 16 count 1 records 4 dropped 8", *(f" 0 set {k}+1" for k in range(8, 12)), "end roots 1 live 1 leaks 1"],
    ),
    # each second root of a lane is sampled: what was kept of the first is of no other that has its place
    (
        "--level advanced --interval 2 --handles 1",
        [[["alloc", "a", 16], ["touch", "a"], ["release", "a"], ["alloc", "b", 16], ["touch", "b"]]],
        ["end roots 2 live 1 leaks 0"],
    ),
    (
        "--level advanced --interval 2 --handles 1",
        [[["alloc", "a", 16], ["touch", "a"], ["touch", "a"], *[["release", "a"]], *lives(1, 16, "b"), ["alloc", "c", 16], ["touch", "c"]]],
        ["leak 0.3 capacity 16 count 1 records 1 dropped 0", " 0 touch", "end roots 3 live 1 leaks 1"],
    ),
]


def try_notes(poolrun):
    for words, lanes, of, want in NOTED:
        status, text, said = run(poolrun, ["--history", *words.split()], json.dumps(lanes).encode())
        expect(f"{of} of {lanes}", status=(status in (WHOLE, LIVE), True), error=(said, ""), notes=(notes_of(text).get(of), want))
    for words, lanes, want in LEFT:
        status, text, said = run(poolrun, words.split(), json.dumps(lanes).encode())
        lines = [line for line in text.splitlines() if re.match(r"leak | \d|end ", line)]
        expect(f"what is left of {lanes}", status=(status, LIVE if len(want) > 1 else WHOLE), error=(said, ""), lines=(lines, want))


def try_sweeps(poolrun):
    """A growth that asks a cache counts as an allocation does: with the 8,192nd the lane sweeps its 40 caches."""
    words = ["--history", "--order", "3", "--arenas", "1", "--chunks", "1", "--level", "disabled"]
    for growths, trims in ((8190, 0), (8191, 40)):
        commands = ['["alloc","a",57344]', '["alloc","b",16]'] + ['["capacity","b",32768]'] * growths
        status, text, said = run(poolrun, words, f'[[{",".join(commands)}]]'.encode())
        found = (status, said, text.count(" capacity full\n"), text.count(" trim "))
        expect(f"{growths} growths that are refused", found=(found, (WHOLE, "", growths, trims)))


def try_full_cache(poolrun):
    commands = [f'["alloc","a{k}",16]' for k in range(257)] + [f'["release","a{k}"]' for k in range(257)]
    status, text, _ = run(poolrun, ["--history"], f'[[{",".join(commands)}]]'.encode())
    lines = text.split("\n")
    must = ["0.513 release freed", "note 0 cache 0 0 514 back full 257", "note 0 arena 0 258 give 0+4096 257"]
    end = ["chunk 0.0 qInit used 8192 free 4186112", "end roots 257 live 0 leaks 0", ""]
    has = [line for line in must if line in lines]
    expect("257 buffers come back", status=(status, WHOLE), lines=(has, must), end=(lines[-3:], end))


def try_unneeded(poolrun):
    """A lane of so many allocations that it sweeps its caches: of 256 regions that one keeps it sheds as many as the cache was not asked for."""
    many = 256
    for hits in (0, 10):
        commands = [["alloc", f"a{k}", 32] for k in range(many)] + [["release", f"a{k}"] for k in range(many)]
        commands += lives(hits, 32, "b") + lives(8192 - many - hits, 16, "c")
        status, text, _ = run(poolrun, ["--history"], json.dumps([commands]).encode())
        lines = text.split("\n")
        gives = [line for line in lines if line.startswith("note 0 arena 0 ") and " give " in line]
        end = ["chunk 0.0 qInit used 16384 free 4177920", "end roots 8192 live 0 leaks 0", ""]
        # the cache begins with the region that it has had longest, behind those that were asked for
        first = f"note 0 arena 0 258 give 0+{32 * hits} {1 + hits}"
        trim = f"note 0 cache 0 1 {2 * many + 2 * hits + 1} trim {many - hits}"
        expect(
            f"{many} buffers, of which {hits} were needed",
            status=(status, WHOLE),
            trim=(trim in lines, True),
            give=(gives[:1], [first]),
            end=(lines[-3:], end),
        )


def try_objects(poolrun):
    for part in (try_notes, try_sweeps, try_full_cache, try_unneeded):
        part(poolrun)
