"""Runs that are told here line by line, as the format has them, and what run_judge says of each and of its changes.

They are told by hand, not by poolrun, since how the steps of their lanes fall, or which lane is stopped, is not up to the trace.
"""
from judging import ANSWERS, CHUNKS, HISTORY, LEGAL, MARKS, PARCELS


def closing(lane, own):
    """What a lane notes as it closes its caches: of some classes this, and of the others that nothing was noted there before."""
    lines = []
    for of_class in range(40):
        lines += own.get(of_class, [f"cache {lane} {of_class} 1 close 0"])
    return lines


def text_of(replies, notes, ends):
    """The text of a run: its replies, the notes of each lane, and what stands behind them."""
    noted = [f"note {lane} {note}" for lane, own in enumerate(notes) for note in own]
    return "".join(f"{line}\n" for line in [*replies, *noted, *ends])


def born(place, number, region, taking, uses=1, capacity=24):
    """A birth: the root's place, the number of its bin's note, and its region, taken where this is its first use."""
    return [
        f"root {place} {number} birth 1 0.0+{region} {taking} {uses} {capacity}",
        f"ref {place}.1 born",
    ]


def ended(place, number):
    return [f"ref {place}.1 ended", f"root {place} {number} end 1", f"ref {place}.1 vacated"]


FIRST = ["bin 0 1 handle 0", "cache 0 1 1 miss", "arena 0 1 take 1 0+0 1", *born(0, 1, 0, 1)]
POST, FETCH = "mail 0 1 1 post 0.1 0+24 0 0", "mail 0 1 1 fetch 0.1 0+24 0 0"
ONE_SHED = {1: ["cache 0 1 3 close 1", "cache 0 1 4 shed 1", "arena 0 2 give 0+0 1"]}
CHUNK, END = "chunk 0.0 qInit used 8192 free 4186112", "end roots 1 live 0 leaks 0"

# One root in a pool whose pages have 4,096 bytes.
SMALL_PAGES = text_of(
    ["0.0 alloc ok 32 0.0+0", "0.1 release freed"],
    [[*FIRST, *ended(0, 2), "cache 0 1 2 kept 1", "bin 0 2 home 0", *closing(0, ONE_SHED)]],
    ["chunk 0.0 qInit used 4096 free 2093056", END],
)
PAGES = lambda page, order: f'{{"version":2,"options":{{"page":{page},"order":{order}}},"lanes":[[["alloc","a",24],["release","a"]]]}}'

# A region that its cache keeps goes to the third root.
HIT = '[[["alloc","a",24],["alloc","b",24],["release","a"],["alloc","c",24]]]'
HIT_AGAIN = text_of(
    ["0.0 alloc ok 32 0.0+0", "0.1 alloc ok 32 0.0+32", "0.2 release freed", "0.3 alloc ok 32 0.0+0"],
    [
        [
            *FIRST,
            *["bin 0 2 handle 1", "cache 0 1 2 miss", "arena 0 2 take 1 0+32 2", *born(1, 1, 32, 2)],
            *[*ended(0, 2), "cache 0 1 3 kept 1", "bin 0 3 home 0"],
            *["bin 0 4 handle 2", "cache 0 1 4 hit 1", *born(2, 1, 0, 1, uses=2)],
            *closing(0, {1: ["cache 0 1 5 close 0"]}),
        ]
    ],
    [CHUNK, "end roots 3 live 2 leaks 0"],
)

# Lane 1 releases what lane 0 sent it into the cache of lane 0, which finds it there as it allocates the next.
BUSY = '[[["alloc","a",24],["send","a",1],["alloc","b",24],["release","b"]],[["recv","x",0],["release","x"]]]'
BUSY_ONCE = text_of(
    ["0.0 alloc ok 32 0.0+0", "0.1 send ok", "0.2 alloc ok 32 0.0+32", "0.3 release freed", "1.0 recv ok", "1.1 release freed"],
    [
        [
            *[*FIRST, POST, "bin 0 2 handle 1", "busy cache 0 1 1", "arena 0 2 take 1 0+32 2", *born(1, 1, 32, 2)],
            *[*ended(1, 2), "cache 0 1 3 kept 2", "bin 0 4 home 1"],
            *closing(0, {1: ["cache 0 1 4 close 2", "cache 0 1 5 shed 1", "arena 0 3 give 0+0 1", "cache 0 1 6 shed 2", "arena 0 4 give 0+32 2"]}),
        ],
        [FETCH, *ended(0, 2), "cache 0 1 2 kept 1", "bin 0 3 home 0", *closing(1, {})],
    ],
    [CHUNK, "end roots 2 live 0 leaks 0"],
)
AT_64 = {line: line.replace("+32", "+64") for line in ("alloc ok 32 0.0+32", "take 1 0+32 2", "birth 1 0.0+32", "give 0+32 2")}
THIRD = {"take 1 0+32 2": "take 1 0+32 3", "0.0+32 2 1": "0.0+32 3 1", "kept 2": "kept 3", "shed 2": "shed 3", "give 0+32 2": "give 0+32 3"}

# Two parcels, of which the second is empty, since the lane counts the root no more.
MAILS = '[[["alloc","a",24],["send","a",1],["send","a",1]],[["recv","x",0],["recv","y",0],["release","x"]]]'
TWO_PARCELS = text_of(
    ["0.0 alloc ok 32 0.0+0", "0.1 send ok", "0.2 send illegal", "1.0 recv ok", "1.1 recv nothing", "1.2 release freed"],
    [
        [*FIRST, POST, "mail 0 1 2 post empty", *closing(0, ONE_SHED)],
        [FETCH, "mail 0 1 2 fetch empty", *ended(0, 2), "cache 0 1 2 kept 1", "bin 0 2 home 0", *closing(1, {})],
    ],
    [CHUNK, END],
)


def numbers(posts, fetches):
    """What is changed so that the two posts, and the two fetches, have these numbers."""
    changes = {}
    for word, pair in (("post", posts), ("fetch", fetches)):
        # the second line first: else the first could be taken for it
        for what, old, new in (("empty", 2, pair[1]), ("0.1", 1, pair[0])):
            changes[f"mail 0 1 {old} {word} {what}"] = f"mail 0 1 {new} {word} {what}"
    return changes


# A root of which the sender has no more, as its receiver is stopped before it fetches it; and the sender before it sends it.
STOPS = '[[["alloc","a",24],["send","a",1]],[["recv","x",0],["release","x"]]]'
LEFT = [CHUNK, "leak 0.1 capacity 24 count 1 records 0 dropped 0", "end roots 1 live 1 leaks 1"]
ONCE_ASKED = closing(0, {1: ["cache 0 1 2 close 0"]})
RECEIVER_STOPPED = text_of(
    ["0.0 alloc ok 32 0.0+0", "0.1 send ok", "1.0 recv stopped", "1.1 release stopped"], [[*FIRST, POST, *ONCE_ASKED], closing(1, {})], LEFT
)
SENDER_STOPPED = text_of(
    ["0.0 alloc ok 32 0.0+0", "0.1 send stopped", "1.0 recv nothing", "1.1 release unbound"],
    [[*FIRST, "mail 0 1 1 post empty", *ONCE_ASKED], ["mail 0 1 1 fetch empty", *closing(1, {})]],
    LEFT,
)
FIRST_CLOSED, LAST_CLOSED = "note 1 cache 1 0 1 close 0\n", "note 1 cache 1 39 1 close 0\n"

# Two lanes make one root grow. The first takes a region for it, is outrun, and keeps that region unused for its next root.
OUTRUN = (
    '[[["alloc","a",16],["retain","a"],["send","a",1],["capacity","a",100],["alloc","b",100],["get","a",111,1],["release","a"],["release","b"]],'
    '[["recv","x",0],["capacity","x",112],["release","x"]]]'
)
OUTRUN_ONCE = text_of(
    [
        *["0.0 alloc ok 16 0.0+0", "0.1 retain ok", "0.2 send ok", "0.3 capacity ok 112", "0.4 alloc ok 112 0.0+8192", "0.5 get ok 00"],
        *["0.6 release freed", "0.7 release freed", "1.0 recv ok", "1.1 capacity ok 112", "1.2 release kept"],
    ],
    [
        [
            *["bin 0 1 handle 0", "cache 0 0 1 miss", "arena 0 1 take 0 0+0 1", *born(0, 1, 0, 1, capacity=16)],
            *["ref 0.1 retain", "mail 0 1 1 post 0.1 0+16 0 0"],
            *["root 0 2 room 100 16", "cache 0 6 1 miss", "arena 0 2 take 6 0+8192 2", "root 0 5 room 100 112", "cache 0 6 2 kept 2"],
            *["bin 0 2 handle 1", "cache 0 6 3 hit 2", *born(1, 1, 8192, 2, capacity=100), "root 0 6 get 111 00"],
            *[*ended(0, 7), "cache 1 6 2 kept 1", "bin 0 3 home 0", *ended(1, 2), "cache 0 6 4 kept 2", "bin 0 4 home 1"],
            *closing(
                0,
                {
                    0: ["cache 0 0 3 close 1", "cache 0 0 4 shed 1", "arena 0 3 give 0+0 1"],
                    6: ["cache 0 6 5 close 1", "cache 0 6 6 shed 2", "arena 0 4 give 0+8192 2"],
                },
            ),
        ],
        [
            *["mail 0 1 1 fetch 0.1 0+16 0 0", "root 0 3 room 112 16", "cache 1 6 1 miss", "arena 1 1 take 6 0+0 1"],
            *["root 0 4 grow 1.0+0 1 1 112", "cache 0 0 2 kept 1", "ref 0.1 kept"],
            *closing(1, {6: ["cache 1 6 3 close 1", "cache 1 6 4 shed 1", "arena 1 2 give 0+0 1"]}),
        ],
    ],
    ["chunk 0.0 qInit used 65536 free 4128768", "chunk 1.0 qInit used 57344 free 4136960", "end roots 2 live 0 leaks 0"],
)

# A trace, its text, and the places that are changed in it, with what is said then; `legal` of the text as it stands.
TOLD = [
    (PAGES(4096, 9), SMALL_PAGES, {}, LEGAL),
    (PAGES(8192, 9), SMALL_PAGES, {}, f"1 not legal: after 0 chunk lines: {CHUNKS}"),
    (PAGES(4096, 8), SMALL_PAGES, {}, f"1 not legal: after 0 chunk lines: {CHUNKS}"),
    (PAGES(4096, 9), SMALL_PAGES, {"used 4096": "used 8192"}, f"1 not legal: after 0 chunk lines: {CHUNKS}"),
    (PAGES(4096, 9), SMALL_PAGES, {"free 2093056": "free 4186112"}, f"1 not legal: after 0 chunk lines: {CHUNKS}"),
    (HIT, HIT_AGAIN, {}, LEGAL),
    # the cache gives what it didn't keep
    (
        HIT,
        HIT_AGAIN,
        {"hit 1": "hit 2", "0.3 alloc ok 32 0.0+0": "0.3 alloc ok 32 0.0+32", "0.0+0 1 2 24": "0.0+32 2 2 24"},
        f"1 not legal: cache 0 1 number 4: {HISTORY}",
    ),
    (BUSY, BUSY_ONCE, {}, LEGAL),
    # the mark stands before a note of the lane's own; behind it stand the seven notes of the lane before
    (BUSY, BUSY_ONCE, {"busy cache 0 1 1": "busy cache 0 1 0"}, f"1 not legal: lane 0 after 7 notes: {MARKS}"),
    (BUSY, BUSY_ONCE, {"busy cache 0 1 1": "busy cache 0 1 2"}, f"1 not legal: lane 0 after 7 notes: {MARKS}"),
    # not the next element, and not the next taking
    (BUSY, BUSY_ONCE, AT_64, f"1 not legal: arena 0 number 2: {HISTORY}"),
    (BUSY, BUSY_ONCE, THIRD, f"1 not legal: arena 0 number 2: {HISTORY}"),
    (MAILS, TWO_PARCELS, {}, LEGAL),
    (MAILS, TWO_PARCELS, numbers((1, 2), (2, 1)), f"1 not legal: mail 0 1 number 1: {PARCELS}"),
    (MAILS, TWO_PARCELS, numbers((1, 2), (1, 3)), f"1 not legal: mail 0 1 number 2: {PARCELS}"),
    (MAILS, TWO_PARCELS, numbers((1, 3), (1, 3)), f"1 not legal: mail 0 1 number 2: {PARCELS}"),
    (MAILS, TWO_PARCELS, numbers((1, 2), (1, 1)), f"1 not legal: mail 0 1 number 2: {PARCELS}"),
    (MAILS, TWO_PARCELS, numbers((1, 2), (3, 4)), f"1 not legal: mail 0 1 number 1: {PARCELS}"),
    (MAILS, TWO_PARCELS, numbers((2, 1), (1, 2)), f"1 not legal: mail 0 1 number 1: {PARCELS}"),
    (STOPS, RECEIVER_STOPPED, {}, LEGAL),
    # it fetches all the same, so that this stands where it closes its caches, goes on, or leaves its last cache open
    (STOPS, RECEIVER_STOPPED, {FIRST_CLOSED: f"note 1 {FETCH}\n{FIRST_CLOSED}"}, f"1 not legal: 1.2: {ANSWERS}"),
    (STOPS, RECEIVER_STOPPED, {"release stopped": "release unbound"}, f"1 not legal: 1.1: {ANSWERS}"),
    (STOPS, RECEIVER_STOPPED, {LAST_CLOSED: ""}, f"1 not legal: 1.2: {ANSWERS}"),
    (STOPS, SENDER_STOPPED, {}, LEGAL),
    # it sends its view, or nothing at all
    (STOPS, SENDER_STOPPED, {"post empty": "post 0.1 0+24 0 0", "fetch empty": "fetch 0.1 0+24 0 0"}, f"1 not legal: 0.1: {ANSWERS}"),
    (STOPS, SENDER_STOPPED, {"note 0 mail 0 1 1 post empty\n": "", "note 1 mail 0 1 1 fetch empty\n": ""}, f"1 not legal: 0.1: {ANSWERS}"),
    (OUTRUN, OUTRUN_ONCE, {}, LEGAL),
    # it answers what it asked; and its next root has the region as if it had been used before
    (OUTRUN, OUTRUN_ONCE, {"0.3 capacity ok 112": "0.3 capacity ok 100"}, f"1 not legal: 0.3: {ANSWERS}"),
    (OUTRUN, OUTRUN_ONCE, {"0.0+8192 2 1 100": "0.0+8192 2 2 100"}, f"1 not legal: 0.4: {ANSWERS}"),
]
