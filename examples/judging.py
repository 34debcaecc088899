"""Texts with history that no run has, each with what run_judge says of it: the part of the law that is broken, and the first place where it is.

The wanted place is known where the change is made: it is written beside it here, or counted from the lines (`numbered`), and no output of run_judge was taken.
"""

HISTORY = "up to this one its notes have not each number once, or it does not accept them so"
PARCELS = "up to this one its posts are not numbered so, or what is fetched is not what was posted"
ANSWERS = "from here on the replies and notes are not those of the commands and the closing"
CHUNKS = "the next is not what the arenas have at the end"
LEAKS = "the next is not that of the next sampled root that is live"
FORM = "no run of this trace has such a line here"
NO_TAKING = "it names a region that no note tells the taking of"
NO_BIRTH = "it names a root that no note tells the birth of"
MARKS = "with this note the busy notes of the lane cannot be right"
LEGAL = "0 legal"

# What is changed in the text of `smallest` so that its region is given a second time.
GIVEN_TWICE = {"note 0 arena 0 2 give 0+0 1\n": "note 0 arena 0 2 give 0+0 1\nnote 0 arena 0 3 give 0+0 1\n"}

# What the closing of its lane notes in the text of `smallest`.
CLOSING = "note 0 cache 0 0 1 close 0\nnote 0 cache 0 1 3 close 1\nnote 0 cache 0 1 4 shed 1\nnote 0 arena 0 2 give 0+0 1\n"
CLOSING += "".join(f"note 0 cache 0 {of_class} 1 close 0\n" for of_class in range(2, 40))


def placed_at(offset):
    """What is changed in the text of `smallest` so that its region is at another offset."""
    lines = ("alloc ok 32 0.0+0", "take 1 0+0 1", "birth 1 0.0+0", "give 0+0 1")
    return {line: line.replace("+0", f"+{offset}") for line in lines}


# Of an example the places that are changed in its text with history, and what run_judge says of that: its status, and its lines with
# "; " between them. Where nothing else is said, it is legal.
JUDGED = [
    ("smallest", {}, LEGAL),
    ("hand_over", {}, LEGAL),
    # a place, a reply, a byte of a reply
    ("smallest", {"alloc ok 32 0.0+0": "alloc ok 32 0.0+32"}, f"1 not legal: 0.0: {ANSWERS}"),
    ("smallest", {"0.1 set ok": "0.1 set range"}, f"1 not legal: 0.1: {ANSWERS}"),
    ("smallest", {"get ok 68656c6c6f": "get ok 68656c6c70"}, f"1 not legal: 0.2: {ANSWERS}"),
    ("smallest", {"0.1 set ok": "0.1 set good"}, f"8 refused text line 2: {FORM}"),
    # a byte that is read, which was not written
    (
        "smallest",
        {"get ok 68656c6c6f": "get ok 68656c6c70", "get 0 68656c6c6f": "get 0 68656c6c70"},
        f"1 not legal: root 0 number 3: {HISTORY}",
    ),
    # neighbouring notes: of one object, and of two
    (
        "smallest",
        {
            "root 0 2 set 0 68656c6c6f\nnote 0 root 0 3 get 0 68656c6c6f": "root 0 3 get 0 68656c6c6f\nnote 0 root 0 2 set 0 68656c6c6f",
        },
        f"1 not legal: root 0 number 2: {HISTORY}",
    ),
    (
        "smallest",
        {"note 0 ref 0.1 ended\nnote 0 root 0 4 end 1\n": "note 0 root 0 4 end 1\nnote 0 ref 0.1 ended\n"},
        f"1 not legal: 0.3: {ANSWERS}",
    ),
    # a root that skips a generation, and a region that is given twice: each number stands once
    (
        "smallest",
        {
            "root 0 1 birth 1 0.0+0 1 1 24\nnote 0 ref 0.1 born": "root 0 1 birth 2 0.0+0 1 1 24\nnote 0 ref 0.2 born",
            "ref 0.1 ended\nnote 0 root 0 4 end 1\nnote 0 ref 0.1 vacated": "ref 0.2 ended\nnote 0 root 0 4 end 2\nnote 0 ref 0.2 vacated",
        },
        f"1 not legal: root 0 number 1: {HISTORY}",
    ),
    ("smallest", GIVEN_TWICE, f"1 not legal: arena 0 number 3: {HISTORY}"),
    # the byte is read as it was written, and noted as another; what was freed is kept; a quota too small
    ("smallest", {"get 0 68656c6c6f": "get 0 6a656c6c6f"}, f"1 not legal: root 0 number 3: {HISTORY}"),
    ("smallest", {"0.3 release freed": "0.3 release kept"}, f"1 not legal: 0.3: {ANSWERS}"),
    ("smallest", {"cache 0 1 3 close 1": "cache 0 1 3 close 0"}, f"1 not legal: cache 0 1 number 3: {HISTORY}"),
    # the second element, the second page, and a taking that is not the first
    ("smallest", placed_at(32), f"1 not legal: arena 0 number 1: {HISTORY}"),
    ("smallest", placed_at(8192), f"1 not legal: arena 0 number 1: {HISTORY}"),
    (
        "smallest",
        {
            "arena 0 1 take 1 0+0 1": "arena 0 2 take 1 0+0 2",
            "0.0+0 1 1 24": "0.0+0 2 1 24",
            "kept 1": "kept 2",
            "shed 1": "shed 2",
            "give 0+0 1": "give 0+0 2",
        },
        f"1 not legal: arena 0 number 1: {HISTORY}",
    ),
    # a root that grows in its region, one that doesn't since the arena is full, and one that grows out of its region
    ("growth_in_its_region", {"0.1 capacity ok 30": "0.1 capacity ok 31", "extend 30": "extend 31"}, f"1 not legal: 0.1: {ANSWERS}"),
    ("growth_refused", {"0.1 capacity full": "0.1 capacity ok 65536"}, f"1 not legal: 0.1: {ANSWERS}"),
    ("growth", {"get ok ff00": "get ok 0000", "get 0 ff00": "get 0 0000"}, f"1 not legal: root 0 number 6: {HISTORY}"),
    ("growth", {"0.3 capacity ok 100": "0.3 capacity ok 101"}, f"1 not legal: 0.3: {ANSWERS}"),
    ("growth", {"grow 0.0+8192 2 1 100": "grow 0.0+8192 2 0 100"}, f"1 not legal: 0.3: {ANSWERS}"),
    # the region that it leaves is held, or given at once and kept
    (
        "growth",
        {
            "note 0 cache 0 0 2 kept 1\n": "",
            "cache 0 0 3 close 1\nnote 0 cache 0 0 4 shed 1\nnote 0 arena 0 3 give 0+0 1\n": "cache 0 0 2 close 0\n",
            "arena 0 4 give 0+8192 2": "arena 0 3 give 0+8192 2",
        },
        f"1 not legal: 0.3: {ANSWERS}",
    ),
    (
        "growth",
        {
            "arena 0 4 give 0+8192 2": "arena 0 5 give 0+8192 2",
            "arena 0 3 give 0+0 1": "arena 0 4 give 0+0 1",
            "note 0 cache 0 0 2 kept 1\n": "note 0 cache 0 0 2 kept 1\nnote 0 arena 0 3 give 0+0 1\n",
        },
        f"1 not legal: arena 0 number 4: {HISTORY}",
    ),
    # a region that a full cache keeps
    ("cache_full", {"note 0 cache 0 39 130 back full 65": "note 0 cache 0 39 130 kept 65"}, f"1 not legal: cache 0 39 number 130: {HISTORY}"),
    # as many bytes, and another number of roots in the last of its 60 lines
    ("smallest", {"end roots 1 live 0": "end roots 2 live 0"}, f"8 refused text line 60: {FORM}"),
    # a note too few: at the end of a command, of the closing; no closing
    ("smallest", {"note 0 bin 0 2 home 0\n": ""}, f"1 not legal: 0.3: {ANSWERS}"),
    ("smallest", {"note 0 cache 0 39 1 close 0\n": ""}, f"1 not legal: 0.4: {ANSWERS}"),
    ("smallest", {CLOSING: ""}, f"1 not legal: 0.4: {ANSWERS}"),
    # a region and a root of which no note tells any more: the first line that names one cannot be read
    (
        "smallest",
        {"note 0 arena 0 1 take 1 0+0 1\n": ""},
        f"8 refused text line 7: {NO_TAKING}",
    ),
    (
        "smallest",
        {"note 0 root 0 1 birth 1 0.0+0 1 1 24\n": ""},
        f"8 refused text line 8: {NO_BIRTH}",
    ),
    # a mark before a note of the same lane: behind 8 notes, of which the last is `ended`
    (
        "smallest",
        {"note 0 root 0 4 end 1": "note 0 busy root 0 3\nnote 0 root 0 4 end 1"},
        f"1 not legal: lane 0 after 8 notes: {MARKS}",
    ),
    # the closing of a cache of a lane that is not there: before it stand the 12 notes of the commands, and 7 of the closing
    (
        "smallest",
        {"note 0 cache 0 5 1 close 0": "note 0 cache 1 5 1 close 0"},
        "1 not legal: lane 0 after 19 notes: the lane may not make this note",
    ),
    # a chunk line, and one too few or too many
    ("smallest", {"used 8192 free 4186112": "used 0 free 4194304"}, f"1 not legal: after 0 chunk lines: {CHUNKS}"),
    ("smallest", {"chunk 0.0 qInit used 8192 free 4186112\n": ""}, f"1 not legal: after 0 chunk lines: {CHUNKS}"),
    (
        "smallest",
        {"chunk 0.0 qInit used 8192 free 4186112\n": "chunk 0.0 qInit used 8192 free 4186112\n" * 2},
        f"1 not legal: after 1 chunk lines: {CHUNKS}",
    ),
    # a leak, and one too few
    ("leaks_each", {}, LEGAL),
    ("leaks_each", {"leak 0.1 capacity 100 count 1": "leak 0.1 capacity 100 count 2"}, f"1 not legal: after 0 leak lines: {LEAKS}"),
    ("leaks_each", {"leak 0.2 capacity 10 ": "leak 0.2 capacity 16 "}, f"1 not legal: after 1 leak lines: {LEAKS}"),
    (
        "leaks_each",
        {"leak 0.2 capacity 10 count 1 records 0 dropped 0\n": "", "leaks 2": "leaks 1"},
        f"1 not legal: after 1 leak lines: {LEAKS}",
    ),
    # a count that is looked up: the root has 2, and the look stands behind the 5 notes of the birth and a retain
    ("counts", {}, LEGAL),
    (
        "counts",
        {"0.2 refcnt ok 2": "0.2 refcnt ok 3", "ref 0.1 look 2": "ref 0.1 look 3"},
        "1 not legal: lane 0 after 6 notes: this note looks up a count that the root cannot have",
    ),
    # what a parcel carries
    ("hand_over", {"fetch 0.1 0+4 0 0": "fetch 0.1 0+3 0 0"}, f"1 not legal: mail 0 1 number 1: {PARCELS}"),
    # a buffer that is handed over before its bytes are there
    (
        "hand_over",
        {
            "1.1 get ok 0a0b": "1.1 get ok 0000",
            "root 0 2 set 0 0a0b": "root 0 3 set 0 0a0b",
            "root 0 3 get 0 0a0b": "root 0 2 get 0 0000",
        },
        "1 not legal: each of these notes must stand before the next, the last before the first"
        "; lane 0 after 6 notes; lane 1 after 0 notes; lane 1 after 1 notes; lane 0 after 5 notes",
    ),
]

# Of the text of `smallest` a place that is changed, the line that is refused then, and why.
UNREAD_LINES = [
    ("0.2 get ok 6865", "0.2 get good 6865", 3, FORM),
    ("0.2 get", "0.2 read", 3, FORM),
    ("ok 32 0.0", "ok 032 0.0", 1, FORM),
    ("note 0 bin 0 1", "note 1 bin 0 1", 5, FORM),
    ("bin 0 1 handle", "arena 0 1 handle", 5, FORM),
    ("1 take 1 0+0 1", "1 take 76 0+0 1", 7, NO_TAKING),
    ("ref 0.1 born", "ref 0.2 born", 9, NO_BIRTH),
    ("set 0 68656c6c6f", "set 0 68656C6C6F", 10, FORM),
    ("get 0 68656c6c6f\n", "get 0 68656c6c6\n", 11, FORM),
    ("root 0 4 end 1", "root 1 4 end 1", 13, NO_BIRTH),
    ("kept 1", "kept 2", 15, NO_TAKING),
    ("home 0\n", "home 0 \n", 16, FORM),
    ("free 4186112\n", "free 4186112\r\n", 59, FORM),
    ("leaks 0\n", "leaks 0", 60, FORM),
]
