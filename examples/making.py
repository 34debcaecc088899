"""Traces that are no examples, with what is changed in the text of their runs, and what run_judge says of it."""
from judging import ANSWERS, HISTORY, LEGAL


def ends_at(lane, place, kept, home):
    """What a lane notes that gets the root at a place, which uses the region for the last time, and closes its own caches, of which none was used."""
    root = f"{place}.1"
    notes = [f"mail 0 {lane} 1 fetch {root} 0+24 0 0", f"ref {root} ended", f"root {place} 2 end 1", f"ref {root} vacated"]
    notes += [f"cache 0 1 {kept} kept 1", f"bin 0 {home} home {place}"]
    notes += [f"cache {lane} {of_class} 1 close 0" for of_class in range(40)]
    return "".join(f"note {lane} {note}\n" for note in notes)


# Traces, the places that are changed in the text of `smallest` so that it is one of theirs, and what is said of that.
MADE = [
    # a region that is used a third time before its second use: each object could have it so, but these notes go in a circle. The lines of lane 0
    # tell that its first hit, the cache's third note, comes behind one use; what the cache keeps as its second note was used twice
    (
        '[[["alloc","a",24],["send","a",1],["alloc","b",24],["alloc","c",24],["send","c",2]],'
        '[["recv","x",0],["release","x"]],[["recv","y",0],["release","y"]]]',
        {
            "0.1 set ok\n0.2 get ok 68656c6c6f\n0.3 release freed": "0.1 send ok\n0.2 alloc ok 32 0.0+0\n0.3 alloc ok 32 0.0+0\n0.4 send ok\n"
            "1.0 recv ok\n1.1 release freed\n2.0 recv ok\n2.1 release freed",
            "root 0 2 set 0 68656c6c6f\nnote 0 root 0 3 get 0 68656c6c6f\nnote 0 ref 0.1 ended\nnote 0 root 0 4 end 1\n"
            "note 0 ref 0.1 vacated\nnote 0 cache 0 1 2 kept 1\nnote 0 bin 0 2 home 0\n": "mail 0 1 1 post 0.1 0+24 0 0\n"
            "note 0 bin 0 2 handle 1\nnote 0 cache 0 1 3 hit 1\nnote 0 root 1 1 birth 1 0.0+0 1 3 24\nnote 0 ref 1.1 born\n"
            "note 0 bin 0 3 handle 2\nnote 0 cache 0 1 5 hit 1\nnote 0 root 2 1 birth 1 0.0+0 1 2 24\nnote 0 ref 2.1 born\n"
            "note 0 mail 0 2 1 post 2.1 0+24 0 0\n",
            "cache 0 1 3 close 1\nnote 0 cache 0 1 4 shed 1\nnote 0 arena 0 2 give 0+0 1\n": "cache 0 1 6 close 0\n",
            "chunk 0.0": ends_at(1, 0, 4, 4) + ends_at(2, 2, 2, 5) + "chunk 0.0",
            "roots 1 live 0": "roots 3 live 1",
        },
        f"1 not legal: cache 0 1 number 3: {HISTORY}",
    ),
    # the release ends the count, though the lane has retained the root
    (
        '[[["alloc","a",24],["retain","a"],["release","a"]]]',
        {
            "0.1 set ok\n0.2 get ok 68656c6c6f\n0.3 release freed": "0.1 retain ok\n0.2 release freed",
            "root 0 2 set 0 68656c6c6f\nnote 0 root 0 3 get 0 68656c6c6f\n": "ref 0.1 retain\n",
            "root 0 4 end 1": "root 0 2 end 1",
            # one for the birth, one for the retain, and one release
            "live 0": "live 1",
        },
        "1 not legal: lane 0 after 6 notes: this note uses a root that the lane does not count, or ends one that it still counts",
    ),
    # the release leaves no count, and does not end it
    (
        '[[["alloc","a",24],["release","a"]]]',
        {
            "0.1 set ok\n0.2 get ok 68656c6c6f\n0.3 release freed": "0.1 release kept",
            "root 0 2 set 0 68656c6c6f\nnote 0 root 0 3 get 0 68656c6c6f\nnote 0 ref 0.1 ended\nnote 0 root 0 4 end 1\n"
            "note 0 ref 0.1 vacated\nnote 0 cache 0 1 2 kept 1\nnote 0 bin 0 2 home 0\n": "ref 0.1 kept\n",
            "cache 0 1 3 close 1\nnote 0 cache 0 1 4 shed 1\nnote 0 arena 0 2 give 0+0 1\n": "cache 0 1 2 close 0\n",
        },
        "1 not legal: root 0.1: its counts over all lanes do not add up",
    ),
]

# A trace, and what is changed in its text: lane 1 retains and releases before it sends, so lane 0, which receives what was sent, finds two
# counts. Three could be there, but not behind that; no two of these notes say so, so it is no circle. Lane 0 stops behind its fetch, its eighth note.
LOOKS = (
    '[[["alloc","a",24],["retain","a"],["send","a",1],["recv","y",1],["refcnt","a"],["release","a"],["send","none",1]],'
    '[["recv","x",0],["retain","x"],["release","x"],["send","none",0],["recv","w",0],["release","x"]]]',
    {"0.4 refcnt ok 2": "0.4 refcnt ok 3", "ref 0.1 look 2": "ref 0.1 look 3"},
    "7 undecided: no circle of notes, but behind these no lane can go on, of which the last is; lane 0 after 7 notes",
)

# A root with a second name, which does not get longer as the root grows out of its region; and a composite of two roots, part by part.
NAMED_TWICE = (
    '[[["alloc","a",16],["set","a",0,"ff"],["dup","b","a"],["capacity","a",10],["capacity","a",100],'
    '["get","a",0,2],["get","a",99,1],["get","b",16,1],["release","a"]]]'
)
COMPOSED = (
    '[[["alloc","a",24],["write","a","0102"],["alloc","b",24],["write","b","03"],'
    '["compose","c","a","b"],["set","c",1,"ffee"],["get","c",0,3],["release","c"],["get","c",0,0]]]'
)
FIRST_ENDS = "note 0 ref 0.1 ended\nnote 0 root 0 5 end 1\nnote 0 ref 0.1 vacated\n"
SECOND_ENDS = "note 0 ref 1.1 ended\nnote 0 root 1 5 end 1\nnote 0 ref 1.1 vacated\n"


def put_away(place, cached, home):
    """What is noted of a root's region and handle once it ended: its number there, and the number at the bin."""
    return f"note 0 cache 0 1 {cached} kept {place + 1}\nnote 0 bin 0 {home} home {place}\n"


BOTH_END = FIRST_ENDS + put_away(0, 3, 3) + SECOND_ENDS + put_away(1, 4, 4)
BOTH_SHED = "cache 0 1 6 shed 1\nnote 0 arena 0 3 give 0+0 1\nnote 0 cache 0 1 7 shed 2\nnote 0 arena 0 4 give 0+32 2\n"

# Words, traces, and the places that are changed in what is written of them.
MADE_WITH = [
    ("", NAMED_TWICE, {}, LEGAL),
    (
        "",
        NAMED_TWICE,
        {
            "0.7 get range": "0.7 get ok 00",
            "note 0 ref 0.1 ended\nnote 0 root 0 8 end 1": "note 0 root 0 8 get 16 00\nnote 0 ref 0.1 ended\nnote 0 root 0 9 end 1",
        },
        f"1 not legal: 0.7: {ANSWERS}",
    ),
    ("", COMPOSED, {}, LEGAL),
    ("", COMPOSED, {"compose ok 3": "compose ok 4"}, f"1 not legal: 0.4: {ANSWERS}"),
    # its second part is set before its first, got before it, told before it, and released before it
    (
        "",
        COMPOSED,
        {"root 0 3 set 1 ff\nnote 0 root 1 3 set 0 ee": "root 1 3 set 0 ee\nnote 0 root 0 3 set 1 ff"},
        f"1 not legal: 0.5: {ANSWERS}",
    ),
    (
        "",
        COMPOSED,
        {"root 0 4 get 0 01ff\nnote 0 root 1 4 get 0 ee": "root 1 4 get 0 ee\nnote 0 root 0 4 get 0 01ff"},
        f"1 not legal: 0.6: {ANSWERS}",
    ),
    ("", COMPOSED, {"get ok 01ffee": "get ok ee01ff"}, f"1 not legal: 0.6: {ANSWERS}"),
    (
        "",
        COMPOSED,
        {
            BOTH_END: SECOND_ENDS + put_away(1, 3, 3) + FIRST_ENDS + put_away(0, 4, 4),
            BOTH_SHED: "cache 0 1 6 shed 2\nnote 0 arena 0 3 give 0+32 2\nnote 0 cache 0 1 7 shed 1\nnote 0 arena 0 4 give 0+0 1\n",
        },
        f"1 not legal: 0.7: {ANSWERS}",
    ),
    # it is kept though it was released, only its first root is released, and it is read once it ended
    ("", COMPOSED, {"0.7 release freed": "0.7 release kept"}, f"1 not legal: 0.7: {ANSWERS}"),
    (
        "",
        COMPOSED,
        {
            BOTH_END: FIRST_ENDS + put_away(0, 3, 3),
            f"cache 0 1 5 close 2\nnote 0 {BOTH_SHED}": "cache 0 1 4 close 1\nnote 0 cache 0 1 5 shed 1\nnote 0 arena 0 3 give 0+0 1\n",
            "live 0": "live 1",
        },
        f"1 not legal: 0.7: {ANSWERS}",
    ),
    ("", COMPOSED, {"0.8 get illegal": "0.8 get ok -"}, f"1 not legal: 0.8: {ANSWERS}"),
]

# Words and traces whose texts are legal, however the steps of their lanes fall: composites that are read, kept, consolidated and shared by
# lanes, a pool that is full, and roots that grow, at once in two lanes too.
KINDS = [
    ("--level paranoid", '[[["alloc","a",3],["write","a","010203"],["alloc","b",5],["compose","c","a","b"],["get","c",2,2],["forget","c"]]]'),
    ("", '[[["alloc","a",4],["compose","c","a","a","a"],["retain","c"],["release","c"],["retain","a"],["release","c"],["get","c",0,1]]]'),
    ("--handles 2", '[[["alloc","a",4],["compose","c",' + '"a",' * 18 + '"a"],["get","c",60,8],["add","c","a"],["release","c"]]]'),
    (
        "--workers 2",
        '[[["alloc","a",4],["retain","a"],["compose","c","a","a"],["send","a",1],["get","c",0,1],["release","c"]],'
        '[["recv","x",0],["release","x"],["touch","x"]]]',
    ),
    (
        "--order 3 --arenas 1 --chunks 1",
        '[[["alloc","a",32768],["alloc","b",32768],["release","a"],["alloc","c",40960],["alloc","d",16],["release","d"],["alloc","d",16]]]',
    ),
    (
        "--order 3 --arenas 1 --chunks 1",
        '[[["alloc","a",40960],["capacity","a",65536],["capacity","a",40961],["release","a"],'
        '["alloc","b",16],["capacity","b",100],["capacity","b",110],["write","b","01"],["release","b"]]]',
    ),
    (
        "--workers 2",
        '[[["alloc","a",16],["rslice","s","a",0,4],["send","a",1],["capacity","s",100],["recv","b",1],["get","b",0,100],["release","s"],["release","b"]],'
        '[["recv","x",0],["capacity","x",100],["send","x",0]]]',
    ),
]
