"""The rows of trace_lint, nest_run, share_run, frame_cut, run_judge, run_view and pool_bench, which run where these programs are built, as the gate leaves them."""
import json
import os

from drawing import try_view
from framing import try_frames
from judged import try_judge
from trying import ACCEPTED, HERE, LINTED, LIVE, READ_FAULT, REFUSED, TERMINALS, TEXT_LIMIT, WHOLE, WRITE_FAULT
from trying import broken_off, cut_off, expect, rows, run, text_and_line, try_ends

CRATES = f"{HERE}/../crates"
CALL_LIMIT = 4096


def try_lint(lint):
    for text, line in [(text.encode(), line) for text, line in map(text_and_line, rows("lint"))] + LINTED:
        expect(f"trace_lint < {text[:200]}", ran=(run(lint, [], text), (REFUSED, f"{line}\n", "")))
    for text in ACCEPTED:
        expect(f"trace_lint < {text[:200]}", ran=(run(lint, [], text), (WHOLE, "accepted\n", "")))
    try_ends("trace_lint", lint, b"[[]]", b" " * TEXT_LIMIT, TEXT_LIMIT)


def nest_of(calls):
    return f'{{"capacity":1,"calls":[{",".join(["[" + chr(34) + "slice" + chr(34) + ",0,0,0]"] * calls)}]}}'.encode()


def chain_of(slices, order):
    """A slice of a slice, so often, and the views released in this order; and what is answered, where each ends a view more, or with the last
    one all of them."""
    calls = [["slice", k, 0, 16] for k in range(slices)] + [["release", k] for k in order]
    told = [f"{k} ok {k + 1}" for k in range(slices)]
    if order[0] == 0:
        told += [f"{slices + k} kept" for k in range(slices)] + [f"{2 * slices} freed {slices} root"]
    else:
        told += [f"{slices + k} freed 1" for k in range(slices)] + [f"{2 * slices} freed 0 root"]
    return json.dumps({"capacity": 16, "calls": calls}).encode(), "".join(f"{line}\n" for line in [*told, "end live 0"])


def try_inputs(name, program, table):
    """A table's inputs, each with its status, and with the lines that are written, or with the one that refuses it."""
    for text, want in map(text_and_line, rows(table)):
        status, *lines = want.removeprefix("status ").split("; ")
        said = "refused input\n" if int(status) == REFUSED else ""
        want = (int(status), "".join(f"{line}\n" for line in lines), said)
        expect(f"{name} < {text}", ran=(run(program, [], text.encode()), want))


def try_nests(nest):
    try_inputs("nest_run", nest, "nests")
    status, text, said = run(nest, [], nest_of(CALL_LIMIT))
    end = "4095 ok 4096\nend live 4097\n"
    expect("nest_run < 4,096 slices", ran=((status, text[-len(end) :], said), (LIVE, end, "")))
    expect("nest_run < 4,097 slices", ran=(run(nest, [], nest_of(CALL_LIMIT + 1)), (REFUSED, "", "refused input\n")))
    slices = CALL_LIMIT // 2 - 1
    for order in (range(slices + 1), range(slices, -1, -1)):
        calls, text = chain_of(slices, order)
        expect(f"nest_run < {slices} slices that are released from {order[0]} on", ran=(run(nest, [], calls), (WHOLE, text, "")))
    call = b'{"capacity":4,"calls":[["slice",0,0,1]]}'
    text = "0 ok 1\nend live 2\n"
    expect("nest_run < a front", ran=(broken_off(nest, [], call[: 7 * TERMINALS]), (READ_FAULT, "", "read fault\n")))
    for room in (6, 10):
        expect(f"nest_run > {room} bytes", ran=(cut_off(nest, [], call, room), (WRITE_FAULT, text[:room], "write fault\n")))
    try_ends("nest_run", nest, call, b'{"capacity":4194304,"calls":[]}', 5_000_000)


def share_of(composites, reads):
    parts = ['["' + '","'.join(it) + '"]' for it in composites]
    readers = ["[" + ",".join(map(str, it)) + "]" for it in reads]
    return f'{{"composites":[{",".join(parts)}],"reads":[{",".join(readers)}]}}'.encode()


def seen_of(composites, reads):
    """What readers see: of each read the bytes of the composite's parts, one part behind the other."""
    wholes = ["".join(it) or "-" for it in composites]
    lines = [f"{w}.{j} {k} {wholes[k]}" for w, it in enumerate(reads) for j, k in enumerate(it)]
    lines += [f"composite {k} released {len(it)}" for k, it in enumerate(composites)]
    return "".join(f"{line}\n" for line in [*lines, "end live 0"])


# How many composites there are, parts each of them, bytes each part, readers, and reads each of them: at their limits, where many
# readers want one or two composites at once, and with one more of each.
SHARED = [(16, 24, 17, 16, 256), (16, 24, 2048, 16, 1), (1, 24, 2048, 16, 4), (2, 24, 1, 16, 256), (1, 24, 1, 4, 1024), (1, 1, 2, 1, 4096)]
TOO_MUCH = [(17, 1, 1, 1, 1), (1, 25, 1, 1, 1), (1, 1, 2049, 1, 1), (1, 1, 1, 17, 1), (1, 1, 1, 1, 4097), (1, 1, 1, 16, 257)]


def shared(size):
    """Composites whose bytes differ, and readers that begin with different ones."""
    composites, parts, count, readers, reads = size
    part_of = lambda k, p: bytes((k * 31 + p * 7 + b) % 251 for b in range(count)).hex()
    return (
        [[part_of(k, p) for p in range(parts)] for k in range(composites)],
        [[(w * 5 + j) % composites for j in range(reads)] for w in range(readers)],
    )


def try_shares(share):
    try_inputs("share_run", share, "shares")
    for size in SHARED:
        expect(f"share_run < {size}", ran=(run(share, [], share_of(*shared(size))), (WHOLE, seen_of(*shared(size)), "")))
    refused = [share_of(*shared(size)) for size in TOO_MUCH]
    read = b'{"composites":[["7f"]],"reads":[[0]]}'
    text = b'\n{ "composites" : [ [ "00" ] ] ,\n "reads" : [ [ 0 ] ] }\n'
    expect(f"share_run < {text}", ran=(run(share, [], text), (WHOLE, "0.0 0 00\ncomposite 0 released 1\nend live 0\n", "")))
    for text in [*refused, read.ljust(TEXT_LIMIT + 1), b'{"composites":[["\xff"]],"reads":[[]]}']:
        expect(f"share_run < {text[:200]}", ran=(run(share, [], text), (REFUSED, "", "refused input\n")))
    text = "0.0 0 7f\ncomposite 0 released 1\nend live 0\n"
    expect("share_run < the longest text", ran=(run(share, [], read.ljust(TEXT_LIMIT)), (WHOLE, text, "")))
    expect("share_run < a front", ran=(broken_off(share, [], read[: 7 * TERMINALS]), (READ_FAULT, "", "read fault\n")))
    for room in (0, 7, 10, 40):
        expect(f"share_run > {room} bytes", ran=(cut_off(share, [], read, room), (WRITE_FAULT, text[:room], "write fault\n")))
    try_ends("share_run", share, read, share_of(*shared(SHARED[0])), 5_000_000)


# Words of pool_bench, and the sum of what was read, if it is determined. No block is refused.
BENCHES = [
    ("checked 4 2000 1 1", 0),
    # more lanes than arenas, so that they meet there
    ("checked 16 500 1 1", 0),
    ("left 2 300 1 4", None),
    ("left 16 300 1 4", None),
    ("counted 2 400 1 1", 0),
    # twice each byte that is drawn: 300 blocks of two threads each, whose draws were made apart
    ("buffers 2 300 1 1", 154_064),
    ("lone 2 300 1 1", 154_064),
    ("w5batch 2 24 1 1", 0),
    # many times more often than a lane has moves
    ("w4 2 100000 1 1", None),
    # 300 blocks draw 300 bytes, whose fourfold sum was found by drawing them apart
    ("w3 1 300 1 1", 160_804),
]


def try_benches(bench):
    for words, sum in BENCHES:
        status, text, said = run(bench, words.split(), b"")
        lines = [line.split() for line in text.splitlines()]
        repeats = int(words.split()[4])
        found = [(line[5:6], line[7:], sum if sum is None else line[6:7]) for line in lines]
        want = [(["0"], ["0"], sum if sum is None else [str(sum)])] * repeats
        expect(f"pool_bench {words}", status=(status, WHOLE), error=(said, ""), lines=(found, want))


def try_programs(poolrun):
    parts = {
        "trace_lint": try_lint,
        "nest_run": try_nests,
        "share_run": try_shares,
        "frame_cut": try_frames,
        "run_judge": lambda judge: try_judge(judge, poolrun),
        "run_view": lambda view: try_view(view, poolrun),
        "pool_bench": try_benches,
    }
    for name, part in parts.items():
        program = f"{CRATES}/{name}/out/{name}"
        if os.path.isfile(program) and os.path.getsize(program):
            # the gate leaves a program that it kept without the right to run it
            os.chmod(program, 0o755)
            part(program)
        else:
            print(f"examples/rows: the rows of {name} are not run, since it isn't built: cd crates/{name} && rt run")
