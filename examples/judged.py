"""The rows of run_judge: what it says of the texts of the other files, and of its input."""
import json

from changing import EXCHANGED, STOPPED, SWEEP_TRACE, SWEEP_WORDS, exchanged, generated, neighbours, numbered, stopped, swept
from histories import TOLD
from judging import CHUNKS, JUDGED, LEGAL, UNREAD_LINES
from making import KINDS, LOOKS, MADE, MADE_WITH
from trying import REFUSED, TEXT_LIMIT, UNREAD, WHOLE
from trying import case_of, case_with, changed, expect, json_of, run, try_ends


def told_cases(poolrun):
    """What stands in the tables: of examples, of traces, and told line by line."""
    for name, changes, want in JUDGED:
        yield f"{name} {changes}", case_of(poolrun, name, changes), want
    for old, new, line, why in UNREAD_LINES:
        yield f"smallest with {new}", case_of(poolrun, "smallest", {old: new}), f"8 refused text line {line}: {why}"
    for trace, changes, want in MADE:
        made = case_of(poolrun, "smallest", changes)
        yield f"{trace} {changes}", {**made, "trace": trace}, want
    for words, trace, changes, want in MADE_WITH:
        yield f"{words} {trace} {changes}", case_with(poolrun, ["--history", *words.split()], trace, changes), want
    trace, changes, want = LOOKS
    yield trace, case_with(poolrun, ["--history"], trace, changes), want
    for trace, text, changes, want in TOLD:
        yield f"{trace} {changes}", {"words": [], "trace": trace, "text": changed(text, changes)}, want
    # the text of another pool
    yield "smallest of order 8", {**case_of(poolrun, "smallest", {}), "words": ["--order", "8"]}, f"1 not legal: after 0 chunk lines: {CHUNKS}"


def changed_cases(poolrun):
    """What is changed by a rule."""
    for name in ("smallest", "hand_over"):
        case = case_of(poolrun, name, {})
        for what, text, want in numbered(case["text"]):
            yield f"{name}, {what}", {**case, "text": text}, want
    case = case_of(poolrun, "smallest", {})
    for what, text, want in neighbours(case["text"], (5, 1, 1, 5)):
        yield f"smallest, {what}", {**case, "text": text}, want
    case = case_of(poolrun, "hand_over", {})
    yield "hand_over with its lanes exchanged", {**case, "text": exchanged(case["text"])}, EXCHANGED
    case = case_with(poolrun, SWEEP_WORDS, SWEEP_TRACE, {})
    for what, text, want in swept(case["text"]):
        yield what, {**case, "text": text}, want


def legal_cases(poolrun):
    """Runs of each kind, and lanes that are stopped."""
    for words, trace in KINDS:
        yield f"{words} {trace}", case_with(poolrun, ["--history", *words.split()], trace, {}), LEGAL
    for lanes, words, places in STOPPED:
        words = ["--history", *words.split()]
        for lane, line in places:
            instead, told = stopped(lanes, lane, line)
            text = run(poolrun, words, json.dumps(instead).encode())[1]
            yield f"{lanes[0][:2]} stopped at {lane}.{line}", {"words": words, "trace": json.dumps(lanes), "text": told(text)}, LEGAL


def try_generated(judge, poolrun):
    """A generated trace that is written out: its text is legal, and has the summary of the run of the generated one."""
    start, lanes, commands = 7, 3, 1000
    trace = json.dumps(generated(start, lanes, commands))
    words = ["--generate", str(start), "--lanes", str(lanes), "--commands", str(commands), "--workers", "2"]
    case = case_with(poolrun, ["--history", "--workers", "2"], trace, {})
    lines = [line.split() for line in case["text"].splitlines()]
    got = [bytes.fromhex(line[3]) for line in lines if line[1:3] == ["get", "ok"]]
    blocks = commands // (8 * lanes)
    summary = f"generated {start} lanes {lanes} blocks {blocks}\nroots {lanes * blocks} live 0 refused 0\n"
    summary += f"read {sum(map(len, got))} sum {sum(map(sum, got))}\nleaks 0\n"
    expect(f"poolrun {words}", ran=(run(poolrun, words, b""), (WHOLE, summary, "")))
    expect(f"run_judge < {words}, written out", ran=(run(judge, [], json_of(case)), (WHOLE, "legal\n", "")))


def try_judge(judge, poolrun):
    for cases in (told_cases, changed_cases, legal_cases):
        for name, case, want in cases(poolrun):
            status, text, said = run(judge, [], json_of(case))
            found = f"{status} " + "; ".join((text + said).splitlines())
            # a place that isn't known isn't compared
            found = found[: len(want)] if want.endswith(": ") else found
            expect(f"run_judge < {name}", said=(found, want), error=(said != "", status == UNREAD))
    try_generated(judge, poolrun)
    for text in (b"", b"[]", b'{"words":[],"trace":"[[]]"}', b'{"words":["--generate","1"],"trace":"[[]]","text":""}'):
        expect(f"run_judge < {text}", ran=(run(judge, [], text), (REFUSED, "", "refused input\n")))
    try_ends("run_judge", judge, json_of(case_of(poolrun, "smallest", {})), b" " * TEXT_LIMIT, TEXT_LIMIT)
