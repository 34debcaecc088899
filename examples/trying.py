"""What the rows of this folder have in common: how a program is run, and how what came of it is compared."""
import json
import os
import resource
import socket
import subprocess
import tempfile
import tty

HERE = os.path.dirname(os.path.abspath(__file__))
WHOLE, LIVE, WORDS, REFUSED, READ_FAULT, WRITE_FAULT, MEMORY = range(7)
UNREAD = 8
TEXT_LIMIT, COMMANDS = 16_777_216, 65_536

count, wrong = 0, 0


def expect(name, **pairs):
    """Counts a row, and compares what came of it, by name, with what must come."""
    global count, wrong
    count += 1
    differs = {key: pair for key, pair in pairs.items() if pair[0] != pair[1]}
    wrong += bool(differs)
    for key, (is_so, must_be) in differs.items():
        print(f"{name}: {key} is {shortened(is_so)} and must be {shortened(must_be)}")


def shortened(what):
    text = repr(what)
    return text if len(text) <= 400 else f"{text[:200]} .. {text[-200:]}"


def run(program, words, text, **how):
    """What comes of a program: its status, what it wrote, and what it said on standard error."""
    given = {"input": text} if isinstance(text, bytes) else {"stdin": text}
    ran = subprocess.run([program, *words], **{"stdout": subprocess.PIPE, "stderr": subprocess.PIPE, **given, **how}, check=False)
    return ran.returncode, (ran.stdout or b"").decode(), ran.stderr.decode()


def cut_off(program, words, text, room):
    """The same where a file has room for so many bytes: what is written beyond fails."""
    limit = resource.getrlimit(resource.RLIMIT_FSIZE)[1]
    with tempfile.TemporaryFile() as file:
        bound = lambda: resource.setrlimit(resource.RLIMIT_FSIZE, (room, limit))
        # the signal that comes with such a write stays ignored, as it is here
        ran = run(program, words, text, stdout=file, preexec_fn=bound, restore_signals=False)
        file.seek(0)
        return ran[0], file.read().decode(), ran[2]


def alone(program, words, text):
    """The same where no thread can be made: each would have a stack larger than all memory."""
    most = resource.getrlimit(resource.RLIMIT_STACK)[1]
    large = 1 << 41 if most == resource.RLIM_INFINITY else most
    bound = lambda: resource.setrlimit(resource.RLIMIT_STACK, (large, most))
    return run(program, words, text, preexec_fn=bound, timeout=60)


def bytewise(program, words, text, most):
    """The same where a read gives no more than so many bytes: a socket gives what was sent to it piece by piece."""
    ours, theirs = socket.socketpair(socket.AF_UNIX, socket.SOCK_SEQPACKET)
    with theirs:
        with ours:
            for at in range(0, len(text), most):
                ours.send(text[at : at + most])
        return run(program, words, theirs)


def broken_off(program, words, front):
    """The same where the source gives these bytes, and then fails: a terminal whose other side was closed, and for no bytes a folder."""
    if front:
        source, other = os.openpty()
        tty.setraw(other)
        os.write(other, front)
        os.close(other)
    else:
        source = os.open(HERE, os.O_RDONLY)
    ran = run(program, words, source)
    os.close(source)
    return ran


def try_ends(name, program, text, much, room):
    """A folder can't be read, a full device not be written, there are no words, and much asks for more than so many bytes of memory."""
    folder = os.open(HERE, os.O_RDONLY)
    expect(f"{name} < a folder", ran=(run(program, [], folder), (READ_FAULT, "", "read fault\n")))
    expect(f"{name} --help", ran=(run(program, ["--help"], folder), (WORDS, "", "refused words\n")))
    os.close(folder)
    with open("/dev/full", "wb") as full:
        expect(f"{name} > /dev/full", ran=(run(program, [], text, stdout=full), (WRITE_FAULT, "", "write fault\n")))
    bound = lambda: resource.setrlimit(resource.RLIMIT_AS, (room, room))
    expect(f"{name} in little memory", ran=(run(program, [], much, preexec_fn=bound), (MEMORY, "", "out of memory\n")))


def words_of(name):
    """The words of an example, with the history."""
    path = f"{HERE}/{name}.words"
    words = []
    if os.path.isfile(path):
        with open(path, encoding="utf-8") as it:
            words = it.read().split()
    return words if "--history" in words else [*words, "--history"]


def case_of(poolrun, name, changes):
    """What is told of a run: the words and the trace of an example, and its text with history, changed so."""
    words = words_of(name)
    with open(f"{HERE}/{name}.json", encoding="utf-8") as it:
        trace = it.read()
    return case_with(poolrun, words, trace, changes)


def case_with(poolrun, words, trace, changes):
    """The same of any words and trace."""
    return {"words": words, "trace": trace, "text": changed(run(poolrun, words, trace.encode())[1], changes)}


def changed(text, changes):
    """The text with these places changed, each of which stands there once."""
    for old, new in changes.items():
        assert text.count(old) == 1, old
        text = text.replace(old, new)
    return text


def json_of(case):
    return json.dumps(case).encode()


def has_terminals():
    try:
        for end in os.openpty():
            os.close(end)
    except OSError:
        print("examples/rows: no source fails behind its first bytes, since this machine gives no terminal")
        return False
    return True


TERMINALS = has_terminals()


def rows(name):
    with open(f"{HERE}/{name}.rows", encoding="utf-8") as it:
        return [line for line in it.read().split("\n") if line]


def text_and_line(row):
    text, arrow, line = row.partition(" => ")
    assert arrow, f"a row has an arrow: {row}"
    return text, line


# Texts of more than one line, or with bytes that are no text, and what trace_lint says of each.
LINTED = [
    (b"", "1:1: refused syntax: the text ends before its JSON does"),
    (b"[[\n", "2:1: refused syntax: the text ends before its JSON does"),
    (b'"\xff"', "1:2: refused syntax: from here on the text is no UTF-8"),
    (b'[[\n["\xc3\xa9\xc3"]]]', "2:5: refused syntax: from here on the text is no UTF-8"),
    (b"\xef\xbb\xbf[[]]", "1:1: refused syntax: what begins here is no JSON"),
    (b'[[["touch",\n"a\x01"]]]', "2:1: refused syntax: what begins here is no JSON"),
    (b"[" * 128 + b"]" * 128, "1:129: refused syntax: more than 127 arrays and objects stand in one another"),
    (b'[[["touch","a"],\n  ["fly","a"]]]\n', '2:4: refused shape 0.1: ["fly","a"]: no command has the word "fly"'),
    (
        b'\n\n[[["alloc",\r\n\t"a",\n\n   1.5]]]',
        '6:4: refused shape 0.0: ["alloc",   "a",     1.5]: the size is no whole number below 2^32',
    ),
    (
        '[\n[],\n[["touch","a"],\n["\u00e9\u20ac","a"]\n]]'.encode(),
        '4:2: refused shape 1.1: ["\u00e9\u20ac","a"]: no command has the word "\u00e9\u20ac"',
    ),
    (
        '[[["forget","a"], ["send","\u20ac",0]\n]]'.encode(),
        '1:27: refused shape 0.1: ["send","\u20ac",0]: '
        "the name of the view has a character that is none of a to z, 0 to 9 and _",
    ),
    (
        b'{ "version" : 2,\n"lanes" : [[]],\n\t"more":0 }',
        '3:2: refused options: the key "more" is none of version, lanes, options',
    ),
    (
        b'{ "version" : 2,\n"lanes" : [[]], "options" : {\n"page" : 8192 , "order" : 1 } }',
        "3:27: refused options: the order is no whole number from 3 to 11",
    ),
    (
        b'[[],\n [ ["recv" , "x", 0] ] ]',
        '2:4: refused stuck 1.0: ["recv" , "x", 0]: lane 1 waits here for ever: '
        "it is its recv number 1 from lane 0, which sends nothing to lane 1",
    ),
    (
        b"[[" + b'["touch","a"],\n' * (COMMANDS - 1) + b'["touch","b"]], [["touch","c"],["touch","d"]]]',
        '65536:18: refused limit commands: ["touch","c"]: a trace has at most 65,536 commands, and this is one more',
    ),
    (
        b"[[]]\n".ljust(TEXT_LIMIT + 2),
        "2:16777212: refused limit text: a text has at most 16,777,216 bytes, and this is one more",
    ),
]

# Texts that are traces.
OPTIONS = b'"page":4096,"order":3,"arenas":8,"chunks":8,"handles":4096,"level":"paranoid","interval":65536'
ACCEPTED = [b"[[]]", b'{"options":{' + OPTIONS + b'},"lanes":[[]],"version":2}', b"[[" + b'["touch","a"],\n' * (COMMANDS - 1) + b'["touch","b"]], []]', b"[[]]\n".ljust(TEXT_LIMIT)]
