"""The rows of frame_cut: streams of frames that are made here, and what hashlib says of their frames."""
import hashlib
import os
import tempfile

from trying import READ_FAULT, REFUSED, TERMINALS, WHOLE, WORDS, WRITE_FAULT
from trying import alone, broken_off, bytewise, cut_off, expect, run, try_ends

HEAD, LENGTH_LIMIT, FRAME_LIMIT, STREAM_LIMIT = 4, 1_048_576, 65_536, 67_108_864
BLOCKS = (1024, 8192, 65_536)


def head(length):
    return length.to_bytes(HEAD, "big")


def stream_of(frames):
    return b"".join(head(len(frame)) + frame for frame in frames)


def text_of(frames):
    lines = [f"{number} {len(frame)} {hashlib.sha256(frame).hexdigest()}\n" for number, frame in enumerate(frames)]
    return "".join(lines) + f"frames {len(frames)}\n"


def bytes_of(length):
    """So many bytes, which begin anew behind 251 of them."""
    return (bytes(range(251)) * (length // 251 + 1))[:length]


def options(block, workers):
    return [f"--block={block}", "--workers", str(workers)]


ABC = [b"abc", b""]
ABC_TEXT = """0 3 ba7816bf8f01cfea414140de5dae2223b00361a396177a9cb410ff61f20015ad
1 0 e3b0c44298fc1c149afbf4c8996fb92427ae41e4649b934ca495991b7852b855
frames 2
"""
THOUSAND = [bytes([k % 256]) * (k * 4363 % 8701) for k in range(1000)]
LONG = [bytes_of(length) for length in (100_000, 0, 1, 300_001, 1020)]


def try_whole(cut):
    """Streams of frames, by the bytes of a block and the number of workers."""
    for block in BLOCKS[:2]:
        for workers in (1, 4):
            expect(f"frame_cut < abc by {block}, {workers}", ran=(run(cut, options(block, workers), stream_of(ABC)), (WHOLE, ABC_TEXT, "")))
    expect("frame_cut < no bytes", ran=(run(cut, [], b""), (WHOLE, "frames 0\n", "")))
    longest = [bytes_of(LENGTH_LIMIT), b"x"]
    most = [b""] * FRAME_LIMIT
    # a slice ends each block and each frame, but for the last
    slices = [bytes_of(500)] + [bytes_of(1024 - HEAD)] * (FRAME_LIMIT - 1)
    # all bytes go to one of 15 workers
    uneven = [bytes_of(0 if number % 15 else 15_296) for number in range(FRAME_LIMIT)]
    for name, frames, sizes in (
        ("1,000 frames", THOUSAND, [(8192, 1), (8192, 4), (1024, 4), (1500, 2), (65_536, 15)]),
        ("frames longer than a block", LONG, [(1024, 3), (1025, 3), (65_536, 3)]),
        ("the longest frame", longest, [(1024, 1), (65_536, 4)]),
        ("the most frames", most, [(8192, 4)]),
        ("the most slices", slices, [(1024, 1), (1024, 2)]),
        ("the most slices of a worker", uneven, [(1024, 15), (8192, 15)]),
    ):
        text = text_of(frames)
        for block, workers in sizes:
            ran = run(cut, options(block, workers), stream_of(frames))
            expect(f"frame_cut < {name} by {block}, {workers}", ran=(ran, (WHOLE, text, "")))
    # the block ends behind a frame, inside the next one's length at each byte, and behind that
    for behind in range(-1, HEAD + 2):
        frames = [bytes_of(1024 - HEAD - behind), b"", bytes_of(2045), bytes_of(7)]
        ran = run(cut, options(1024, 2), stream_of(frames))
        expect(f"frame_cut < a length {behind} bytes before the block's end", ran=(ran, (WHOLE, text_of(frames), "")))


def try_refusals(cut):
    """Each refusal, by the bytes of a block: the last that is whole, and the first that isn't."""
    whole = stream_of(LONG)
    full = stream_of([bytes_of(LENGTH_LIMIT - HEAD)] * 64)
    for block in BLOCKS:
        for name, stream, line in (
            ("a longer frame, alone", head(LENGTH_LIMIT + 1), "length 0"),
            ("a longer frame", stream_of(LONG[2:]) + head(LENGTH_LIMIT + 1) + b"yyy", "length 3"),
            ("one frame more", stream_of([b""] * FRAME_LIMIT) + b"z", "frames"),
            ("one byte more", full + b"\0", "stream"),
            ("one byte more of most frames", stream_of([bytes_of(1020)] * FRAME_LIMIT) + b"\0", "stream"),
            ("a length's front", stream_of(ABC) + b"\0\0", "frame 2"),
            ("a length", stream_of(ABC) + head(1), "frame 2"),
            ("a frame's front", whole[:-500], "frame 4"),
        ):
            ran = run(cut, options(block, 3), stream)
            expect(f"frame_cut < {name} by {block}", ran=(ran, (REFUSED, "", f"refused {line}\n")))
    expect("frame_cut < the longest stream", ran=(run(cut, [], full), (WHOLE, text_of([bytes_of(LENGTH_LIMIT - HEAD)] * 64), "")))
    expect("frame_cut < 00000003 6162", ran=(run(cut, [], head(3) + b"ab"), (REFUSED, "", "refused frame 0\n")))
    # a block that is refused is the last that is read, and a block has 8,192 bytes where no word says how many
    for words, block in (["--block=1024"], 1024), ([], 8192):
        with tempfile.TemporaryFile() as file:
            file.write(head(LENGTH_LIMIT + 1) + bytes(20_000))
            file.seek(0)
            ran = run(cut, words, file)
            read = os.lseek(file.fileno(), 0, os.SEEK_CUR)
        expect(f"frame_cut {words} < a file", ran=(ran, (REFUSED, "", "refused length 0\n")), read=(read, block))


def try_limits(cut):
    """Where streams end, and which of two limits is told that one byte meets."""
    page, most = bytes_of(1024 - HEAD), bytes_of(LENGTH_LIMIT)
    full = stream_of([page] * FRAME_LIMIT)
    long = stream_of([most] + [page] * 64_511)
    begun, last = head(LENGTH_LIMIT + 1)[:3], head(LENGTH_LIMIT + 1)[3:]
    for name, stream, line in (
        ("a byte", b"\0", "frame 0"),
        ("a length alone", head(258), "frame 0"),
        ("a byte less", head(258) + bytes(257), "frame 0"),
        ("a byte less than the longest frame", stream_of([most])[:-1], "frame 0"),
        ("a byte less of most bytes, and one more frame", full[:-1024] + stream_of([page[1:]]) + b"\0", "frames"),
        ("most bytes that end inside a frame", long + head(1020) + bytes(1016), "frame 64512"),
        ("a byte more", long + head(1020) + bytes(1017), "stream"),
        ("most bytes that end inside a length", long + stream_of([bytes(1013)]) + begun, "frame 64513"),
        ("its last byte", long + stream_of([bytes(1013)]) + begun + last, "stream"),
        ("its last byte among most bytes", long + stream_of([bytes(1012)]) + begun + last, "length 64513"),
    ):
        expect(f"frame_cut < {name}", ran=(run(cut, [], stream), (REFUSED, "", f"refused {line}\n")))
    for name, frames in (("258 bytes", [bytes(258)]), ("most bytes in most frames", [page] * FRAME_LIMIT)):
        expect(f"frame_cut < {name}", ran=(run(cut, [], stream_of(frames)), (WHOLE, text_of(frames), "")))


def try_words(cut):
    for words in ("--workers 15 --block=1024", "--workers=1 --block 65536", "--block 1024", ""):
        expect(f"frame_cut {words}", ran=(run(cut, words.split(), stream_of(ABC)), (WHOLE, ABC_TEXT, "")))
    refused = ["--block 512", "--block=1023", "--block=65537", "--workers 0", "--workers=16", "--workers", "--block=", "--workers=1 --workers=1", "--block=1024 --block=8192"]
    for words in [*refused, "4", "--blocks 1024", "--workers +4", "--block 01024x"]:
        expect(f"frame_cut {words}", ran=(run(cut, words.split(), stream_of(ABC)), (WORDS, "", "refused words\n")))


def try_frames(cut):
    try_whole(cut)
    try_refusals(cut)
    try_limits(cut)
    try_words(cut)
    stream = stream_of(ABC)
    for workers in (1, 4):
        expect(f"frame_cut with no thread for {workers}", ran=(alone(cut, options(8192, workers), stream), (WHOLE, ABC_TEXT, "")))
    for most in (1, 5):
        expect(f"frame_cut < {most} bytes a read", ran=(bytewise(cut, [], stream, most), (WHOLE, ABC_TEXT, "")))
    for front in (0, 1, 6, 11)[: 4 if TERMINALS else 1]:
        expect(f"frame_cut < {front} bytes and a fault", ran=(broken_off(cut, [], stream[:front]), (READ_FAULT, "", "read fault\n")))
    for room in (0, 1, 70, 146):
        expect(f"frame_cut > {room} bytes", ran=(cut_off(cut, [], stream, room), (WRITE_FAULT, ABC_TEXT[:room], "write fault\n")))
    try_ends("frame_cut", cut, stream, stream, 20_000_000)
