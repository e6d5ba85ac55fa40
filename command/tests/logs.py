"""Logs and books to try, made by the functions of samples/make."""

import importlib.util
import struct
import zlib
from functools import cache
from importlib.machinery import SourceFileLoader
from pathlib import Path

SAMPLES = Path(__file__).resolve().parents[2] / "samples"


def load_maker():
    loader = SourceFileLoader("maker", str(SAMPLES / "make"))
    module = importlib.util.module_from_spec(importlib.util.spec_from_loader("maker", loader))
    loader.exec_module(module)
    return module


maker = load_maker()
BLOCKS = [maker.harbour_block(number) for number in range(maker.BLOCKS)]
DICTIONARY = maker.zstd(maker.names(maker.NAMES))
WHOLE, UNCLOSED = maker.finished(BLOCKS, DICTIONARY)
PLAINS = [block[3] for block in BLOCKS]
NAMES = maker.names(maker.NAMES)
BOOK = maker.book(PLAINS, NAMES)

# Where the blocks' headers stand, and after the last one the dictionary, the index and the footer.
AT = [64 + sum(36 + len(block[4]) for block in BLOCKS[:number]) for number in range(len(BLOCKS) + 1)]
D = AT[-1]
INDEX = D + 4 + len(DICTIONARY)
FOOTER = len(WHOLE) - 24
ROWS = INDEX + 16


def patched(content, at, *values):
    """The content with bytes replaced from an offset on; a value is bytes, or a pair of a struct format and a
    number."""
    for value in values:
        new = value if isinstance(value, bytes) else struct.pack("<" + value[0], value[1])
        content = content[:at] + new + content[at + len(new) :]
        at += len(new)
    return content


def plain_lines(numbers):
    """What --plain prints of these blocks."""
    lines = ""
    for number in numbers:
        start, end, entries, plain, stored = BLOCKS[number]
        lines += f"block {number} {AT[number]} {len(stored)} {len(plain)} {entries} {start} {end}\n"
    return lines.encode()


def shown(field):
    """A value as the listing prints it, from its bytes: an independent rendering for comparison."""
    kind, data = field
    if kind in (0, 5):
        text = "".join(chr(b) if 0x20 <= b <= 0x7E and b not in b'"\\' else f"\\x{b:02X}" for b in data)
        return f'{"s" if kind == 0 else "j"}:"{text}"'
    if kind == 1:
        return f"i:{struct.unpack('<q', data)[0]}"
    if kind == 2:
        return f"f:{struct.unpack('<Q', data)[0]:016X}"
    return f"b:{data[0]}" if kind == 3 else "n"


def take_varint(plain, at):
    value = shift = 0
    while True:
        value |= (plain[at] & 127) << shift
        at, shift = at + 1, shift + 7
        if plain[at - 1] < 128:
            return value, at


def entry_lines():
    """The lines of all entries of the harbour sample, as pairs of time and line."""
    lines = []
    for start, _, _, plain, _ in BLOCKS:
        at = 0
        while at < len(plain):
            delta, at = take_varint(plain, at)
            count, at, words = plain[at], at + 1, [str(start + delta)]
            for _ in range(count):
                name, kind = struct.unpack_from("<HB", plain, at)
                length, at = take_varint(plain, at + 3)
                words.append(f"{maker.NAMES[name]}={shown((kind, plain[at:at + length]))}")
                at += length
            lines.append((start + delta, " ".join(words) + "\n"))
    return lines


@cache
def checksum_of_zeros(size):
    checksum = 0
    piece = bytes(1 << 20)
    for left in range(size, 0, -len(piece)):
        checksum = zlib.crc32(piece[:left], checksum)
    return checksum


def write_zeros(path, blocks, size):
    """A sparse file that was not closed, of blocks whose stored bytes are all zero."""
    checksum = checksum_of_zeros(size)
    with open(path, "wb") as file:
        file.write(maker.header(0, 0, 0, 0))
        for number in range(blocks):
            file.write(struct.pack("<IQQIIII", number, number, number, 1, size, 1, checksum))
            file.seek(size, 1)
        file.truncate()


def close_zeros(path, blocks, size):
    """Closes such a file; gives back where the rows of its index stand."""
    dictionary = 64 + blocks * (36 + size)
    rows = b"".join(struct.pack("<QQQI", k, k, 64 + k * (36 + size), size) for k in range(blocks))
    with open(path, "r+b") as file:
        file.write(maker.header(dictionary, blocks, 0, blocks - 1))
        file.seek(dictionary)
        file.write(struct.pack("<IB", 1, 0) + b"HPLG_IDX" + struct.pack("<Q", blocks) + rows)
        file.write(b"HPLG_END" + struct.pack("<Q", dictionary + 5) + bytes(8))
    return dictionary + 5 + 16


def write_long_text(log, book, size, plains=()):
    """A log and its sparse book: blocks of these plain bytes, each one entry at 1001, 1002 and so on; before and after
    them a block of an entry with a text of so many zero bytes, at 1000 and as the last one, and of an entry without
    fields a nanosecond later."""
    front, last = maker.varint(0) + bytes([1]) + struct.pack("<HB", 0, 0) + maker.varint(size), maker.entry(1, [])
    long = range(len(front) + size + len(last))  # a log has no more of it than its length
    parts = [long, *plains, long]
    blocks = [(1000 + k, 1000 + k + (plain is long), 1 + (plain is long), plain, b"z") for k, plain in enumerate(parts)]
    Path(log).write_bytes(maker.finished(blocks, b"z")[0])
    with open(book, "wb") as file:
        file.write(b"PLB" + struct.pack("<H", 1))
        for plain in parts:
            file.write(struct.pack("<I", len(plain)) + (front if plain is long else plain))
            if plain is long:
                file.seek(size, 1)
                file.write(last)
        file.write(struct.pack("<I", len(NAMES)) + NAMES)
