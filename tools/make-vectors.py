#!/usr/bin/env python3
"""make-vectors.py LIST..: write the lists of cases that the programs LIST_vectors run.

Run it at the top of the repository, with the path of a built oracle in the environment variable
ORACLE. For each LIST it writes crates/LIST_vectors/data/cases.txt (and a second file where LISTS names
one), and to crates/LIST_vectors/stdout what the program prints when every answer is right. The seed is fixed: the same oracle gives the
same lists.

To add a list: write a function of a random.Random that yields its cases in the order of their
groups, and name it in LISTS. A case is a pair of a question and its answer. A question is the group's
name and its arguments, parted by one space (byte strings by `hexed`). Where the answer is None,
the oracle is asked the same question. Where the oracle's question has another name, or its answer
another form, ask it yourself (`ask`) and give the answer. The function's docstring goes to the head
of the list: say there what the answers rest on where it is not the oracle.
"""
import ipaddress
import itertools
import os
import random
import struct
import subprocess
import sys

from listings import COLUMN_LINE, LISTING, PREAMBLE, some_listing

SEED = 20240301


def hexed(b):
    return b.hex() or "-"


def ask(questions):
    """The oracle's answers, one for each question."""
    run = subprocess.run([os.environ["ORACLE"]], input="\n".join(questions) + "\n", capture_output=True, text=True, check=True)
    answers = run.stdout.split("\n")[:-1]
    assert len(answers) == len(questions)
    return answers


# ---- text

# 01, Text: Unicode White_Space
WHITE = [*range(0x09, 0x0E), 0x20, 0x85, 0xA0, 0x1680, *range(0x2000, 0x200B), 0x2028, 0x2029, 0x202F, 0x205F, 0x3000]
NEAR_WHITE = sorted({c + d for c in WHITE for d in (-1, 1)} - set(WHITE) | {0x180E, 0x200B, 0x2060, 0xFEFF})
GAPS = b" \t\n\x0c\r"  # 01, Text: header tokens


def utf8_borders():
    """Each first and last character of each length, surrogates, overlong forms, characters cut short, and what is near."""
    good = [chr(c).encode() for c in (0, 0x7F, 0x80, 0x7FF, 0x800, 0xD7FF, 0xE000, 0xFFFF, 0x10000, 0x10FFFF)]
    bad = ["eda080", "edbfbf", "c080", "c1bf", "e08080", "e09fbf", "f0808080", "f08fbfbf", "f4908080", "f7bfbfbf", "f888808080", "fe", "ff"]
    texts = good + [bytes.fromhex(h) for h in bad]
    texts += [g[:k] for g in good for k in range(1, len(g))]
    texts += [g[:k] + b"a" for g in good for k in range(1, len(g))]
    texts += [b"a" + t + b"b" for t in texts]
    near = (0x7F, 0x80, 0x8F, 0x90, 0x9F, 0xA0, 0xBF, 0xC0)
    texts += [bytes([a]) for a in range(256)]
    texts += [bytes([a, b]) for a in range(0xC0, 0x100) for b in near]
    texts += [bytes([a, b, c]) for a in range(0xE0, 0xF0) for b in near for c in (0x7F, 0x80, 0xBF, 0xC0)]
    texts += [bytes([a, b, c, 0x80]) for a in range(0xF0, 0xF8) for b in near for c in (0x7F, 0x80, 0xBF, 0xC0)]
    return list(dict.fromkeys(texts))


def spaced(rng, size):
    """A text of characters with much white space in it, and of what is near white space."""
    kinds = [WHITE, NEAR_WHITE, [0x20], [0x61, 0x62, 0x7E], [0xE9, 0x20AC, 0x1F600, 0x10FFFF]]
    return "".join(chr(rng.choice(rng.choice(kinds))) for _ in range(rng.randrange(size))).encode()


def edges(b):
    """The places between the characters of a UTF-8 text, by Python's decoding."""
    places, at = {0}, 0
    for c in b.decode():
        at += len(c.encode())
        places.add(at)
    return places


def next_word(b, at):
    while at < len(b) and b[at] in GAPS:
        at += 1
    start = at
    while at < len(b) and b[at] not in GAPS:
        at += 1
    return f"{start} {at}" if start < at else "none"


def line_end(b, at):
    feed = b.find(b"\n", at)
    return at if len(b) <= at else len(b) if feed < 0 else feed + 1


def yes_no(t):
    return "yes" if t else "no"


def text_cases(rng):
    """The answers are the oracle's, but for: rfc3629, the examples of RFC 3629, section 7; white, 01's list of code
    points; edge and slice, Python's decoding; next_word, line_end, same, starts_with and find, Python's byte strings.
    trim_start is the oracle's trim of the text with an `x` behind it, less the `x`."""
    for h in ("41e289a2ce912e", "ed959ceab5adec96b4", "e697a5e69cace8aa9e", "efbbbff0a38eb4"):
        yield f"rfc3629 {h}", "yes"
    for t in utf8_borders():
        yield f"utf8 {hexed(t)}", None
    for _ in range(400):
        t = bytearray(spaced(rng, 40))
        if t and rng.random() < 0.7:
            t[rng.randrange(len(t))] = rng.randrange(256)
        yield f"utf8 {hexed(t)}", None
    for c in sorted(WHITE + NEAR_WHITE):
        b = chr(c).encode()
        yield f"white {hexed(b)}", hexed(b"" if c in WHITE else b)
    texts = [spaced(rng, 12) for _ in range(600)]
    for q in ("trim", "trim_end", "tokens"):
        for t in texts:
            yield f"{q} {hexed(t)}", None
    for t, a in zip(texts, ask([f"trim {hexed(t + b'x')}" for t in texts])):
        yield f"trim_start {hexed(t)}", a[:-2] or "-"
    for t in texts[:200]:
        for at in range(len(t) + 2):
            yield f"edge {hexed(t)} {at}", yes_no(at in edges(t))
    for t in texts[:200]:
        for _ in range(4):
            a, b = rng.randrange(len(t) + 2), rng.randrange(len(t) + 2)
            yield f"slice {hexed(t)} {a} {b}", yes_no(a <= b <= len(t) and {a, b} <= edges(t))
    for _ in range(400):
        t = bytes(rng.choice(b"ab  \t\n\x0b\x0c\r\x00\x1c\x85\xa0") for _ in range(rng.randrange(14)))
        at = rng.randrange(len(t) + 2)
        yield f"next_word {hexed(t)} {at}", next_word(t, at)
    for size in [*range(40), 64, 65, 100, 300]:
        for _ in range(10):
            t = bytes(rng.choice(b"\n\r\x0b\x0ca") if rng.random() < 2 / (size + 2) else rng.randrange(11, 256) for _ in range(size))
            at = rng.choice([0, 0, 1, size, size + 1, rng.randrange(size + 2)])
            yield f"line_end {hexed(t)} {at}", str(line_end(t, at))
    pairs = []
    for _ in range(400):
        t = bytes(rng.choice(b"aab") for _ in range(rng.randrange(10)))
        p = bytes(rng.choice(b"aab") for _ in range(rng.randrange(5)))
        pairs.append((t, rng.choice([p, p, t, t[:4], t[2:5]])))
    for t, p in pairs:
        yield f"same {hexed(t)} {hexed(p)}", yes_no(t == p)
    for t, p in pairs:
        yield f"starts_with {hexed(t)} {hexed(p)}", yes_no(t.startswith(p))
    for t, p in pairs:
        yield f"find {hexed(t)} {hexed(p)}", str(t.find(p)) if p in t else "none"


# ---- decimal

ODD = ["/", ":", "+", "-", " ", "\t", "\n", "\0", "a", "A", "_", ",", "\x7f", "\u00b2", "\u0660", "\u0967", "\uff11"]


def near_numbers(rng):
    """Texts that read as a number of one of the widths, or nearly do."""
    texts = ["", "+", "-", "++", "+0", "-0", "0+", "1+", "+ 1", "1 ", " 1", "1_000", "1,000", "0x10", "1e3", "1.0"]
    for top in (2**32, 2**64):
        for n in (0, 9, 10, top // 10, top - 2, top - 1, top, top + 1, top + 10, 10 * (top - 1), 2 * top):
            for sign in ("", "+", "-", "++", "+-", " "):
                texts += [sign + "0" * zeros + str(n) for zeros in (0, 1, 2, 9, 19, 20, 30)]
        texts += [str(top + d) for d in range(-20, 20)]
    texts += [str(10**k + d) for k in range(24) for d in (-1, 0, 1)]
    for _ in range(1000):
        t = list(str(rng.randrange(10 ** rng.randrange(1, 24))))
        at = rng.randrange(len(t) + 1)
        t[at : at + rng.randrange(2)] = rng.choice([[], [], ["0"] * at, [rng.choice(ODD)]])
        texts.append("".join(t))
    return [t.encode() for t in dict.fromkeys(texts)]


def numbers(rng, top):
    """The borders of a width and of each number of digits, and others."""
    some = {0, 1, top - 1, top - 2} | {10**k + d for k in range(20) for d in (-1, 0, 1)}
    return sorted(n for n in some | {rng.randrange(10 ** rng.randrange(1, 20)) for _ in range(100)} if n < top)


def overwrite(size, at, text):
    """A list of `size` points with the text written to it from `at` on, and the place behind it."""
    out = bytearray(b"." * size)
    n = min(len(text), max(size - at, 0))
    out[at : at + n] = text[:n]
    return f"{at + n} {hexed(out)}"


def decimal_cases(rng):
    """The answers of u32 and u64 are the oracle's. starred is 01's list. digits is the oracle's u64, and none behind a
    `+`. print and print32 are the oracle's u64 and u32 of Python's digits; the others are Python's whole numbers and
    byte strings."""
    for t, a in (("+7", "7"), ("4294967295", "4294967295"), ("4294967296", "none"), ("-0", "none")):
        yield f"starred {hexed(t.encode())}", a
    texts = near_numbers(rng)
    for q in ("u32", "u64"):
        for t in texts:
            yield f"{q} {hexed(t)}", None
    for t, a in zip(texts, ask([f"u64 {hexed(t)}" for t in texts])):
        yield f"digits {hexed(t)}", "none" if t[:1] == b"+" else a
    wide, narrow = numbers(rng, 2**64), numbers(rng, 2**32)
    for n, a in zip(wide, ask([f"u64 {hexed(str(n).encode())}" for n in wide])):
        yield f"print {n}", a
    for n, a in zip(narrow, ask([f"u32 {hexed(str(n).encode())}" for n in narrow])):
        yield f"print32 {n}", a
    for n in wide:
        yield f"len {n}", str(len(str(n)))
    pairs = [(n, n) for n in wide[:20]] + [(n, rng.choice(wide)) for n in wide] + [(0, 62167219200), (315569519999, 62167219200)]
    for a, b in pairs:
        yield f"difference {a} {b}", str(a - b)
    for a, b in pairs:
        yield f"difference_len {a} {b}", str(len(str(a - b)))
    for n in wide:
        t = str(n).encode()
        for size in (0, len(t) - 1, len(t), len(t) + 3):
            fits = len(t) <= size
            yield f"put {n} {size}", overwrite(size, 0, t) if fits else f"short {hexed(b'.' * size)}"
    places = [(n, size, rng.choice([0, 1, size, size + 1, rng.randrange(40)])) for n in wide for size in (0, 1, 9, 21, 40)]
    for n, size, at in places:
        yield f"write {n} {size} {at}", overwrite(size, at, str(n).encode())
    for n, size, at in places[:400]:
        t = bytes(rng.randrange(256) for _ in range(n % 50))
        yield f"write_bytes {hexed(t)} {size} {at}", overwrite(size, at, t)
    for n, size, at in places[:200]:
        yield f"write_byte {n % 256} {size} {at}", overwrite(size, at, bytes([n % 256]))


# ---- timestamp

# 01's starred dates, and what is easily misread: only an ASCII digit before dashes counts, candidates may overlap
STARRED_DATES = [
    (b"2024.03.01", "1709294400"),
    (b"2023.02.29/2024.03.01", "none"),
    (b"12024-03-01-0000", "none"),
    (b"0000-01-01-0000", "-62167219200"),
    (b"oix-full-snapshot-2024-03-01-0000.txt", "1709251200"),
    (b"12024.03.01", "1709294400"),
    (b"2024-13-01-2024-03-01-0000", "1709251200"),
]
YEARS = (0, 1, 4, 100, 400, 1900, 1969, 1970, 2000, 2024, 9999)


def month_length(year, month):
    leap = year % 4 == 0 and year % 100 != 0 or year % 400 == 0
    return (31, 29 if leap else 28, 31, 30, 31, 30, 31, 31, 30, 31, 30, 31)[month - 1]


def month_edges():
    """Paths with the first and the last day of each month, and the day that would follow the last."""
    for y in YEARS:
        for m in range(1, 13):
            last = month_length(y, m)
            for d in (1, last, last + 1):
                yield b"%04d-%02d-%02d-0000" % (y, m, d)
                yield b"a/%04d-%02d-%02d-2359.bz2" % (y, m, d)
                yield b"b/%04d.%02d.%02d.gz" % (y, m, d)


def near_path(rng):
    """Dates of both forms with digits, separators and other characters around them; some wrong by a little, some paths damaged."""

    def pick(good, bad):
        return rng.choice(good if rng.random() < 0.85 else bad)

    def date(sep):
        y = rng.choice((2024, 2023, 2000, 1900, 1970, 0, 9999, rng.randrange(10000)))
        m = pick((1, 2, 2, 2, 3, 12, rng.randrange(1, 13)), (0, 13, 99))
        last = month_length(y, m) if 1 <= m <= 12 else 31
        d = pick((1, last, 28, rng.randrange(1, last + 1)), (0, last + 1, 29, 30, 31, 99))
        return b"%04d%b%02d%b%02d" % (y, sep, m, sep, d)

    def moment():
        return date(b"-") + b"-%02d%02d" % (pick((0, 12, 23), (24, 25, 99)), pick((0, 30, 59), (60, 61, 99)))

    around = (b"", b"", b"/", b"-", b".", b"_", b" ", b"rib.", b"0", b"1", b"9", b"20", b"2024-", b"2024.", b"03-", b".txt.gz", b":",
              b"\0", b"\x7f", "\u00b2".encode(), "\u0661".encode(), "\u20ac".encode(), "\U0001d7ce".encode())
    s = bytearray()
    for _ in range(rng.choice((1, 1, 2, 2, 3))):
        s += rng.choice(around) + (moment() if rng.random() < 0.6 else date(b"."))
    s += rng.choice(around)
    k, damage = rng.randrange(len(s)), rng.random()
    if damage < 0.08:
        s[k] = rng.choice(b"0123456789-./:; aZ")
    elif damage < 0.16:
        del s[k]
    elif damage < 0.24:
        s.insert(k, rng.choice(b"0123456789-."))
    elif damage < 0.30:
        del s[k:]
    elif damage < 0.35:
        s[k] = rng.choice((0x80, 0xBF, 0xC0, 0xC2, 0xE2, 0xED, 0xF5, 0xFF))
    return bytes(s)


FIRST_SECOND, LAST_SECOND = -62167219200, 253402300799


def bits_of(x):
    return struct.unpack("<Q", struct.pack("<d", x))[0]


def float_bits(rng):
    """Patterns of 64 bits: around the ends of the range and of the whole numbers, NaNs, infinities, zeros, fractions, anything."""
    some = {0, 1, 1 << 63, (1 << 63) + 1, 2**63 - 1, 2**64 - 1}
    for sign in (0, 1 << 63):
        some |= {sign + (0x7FF0 << 48) + d for d in (-1, 0, 1, 1 << 51)}
        some |= {sign + bits_of(2.0**k) for k in range(-60, 70)}
    for z in (FIRST_SECOND, -(10**9), 0, 2**31, 2**32, 1709251200, 10**10, 10**11, LAST_SECOND):
        for d in (-2, -1, 0, 1, 2):
            some |= {(bits_of(float(z + d)) + e) % 2**64 for e in (-1, 0, 1)}
    for _ in range(800):
        whole = rng.randrange(FIRST_SECOND, LAST_SECOND)
        some |= {bits_of(float(whole)), bits_of(whole + rng.choice((0.5, 0.25, 2.0**-14))), rng.randrange(2**64)}
    return sorted(some)


def second_of(bits):
    """01, Records: a whole number of the range, never negative zero; by Python's floats."""
    x = struct.unpack("<d", struct.pack("<Q", bits))[0]
    good = FIRST_SECOND <= x <= LAST_SECOND and x == int(x) and bits != 1 << 63
    return str(int(x)) if good else "none"


def timestamp_cases(rng):
    """The answers are the oracle's, but for: starred, which 01 gives; bits, a timestamp's 64 bits as a number, by Python's floats."""
    for path, answer in STARRED_DATES:
        yield f"starred {hexed(path)}", answer
    months = list(month_edges())
    for path, answer in zip(months, ask([f"timestamp {hexed(p)}" for p in months])):
        yield f"months {hexed(path)}", answer
    for path in sorted({near_path(rng) for _ in range(6000)}):
        yield f"timestamp {hexed(path)}", None
    for bits in float_bits(rng):
        yield f"bits {bits}", second_of(bits)


# ---- network

# 01, One listing
STARRED_ADDRESSES = [("192.0.02.1", "none"), ("1:2:3:4:5:6:7::", "1:2:3:4:5:6:7:0"), ("0:0:1::", "0:0:1::")]
STARRED_PREFIXES = [("10.1.2.3/8", "10.1.2.3/8"), ("10.0.0.0", "none")]

# RFC 4291, 2.2 (1) to (3)
RFC4291 = [
    ("ABCD:EF01:2345:6789:ABCD:EF01:2345:6789", "abcd:ef01:2345:6789:abcd:ef01:2345:6789"),
    ("2001:DB8:0:0:8:800:200C:417A", "2001:db8::8:800:200c:417a"),
    ("FF01:0:0:0:0:0:0:101", "ff01::101"),
    ("0:0:0:0:0:0:0:1", "::1"),
    ("0:0:0:0:0:0:0:0", "::"),
    ("2001:DB8::8:800:200C:417A", "2001:db8::8:800:200c:417a"),
    ("FF01::101", "ff01::101"),
    ("::1", "::1"),
    ("::", "::"),
    ("0:0:0:0:0:0:13.1.68.3", "::d01:4403"),
    ("0:0:0:0:0:FFFF:129.144.52.38", "::ffff:129.144.52.38"),
    ("::13.1.68.3", "::d01:4403"),
    ("::FFFF:129.144.52.38", "::ffff:129.144.52.38"),
]

# RFC 4291, 2.3: three ways to write one prefix, the texts that are no way to write it, and the node's address with it
RFC4291_PREFIXES = [
    ("2001:0DB8:0000:CD30:0000:0000:0000:0000/60", "2001:db8:0:cd30::/60"),
    ("2001:0DB8::CD30:0:0:0:0/60", "2001:db8:0:cd30::/60"),
    ("2001:0DB8:0:CD30::/60", "2001:db8:0:cd30::/60"),
    ("2001:0DB8:0:CD3/60", "none"),
    ("2001:0DB8::CD30/60", "2001:db8::cd30/60"),
    ("2001:0DB8::CD3/60", "2001:db8::cd3/60"),
    ("2001:0DB8:0:CD30:123:4567:89AB:CDEF/60", "2001:db8:0:cd30:123:4567:89ab:cdef/60"),
]

# RFC 5952: each text of a section, and how section 4 or 5 has it
RFC5952 = [
    (  # 1
        "2001:db8:0:0:1:0:0:1 2001:0db8:0:0:1:0:0:1 2001:db8::1:0:0:1 2001:db8::0:1:0:0:1 2001:0db8::1:0:0:1 "
        "2001:db8:0:0:1::1 2001:db8:0000:0:1::1 2001:DB8:0:0:1::1",
        "2001:db8::1:0:0:1",
    ),
    (  # 2.1
        "2001:db8:aaaa:bbbb:cccc:dddd:eeee:0001 2001:db8:aaaa:bbbb:cccc:dddd:eeee:001 "
        "2001:db8:aaaa:bbbb:cccc:dddd:eeee:01 2001:db8:aaaa:bbbb:cccc:dddd:eeee:1",
        "2001:db8:aaaa:bbbb:cccc:dddd:eeee:1",
    ),
    # 2.2
    ("2001:db8:aaaa:bbbb:cccc:dddd::1 2001:db8:aaaa:bbbb:cccc:dddd:0:1", "2001:db8:aaaa:bbbb:cccc:dddd:0:1"),
    ("2001:db8:0:0:0::1 2001:db8:0:0::1 2001:db8:0::1 2001:db8::1", "2001:db8::1"),
    ("2001:db8::aaaa:0:0:1 2001:db8:0:0:aaaa::1", "2001:db8::aaaa:0:0:1"),
    (  # 2.3
        "2001:db8:aaaa:bbbb:cccc:dddd:eeee:aaaa 2001:db8:aaaa:bbbb:cccc:dddd:eeee:AAAA "
        "2001:db8:aaaa:bbbb:cccc:dddd:eeee:AaAa",
        "2001:db8:aaaa:bbbb:cccc:dddd:eeee:aaaa",
    ),
    ("2001:0db8::0001", "2001:db8::1"),  # 4.1
    ("2001:db8:0:0:0:0:2:1", "2001:db8::2:1"),  # 4.2.1
    ("2001:db8::0:1", "2001:db8::1"),
    ("2001:db8:0:1:1:1:1:1 2001:db8::1:1:1:1:1", "2001:db8:0:1:1:1:1:1"),  # 4.2.2
    ("2001:0:0:1:0:0:0:1", "2001:0:0:1::1"),  # 4.2.3
    ("2001:db8:0:0:1:0:0:1", "2001:db8::1:0:0:1"),
    ("::ffff:192.0.2.1 0:0:0:0:0:ffff:192.0.2.1", "::ffff:192.0.2.1"),  # 5
]


def near_ipv4(rng):
    """Three to five octets around each rule's border."""
    octets = ["0", "1", "9", "10", "99", "100", "199", "200", "249", "250", "255", "256", "260", "300", "999", "00", "01", "001", "0000", "1000", ""]
    good = octets[:11]
    n = rng.choice([4] * 12 + [3, 5])
    parts = [rng.choice(good) for _ in range(n)]
    if rng.random() < 0.4:
        parts[rng.randrange(n)] = rng.choice(octets)
    return ".".join(parts)


def near_group(rng):
    """A group of one to four digits of either case, many of them zero; seldom of none, five or another letter."""
    if rng.random() < 0.4:
        return rng.choice(["0", "0", "0", "00", "0000"])
    if rng.random() < 0.05:
        return rng.choice(["", "00000", "12345", "g", "-1"])
    return "".join(rng.choice("0123456789abcdefABCDEF") for _ in range(rng.randrange(1, 5)))


def near_ipv6(rng):
    """Groups, most often as many as fit, with `::` in some place or none, and now and then a dotted tail or a second `::`."""
    gaps = rng.choice([0, 1, 1, 1, 2]) if rng.random() < 0.9 else 0
    n = rng.randrange(0, 10) if rng.random() < 0.4 else (rng.randrange(0, 8) if gaps else 8)
    tail = rng.random() < 0.25
    parts = [near_group(rng) for _ in range(max(0, n - (2 if tail else 0)))]
    if tail:
        parts.append(near_ipv4(rng))
    text = ":".join(parts)
    for _ in range(gaps):
        places = [0, len(text)] + [i for i in range(len(text)) if text[i] == ":"]
        at = rng.choice(places)
        text = text[:at] + ("::" if at in (0, len(text)) else ":") + text[at:]
    return text


def damaged(rng, text):
    """The text with one byte put in, taken out or changed, or with a byte at an end."""
    marks = "0159afFgG.:/%+- "
    at = rng.randrange(len(text) + 1)
    kind = rng.randrange(5)
    if kind == 0:
        return text[:at] + rng.choice(marks) + text[at:]
    if kind == 1:
        return text[:at] + text[at + 1 :]
    if kind == 2:
        return text[:at] + rng.choice(marks) + text[at + 1 :]
    return rng.choice(marks) + text if kind == 3 else text + rng.choice(marks)


def addresses(rng):
    """`::` in every place of up to nine groups, dotted tails, octets, and damaged copies."""
    texts = [""]
    for n in range(10):
        groups = [str(i + 1) for i in range(n)]
        texts += [":".join(groups), ":".join(groups + ["1.2.3.4"]), ":".join(["0"] * n)]
        for k in range(n + 1):
            left, right = ":".join(groups[:k]), ":".join(groups[k:])
            texts += [f"{left}::{right}", f"{left}::{':'.join(groups[k:] + ['1.2.3.4'])}", f"{left}:::{right}"]
            texts += [":".join(groups[:k] + ["1.2.3.4"]) + "::" + right, f"{left}::{right}::"]
    for zeros in range(256):  # every set of zero groups
        texts.append(":".join("0" if zeros >> i & 1 else format(i + 10, "x") for i in range(8)))
    texts += [near_ipv4(rng) for _ in range(500)]
    texts += [near_ipv6(rng) for _ in range(1500)]
    texts += [damaged(rng, t) for t in rng.sample(texts, 1500)]
    return list(dict.fromkeys(texts))


def prefixes(rng):
    """Every length up to 129 with up to three leading zeros, and damaged copies."""
    texts = []
    for n in range(130):
        for zeros in range(4):
            texts += [f"192.0.2.1/{'0' * zeros}{n}", f"2001:db8::/{'0' * zeros}{n}"]
    texts += [f"{a}/{n}" for a in ("10.1.2.3", "::", "1.2.3", "1:2") for n in ("", "+8", "-1", "256", "1000", " 8", "8 ", "8/8", "a", "0x8")]
    for _ in range(900):
        v4 = rng.random() < 0.5
        text = (near_ipv4(rng) if v4 else near_ipv6(rng)) + "/" + str(rng.randrange(0, 36 if v4 else 132))
        texts += [text, damaged(rng, text)]
    return list(dict.fromkeys(texts))


def network_cases(rng):
    """The answers are the oracle's, but for: starred and starred_prefix, which 01 gives; rfc4291, rfc4291_prefix and
    rfc5952, the examples of RFC 4291, 2.2 and 2.3, and of RFC 5952, 1, 2, 4 and 5; valid, 01's bounds; put_address,
    put_prefix and lengths, Python's byte strings around the oracle's text."""
    for text, answer in STARRED_ADDRESSES:
        yield f"starred {hexed(text.encode())}", answer
    for text, answer in STARRED_PREFIXES:
        yield f"starred_prefix {hexed(text.encode())}", answer
    for text, answer in RFC4291:
        yield f"rfc4291 {hexed(text.encode())}", answer
    for text, answer in RFC4291_PREFIXES:
        yield f"rfc4291_prefix {hexed(text.encode())}", answer
    for texts, answer in RFC5952:
        for text in texts.split():
            yield f"rfc5952 {hexed(text.encode())}", answer
    some = addresses(rng)
    for t in some:
        yield f"addr {hexed(t.encode())}", None
    more = prefixes(rng)
    for t in more:
        yield f"prefix {hexed(t.encode())}", None
    for t, most in (("192.0.2.0/0", 32), ("::/0", 128)):
        for n in range(256):
            yield f"valid {hexed(t.encode())} {n}", yes_no(n <= most)
    for name, texts in (("put_address", some), ("put_prefix", more)):
        question = {"put_address": "addr", "put_prefix": "prefix"}[name]
        printed = [(t, a) for t, a in zip(texts, ask([f"{question} {hexed(t.encode())}" for t in texts])) if a != "none"]
        for t, a in rng.sample(printed, 120):
            for size in (0, len(a) - 1, len(a), len(a) + 3):
                old = b"." * size
                new = a.encode() + old[len(a) :] if len(a) <= size else old
                yield f"{name} {hexed(t.encode())} {size}", f"{len(a) if len(a) <= size else 'short'} {hexed(new)}"
    printed = [(t, a) for t, a in zip(more, ask([f"prefix {hexed(t.encode())}" for t in more])) if a != "none"]
    for t, a in rng.sample(printed, 300):
        yield f"lengths {hexed(t.encode())}", f"{a.index('/')} {len(a)}"


# ---- paths: aspath_normal, aspath

MARK = 7  # what the places behind a record hold
SEGMENTS = [(k, list(v)) for k in range(4) for m in range(3) for v in itertools.product((1, 2), repeat=m)]


def short_paths(depth):
    """Every path of up to `depth` segments with up to two numbers from {1, 2}, in every kind."""
    return [list(p) for d in range(depth + 1) for p in itertools.product(SEGMENTS, repeat=d)]


def spelt(p):
    """A path as the oracle reads it."""
    return ";".join(f"{k}:{','.join(map(str, v))}" for k, v in p) or "-"


def unspelt(t):
    return [(int(s[0]), [int(a) for a in s[2:].split(",") if a]) for s in t.split(";")] if t != "-" else []


def without_repeats(items):
    return list({repr(x): x for x in items}.values())


def lists(p):
    return [k for k, v in p], [len(v) for k, v in p], [a for k, v in p for a in v]


def record(p, room=2, kinds=None, lengths=None, numbers=None, s=None, n=None):
    """A record with `room` marked places behind it; what is given is put in its stead."""
    ks, ls, ns = lists(p)
    s, n = len(ks) if s is None else s, len(ns) if n is None else n
    ks = ks + [MARK] * room if kinds is None else kinds
    ls = ls + [MARK] * room if lengths is None else lengths
    ns = ns + [MARK] * room if numbers is None else numbers
    return ks, ls, ns, s, n


def said(r):
    ks, ls, ns, s, n = r
    return f"{hexed(bytes(ks))} {hexed(bytes(ls))} {hexed(b''.join(a.to_bytes(4, 'big') for a in ns))} {s} {n}"


def left(r, mark=","):
    """All places of a record that was lent."""
    return f" {hexed(bytes(r[0]))} {''.join(mark + str(a) for a in r[1])} {''.join(mark + str(a) for a in r[2])}"


def laid_out(new, old, n):
    return new + [0] * (n - len(new)) + old[n:]


def normalised(r, q, numbers=True):
    """The record r, in whose places the path q was laid out; freed places are 0. Without `numbers` they stay as they were."""
    ks, ls, ns = lists(q)
    assert numbers or ns == r[2][: r[4]]
    return laid_out(ks, r[0], r[3]), laid_out(ls, r[1], r[3]), laid_out(ns, r[2], r[4]) if numbers else r[2], r[3], r[4]


def counts(q):
    return f"{len(q)} {sum(len(v) for k, v in q)}"


def longer_path(rng):
    top = rng.choice((3, 5, 300, 2**32))
    return [(rng.choice((0, 0, 1, 2, 3)), [rng.randrange(top) for _ in range(rng.choice((0, 0, 1, 1, 2, 3, 5, 9)))]) for _ in range(rng.randrange(1, 9))]


def reworded(rng, p):
    """A path that is often equivalent to p: numbers repeated, sets in another order, sequences parted, empty ones put in."""
    out = []
    for k, v in p:
        v = [a for a in v for _ in range(rng.choice((1, 1, 1, 2)))]
        if k % 2:
            rng.shuffle(v)
            out.append((k, v))
        else:
            at = rng.randrange(len(v) + 1)
            out += [(k, v[:at]), (k, v[at:])] if rng.random() < 0.5 else [(k, v)]
        if rng.random() < 0.1:
            out.append((rng.choice((0, 2)), []))
    return out


# the examples in the documentation of aspath.rs
COALESCE_EXAMPLE = ("0:;0:1,2;0:;0:2;1:2;1:5,3,3,2", "0:1,2,2;1:2;1:5,3,3,2")
DEDUP_EXAMPLE = ("0:1,2;0:;0:2;1:2;1:5,3,3,2", "0:1,2;1:2,3,5")
# the segments whose equality it documents, here as paths
EQUALITY_EXAMPLES = [("0:1,2,3", "0:1,2,3"), ("0:1,2,3", "0:1,2,3,3"), ("1:1,2,3", "1:3,1,2"), ("1:1,2,3", "1:1,2,3,3"), ("0:1,2,3", "1:1,2,3")]

# Cases written out, a group for each call and what it shows: a path, and the path that it becomes.
LITERAL_NORMAL = [
    ("coalesce", "documented", [COALESCE_EXAMPLE, ("0:", "0:"), ("1:5,3,3,2", "1:5,3,3,2"), ("0:1,1", "0:1,1")]),
    ("dedup_coalesce", "documented", [DEDUP_EXAMPLE]),
    # empty sequences go, then neighbours of one kind are one; where there is nothing else, the last stays
    ("coalesce", "empty_sequences", [("0:;2:", "2:"), ("2:;0:", "0:"), ("0:;0:", "0:"), ("0:1;2:;0:2", "0:1,2"), ("0:1;2:2;0:", "0:1;2:2"), ("2:", "2:"), ("-", "-")]),
]
# Two paths, whether they are equivalent, and what both become: the lent paths are normalised.
LITERAL_EQUIVALENT = [
    ("documented", [
        ("0:1,2,3", "0:1,2,3", "yes", "0:1,2,3", "0:1,2,3"),
        ("0:1,2,3", "0:1,2,3,3", "yes", "0:1,2,3", "0:1,2,3"),
        ("1:1,2,3", "1:3,1,2", "yes", "1:1,2,3", "1:1,2,3"),
        ("1:1,2,3", "1:1,2,3,3", "yes", "1:1,2,3", "1:1,2,3"),
        ("0:1,2,3", "1:1,2,3", "no", "0:1,2,3", "1:1,2,3"),
    ]),
    ("empty_sequences", [("-", "0:", "no", "-", "0:"), ("0:;2:", "2:;0:", "no", "2:", "0:"), ("0:;2:", "2:", "yes", "2:", "2:")]),
    ("normalises", [(*DEDUP_EXAMPLE, "yes", DEDUP_EXAMPLE[1], DEDUP_EXAMPLE[1]), ("0:1,1;0:1", "1:5,5;3:9,8", "no", "0:1", "0:5;3:8,9")]),
]
# empty sequences, and sets of one number
EMPTY_SEQUENCES = ["-", "0:", "2:", "0:;2:", "2:;0:", "0:;0:", "0:;2:;0:", "1:;0:", "0:;1:", "1:5,5", "3:5,5;2:5"]
SPOILT_FORM = [(0, [1, 2]), (1, [3])]
SPOILT = [dict(kinds=[0, 4]), dict(kinds=[0]), dict(lengths=[2]), dict(numbers=[1, 2], n=3), dict(lengths=[2, 2]), dict(lengths=[2, 0]),
          dict(n=2), dict(s=3, kinds=[0, 1, 0]), dict(s=1), dict(s=4097), dict(n=16385)]


def normal_pairs(rng, longer):
    """Pairs of paths for equivalence: the examples, every pair of up to one segment, paths of up to two segments against
    their normal form and against others, longer ones against what is often equivalent to them and against others."""
    pairs = [(unspelt(a), unspelt(b)) for a, b in EQUALITY_EXAMPLES + [COALESCE_EXAMPLE, DEDUP_EXAMPLE]]
    pairs += itertools.product([unspelt(t) for t in EMPTY_SEQUENCES], repeat=2)
    pairs += itertools.product(short_paths(1), repeat=2)
    two = short_paths(2)
    for p, a in zip(two, ask([f"dedup_coalesce {spelt(p)}" for p in two])):
        pairs += [(p, unspelt(a)), (p, rng.choice(two)), (p, reworded(rng, p))]
    for p in longer:
        pairs += [(p, reworded(rng, p)), (p, rng.choice(longer))]
    return pairs


def held(answers, questions):
    """Answers that are written out are the oracle's too."""
    assert answers == ask(questions), list(zip(questions, answers, ask(questions)))


def normal_answer(r, q, numbers=True):
    return counts(q) + left(normalised(r, q, numbers))


def equivalence_answer(yes, r, x, t, y):
    return f"{yes} {counts(x)} {counts(y)}" + left(normalised(r, x)) + left(normalised(t, y))


def literal_normal():
    """The cases written out, with two places behind each list."""
    for call, about, pairs in LITERAL_NORMAL:
        held([after for _, after in pairs], [f"{call} {before}" for before, _ in pairs])
        for before, after in pairs:
            r = record(unspelt(before))
            yield f"{call}_{about} {said(r)}", normal_answer(r, unspelt(after), call != "coalesce")
    for about, pairs in LITERAL_EQUIVALENT:
        for a, b, yes, x, y in pairs:
            held([yes, x, y], [f"equivalent {a} {b}", f"dedup_coalesce {a}", f"dedup_coalesce {b}"])
            r, t = record(unspelt(a)), record(unspelt(b))
            yield f"equivalent_{about} {said(r)} {said(t)}", equivalence_answer(yes, r, unspelt(x), t, unspelt(y))


def large_sets(rng):
    """Sets of many numbers: in rising and falling order, all equal, few different, any, at the top of u32."""
    for n in (10, 15, 16, 17, 31, 32, 33, 64, 100, 200):
        rising = [7 * i for i in range(n)]
        for v in (rising, rising[::-1], [5] * n, [rng.randrange(3) for _ in range(n)], [rng.randrange(2**32) for _ in range(n)], [2**32 - 1 - i % 9 for i in range(n)]):
            yield [(1, v)]


def aspath_normal_cases(rng):
    """Up to two segments, empty sequences, longer random paths, sets of up to 200 numbers, spoilt records. The answers are the
    oracle's; refusals and the places afterwards are 01's: 7 stands in the places behind a record, freed places are 0. In the
    groups with a longer name (_documented, _empty_sequences, _normalises) the paths and the answers are written out by hand, and are
    the oracle's too; that both lent paths are normalised is 01's, the Rust works on copies."""
    longer = [longer_path(rng) for _ in range(600)]
    paths = without_repeats([unspelt(t) for t in [COALESCE_EXAMPLE[0], DEDUP_EXAMPLE[0]] + EMPTY_SEQUENCES] + short_paths(2) + longer)
    spoilt = [record(SPOILT_FORM, **change) for change in SPOILT]
    for name in ("coalesce", "dedup_coalesce"):
        for i, (p, a) in enumerate(zip(paths, ask([f"{name} {spelt(p)}" for p in paths]))):
            r, q = record(p, room=i % 3), unspelt(a)
            yield f"{name} {said(r)}", normal_answer(r, q, name != "coalesce")
        for r in spoilt:
            yield f"{name} {said(r)}", "refused 10" + left(r)
    pairs = without_repeats(normal_pairs(rng, longer[:350]))
    asked = ask([f"{q} {t}" for a, b in pairs for q, t in (("equivalent", f"{spelt(a)} {spelt(b)}"), ("dedup_coalesce", spelt(a)), ("dedup_coalesce", spelt(b)))])
    for i, (a, b) in enumerate(pairs):
        yes, x, y = asked[3 * i], unspelt(asked[3 * i + 1]), unspelt(asked[3 * i + 2])
        r, t = record(a, room=i % 2), record(b, room=i % 3)
        yield f"equivalent {said(r)} {said(t)}", equivalence_answer(yes, r, x, t, y)
    for r, t in [(r, record([(0, [1, 1])])) for r in spoilt] + [(record([(0, [1, 1])]), r) for r in spoilt] + [(r, r) for r in spoilt]:
        yield f"equivalent {said(r)} {said(t)}", "refused 10" + left(r) + left(t)
    yield from literal_normal()
    sets = list(large_sets(rng))
    for p, a in zip(sets, ask([f"dedup_coalesce {spelt(p)}" for p in sets])):
        r = record(p)
        yield f"dedup_coalesce_large_sets {said(r)}", normal_answer(r, unspelt(a))


def joined(digits):
    return "".join(map(str, digits))


def aspath_normal_three(rng):
    """Every path of up to three segments with up to two numbers from {1, 2} in every kind, one digit for each kind, length and
    number and one marked place behind each list: coalesce, then dedup_coalesce. The answers are the oracle's, the places 01's."""
    paths = short_paths(3)
    asked = ask([f"{name} {spelt(p)}" for p in paths for name in ("coalesce", "dedup_coalesce")])
    for i, p in enumerate(paths):
        r = record(p, room=1)
        c, d = unspelt(asked[2 * i]), unspelt(asked[2 * i + 1])
        answers = [counts(c) + left(normalised(r, c, False), ""), counts(d) + left(normalised(r, d), "")]
        yield f"all {joined(r[0])} {joined(r[1])} {joined(r[2])} {r[3]} {r[4]}", "|".join(answers)


TOP = 2**64 - 1


def lent_places(room, numbers):
    return "".join(f",{a}" for a in numbers + [MARK] * (room - len(numbers)))


def read_numbers(a, room, missing):
    """The answer to a call that writes numbers to `room` places: 7 where they do not suffice."""
    if a == "none":
        return missing + lent_places(room, [])
    v = [] if a == "-" else [int(x) for x in a.split(",")]
    return "refused 7" + lent_places(room, []) if room < len(v) else f"{len(v)}" + lent_places(room, v)


def read_text(a, room):
    t = a[1:-1].encode()
    return f"refused 9 {hexed(bytes(room))}" if room < len(t) else f"{len(t)} {hexed(t + bytes(room - len(t)))}"


def path_calls(p, many):
    """Each call on a path: our question, the oracle's, and how its answer reads."""
    t, r = spelt(p), said(record(p, room=0))
    size, routes = sum(len(v) for k, v in p), 1
    for k, v in p:
        routes *= len(v) if k == 1 else 1
    yield f"route_len {r}", f"route_len {t}", lambda a: a
    yield f"variations {r}", f"variations {t}", lambda a: "refused 11" if "wrapped" in a else a
    for x in sorted({1, 3} | {v[-1] for k, v in p[-1:] if v}):
        yield f"contains {r} {x}", f"contains {t} {x}", lambda a: a
    yield f"origin {r}", f"origin {t}", lambda a: a
    yield f"collector {r}", f"collector {t}", lambda a: a
    for dedup in (0, 1):
        for room in sorted({size, max(0, size - 1), size + 2} if many else {2, size}):
            yield f"u32vec {r} {dedup} {room}", f"u32vec {t} {dedup}", lambda a, room=room: read_numbers(a, room, "none")
    for k in sorted(k for k in {0, 1, routes - 1, routes} if 0 <= k <= TOP):
        for room in sorted({size + 1, max(0, size - 1)} if many else {size}):
            if routes > TOP:
                yield f"route {r} {k} {room}", f"route_len {t}", lambda a, room=room: "refused 11" + lent_places(room, [])
            else:
                yield f"route {r} {k} {room}", f"route {t} {k}", lambda a, room=room: read_numbers(a, room, "refused 12")
    for room in (0, 8, 40):
        yield f"display {r} 0 {room}", f"display {t}", lambda a, room=room: read_text(a, room)


SETS = ";".join(["1:" + ",".join(map(str, range(1, 17)))] * 16)  # sixteen sets of sixteen: 2^64 routes
FEWER = SETS[: SETS.rindex(",")]  # the last of fifteen: 15 * 2^60 routes

# Cases written out, a group for each call and what it shows: a path, the arguments behind it, the answer; how many places are lent.
LITERAL_PATHS = [
    # a sequence of five and a set of three; confederation segments add nothing
    ("route_len", "documented", [("0:1,2,3,4,5;1:6,7,8", "", "6", 0), ("2:1,2;3:3", "", "0", 0)]),
    # there is not exactly one origin: no segment, a set at the end
    ("origin", "documented", [("-", "", "none", 0), ("0:1;1:2,3", "", "none", 0), ("0:1;1:2", "", "2", 0)]),
    # the last segment is empty
    ("origin", "misread", [("0:1;0:", "", "none", 0)]),
    # over 2^64-1; an empty set makes it 0, whatever the others are
    ("variations", "misread", [(SETS, "", "refused 11", 0), (FEWER, "", "17293822569102704640", 0), (SETS + ";1:", "", "0", 0), ("1:;" + SETS, "", "0", 0)]),
    ("route", "misread", [(SETS, "0", "refused 11", 16), (FEWER, "17293822569102704639", ",".join(["16"] * 15 + ["15"]), 16), (SETS + ";1:", "0", "refused 12", 17)]),
    # repeats go within a segment only; a set of one number counts, another and a confederation give none, as no numbers do
    ("u32vec", "misread", [("0:1,1;0:1", "1", "1,1", 3), ("0:1,1;0:1", "0", "1,1,1", 3), ("1:5", "1", "5", 1), ("1:5,5", "1", "none", 2), ("2:", "0", "none", 2),
                           ("-", "0", "none", 0), ("0:", "1", "none", 1), ("0:;0:", "0", "none", 1)]),
    # a space between two segments, though both are empty
    ("display", "misread", [("0:;0:", "", " ", 3), ("0:1;0:", "", "1 ", 3), ("1:", "", "{}", 3)]),
]

# the paths of the cases written out, and of the documentation of aspath.rs: here every call is asked of them
KNOWN_PATHS = [
    *([(1, list(range(1, 17)))] * 16, [(1, list(range(1, 17)))] * 15 + [(1, list(range(1, 16)))], [(1, [1, 2])] * 63 + [(1, [])]),
    [(0, [1, 2, 3, 4, 5]), (1, [6, 7, 8])],
    *map(unspelt, ("0:1,1;0:1", "1:5,5", "2:", "0:1;0:", "0:;0:", COALESCE_EXAMPLE[0], DEDUP_EXAMPLE[0], DEDUP_EXAMPLE[1])),
]


def random_path(rng):
    top = rng.choice((3, 300, 2**32))
    return [(rng.choice((0, 0, 1, 2, 3)), [rng.randrange(top) for _ in range(rng.choice((0, 1, 1, 2, 3, 5, 9)))]) for _ in range(rng.randrange(1, 7))]


def literal_paths():
    """The cases written out."""
    for call, about, cases in LITERAL_PATHS:
        for path, args, answer, room in cases:
            if not answer.startswith("refused"):
                held([f'"{answer}"' if call == "display" else answer], [f"{call} {path} {args}".rstrip()])
            if call == "display":
                read = read_text(f'"{answer}"', room)
            elif call in ("u32vec", "route"):
                read = answer + lent_places(room, []) if answer.startswith("refused") else read_numbers(answer, room, "none")
            else:
                read = answer
            yield f"{call}_{about} {said(record(unspelt(path), room=0))} {args or 0} {room}", read


def aspath_cases(rng):
    """Up to one segment and some of two, the documentation's paths, random paths, spoilt records. The answers are the oracle's;
    refusals and the places afterwards are 01's: places hold 7 and bytes 0 before a call. In the groups with a longer name
    (_documented, _misread) the paths and the answers are written out by hand; they are the oracle's too, but for 11, where the
    Rust's product wraps."""
    calls = [c for p in short_paths(1) + rng.sample(short_paths(2), 250) for c in path_calls(p, False)]
    calls += [c for p in KNOWN_PATHS + [random_path(rng) for _ in range(350)] for c in path_calls(p, True)]
    groups = {}
    for (question, _, read), a in zip(calls, ask([c[1] for c in calls])):
        groups.setdefault(question.split(" ")[0], {})[question] = read(a)
    for group, cases in groups.items():
        yield from cases.items()
        behind = {"u32vec": lent_places(3, []), "route": lent_places(3, []), "display": " 000000"}.get(group, "")
        for change in SPOILT:
            yield f"{group} {said(record(SPOILT_FORM, room=0, **change))} 1 3", "refused 10" + behind
    yield from literal_paths()


def aspath_three(rng):
    """Every path of up to three segments with up to two numbers from {1, 2} in every kind, one digit for each kind, length and
    number and one place behind each list; then the bytes lent to Display (as many as it needs) and the AS places. The answers
    to route_len, num_route_variations, contains_asn of 1 and of 2, get_origin_opt, get_collector_opt, to_u32_vec_opt without
    and with dedup, Display, and each route with the one behind the last (-: refused, 12) are the oracle's; what all AS places
    hold then, 7 at first, is 01's."""
    paths = short_paths(3)
    asked, spans = [], []
    for p in paths:
        t, routes = spelt(p), 1
        for k, v in p:
            routes *= len(v) if k == 1 else 1
        start = len(asked)
        asked += [f"route_len {t}", f"variations {t}", f"contains {t} 1", f"contains {t} 2", f"origin {t}", f"collector {t}"]
        asked += [f"display {t}", f"u32vec {t} 0", f"u32vec {t} 1"] + [f"route {t} {k}" for k in range(routes + 1)]
        spans.append((start, len(asked)))
    answers = ask(asked)
    for p, (start, end) in zip(paths, spans):
        got, r = answers[start:end], record(p, room=1)
        text, lent = got[6][1:-1], [MARK] * (r[4] + 1)
        row = got[:6]
        for i, a in enumerate(got[7:]):
            v = [] if a in ("-", "none") else [int(x) for x in a.split(",")]
            lent = v + lent[len(v) :]
            row.append(f"{len(v)} {joined(v)}" if a != "none" else "none" if i < 2 else "-")
        row.append(joined(lent))
        row[8:8] = [text]
        yield f"all {joined(r[0])} {joined(r[1])} {joined(r[2])} {r[3]} {r[4]} {len(text)} {len(lent)}", "|".join(row)


# ---- psv

WIDE = (60, 110, 125, 140, 150)  # columns that every prefix and address fits into


def element(rng):
    """An element as a listing gives it, any of its fields missing or at an end of its range."""

    def address():
        v4 = ipaddress.IPv4Address(rng.choice((0, 1, 2**32 - 1, 0xC0000201, rng.randrange(2**32))))
        groups = [rng.choice((0, 0, 0, 1, 0xFFFF, rng.randrange(2**16))) for _ in range(8)]
        v6 = ipaddress.IPv6Address(int.from_bytes(b"".join(g.to_bytes(2, "big") for g in groups), "big"))
        mapped = ipaddress.IPv6Address(0xFFFF_0000_0000 + int(v4))
        return rng.choice((v4, v4, v6, v6, mapped))

    def number():
        return rng.choice((None, None, 0, 1, 9, 10, 150, 2**32 - 1, rng.randrange(2**32)))

    def asn():
        return rng.choice((0, 1, 64496, 65535, 65536, 2**32 - 1, rng.randrange(2**32)))

    prefix = address()
    numbers = [asn() for _ in range(rng.choice((0, 1, 1, 2, 3, 4, 8, 20)))]
    return {
        "type": "A",
        "time": rng.choice((0, 0, 1, -1, FIRST_SECOND, LAST_SECOND, 1709251200, rng.randrange(FIRST_SECOND, LAST_SECOND))),
        "peer": address(),
        "asn": asn(),
        "prefix": prefix,
        "len": rng.choice((0, 8, 24, prefix.max_prefixlen, rng.randrange(prefix.max_prefixlen + 1))),
        "hop": address(),
        "numbers": numbers,
        "count": len(numbers),
        "origin_asn": numbers[-1] if numbers else None,
        "origin": rng.choice("ie?-"),
        "pref": number(),
        "med": number(),
    }


def missing(n):
    return "-" if n is None else str(n)


def asked_of(group, call, e, room):
    """The question that has a call print an element into so many bytes."""
    fields = [
        e["type"], e["bits"] if "bits" in e else bits_of(float(e["time"])), hexed(e["peer"].packed), e["asn"], hexed(e["prefix"].packed), e["len"],
        hexed(e["hop"].packed), hexed(b"".join(n.to_bytes(4, "big") for n in e["numbers"])), e["count"], missing(e["origin_asn"]), e["origin"],
        missing(e["pref"]), missing(e["med"]), room,
    ]
    return " ".join(str(f) for f in [group, call] + fields)


def listing_of(e):
    """A listing of one line, which yields the element."""

    def line(*texts):
        out = ""
        for at, text in zip((3,) + WIDE, texts):
            out = out.ljust(at) + text
        return out.rstrip() + "\n"

    path = " ".join([str(n) for n in e["numbers"]] + ([] if e["origin"] == "-" else [e["origin"]]))
    number = lambda n: "" if n is None else str(n)
    return (
        f"BGP table version is 1, local router ID is {e['peer']}, vrf id 0\nDefault local pref 100, local AS {e['asn']}\n"
        + line("Network", "Next Hop", "Metric", "LocPrf", "Weight", "Path")
        + line(f"{e['prefix']}/{e['len']}", str(e["hop"]), number(e["med"]), number(e["pref"]), "0", path)
    ).encode()


def printed(elements):
    """The oracle's PSV line and Display of each element."""
    for e, a in zip(elements, ask([f"elems {e['time']} {hexed(listing_of(e))}" for e in elements])):
        count, line = a.split("\t")
        assert count == "1 utf8=yes", (e, a)
        psv, display, numbers, origins = line.split("#")
        assert numbers == (",".join(str(n) for n in e["numbers"]) or "-"), (e, a)
        yield psv, display


def wrote(text, room):
    return f"wrote {len(text)} {text.ljust(room, '.')}"


def refused(number, room):
    return f"refused {number} {'.' * room}"


def psv_cases(rng):
    """psv and display are the oracle's lines for the element of a listing. listing is 01's example. header is the oracle's psv_header.
    withdraw is the oracle's line with W for A. origin_asn is the oracle's line with another origin AS than the last number, which no listing gives.
    short and spoilt are 01's refusals. The bytes that are lent are points before, and stand in the answer as they are then."""
    e = {"type": "A", "time": 1709251200, "peer": ipaddress.ip_address("192.0.2.254"), "asn": 64500, "prefix": ipaddress.ip_address("198.51.100.0"), "len": 24,
         "hop": ipaddress.ip_address("192.0.2.1"), "numbers": [64501, 64502], "count": 2, "origin_asn": 64502, "origin": "i", "pref": None, "med": 0}
    line = "A|1709251200|192.0.2.254|64500|198.51.100.0/24|64501 64502|64502|IGP|192.0.2.1||0||false|||"
    yield asked_of("listing", "psv", e, 100), wrote(line, 100)
    f = dict(e, hop=ipaddress.ip_address("192.0.2.2"), numbers=[64503, 64502], pref=150, med=None)
    line = "A|1709251200|192.0.2.254|64500|198.51.100.0/24|64503 64502|64502|IGP|192.0.2.2|150|||false|||"
    yield asked_of("listing", "psv", f, 100), wrote(line, 100)
    [header] = ask(["psv_header"])
    for room in (0, 1, len(header) - 1, len(header), len(header) + 1, 200):
        yield f"header header {room}", wrote(header, room) if len(header) <= room else refused(9, room)
    elements = [element(rng) for _ in range(2400)]
    for n in (50, 200, 1000):
        numbers = [rng.randrange(2**32) for _ in range(n)]
        elements.append(dict(e, numbers=numbers, count=n, origin_asn=numbers[-1]))
    lines = list(printed(elements))
    for e, (psv, _) in zip(elements, lines):
        room = len(psv) + rng.choice((0, 0, 1, 7))
        yield asked_of("psv", "psv", e, room), wrote(psv, room)
    some = list(zip(elements, lines))[-500:]
    for e, (_, display) in some:
        room = len(display) + rng.choice((0, 0, 1, 7))
        yield asked_of("display", "display", e, room), wrote(display, room)
    for e, both in some[:100]:
        for call, text in zip(("psv", "display"), both):
            yield asked_of("withdraw", call, dict(e, type="W"), len(text) + 3), wrote("W" + text[1:], len(text) + 3)
    for e, (psv, display) in some[100:200]:
        other = rng.choice((None, 0, 2**32 - 1, 64496))
        text = psv.split("|")
        text[6] = "" if other is None else str(other)
        text = "|".join(text)
        yield asked_of("origin_asn", "psv", dict(e, origin_asn=other), len(text)), wrote(text, len(text))
        yield asked_of("origin_asn", "display", dict(e, origin_asn=other), len(display)), wrote(display, len(display))
    for e, both in some[200:350]:
        for call, text in zip(("psv", "display"), both):
            for room in sorted({0, rng.randrange(len(text)), len(text) - 1}):
                yield asked_of("short", call, e, room), refused(9, room)
    for e, both in some[350:450]:
        spoilt = [
            dict(e, len=rng.choice((e["prefix"].max_prefixlen + 1, 255))),
            dict(e, bits=rng.choice((1 << 63, bits_of(0.5), bits_of(FIRST_SECOND - 1.0), bits_of(LAST_SECOND + 1.0), bits_of(float("inf")), bits_of(1e300)))),
            dict(e, count=e["count"] + rng.choice((1, 2, 2**62))),
        ]
        for call, text in zip(("psv", "display"), both):
            for s in spoilt:
                for room in (0, len(text) + 20):
                    yield asked_of("spoilt", call, s, room), refused(8, room)


# ---- psv_stream

LIMIT = 65536  # 01: bytes of a line, of the lines scanned for the column header, and of an output line
PREAMBLE_LINES = [b"BGP table version is 7, local router ID is 192.0.2.254, vrf id 0\n", b"Default local pref 100, local AS 64500\n"]
COLUMN_LINE_FED = b"   Network          Next Hop            Metric LocPrf Weight Path\n"
HEADER_LINES = PREAMBLE_LINES + [COLUMN_LINE_FED]
PATH_LINE = b"oix-full-snapshot-2024-03-01-0000.txt\n"
ROUTE = b"*> 198.51.100.0/24  192.0.2.1                0             0 64501 64502 i\n"
BLANK_ROUTE = b"*                   192.0.2.2                     150      0 64503 64502 i\n"


def is_utf8(b):
    try:
        b.decode()
        return True
    except UnicodeDecodeError:
        return False


def fed(text):
    """Its lines, each through its line feed."""
    return [line for line in (part + b"\n" for part in text.split(b"\n")[:-1])] + [last for last in [text.split(b"\n")[-1]] if last]


def stream_refusal(number, line):
    return b"refused=%d\nline=%d\n" % (number, line)


def opened_after(lines):
    """How many lines the table's header has, or the refusal that the scan meets; the oracle looks for the columns."""
    text = b""
    for i, line in enumerate(lines[:64], 1):
        text += line
        if len(text) > LIMIT:
            return None, stream_refusal(13, i)
        if not is_utf8(line):
            return None, stream_refusal(1, i)
        if " columns=-" not in ask([f"header {hexed(text)}"])[0]:
            return i, b""
    return None, stream_refusal(2, 0)


def stream_output(text):
    """What table2psv prints: 01's refusals by Python, and the oracle's date, columns and elements, line by line."""
    path, *lines = fed(text) or [b""]
    if len(path) > LIMIT:
        return stream_refusal(13, 0)
    if not is_utf8(path):
        return stream_refusal(3, 0)
    [seconds] = ask([f"timestamp {hexed(path)}"])
    seconds = "0" if seconds == "none" else seconds
    n, refusal = opened_after(lines)
    if n is None:
        return refusal
    out = ask(["psv_header"])[0].encode() + b"\n"
    good = n
    while good < len(lines) and len(lines[good]) <= LIMIT and is_utf8(lines[good]):
        good += 1
    questions = [f"elems_on {seconds} {hexed(b''.join(lines[:i]))}" for i in range(n, good + 1)]
    before = 0
    for i, answer in enumerate(ask(questions), n):
        elements = answer.split("\t")[1:]
        if len(elements) > before:
            psv, _, numbers, _ = elements[-1].split("#")
            if numbers.count(",") + 1 > 16384:
                return out + stream_refusal(7, i)
            if len(psv) > LIMIT:
                return out + stream_refusal(9, i)
            out += psv.encode() + b"\n"
        before = len(elements)
    if good < len(lines):
        out += stream_refusal(13 if len(lines[good]) > LIMIT else 6, good + 1)
    return out


def repeated(b):
    """Bytes in hexadecimal, in pieces of at most 4,000 with commas between them; a piece that is repeated has `*` and a count behind it."""
    pieces, plain, i = [], bytearray(), 0
    while i < len(b):
        for size in range(1, 9):
            unit, n = b[i : i + size], 1
            while b[i + n * size : i + (n + 1) * size] == unit:
                n += 1
            if n * size > 100:
                break
        if n * size > 100 or len(plain) == 4000:
            if plain:
                pieces.append(plain.hex())
            plain = bytearray()
        if n * size > 100:
            pieces.append(f"{unit.hex()}*{n}")
            i += n * size
        else:
            plain.append(b[i])
            i += 1
    if plain:
        pieces.append(plain.hex())
    return ",".join(pieces) or "-"


def padded(line, size):
    """A line with spaces before its line feed, so many bytes long."""
    return line[:-1] + b" " * (size - len(line)) + b"\n"


def with_path(route, path):
    """A route with another path."""
    return route[:61] + path + b"\n"


def limits():
    """Inputs at each limit and one byte behind it, and refusals in every place."""
    header, body = b"".join(HEADER_LINES), ROUTE + BLANK_ROUTE
    whole = PATH_LINE + header + body
    yield "listing", whole
    for text in (b"", b"\n", PATH_LINE[:-1], PATH_LINE, b"\n\n", b"x\n" + header + body, header + body, PATH_LINE + header, PATH_LINE + header[:-1], whole[:-1], whole + b"\n \n"):
        yield "ends", text
    for size in (LIMIT, LIMIT + 1):
        for path in (b"x" * (size - 1) + b"\n", b"x" * size, b"\xff" * (size - 1) + b"\n", b"x" * (size - 38) + PATH_LINE):
            yield "path", path + header + body if path.endswith(b"\n") else path
    for text in (b"\xff\n", b"\xc3", b"2024.03.01\n", b"2023.02.29/2024.03.01\n", b"a\xe2\x82\xac 1970-01-01-0001\r\n"):
        yield "path", text + header + body
    for size in (LIMIT, LIMIT + 1, LIMIT + 100):
        for at in range(3):
            lines = list(HEADER_LINES)
            lines[at] = padded(lines[at], size - len(header) + len(lines[at]))
            yield "header", PATH_LINE + b"".join(lines) + body
            yield "header", PATH_LINE + b"".join(lines)[:-1]
        lines = [b"x" * (size // 4 - 1) + b"\n"] * 3
        yield "header", PATH_LINE + b"".join(lines) + b" " * (size - 3 * (size // 4) - len(COLUMN_LINE_FED)) + COLUMN_LINE_FED + body
        yield "header", PATH_LINE + b"x\n" + b"\xff" * (size - 3) + b"\n" + header
        yield "header", PATH_LINE + b"\xff\n" + b"x" * size + b"\n" + header
        yield "header", PATH_LINE + b"x" * size
    for n in (0, 1, 62, 63, 64, 65):
        yield "scan", PATH_LINE + b"x\n" * n + COLUMN_LINE_FED + body
        yield "scan", PATH_LINE + b"x\n" * n
        yield "scan", PATH_LINE + b"x\n" * n + b"\xff\n" + COLUMN_LINE_FED + body
        yield "scan", PATH_LINE + b"x\n" * n + b"x" * (LIMIT + 1) + b"\n" + COLUMN_LINE_FED
    for size in (LIMIT - 1, LIMIT, LIMIT + 1, 2 * LIMIT, 3 * LIMIT):
        for line in (ROUTE, BLANK_ROUTE, b"*> 10.0.0.0/8\n", b"Displayed\n", b"\xff\n"):
            yield "body", PATH_LINE + header + ROUTE + padded(line, size) + BLANK_ROUTE
            yield "body", PATH_LINE + header + padded(line, size)[:-1]
    for n in (16383, 16384, 16385, 20000):
        yield "numbers", PATH_LINE + header + ROUTE + with_path(ROUTE, b"7 " * n + b"i") + BLANK_ROUTE
        yield "numbers", PATH_LINE + header + b"*> 10.0.0.0/x\n" + with_path(BLANK_ROUTE, b"7 " * n) + ROUTE
    yield "numbers", PATH_LINE + header + ROUTE + with_path(BLANK_ROUTE, b"+7 x " * 13000)
    around = len("A|1709251200|192.0.2.254|64500|198.51.100.0/24||1234|IGP|192.0.2.1||0||false|||")
    for size in (LIMIT - 1, LIMIT, LIMIT + 1):
        numbers, more = divmod(size - around - 4, 5)
        path = b"12345 " * more + b"1234 " * (numbers - more) + b"1234 i"
        yield "output", PATH_LINE + header + ROUTE + with_path(ROUTE, path) + BLANK_ROUTE
    lines = fed(whole)
    for at in range(len(lines)):
        for bad in (b"\xff", b"\xc3", b"\xed\xa0\x80"):
            spoilt = lines[:at] + [lines[at][:-1] + bad + b"\n"] + lines[at + 1 :]
            yield "unreadable", b"".join(spoilt)
            yield "unreadable", b"".join(spoilt)[:-1]


def some_listing(rng):
    """A small table: its preamble or not, lines of every kind, some of them damaged."""

    def route():
        prefix = rng.choice((b"", b"", b"", b"198.51.100.0/24", b"10.1.2.3/8", b"192.0.2.0/33", b"2001:db8::/32", b"::/0", b"x"))
        hop = rng.choice((b"192.0.2.1", b"192.0.2.1", b"2001:db8::1", b"::ffff:1.2.3.4", b"x", b"192.0.02.1"))
        path = b" ".join(b"%d" % rng.choice((0, 7, 64496, 65536, 2**32 - 1, 2**32)) for _ in range(rng.randrange(5)))
        line = (rng.choice((b"*> ", b"*  ", b"*>i", b"   ")) + prefix).ljust(20) + hop
        line = line.ljust(40) + rng.choice((b"", b"0", b"1e3", b"4294967295", b"-1")).rjust(6) + b" " + rng.choice((b"", b"150", b"x")).rjust(6) + b"      0 " + path
        return line[rng.random() < 0.1 :] + rng.choice((b" i", b" e", b" ?", b"", b" i", b" i ", b" {1,2} i"))

    def line():
        kind = rng.random()
        if kind < 0.7:
            text = route()
        elif kind < 0.85:
            text = rng.choice((b"*> 10.0.0.0/8", b"   2001:db8:1::/48", b"*> 10.0.0.0/99", b"*> 123.123.123.123/32", b"*> 2001:db8:1234:5678::/64"))
        else:
            text = rng.choice((b"", b"  ", b"Displayed  5 routes and 7 total paths", b"Total number of prefixes 5", "\u00a0x".encode()))
        if rng.random() < 0.08:
            k = rng.randrange(len(text) + 1)
            text = text[:k] + rng.choice((b"\xff", b"\xc3", "\u20ac".encode(), b"\t", b" ")) + text[k:]
        return text + rng.choice((b"\n", b"\n", b"\n", b"\r\n"))

    path = rng.choice((PATH_LINE, b"rib.2024.03.01.gz\n", b"\n", b"0000-01-01-0000\n", b"9999-12-31-2359\n"))
    header = [l for l in HEADER_LINES if rng.random() < 0.95]
    if rng.random() < 0.3:
        header.insert(rng.randrange(len(header) + 1), rng.choice((b"Status codes: s suppressed\n", b"\n", b"Default local pref 1, local AS x\n", b"\xff\n")))
    text = path + b"".join(header) + b"".join(line() for _ in range(rng.randrange(12)))
    return text if rng.random() < 0.8 else text[:-1]


def psv_stream_cases(rng):
    """A question is the least size of the pieces in which the input comes, the input, and what is to be printed; `same` is right: it is printed however
    the input comes. Date, columns and elements are the oracle's, line by line; refusals are 01's. listing is 01's example."""
    for group, text in limits():
        yield f"{group} {1 if len(text) < 3000 else 1000} {repeated(text)} {repeated(stream_output(text))}", "same"
    for _ in range(600):
        text = some_listing(rng)
        yield f"tables 1 {repeated(text)} {repeated(stream_output(text))}", "same"


# ---- reader

STAMPS = [1709251200] * 4 + [0, -1, 1, FIRST_SECOND, LAST_SECOND, 10**9]


def spelled(text):
    """A listing as it stands in a case: `_` for a space, `|` for a line feed, `%` with two digits for what is no mark, letter or digit."""
    plain = {0x20: "_", 0x0A: "|"}
    return "".join(plain.get(b) or (chr(b) if 0x20 < b < 0x7F and chr(b) not in "_|%" else f"%{b:02x}") for b in text)


def read_answer(a):
    """What reading answers, by the oracle's answer to elems_on: each element's PSV line, then End or the number of the refusal."""
    if a.startswith("error utf8 line="):
        return "1 " + a[len("error utf8 line=") :]
    if a == "error columns":
        return "2"
    said, *elements = a.split("\t")
    count, readable = said.split(" ")[:2]
    assert int(count) == len(elements), a
    return "".join(e.split("#")[0] + "\t" for e in elements) + ("end" if readable == "utf8=yes" else "6")


def read_cases(group, cases):
    asked = ask([f"elems_on {seconds} {hexed(text)}" for seconds, text in cases])
    for (seconds, text), a in zip(cases, asked):
        yield f"{group} {bits_of(float(seconds))} {spelled(text)}", read_answer(a)


# 01, Where a call says no: 4. A NaN of either sign, the infinities, negative zero, fractions, and what is outside the range
NO_STAMPS = [0x7FF8 << 48, 0xFFF8 << 48, 0x7FF0 << 48, 0xFFF0 << 48, 1 << 63, 1, (1 << 63) + 1]
NO_STAMPS += [bits_of(x) for x in (0.5, -0.5, 1709251200.25, FIRST_SECOND - 1.0, FIRST_SECOND - 0.5, LAST_SECOND + 1.0, LAST_SECOND + 0.5, 2.0**53, -(2.0**63), 1e300)]


def reader_cases(rng):
    """A timestamp by its 64 bits, and a listing, in which `_` is a space, `|` a line feed, and `%` with two digits a byte. The answer: each
    element's PSV line with a tab behind it, and then `end`, or the number of the refusal, for 1 with the number of the line at fault. The
    answers are the oracle's (elems_on), but for no_timestamp, which is 01's; listing is held to 01's two lines as well."""
    whole = PREAMBLE + COLUMN_LINE + b"\n" + LISTING
    cases = list(read_cases("listing", [(1709251200, whole)]))
    line = "A|1709251200|192.0.2.254|64500|198.51.100.0/24|%s|64502|IGP|%s||false|||\t"
    assert cases[0][1] == line % ("64501 64502", "192.0.2.1||0") + line % ("64503 64502", "192.0.2.2|150|") + "end"
    yield from cases
    listings = [(rng.choice(STAMPS), some_listing(rng)) for _ in range(2100)]
    yield from read_cases("elements", list(dict.fromkeys(listings)))
    late = [b"x\n" * n + COLUMN_LINE + b"\n" + LISTING for n in (0, 1, 62, 63, 64, 65)]
    yield from read_cases("line_64", [(0, t) for t in late])
    feeds = [i + 1 for i, b in enumerate(whole) if b == 10]
    bad = [whole[:at] + u + whole[at:] for at in [0, *feeds] for u in (b"\xff", b"\xff\n", b"\xed\xa0\x80", b"\xc3")]
    bad += [b"x\n" * n + b"\xff\n" + COLUMN_LINE + b"\n" for n in (0, 61, 62, 63, 64)]
    yield from read_cases("unreadable", [(0, t) for t in bad])
    none = [b"", b"\n", PREAMBLE, LISTING, PREAMBLE + LISTING, PREAMBLE + COLUMN_LINE[:-1], whole[: len(PREAMBLE + COLUMN_LINE)], PREAMBLE + COLUMN_LINE.lower()]
    yield from read_cases("no_columns", [(0, t) for t in none])
    for bits in NO_STAMPS:
        assert second_of(bits) == "none"
        for text in (whole, b"", b"\xff\n" + whole, PREAMBLE):
            yield f"no_timestamp {bits} {spelled(text)}", "4"


LISTS = {
    "text": {"cases": text_cases},
    "decimal": {"cases": decimal_cases},
    "timestamp": {"cases": timestamp_cases},
    "network": {"cases": network_cases},
    "aspath": {"cases": aspath_cases, "three": aspath_three},
    "aspath_normal": {"cases": aspath_normal_cases, "three": aspath_normal_three},
    "psv": {"cases": psv_cases},
    "psv_stream": {"cases": psv_stream_cases},
    "reader": {"cases": reader_cases},
}


def write_file(name, file, make):
    """Writes one list; gives how many cases each group has."""
    cases = list(make(random.Random(SEED)))
    asked = [q for q, a in cases if a is None]
    answers = iter(ask(asked) if asked else [])
    cases = [(q, next(answers) if a is None else a) for q, a in cases]
    folder = f"crates/{name}_vectors/data"
    os.makedirs(folder, exist_ok=True)
    groups = {}
    with open(f"{folder}/{file}.txt", "w") as out:
        out.write(f"# Cases of {name}, made by tools/make-vectors.py (seed {SEED}).\n")
        for line in (make.__doc__ or "The answers are the oracle's.").split("\n"):
            out.write(f"# {line.strip()}\n")
        last = None
        for q, a in cases:
            group = q.split(" ")[0]
            assert group == last or group not in groups, f"the cases of {group} do not stand together"
            assert "\t" not in q and "\n" not in a and a.split(" ")[0] != "bad", (q, a)
            groups[group], last = groups.get(group, 0) + 1, group
            out.write(f"{q}\t{a}\n")
        assert out.tell() < 2 << 20, "the list is longer than the program's buffer of 2 MiB"
    return groups


def write(name):
    with open(f"crates/{name}_vectors/stdout", "w") as out:
        for file, make in LISTS[name].items():
            groups = write_file(name, file, make)
            for group, n in groups.items():
                out.write(f"{group}: {n} cases, 0 mismatches\n")
            print(f"{name} {file}: {sum(groups.values())} cases in {len(groups)} groups")


if __name__ == "__main__":
    if not sys.argv[1:] or set(sys.argv[1:]) - set(LISTS) or "ORACLE" not in os.environ:
        sys.exit(__doc__)
    for word in sys.argv[1:]:
        write(word)
