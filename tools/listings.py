"""The lines of a table, for the scripts that make lists of cases."""

# 01, One listing
PREAMBLE = b"BGP table version is 7, local router ID is 192.0.2.254, vrf id 0\nDefault local pref 100, local AS 64500\n"
COLUMN_LINE = b"   Network          Next Hop            Metric LocPrf Weight Path"

LISTING = (
    b"*> 198.51.100.0/24  192.0.2.1                0             0 64501 64502 i\n"
    b"*                   192.0.2.2                     150      0 64503 64502 i\n"
)

# the columns of 01's listing, and others: Next Hop, Metric, LocPrf, Weight, Path
LAYOUTS = [(20, 40, 47, 54, 61), (20, 29, 36, 43, 50), (19, 36, 44, 51, 60), (30, 45, 52, 60, 70)]
NARROW = (17, 30, 37, 44, 51)  # keeps the lines short


def column_line(columns):
    line = bytearray(b" " * (columns[4] + 4))
    for at, name in zip(columns, (b"Next Hop", b"Metric", b"LocPrf", b"Weight", b"Path")):
        line[at : at + len(name)] = name
    return bytes(line).rstrip() + b"\n"


def route(columns, status="*>", prefix="198.51.100.0/24", hop="192.0.2.1", metric="0", lp="", weight="0", path="64501 64502 i"):
    """A route's line, without its line feed; what is longer than its column moves the rest to the right."""
    next_hop, metric_at, lp_at, weight_at, path_at = columns
    line = (status.ljust(3) + prefix).ljust(next_hop) + hop
    line = line.ljust(metric_at) + metric.rjust(lp_at - metric_at - 1)
    line = line.ljust(lp_at) + lp.rjust(weight_at - lp_at - 1)
    line = line.ljust(weight_at) + weight.rjust(path_at - weight_at - 1)
    return (line.ljust(path_at) + path).encode()


def some_prefix(rng):
    if rng.random() < 0.25:
        return rng.choice(("2001:db8::/32", "::/0", "2001:db8:1::/48", "::ffff:10.0.0.0/104", "2001:db8:1111:2222::/64", "fe80::1/128"))
    return f"{rng.choice((10, 172, 198, 203))}.{rng.randrange(256)}.{rng.randrange(3)}.0/{rng.choice((8, 16, 22, 24, 24, 32))}"


def no_prefix(rng):
    """A text that is no prefix, though some are near one."""
    return rng.choice(("10.0.0.0", "10.0.0.0/33", "10.0.0/8", "03.0.0.0/8", "x", "1.2.3.4/", "2001:db8::/129", "10.0.0.0/8 x", "1:2:3:4:5:6:7::8/0", "/24", "Network"))


def some_hop(rng):
    if rng.random() < 0.25:
        return rng.choice(("2001:db8::1", "::", "::1", "fe80::2", "::ffff:1.2.3.4"))
    return f"{rng.choice((9, 10, 192))}.0.{rng.randrange(3)}.{rng.randrange(256)}"


def some_path(rng):
    words = [str(rng.choice((rng.randrange(1, 10), 64500 + rng.randrange(20), rng.randrange(2**32)))) for _ in range(rng.choice((0, 1, 1, 2, 2, 3, 5)))]
    if rng.random() < 0.15:
        odd = ("{1,2}", "{7}", "+7", "007", "-1", "4294967295", "4294967296", "i", "e", "?", "x", "1.10", "\u00e9", "\u00a07")
        words.insert(rng.randrange(len(words) + 1), rng.choice(odd))
    return " ".join(words + [rng.choice(("i", "i", "i", "e", "?"))] * (rng.random() < 0.9))


def some_number(rng, missing):
    return rng.choice([""] * missing + ["0", "100", "150", "4294967295", "4294967296", "+5", "x"])


def some_route(rng, columns, prefix):
    """A route; most prefixes that reach Next Hop are wrapped, as routers print them."""
    if len(prefix) > columns[0] - 4 and rng.random() < 0.8:
        return b"*> " + prefix.encode() + b"\n" + some_route(rng, columns, "")
    status = rng.choice(("*>", "*", "* ", "*>i", "s>", "r>", "\u00e9", "   "))
    numbers = {"metric": some_number(rng, 3), "lp": some_number(rng, 5), "weight": rng.choice(("0", "", "32768"))}
    return route(columns, status[:3], prefix, some_hop(rng), path=some_path(rng), **numbers)


def damaged_line(rng, line):
    line = bytearray(line)
    for _ in range(rng.choice((1, 1, 2))):
        at, kind = rng.randrange(len(line) + 1), rng.random()
        if kind < 0.4:
            line[at:at] = rng.choice((b" ", b"  ", b"1", b".", b"i", b"/", b"\t", b"\r", b"\xc2\xa0", b"\xe2\x80\x83", b"\xc3\xa9"))
        elif kind < 0.8:
            del line[at : at + rng.choice((1, 1, 2, 9))]
        else:
            line[at : at + 1] = rng.choice((b" ", b"7", b".", b":", b"?", b"x"))
    return bytes(line)


def body_line(rng, columns):
    """A line of any kind: routes under a prefix text, blank ones, wrapped prefixes, and what is near them or none of them."""
    kind, next_hop = rng.random(), columns[0]
    if kind < 0.29:
        return some_route(rng, columns, some_prefix(rng))
    if kind < 0.54:
        return some_route(rng, columns, "")
    if kind < 0.62:  # a wrapped prefix, or one that is longer than Next Hop
        return b"*> " + some_prefix(rng).encode() + rng.choice((b"", b"", b" ", b"\r", b" x"))
    if kind < 0.69:
        return some_route(rng, columns, no_prefix(rng))
    if kind < 0.72:
        return b"*> " + no_prefix(rng).encode()
    if kind < 0.77:  # the columns of a line with a byte less before them
        line = some_route(rng, columns, rng.choice((some_prefix(rng), "")))
        return line[: next_hop - 1] + line[next_hop:] if line[next_hop - 1 : next_hop] == b" " else line
    if kind < 0.83:  # a line that ends early
        line = some_route(rng, columns, rng.choice((some_prefix(rng), "")))
        return line[: rng.choice((rng.randrange(len(line) + 1), *columns))]
    if kind < 0.87:
        return rng.choice((b"Displayed  5 routes and 7 total paths", b" Displayed 1", b"Displayed".ljust(next_hop) + b"192.0.2.9", "Displayed\u00a05".encode()))
    if kind < 0.91:
        return rng.choice((b"", b"   ", b"\r", b"Total number of prefixes 5", b"Status codes: s suppressed", column_line(columns)[:-1], b"\x00", b"x" * next_hop))
    if kind < 0.94:  # a character across Next Hop
        return b"*> 10.0.0.0/8"[: next_hop - 1].ljust(next_hop - 1) + rng.choice(("\u00e9", "\u00a0192.0.2.1", "\u20ac 9", "Displayed \u00e9")).encode()
    return damaged_line(rng, some_route(rng, columns, rng.choice((some_prefix(rng), ""))))


def some_head(rng, columns):
    version = b"BGP table version is %s, local router ID is %s, vrf id 0\n"
    lines = [
        (0.25, version % (rng.choice((b"7", b"x")), rng.choice((b"192.0.2.254", b"2001:db8::fe", b"x")))),
        (0.25, b"Default local pref 100, local AS %s\n" % rng.choice((b"64500", b"4294967295", b"x"))),
        (0.1, b"Status codes: s suppressed, * valid\n"),
    ]
    return b"".join(line for often, line in lines if rng.random() < often) + column_line(columns)


def some_listing(rng):
    columns = rng.choice([NARROW] * 4 + LAYOUTS)
    text = some_head(rng, columns)
    for _ in range(rng.choice((0, 1, 2, 3, 3, 4, 4, 5, 6))):
        line = body_line(rng, columns)
        if rng.random() < 0.015:
            line = line[:5] + rng.choice((b"\xff", b"\xc3", b"\xed\xa0\x80")) + line[5:]
        text += line + rng.choice((b"\n",) * 9 + (b"\r\n",))
    return text[:-1] if rng.random() < 0.1 else text
