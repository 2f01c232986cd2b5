#!/usr/bin/env python3
"""What the program range_examples prints, by document 01's number 1: a state with a field outside what it allows; and the lines it is given.

usage: range_examples.py --make > crates/range_examples/stdin
       range_examples.py < crates/range_examples/stdin > crates/range_examples/stdout

A field that document 01's state does not have (a byte past a text's end, a sensor past the count, the pairs of a client that is not
connected, the report of a pair without one) must be as in the blank state.
"""
import string
import sys

NAME = string.ascii_letters + string.digits + ".-_"
GRAPHIC = "".join(map(chr, range(0x21, 0x7F)))
PRINTABLE = " " + GRAPHIC
TIME, DAY = 9_999_999_999_999, 86_400_000
BIAS = {1: 2**31, 2: 2**30}
START_LEVEL = 3  # warn: document 02, (e), "A fresh device and a restarted one start at warn."
LIMITS = ("limit_count", "nominal_min", "nominal_max", "warn_min", "warn_max")


def array(size, text=""):
    return [ord(c) for c in text] + [0] * (size - len(text))


def sensor(name="", description="", units="", kind=0, limits=(), options=()):
    bias = BIAS.get(kind, 0)
    s = {"name": array(32, name), "name_len": len(name), "description": array(64, description), "description_len": len(description),
         "units": array(8, units), "units_len": len(units), "type": kind, "limit_count": len(limits), "option_count": len(options),
         "option": [array(16, o) for o in list(options) + [""] * (8 - len(options))], "option_len": [len(o) for o in options] + [0] * (8 - len(options))}
    s.update(zip(LIMITS[1:], [x + bias for x in limits] + [0] * 4))
    return s


def zero(kind):
    return BIAS.get(kind, 0)


def blank():
    return {"api": array(32), "api_len": 0, "build": array(32), "build_len": 0, "count": 0, "profile": 0, "clock": 0, "halted": 1, "level": 0, "sensors": [sensor() for _ in range(32)],
            "readings": [{"reading_kind": 0, "reading_number": 0, "reading_time": 0} for _ in range(32)],
            "clients": [{"connected": 0, "address": array(48), "address_len": 0} for _ in range(8)],
            "pairs": [{"strategy": (0, 0, 0, 0), "reported": 0, "report_kind": 0, "report_number": 0, "report_time": 0} for _ in range(256)]}


BLANK = blank()


def opened():
    s = blank()
    s.update(api=array(32, "lgu-1.0"), api_len=7, build=array(32, "b7"), build_len=2, count=5, halted=0, level=START_LEVEL)
    s["sensors"][:5] = [sensor("load", "Car load.", "kg", 1, (0, 1000, -5, 1200)), sensor("speed", "", "m/s", 2, (-2048, 2048)),
                        sensor("door", kind=4, options=("shut", "open", "moving")), sensor("call", kind=3), sensor("start", kind=5)]
    for j in range(5):
        s["readings"][j]["reading_number"] = zero(s["sensors"][j]["type"])
    return s


# Setting a field.

def place(s, field, n):
    """Where a field stands, and how many numbers say so."""
    if field in ("api", "build"):
        return s[field], n[0], 1
    if field in s:
        return s, field, 0
    if field in ("name", "description", "units"):
        return s["sensors"][n[0]][field], n[1], 2
    if field == "option":
        return s["sensors"][n[0]][field][n[1]], n[2], 3
    if field == "option_len":
        return s["sensors"][n[0]][field], n[1], 2
    if field == "address":
        return s["clients"][n[0]][field], n[1], 2
    part = next(p for p in ("sensors", "readings", "clients", "pairs") if field in s[p][0])
    return s[part][n[0]], field, 1


# The range.

def text_ok(bytes_, n, least, most, allowed):
    return least <= n <= most and all(chr(b) in allowed for b in bytes_[:n]) and not any(bytes_[n:])


def texts(s):
    return [tuple(s["option"][k][:s["option_len"][k]]) for k in range(s["option_count"])]


def sensor_ok(s):
    kind, count, options = s["type"], s["limit_count"], s["option_count"]
    if not (text_ok(s["name"], s["name_len"], 1, 32, NAME) and text_ok(s["description"], s["description_len"], 0, 64, PRINTABLE)
            and text_ok(s["units"], s["units_len"], 0, 8, PRINTABLE) and 1 <= kind <= 5):
        return False
    numbers = [s[f] for f in LIMITS[1:]]
    if count not in ((0, 2, 4) if kind in (1, 2) else (0,)) or any(numbers[count:]):
        return False
    most = {1: 2**32 - 1, 2: 2**31}.get(kind, 0)
    if any(x > most for x in numbers):
        return False
    order = [numbers[k] for k in {0: (), 2: (0, 1), 4: (2, 0, 1, 3)}[count]]
    if order != sorted(order):
        return False
    if options not in (range(1, 9) if kind == 4 else (0,)):
        return False
    if not all(text_ok(s["option"][k], s["option_len"][k], 1, 16, NAME) if k < options else text_ok(s["option"][k], s["option_len"][k], 0, 0, "") for k in range(8)):
        return False
    return len(set(texts(s))) == options


def sample_ok(s, kind, number):
    if kind != 1:
        return kind in (0, 2, 3, 4) and number == zero(s["type"])
    return number <= {1: 2**32 - 1, 2: 2**31, 3: 1, 4: s["option_count"] - 1, 5: TIME}[s["type"]]


def strategy_ok(s, which, a, b, c):
    def period(x):
        return 1 <= x <= DAY

    def difference(d):
        if s["type"] == 1:
            return d % 10**6 == 0 and d <= 4_294_967_295 * 10**6
        return s["type"] == 2 and d <= 2_097_152 * 10**6

    def rates(shortest, longest):
        return shortest <= longest and period(longest)

    return {2: lambda: period(a), 4: lambda: difference(a), 5: lambda: rates(a, b), 6: lambda: difference(a) and rates(b, c)}.get(which, lambda: True)()


def pair_ok(s, c, j, p):
    if not p["reported"]:
        return p == BLANK["pairs"][0]
    if not s["clients"][c]["connected"] or j >= s["count"]:
        return False
    n = s["sensors"][j]
    return strategy_ok(n, *p["strategy"]) and sample_ok(n, p["report_kind"], p["report_number"]) and p["report_time"] <= s["clock"]


def in_range(s):
    if s == BLANK:
        return True
    if not (text_ok(s["api"], s["api_len"], 1, 32, GRAPHIC) and text_ok(s["build"], s["build_len"], 1, 32, GRAPHIC)):
        return False
    if s["count"] > 32 or s["clock"] > TIME or s["level"] > 7:
        return False
    # document 02, (m): "0 for the present behaviour or 1 for single-client"; "a state of it with another client connected gets 1"
    if s["profile"] > 1 or s["profile"] == 1 and any(k["connected"] for k in s["clients"][1:]):
        return False
    here = s["sensors"][:s["count"]]
    if not all(sensor_ok(n) for n in here) or any(n != sensor() for n in s["sensors"][s["count"]:]):
        return False
    if len({tuple(n["name"][:n["name_len"]]) for n in here}) != len(here):
        return False
    for j, r in enumerate(s["readings"]):
        if j >= s["count"]:
            if any(r.values()):
                return False
        elif not sample_ok(s["sensors"][j], r["reading_kind"], r["reading_number"]) or r["reading_time"] > s["clock"]:
            return False
    for k in s["clients"]:
        if not (text_ok(k["address"], k["address_len"], 1, 48, GRAPHIC) if k["connected"] else not any(k["address"]) and k["address_len"] == 0):
            return False
    return all(pair_ok(s, p // 32, p % 32, s["pairs"][p]) for p in range(256))


# The lines.

def address(c, text):
    """The lines that give client c an address, zeros behind it."""
    for k in range(11):
        yield "address %d %d %d" % (c, k, text[k] if k < len(text) else 0)
    yield "address_len %d %d" % (c, len(text))


def single():
    """Profile 1, with client 0 and with another beside it, which profile 0 allows."""
    yield "+ profile 1"
    yield from ("? profile %d" % v for v in (0, 1, 2, 3, 255))
    yield from ("+ " + x for x in address(0, b"lift-0:7147"))
    yield from ("+ connected 0 1", "? profile 0", "? profile 2", "? connected 0 0")
    for c in (1, 2, 7):
        yield from ("+ " + x for x in address(c, b"lift-%d:7147" % c))
        yield from ("? connected %d 1" % c, "+ profile 0", "? connected %d 1" % c, "+ profile 2", "? connected %d 1" % c, "+ profile 1")
        yield from ("+ " + x for x in address(c, b""))
    yield "+ profile 0"


def filled():
    """A full state: clients 0 to 6, readings of each sensor, a subscription of each strategy."""
    yield "clock 5000000"
    for c in range(7):
        yield from address(c, b"lift-%d:7147" % c)
        yield "connected %d 1" % c
    for j, (kind, number, time) in enumerate([(1, 2**31 + 750, 4999999), (1, 2**30 - 512, 5000000), (1, 2, 1), (2, 0, 77), (1, TIME, 5000)]):
        yield "reading_number %d %d" % (j, number)
        yield "reading_kind %d %d" % (j, kind)
        yield "reading_time %d %d" % (j, time)
    strategies = ["1", "2 1500", "3", "4 10000000", "5 1000 3000", "6 10000000 0 86400000", "0"]
    for c, strategy in enumerate(strategies):
        for j, number in enumerate([2**31 + 740, 2**30 + 100, 1, 0, 5000]):
            p = 32 * c + j
            if j > 1 and strategy[0] in "46":
                continue
            yield "reported %d 1" % p
            yield "report_kind %d 1" % p
            yield "report_number %d %d" % (p, number)
            yield "report_time %d %d" % (p, 5000000 - 7 * p)
            yield "strategy %d %s" % (p, strategy)


def damaged():
    yield from ("halted 1", "halted 0", "level 7", "level 8", "level 255", "level 0", "clock 4999999", "clock 4999998", "clock %d" % TIME, "clock %d" % (TIME + 1), "clock 0")
    for t, n in (("api", 7), ("build", 2)):
        for v in (0, 1, n - 1, n + 1, 32, 33, 255):
            yield "%s_len %d" % (t, v)
        for k in (0, n - 1, n, 31):
            for v in (0, 0x20, 0x21, 0x7E, 0x7F, 200):
                yield "%s %d %d" % (t, k, v)
    yield from ("count %d" % v for v in (0, 4, 6, 32, 33, 255))
    yield from ("profile %d" % v for v in (0, 1, 2, 255))
    for f, n, size in (("name", 4, 32), ("description", 9, 64), ("units", 2, 8)):
        for v in (0, 1, n - 1, n + 1, size, size + 1, 255):
            yield "%s_len 0 %d" % (f, v)
            yield "%s_len 7 %d" % (f, v)
        for k in (0, n - 1, n, size - 1):
            for v in (0, 0x1F, 0x20, 0x2B, 0x2D, 0x2E, 0x2F, 0x30, 0x39, 0x3A, 0x40, 0x41, 0x5A, 0x5B, 0x5F, 0x60, 0x61, 0x7A, 0x7B, 0x7E, 0x7F, 255):
                yield "%s 0 %d %d" % (f, k, v)
            yield "%s 5 %d 97" % (f, k)
            yield "%s 31 %d 1" % (f, k)
    for j in (0, 1, 2, 3, 4, 5, 31):
        yield from ("type %d %d" % (j, v) for v in range(7))
        yield from ("limit_count %d %d" % (j, v) for v in range(6))
        yield from ("option_count %d %d" % (j, v) for v in (0, 1, 2, 3, 4, 8, 9, 255))
        for f in LIMITS[1:]:
            for v in (0, 1, 2**30 - 2048, 2**30, 2**30 + 2048, 2**31 - 6, 2**31 - 5, 2**31 - 1, 2**31, 2**31 + 1, 2**31 + 999, 2**31 + 1000, 2**31 + 1001, 2**31 + 1200, 2**31 + 1201, 2**32 - 1, 2**32):
                yield "%s %d %d" % (f, j, v)
    for j in (0, 2, 3, 9):
        for k, n in ((0, 4), (1, 4), (2, 6), (3, 0), (7, 0)):
            yield from ("option_len %d %d %d" % (j, k, v) for v in (0, 1, n, n + 1, 16, 17, 255))
            yield from ("option %d %d %d %d" % (j, k, at, v) for at in (0, 3, n, 15) for v in (0, 32, 45, 97, 127))
    for j in (0, 1, 2, 3, 4, 5, 31):
        yield from ("reading_kind %d %d" % (j, v) for v in (0, 1, 2, 3, 4, 5, 255))
        yield from ("reading_time %d %d" % (j, v) for v in (0, 1, 5000000, 5000001, TIME))
        yield from ("reading_number %d %d" % (j, v) for v in (0, 1, 2, 3, 2**30, 2**31, 2**31 + 1, 2**32 - 1, 2**32, TIME, TIME + 1))
    for c in (0, 6, 7):
        yield from ("connected %d %d" % (c, v) for v in (0, 1))
        yield from ("address_len %d %d" % (c, v) for v in (0, 1, 10, 11, 12, 48, 49, 255))
        yield from ("address %d %d %d" % (c, k, v) for k in (0, 10, 11, 47) for v in (0, 0x20, 0x21, 0x7E, 0x7F))
    edges = ["0", "1", "2 0", "2 1", "2 %d" % DAY, "2 %d" % (DAY + 1), "3"]
    for d in (0, 1, 10**6, 10**6 + 1, 2_097_152 * 10**6, 2_097_152 * 10**6 + 1, 2_097_153 * 10**6, 4_294_967_295 * 10**6, 4_294_967_296 * 10**6):
        edges += ["4 %d" % d, "6 %d 1 2" % d]
    for a, b in ((0, 0), (0, 1), (1, 1), (2, 1), (DAY, DAY), (0, DAY + 1), (DAY + 1, DAY + 1), (DAY + 1, DAY)):
        edges += ["5 %d %d" % (a, b), "6 0 %d %d" % (a, b)]
    for p in (0, 1, 2, 3, 4, 5, 31, 32, 193, 224, 255):
        yield from ("strategy %d %s" % (p, e) for e in edges)
        yield from ("reported %d %d" % (p, v) for v in (0, 1))
        yield from ("report_kind %d %d" % (p, v) for v in (0, 1, 2, 3, 4, 5, 255))
        yield from ("report_time %d %d" % (p, v) for v in (0, 1, 5000000, 5000001, TIME))
        yield from ("report_number %d %d" % (p, v) for v in (0, 1, 2, 3, 2**30, 2**31, 2**31 + 1, 2**32 - 1, 2**32, TIME, TIME + 1))


def from_blank():
    """The blank state with one field set: only as it is, is it in range without texts."""
    yield from ("halted 0", "level 1", "level 4", "clock 1", "count 1", "profile 1", "profile 2", "api_len 1", "api 0 97", "build_len 1", "build 0 97", "type 0 5", "name 0 0 97", "name_len 0 1", "limit_count 0 2", "option_count 0 1")
    yield from ("option 0 0 0 97", "reading_kind 0 1", "reading_number 0 1", "reading_time 0 1", "connected 0 1", "address 0 0 97", "address_len 0 1")
    yield from ("reported 0 1", "strategy 0 1", "report_kind 0 1", "report_number 0 1", "report_time 0 1")


def main():
    if sys.argv[1:] == ["--make"]:
        print("\n".join(list(single()) + ["+ " + x for x in filled()] + ["? " + x for x in damaged()] + ["-"] + ["? " + x for x in from_blank()]))
        return
    state = opened()
    print("opened", int(in_range(state)))
    for line in sys.stdin.read().splitlines():
        if line == "-":
            state = blank()
            print(line, int(in_range(state)))
            continue
        field, n = line.split()[1], [int(w) for w in line.split()[2:]]
        holder, key, used = place(state, field, n)
        old = holder[key]
        holder[key] = tuple((n[1:] + [0] * 3)[:4]) if field == "strategy" else n[used]
        print(line, int(in_range(state)))
        if line.startswith("?"):
            holder[key] = old


main()
