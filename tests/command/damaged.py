#!/usr/bin/env python3
"""damaged.py COMMAND ROOM: a hundred damaged records, always the same ones, and what a walk by the scope's words (with T-06's and T-10's) makes of each, place by
place: held to list, from the file and from standard input, with --strict and as JSON, to log, and to the FIC that extract takes out."""
import binascii
import json
import random
import subprocess
import sys

PERIOD = 6144
SYNCS = (bytes.fromhex("073AB6"), bytes.fromhex("F8C549"))
LEVELS = (0xFF, 0xF0, 0x0F, 0x00)  # table 2 of clause 5.2


def crc(raw):
    return (binascii.crc_hqx(raw, 0xFFFF) ^ 0xFFFF).to_bytes(2, "big")


# ---- reading and walking, by the scope

def read(f):
    """The refusal number; or 0, FCT, the level handed on, and the FIC."""
    if len(f) != PERIOD:
        return (1,)
    if f[1:4] not in SYNCS:
        return (2,)
    if f[0] not in LEVELS:
        return (3,)
    logical = f[4:]
    if logical[:4] == b"\xff" * 4:
        return (4,)
    fct, ficf, nst = logical[0], logical[1] >> 7, logical[1] & 127
    mid, fl = logical[2] >> 3 & 3, int.from_bytes(logical[2:4], "big") & 2047
    if nst > 64:
        return (5,)
    sum_at = (nst + 1) * 4 + 2
    if crc(logical[:sum_at]) != logical[sum_at:sum_at + 2]:
        return (6,)
    if fct > 249:
        return (7,)
    stls = [int.from_bytes(logical[4 * i + 6:4 * i + 8], "big") & 1023 for i in range(nst)]
    if any(stl > 684 for stl in stls):
        return (8,)
    ficl = 0 if ficf == 0 else 32 if mid == 3 else 24
    if fl != nst + 1 + ficl + 2 * sum(stls):
        return (9,)
    if fl > 1532:
        return (10,)
    main = logical[(nst + 2) * 4:(fl + 1) * 4]
    level = LEVELS.index(f[0])
    if crc(main) != logical[(fl + 1) * 4:(fl + 1) * 4 + 2]:
        level = max(level, 2)
    return 0, fct, level, main[:4 * ficl]


def walk(record, limit):
    """The items (place, kind, code, level, FIC), and the place at which it is done."""
    items, place, misses, locked = [], 0, 0, False
    while len(record) - place >= PERIOD:
        here = read(record[place:place + PERIOD])
        if not locked:
            after = read(record[place + PERIOD:place + 2 * PERIOD])
            other = record[place + 1:place + 4] != record[place + PERIOD + 1:place + PERIOD + 4]
            if not (here[0] == 0 and after[0] == 0 and other):
                place += 1
                continue
            locked = True
        if here[0] == 0:
            items.append((place, "frame") + here[1:])
            misses = 0
        elif here[0] == 4:
            items.append((place, "idle", 4, None, None))
            misses = 0
        else:
            items.append((place, "lost", here[0], None, None))
            misses += 1
        locked = misses < limit
        place += PERIOD if locked else 1
    return items, place


# ---- damage

def frame(rng, count, fault=None):
    """A frame by the scope's widths, both sums right; or one with a fault of its own that the sums do not show."""
    ficf, mid, fct = rng.randrange(4) > 0, rng.randrange(4), count % 250
    stls = [rng.choice((0, 3, 24, 48)) for _ in range(rng.randrange(5))]
    if fault == 7:
        fct = rng.randrange(250, 255)
    if fault == 8:
        stls = [685]
    if fault == 10:
        stls = [684, 100]
    ficl = 0 if not ficf else 32 if mid == 3 else 24
    fl = len(stls) + 1 + ficl + 2 * sum(stls) + (fault == 9)
    nst = 65 if fault == 5 else len(stls)
    head = bytes((fct, ficf << 7 | nst)) + (rng.randrange(8) << 13 | mid << 11 | fl & 2047).to_bytes(2, "big")
    head += b"".join((rng.randrange(1 << 22) << 10 | stl).to_bytes(4, "big") for stl in stls) + rng.randbytes(2)
    main = rng.randbytes(4 * ficl + 8 * sum(stls))
    level = rng.choice((0, 0, 0, 1, 2, 3))
    whole = bytes((LEVELS[level],)) + SYNCS[count % 2] + head + crc(head) + main + crc(main) + rng.randbytes(6)
    return (whole + b"\x55" * PERIOD)[:PERIOD]


def null(count):
    return b"\xff" + SYNCS[count % 2] + b"\xff" * 4 + b"\x55" * (PERIOD - 8)


def hit(rng, raw, first, last):
    at = rng.randrange(first, last)
    return raw[:at] + bytes((raw[at] ^ 1 << rng.randrange(8),)) + raw[at + 1:]


def piece(rng, count):
    """One period's worth, whole or hurt in one of many ways."""
    sort = rng.randrange(24)
    good = frame(rng, count)
    if sort < 10:
        return good
    if sort < 13:
        return null(count)
    if sort == 13:
        return hit(rng, good, 0, 4)
    if sort == 14:
        return hit(rng, good, 4, 12)
    if sort == 15:
        return hit(rng, good, 12, 200)
    if sort == 16:
        return good[:rng.randrange(PERIOD)]
    if sort == 17:
        return rng.randbytes(rng.randrange(1, 7000))
    if sort == 18:
        return frame(rng, count + 1)
    if sort == 19:
        return hit(rng, null(count), 0, 8)
    return frame(rng, count, (5, 7, 8, 9, 10)[rng.randrange(5)])


def records():
    rng = random.Random(300799)
    for number in range(100):
        parts = [rng.randbytes(rng.randrange(3000)) if rng.randrange(3) == 0 else b""]
        first = rng.randrange(250)
        parts += [frame(rng, first), frame(rng, first + 1)] * (rng.randrange(5) > 0)
        parts += [piece(rng, first + 2 + i) for i in range(rng.randrange(2, 12))]
        parts += [rng.randbytes(rng.randrange(PERIOD))] * rng.randrange(2)
        yield b"".join(parts), 1 + number % 8 if number % 2 else 3


# ---- what the command says

def text(items, end):
    lines = ["place kind code level"]
    lines += ["%d %s %d %s" % (place, kind, code, "-" if level is None else level) for place, kind, code, level, _ in items]
    return "".join(line + "\n" for line in lines + ["end %d" % end]).encode()


def same_objects(raw, items, end):
    told = [json.loads(line) for line in raw.splitlines()]
    due = [{"place": p, "kind": kind, "FCT": code, "level": level} if kind == "frame" else {"place": p, "kind": kind, "refusal": code} for p, kind, code, level, _ in items]
    for found in told:
        found.pop("words", None)
    return told == due + [{"end": end}]


def log(items):
    kinds = ["frame", "lost", "idle"]
    return b"".join(place.to_bytes(8, "big") + bytes((kinds.index(kind), code, 255 if level is None else level)) + bytes(5) for place, kind, code, level, _ in items)


def fics(items):
    out, last = b"", 0
    for item in items:
        last = len(item[4]) if item[4] is not None else last
        out += item[4] if item[4] is not None else bytes(last)
    return out


def held(command, file, limit, items, end):
    def run(*words, **more):
        done = subprocess.run([command, *words, "--limit", str(limit)], capture_output=True, **more)
        return done.returncode, done.stdout, done.stderr
    lost, frames = (any(item[1] == kind for item in items) for kind in ("lost", "frame"))
    right = run("list", "--strict", file) == (3 if lost or not frames else 0, text(items, end), b"")
    with open(file, "rb") as line:
        status, out, err = run("list", "--json", "-", stdin=line)
    right = right and (status, err) == (0, b"") and same_objects(out, items, end)
    right = right and run("log", file) == (0, log(items), b"")
    status, out, err = run("extract", "--fill", file, "fic")
    if fics(items):
        return right and (status, out, err) == (0, fics(items), b"")
    return right and (status, out) == (1, b"") and (b"no frame handed out has a FIC" if frames else b"no frame is handed out") in err


def main(command, room):
    met, bad = set(), 0
    for number, (record, limit) in enumerate(records()):
        items, end = walk(record, limit)
        met |= {(kind, code if kind == "lost" else level) for _, kind, code, level, _ in items}
        file = "%s/damaged-%d.eti" % (room, number)
        with open(file, "wb") as out:
            out.write(record)
        if not held(command, file, limit, items, end):
            print("damaged record %d, limit %d: FAILED" % (number, limit))
            bad = 1
    # the damage is of every sort: each refusal that a lost mark can have, each level, idle periods
    due = {("lost", n) for n in (2, 3, 5, 6, 7, 8, 9, 10)} | {("frame", level) for level in range(4)} | {("idle", None)}
    if met != due:
        print("damaged records: not met", sorted(map(str, due - met)))
        bad = 1
    return bad


sys.exit(main(*sys.argv[1:]))
