#!/usr/bin/env python3
"""memory.py RESIDENT COMMAND ROOM MIB: whether listing a record of MIB mebibytes of clean frames takes no more memory than one of 1 MiB, from a file and from standard input: the most
that was ever resident (by resident.c), mapped pages of the file included. Of a mapped file about 1 MiB stands at a time, and what the system maps ahead in one go (4 MiB
were seen), so 6 MiB more than of 1 MiB are allowed, whatever the size."""
import os
import subprocess
import sys

RESIDENT, COMMAND, ROOM = sys.argv[1:4]
MIB = int(sys.argv[4])
ALLOWED = 6 << 10


def resident(words, stdin=None):
    """Kibibytes, and the last line of the listing."""
    done = subprocess.run([RESIDENT, COMMAND, *words], stdin=stdin, capture_output=True, check=True)
    return int(done.stderr), done.stdout.splitlines()[-1]


def make(file, periods, pair):
    with open(file, "wb") as out:
        for _ in range(0, periods, 512):
            out.write(pair * min(256, (periods - out.tell() // 6144) // 2))


def main():
    with open("samples/four.eti", "rb") as record:
        pair = record.read(12288)
    most = {}
    for mib in (1, MIB):
        file, periods = "%s/%d.eti" % (ROOM, mib), (mib << 20) // 12288 * 2
        make(file, periods, pair)
        with open(file, "rb") as line:
            for sort, found in (("file", resident(["list", file])), ("line", resident(["list", "-"], line))):
                assert found[1] == b"end %d" % (6144 * periods), found
                most[sort, mib] = found[0]
        os.remove(file)
    print("memory: file %d KiB of 1 MiB, %d of %d MiB; standard input %d and %d" % (most["file", 1], most["file", MIB], MIB, most["line", 1], most["line", MIB]))
    return any(most[sort, MIB] > most[sort, 1] + ALLOWED for sort in ("file", "line"))


sys.exit(main())
