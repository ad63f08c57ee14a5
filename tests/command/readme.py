#!/usr/bin/env python3
"""readme.py ROOM: README's examples, each command line of the command run as it stands there, in ROOM, one behind the other: what is printed is what README shows."""
import os
import re
import subprocess
import sys

room, here = sys.argv[1] + "/reader", os.getcwd()
os.mkdir(room)
for name in ("target", "samples"):
    os.symlink("%s/%s" % (here, name), "%s/%s" % (room, name))
shown = re.findall(r"^    \$ (target/command/spindlewren .*)\n((?:    [^$ ].*\n|     .*\n)*)", open("README.md").read(), re.M)
bad = len(shown) < 6
for line, output in shown:
    got = subprocess.run(line, shell=True, cwd=room, capture_output=True, text=True)
    if (got.stdout, got.stderr, got.returncode) != (re.sub("(?m)^    ", "", output), "", 0):
        print("README: %s: FAILED" % line)
        bad = True
sys.exit(bad)
