#!/usr/bin/env python3
"""terminal.py COMMAND ROOM: what the command does on a terminal: colours of list, none where they are not wanted; the progress line of long work, what it says,
and that nothing of it is left; the end of what is typed."""
import os
import pty
import re
import select
import signal
import subprocess
import sys
import time

COMMAND, ROOM = sys.argv[1:]
bad = 0
# a shell that runs the gate in the background has it ignored, and so would the command
signal.signal(signal.SIGINT, signal.SIG_DFL)


def hold(what, right):
    global bad
    if not right:
        print("terminal, %s: FAILED" % what)
        bad = 1


def on_terminal(words, which, feed=None, cut=None, **environment):
    """Runs the command with `which`, stdout, stderr or both, on a terminal: its status, what the terminal got, and the other output."""
    ours, theirs = pty.openpty()
    other = open(ROOM + "/other", "w+b")
    streams = {name: theirs if which in (name, "both") else other for name in ("stdout", "stderr")}
    setting = dict(os.environ, TERM="xterm", NO_COLOR="")
    setting.update(environment)
    done = subprocess.Popen([COMMAND, *words], stdin=subprocess.PIPE, env=setting, **streams)
    os.close(theirs)
    if feed is not None:
        feed(done.stdin, lambda: select.select([ours], [], [], 0.25)[0])
    done.stdin.close()
    got = b""
    while True:
        try:
            more = os.read(ours, 65536)
        except OSError:
            break
        if not more:
            break
        got += more
        if cut is not None and b"left" in got:
            done.send_signal(cut)
            cut = None
    os.close(ours)
    other.seek(0)
    return done.wait(), got.replace(b"\r\n", b"\n"), other.read()


def screen(got):
    """What is left to see: a carriage return goes to the line's first column."""
    lines = []
    for line in got.decode("ascii").split("\n"):
        cells = []
        for part in line.split("\r"):
            cells[:len(part)] = part
        lines.append("".join(cells).rstrip())
    return [line for line in lines if line]


def colours():
    listed = open("tests/listing/night.out", "rb").read()
    status, got, _ = on_terminal(["list", "samples/night.eti"], "stdout")
    due = re.sub(rb"(?m)^(.* lost .*)$", rb"\033[31m\1\033[0m", re.sub(rb"(?m)^(.* idle .*)$", rb"\033[2m\1\033[0m", listed))
    hold("lost is red and idle dim", (status, got) == (0, due) and due.count(b"\033[31m") == 1)
    for name, value in (("NO_COLOR", "1"), ("TERM", "dumb")):
        hold("no colours with " + name, on_terminal(["list", "samples/night.eti"], "stdout", **{name: value})[:2] == (0, listed))
    status, got, _ = on_terminal(["list", "--json", "samples/night.eti"], "stdout")
    hold("no colours in JSON", status == 0 and b"\033" not in got)


def long_work():
    """The way back takes a third of a millisecond for a multiframe; as many as it takes this machine until a line is shown."""
    with open("tests/command/four.5592", "rb") as lines:
        three = lines.read()
    words, count, told = ["g704", "back", ROOM + "/many.5592"], 2250, []

    def make():
        with open(words[-1], "wb") as many:
            many.write(three * (count // 3))
    while told == [] and count < 100000:
        count *= 2
        make()
        status, got, frames = on_terminal(words, "stderr")
        told = [(int(share), float(speed), int(left)) for share, speed, left in re.findall(rb"(\d+) %, (\d+\.\d) MB/s, (\d+) s left", got)]
    hold("progress", told != [] and all(0 < share <= 100 and 0 < speed < 1000 and left < 600 for share, speed, left in told))
    hold("progress grows", [share for share, _, _ in told] == sorted(share for share, _, _ in told))
    hold("progress is gone", status == 0 and screen(got) == ["spindlewren: %s: multiframes %d, rows not clean 0, frames not made 0, main-stream sums wrong 0" % (words[-1], count)])
    hold("the frames are there", len(frames) == count * 6144)
    count *= 2
    make()
    status, got, _ = on_terminal(words, "stderr", cut=signal.SIGINT)
    hold("interrupted", status == -signal.SIGINT and b"left" in got and screen(got) == [])


def slow_line():
    with open("samples/night.eti", "rb") as record:
        frames = record.read(12288)

    def until_shown(to, shown):
        pieces = 0
        while pieces < 60 and not shown():
            to.write(frames)
            to.flush()
            pieces += 1

    def for_a_while(to, shown):
        for _ in range(6):
            to.write(frames)
            to.flush()
            time.sleep(0.25)
    status, got, listed = on_terminal(["list", "-"], "stderr", until_shown)
    hold("progress of a line", status == 0 and re.search(rb"\d+\.\d MB, \d+\.\d MB/s", got) is not None and screen(got) == [])
    status, got, _ = on_terminal(["list", "-"], "both", for_a_while)
    hold("no progress among the lines", status == 0 and got.count(b" frame ") == 12 and got.count(b"\n") == 14 and b"MB" not in got)


def short_work():
    status, got, _ = on_terminal(["list", "samples/four.eti"], "stderr")
    hold("no progress of short work", (status, got) == (0, b""))


def typed():
    """The end of what is typed is given once, also by a verb that goes through it twice."""
    ours, theirs = pty.openpty()
    done = subprocess.Popen([COMMAND, "sheet", "--html", "-"], stdin=theirs, stdout=subprocess.DEVNULL)
    os.close(theirs)
    os.write(ours, b"\x04")
    try:
        status = done.wait(20)
    except subprocess.TimeoutExpired:
        done.kill()
        status = None
    os.close(ours)
    hold("the end is typed once", status == 0)


for part in (colours, long_work, slow_line, short_work, typed):
    part()
sys.exit(bad)
