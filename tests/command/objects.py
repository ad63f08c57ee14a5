#!/usr/bin/env python3
"""objects.py COMMAND MADE: whether the JSON of each verb, read back by python3's reader, says what the outputs say that were worked out independently (tests/listing,
tests/command); MADE has the records that tests/command/run made. Of the verbs that write bytes, the object on standard error and the bytes."""
import json
import re
import subprocess
import sys

COMMAND, MADE = sys.argv[1:]
HERE = "tests/command/"
bad = 0


def run(*words, stdin=None):
    done = subprocess.run([COMMAND, *words, "--json"], stdin=stdin, capture_output=True)
    return done.returncode, done.stdout, done.stderr


def hold(what, right):
    global bad
    if not right:
        print("json, %s: FAILED" % what)
        bad = 1


def objects(raw):
    """One object a line; a name twice in one is no good."""
    def members(pairs):
        assert len({name for name, _ in pairs}) == len(pairs)
        return dict(pairs)
    return [json.loads(line, object_pairs_hook=members) for line in raw.decode("ascii").splitlines()]


def says(what, due, *words):
    status, out, err = run(*words)
    hold(what, status == 0 and err == b"" and objects(out) == due)


def lines(file):
    return open(file).read().splitlines()


LABELS = {int(number): words for number, words in re.findall(r"\(refusal (\d+), ([^)]*)\)", open(HERE + "why.out").read() + open(HERE + "clash.out").read())}


def listed(file):
    due = []
    for line in lines(file)[1:]:
        first, *rest = line.split()
        if first == "end":
            due.append({"end": int(rest[0])})
        elif rest[0] == "frame":
            due.append({"place": int(first), "kind": "frame", "FCT": int(rest[1]), "level": int(rest[2])})
        else:
            due.append({"place": int(first), "kind": rest[0], "refusal": int(rest[1]), "words": LABELS[int(rest[1])]})
    return due


def lists():
    for record in "four damaged night noise one short empty".split():
        says("list " + record, listed("tests/listing/%s.out" % record), "list", "%s/%s.eti" % (MADE, record))
        with open("%s/%s.eti" % (MADE, record), "rb") as line:
            status, out, err = run("list", "-", stdin=line)
            hold("list - " + record, (status, err) == (0, b"") and objects(out) == listed("tests/listing/%s.out" % record))
    says("list, limit 8", listed(HERE + "damaged.limit-8"), "list", "--limit", "8", MADE + "/damaged.eti")


def profiles():
    due = []
    for line in lines(HERE + "clash.out")[1:-1]:
        place, rest = line.split(": ", 1)
        found = {"place": int(place), "passes": rest == "passes"}
        if rest != "passes":
            number, words, who = re.fullmatch(r"does not pass \(refusal (\d+), (.*)\): (.*)", rest).groups()
            found.update(refusal=int(number), words=words)
            numbers = [int(n) for n in re.findall(r"\d+", who)]
            two = who.startswith("streams")
            found["streams"] = numbers[:1 + two]
            found.update({30: {"SCID": numbers[-1]}, 31: {"TPL": numbers[-2], "STL": numbers[-1]}}.get(int(number), {"SAD": numbers[1 + two:]}))
        due.append(found)
    frames, passing = re.findall(r"\d+", lines(HERE + "clash.out")[-1])
    says("profile", due + [{"frames": int(frames), "passing": int(passing)}], "profile", HERE + "clash.eti")


def messages():
    due = []
    for line in lines(HERE + "signalling.out")[1:-1]:
        place, rest = line.split(": ", 1)
        if rest.startswith("message"):
            kind, raw = re.fullmatch(r"message of type (\d+), \d+ bytes: (.*)", rest).groups()
            due.append({"place": int(place), "kind": "message", "type": int(kind), "bytes": list(bytes.fromhex(raw))})
        else:
            number, words = re.fullmatch(r"dropped \(refusal (\d+), (.*)\)", rest).groups()
            due.append({"place": int(place), "kind": "dropped", "refusal": int(number), "words": words})
    counts = dict((name, int(n)) for name, n in re.findall(r"(\w+) (\d+)", lines(HERE + "signalling.out")[-1]))
    says("signalling", due + [counts], "signalling", "samples/signalling.eti")


REASONS = {"lost": "lost", "hunted over and refused": "refused", "stood, but the period after it does not stand": "not standing",
           "stood, but the record ends before the period after it does": "not standing"}


def reason(sentence):
    if sentence == "handed out, as a frame":
        return {"reason": "handed out", "kind": "frame"}
    if sentence.endswith("same sync word"):
        return {"reason": "same sync word"}
    if sentence.startswith("stepped over"):
        return {"reason": "stepped over", "item": int(sentence.split()[-1])}
    what, number, words = re.fullmatch(r"(.*) \(refusal (\d+), (.*)\)", sentence).groups()
    told = {"refusal": int(number), "words": words}
    return dict(told, reason="handed out", kind="idle") if what == "handed out, as idle" else dict(told, reason=REASONS[what])


def reasons():
    for line in lines(HERE + "why.out"):
        record, limit, place, sentence = re.fullmatch(r"(\S+) (\S+) (\d+): (.*)", line).groups()
        says("why " + line, [dict(reason(sentence), place=int(place))], "why", "--limit", limit, "%s/%s.eti" % (MADE, record), place)


def part(words):
    found = re.fullmatch(r"(\d+) bytes from (\d+) on", words)
    return (int(found[2]), int(found[1])) if found else (None, 0)


def shown(text):
    """One frame of show.out: what the object must have. Of a part without bytes its place is not told there."""
    due, streams = {}, []
    for line in text:
        name, words = line[:11].strip(), line[11:]
        if re.match(r" +\d", line):
            number, scid, sad, tpl = line[:20].split()
            stl, rate, rest = line[51:].split(None, 2)
            streams.append((dict(stream=int(number), SCID=int(scid), SAD=int(sad), TPL=int(tpl), protection=line[21:51].strip(), STL=int(stl), kbit_per_s=float(rate)), part(rest)))
        elif name == "TSTA":
            due.update(TSTA=None, TSTA_sort="none") if words == "none" else due.update(TSTA=int(words[:6], 16), TSTA_sort=words[8:])
        elif name == "main sum":
            due.update(main_sum_sent=int(words[:4], 16), main_sum_worked_out=int(words[11:15], 16))
        elif name == "FIC":
            due["FIC"] = part(words)
        elif name == "FSYNC":
            due[name] = words
        elif name in ("MNSC", "Rfu", "Rfa"):
            due[name] = int(words, 16)
        elif not line.startswith("stream"):
            due[name] = int(words)
    return due, streams


def same_part(found, due):
    place, length = found.pop("place"), found.pop("bytes")
    return length == due[1] and due[0] in (None, place)


def shows():
    text = lines(HERE + "show.out")
    begins = [i for i, line in enumerate(text) if line.startswith("place ")] + [len(text)]
    asked = [[MADE + "/four.eti"], [MADE + "/four.eti", "6144"], [MADE + "/damaged.eti", "6921"], [MADE + "/damaged.eti", "31597"], [HERE + "clash.eti"],
             [HERE + "clash.eti", "12288"], ["samples/signalling.eti"], [MADE + "/damaged.eti", "25453"]]
    hold("show, eight frames", len(begins) == 9)
    for i, words in enumerate(asked):
        status, out, err = run("show", *words)
        (found,) = objects(out)
        due, streams = shown(text[begins[i]:begins[i + 1]])
        right = (status, err) == (0, b"") and same_part(found.pop("FIC"), due.pop("FIC"))
        for told, (fields, lies) in zip(found["sub_channels"], streams):
            right = right and same_part(told, lies) and told == fields
        right = right and len(found.pop("sub_channels")) == len(streams) and found == due
        hold("show " + " ".join(words), right)


def sheets():
    for sheet, logs in (("night", ["night.log"]), ("week", "four damaged night long night.limit-1 four damaged.limit-8".split())):
        logs = [HERE + (log if log.endswith(".log") else log + ".log") for log in logs]
        rows = [line.split(None, 2) for line in lines(HERE + sheet + ".sheet")[1:]]
        totals = [(what, int(n)) for n, _, what in rows[:13]]
        due = {"logs": len(logs), "items": int(rows[13][0]), "frames_at_level": [n for _, n in totals[:4]],
               "lost_by_refusal": {re.match(r"lost, refusal (\d+)", what)[1]: n for what, n in totals[4:12]}, "idle": totals[12][1], "frames_missing": int(rows[14][0])}
        says("sheet " + sheet, [due], "sheet", *logs)
        with open(logs[0], "rb") as log:
            status, out, err = run("sheet", "-", *logs[1:], stdin=log)
            hold("sheet -", (status, err) == (0, b"") and objects(out) == [due])


def written(what, file, due, *words, status=0):
    """Bytes on standard output, an object on standard error, and behind it the reason where there is one."""
    got, out, err = run(*words)
    first, *rest = err.splitlines(True)
    hold(what, (got, out) == (status, open(file, "rb").read()) and objects(first) == [due] and len(rest) == status)


def bytes_written():
    written("extract", HERE + "damaged.fic", {"frames": 4, "filled": 0, "bytes": 448}, "extract", MADE + "/damaged.eti", "fic")
    written("log", HERE + "night.log", {"records": 10, "bytes": 160}, "log", MADE + "/night.eti")
    written("g704 out", HERE + "four.5592", {"multiframes": 3, "frames_not_sent": 0}, "g704", "out", MADE + "/four.eti")
    written("g704 back", HERE + "four.back", {"multiframes": 3, "rows_not_clean": 0, "frames_not_made": 0, "sums_wrong": 0, "clean_as_other_variant": 0}, "g704", "back", HERE + "four.5592")
    written("g704 back, hit", HERE + "hit.back", {"multiframes": 3, "rows_not_clean": 3, "frames_not_made": 1, "sums_wrong": 0, "clean_as_other_variant": 0}, "g704", "back", HERE + "hit.5592", status=1)
    status, out, err = run("g704", "back", HERE + "four.5376")
    due = {"multiframes": 3, "rows_not_clean": 0, "frames_not_made": 0, "sums_wrong": 3, "clean_as_other_variant": 3}
    hold("g704 back, 5376 as 5592", (status, len(out)) == (0, 3 * 6144) and objects(err) == [due])
    status, out, err = run("edi-frame", "samples/packet.edi")
    hold("edi-frame", status == 0 and out == open(HERE + "packet.eti", "rb").read(6144) and objects(err) == [{"frames": 1, "bytes": 6144}])


for verb in (lists, profiles, messages, reasons, shows, sheets, bytes_written):
    verb()
sys.exit(bad)
