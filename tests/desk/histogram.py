#!/usr/bin/env python3
"""Counts the answers of scripts by command, and shows whether every answer of document 01 was reached.

    histogram.py COUNTS SCRIPT OUTPUT     adds a script's answers to the file COUNTS
    histogram.py COUNTS                   prints what was counted, and exits 1 if an answer was never given

Only start's 28 can't be reached by calls: it takes 2^64 - 2 starts; nor can a seqid above some hundreds, so tests/capi writes such ones into a record.
In this order: the answers; keys of lines; the stateids that a script's answers leave; main.
"""
import json
import os
import sys
from collections import Counter

LISTS = ("resilver", "offered")
# The answers and the sources of a list, by the direction that is asked for.
SOURCES = "0 28 source:0 source:1 source:2 source:3 source:255"

# Each command with the answers that a run has to reach. `directions`: whether a list that is not empty has other sources from the other direction.
ANSWERS = {
    "register": "0 10013 22 17 28",
    "open": "0 10013 70 28",
    "reclaim": "0 10033 70 10034",
    "close": "0 70 10025",
    "repaired": "0 70 22 10008",
    "forget": "0 10013 70 10008",
    "addproxy": "0 10013 70 22 17",
    "addproxy of no id": "10013 70 22",
    "removeproxy": "0 10013 70 2",
    "stateid": "0 10013 70 10025 17 22:length 22:zeros 22:ones 22:same-file 22:other-file",
    "ordinary": "0:zero 0:latest 28 10036 10036:body 10062 10049 10013 70 10024:1 10024:more 10024:wrapped 10024:2^31-1 10025:2^31 10025:2^31+1 10025:ahead "
    "10025:newer 10025:none 10025:closed 10025:restarted 10025:other-client 10025:other-file 10025:unknown",
    "ordinary, old record": "0:zero 0:latest 10036:body 70 10024:1 10024:more 10025:2^31 10025:ahead 10025:none 10025:unknown",
    "ordinary, totals": "bytes proxy",
    "end": "0 10033",
    "restart": "0",
    "layoutreturn": "handed 0 28 10036 10062 10049 10025 10013 10033 70 10034",
    "request": "handed refused:10036 refused:10062 refused:10049 anonymous bypass current invalid ordinary",
    "totals": "zeros bytes full flagged proxy:bytes proxy:full proxy:flagged",
    "resilver": SOURCES,
    "resilver lowest": SOURCES,
    "resilver highest": SOURCES,
    "offered": SOURCES,
    "offered lowest": SOURCES,
    "offered highest": SOURCES,
    "directions": "differ agree",
    "counts": "none open some all full",
    "layout": "extents refused:1 refused:2 refused:3 refused:4 refused:5 refused:6 refused:7",
    "rdma": "extents refused:1 refused:2 refused:3 refused:4 refused:5 refused:6 refused:7",
    "write": "0 refused:2 refused:3 refused:4 refused:5 refused:6 refused:7 refused:8",
    "rdmawrite": "0 refused:2 refused:3 refused:4 refused:5 refused:6 refused:7 refused:8",
    "merge": "0 refused:2 refused:3 refused:4 refused:5 refused:6 refused:7 refused:8 refused:28",
    "commit": "0 refused:2 refused:3 refused:4 refused:5 refused:6 refused:7 refused:8 refused:22 refused:28 refused:10034 refused:10036",
    "join": "0 17 22",
    "leave": "0 2 10013 22",
    "start": "0 2 22",
    "enforce": "0 2 10033 22",
    "finish": "0 2 22",
    "stop": "0 2 10013 22",
    "may": "yes no 22",
    "epochs": "shown",
    "fresh": "0",
    "fresh old": "0",
    "can't be read": "?",
}


def words_of(line):
    return line.replace(b"\t", b" ").replace(b"\r", b" ").split()


def total_kinds(places):
    """What the totals of these places are: all 0 or not, 2^64 - 1 and flagged."""
    numbers = b" ".join(places).replace(b":", b" ").split()
    kinds = {"zeros": set(numbers) == {b"0"}, "bytes": set(numbers) != {b"0"}, "full": b"18446744073709551615" in numbers, "flagged": b"18446744073709551615!" in numbers}
    return [kind for kind, seen in kinds.items() if seen]


def counts_kind(waiting, offered):
    """What two counts say: no file needs repair; all that do are open; some or all of them are offered, or all 64 that a record has."""
    if waiting == 0:
        return "none"
    if offered < waiting:
        return "some" if offered else "open"
    return "full" if offered == 64 else "all"


def keys(command, words):
    """The answers that one output line shows."""
    if words[0] == b"?":
        return [("can't be read", "?")]
    if command == "epochs":
        return [(command, "shown")]
    if command == "totals":
        kinds = total_kinds(words) + [f"proxy:{kind}" for kind in total_kinds(words[4:]) if kind != "zeros"]
        return [(command, kind) for kind in kinds]
    if command == "counts":
        return [(command, counts_kind(int(words[0]), int(words[1])))]
    if words[0] == b"refused":
        return [(command, "refused:" + words[1].decode())]
    sources = [("source:" + word.split(b":")[1].decode()) for word in words[2:]] if command.startswith(LISTS) else []
    return [(command, key) for key in [words[0].decode()] + sources]


def calls_of(script):
    """The command of each line that prints one, and its words; a line past the limit prints one whatever it holds."""
    for line in script:
        words = words_of(line.rstrip(b"\n") if line.lstrip().startswith((b"layoutreturn", b"stateid")) else line.rstrip(b"\n")[:128])
        if len(line.rstrip(b"\n")) > 524288:
            yield b"too long", [b"too long"]
        elif words and not words[0].startswith(b"#"):
            asked = words[1:] if words[0] == b"fresh" else words[3:] if words[0] in (b"resilver", b"offered") else []
            no_id = words[0] == b"addproxy" and len(words) == 3 and len(words[2]) != 32
            yield b" ".join(words[:1] + asked + [b"of no id"] * no_id), words


def directions(before, after):
    """Of two calls in a row, each with its answer: whether they are one list, not empty, from both directions, and differ."""
    (call, words), (next_call, next_words) = before, after
    (name, _, asked), (next_name, _, next_asked) = call.partition(" "), next_call.partition(" ")
    listed = name in LISTS and words[0] == next_words[0] == b"0" and len(words) > 2
    if not listed or name != next_name or (asked == "lowest") == (next_asked == "lowest"):
        return []
    return [("directions", "agree" if words == next_words else "differ")]


class Stateids:
    """The stateids that are held (Ticket 13), by file and client, as the answers so far say; and those that have ended, by which call."""

    def __init__(self):
        self.old, self.held, self.ended = False, {}, {}

    def keys(self, words, answer):
        """What the answer of a call says of stateids, and then what it leaves of them."""
        name = words[0].decode(errors="replace")
        if answer[0] == b"?":
            return []
        if name == "fresh":
            self.__init__()
            self.old = len(words) == 2
        elif name == "restart":
            self.ended.update({(holder, other): "restarted" for holder, (other, _) in self.held.items()})
            self.held.clear()
        elif name == "close" and answer[0] == b"0":
            holder = int(words[1]), int(words[2])
            other, _ = self.held.pop(holder, (None, 0))
            self.ended[holder, other] = "closed"
        elif name == "stateid":
            return self.set_up((int(words[1]), int(words[2])), words[3].lower(), answer[0].decode())
        elif name == "layoutreturn":
            return self.returned((int(words[1]), int(words[2])), words[4].lower(), answer)
        return []

    def set_up(self, holder, other, status):
        """A set-up: 22 by its reason."""
        if status == "0":
            self.held[holder] = other, 1
        if status != "22":
            return [("stateid", status)]
        if len(other) != 24:
            return [("stateid", "22:length")]
        if other in (24 * b"0", 24 * b"f"):
            return [("stateid", "22:zeros" if other[:1] == b"0" else "22:ones")]
        return [("stateid", "22:same-file" if any(o == other for (file, _), (o, _) in self.held.items() if file == holder[0]) else "22:other-file")]

    def returned(self, holder, request, answer):
        """A return with an ordinary stateid: its status, with what decided it."""
        if request[24:32] != b"00000001" or len(request) < 104 or request[72:96] in (24 * b"0", 24 * b"f"):
            return []
        status, given, other = answer[0].decode(), int(request[64:72], 16), request[72:96]
        why = self.why(status, holder, given, other, request)
        if status == "0":
            self.held[holder] = answer[1][24:48], int(answer[1][16:24], 16)
        command = "ordinary, old record" if self.old else "ordinary"
        return [(command, f"{status}:{why}" if why else status)]

    def why(self, status, holder, given, other, request):
        held, latest = self.held.get(holder, (None, 0))
        behind = (latest - given) % 2**32
        if status == "0":
            return "zero" if given == 0 else "latest"
        if status == "10036":
            return "body" if len(request) // 2 == 52 + (int(request[96:104], 16) + 3) // 4 * 4 and held == other and (given == 0 or behind == 0) else ""
        if status == "10024":
            return {1: "1", 2**31 - 1: "2^31-1"}.get(behind, "wrapped" if given > latest else "more")
        if status == "10025" and held == other:
            return {2**31: "2^31", 2**31 + 1: "2^31+1", 2**32 - 1: "ahead"}.get(behind, "newer")
        if status == "10025":
            return self.astray(holder, held, other)
        return ""

    def astray(self, holder, held, other):
        """Why the client holds no such other on the file."""
        if (holder, other) in self.ended:
            return self.ended[holder, other]
        of = [h for h, (o, _) in self.held.items() if o == other]
        if of:
            return "other-client" if of[0][0] == holder[0] else "other-file"
        return "unknown" if held else "none"


def ordinary_totals(stateids, before, after):
    """Of a return with an ordinary stateid, answered 0, and the totals asked for right after it: whether there are any, and any of a proxy."""
    if before != ("ordinary", "0") or after[0] != "totals":
        return []
    kinds = {"bytes": total_kinds(after[1]) != ["zeros"], "proxy": total_kinds(after[1][4:]) != ["zeros"]}
    return [("ordinary, totals", kind) for kind, seen in kinds.items() if seen]


def count(script_path, output_path, counts):
    with open(script_path, "rb") as script, open(output_path, "rb") as output:
        calls, before, stateids, returned = calls_of(script), ("", [b""]), Stateids(), None
        for (call, all_words), answer in zip(calls, output):
            name, words = call.decode(errors="replace"), answer.split()
            of_stateids = stateids.keys(all_words, words)
            counts.update((keys(name, words) if name != "stateid" else []) + of_stateids + directions(before, (name, words)))
            counts.update(ordinary_totals(stateids, returned, (name, words)))
            before, returned = (name, words), next(((kind, key[:1]) for kind, key in of_stateids if key[:2] == "0:"), None)
        if next(calls, None) is not None or output.read(1):
            sys.exit(f"histogram: {output_path} does not have a line for each call of {script_path}")


def show(counts):
    for command, answers in ANSWERS.items():
        known = answers.split()
        others = sorted(key for name, key in counts if name == command and key not in known)
        print(f"    {command}: " + ", ".join(f"{key} {counts[command, key]}" for key in known + others))
    missing = [f"{command} {key}" for command, answers in ANSWERS.items() for key in answers.split() if counts[command, key] == 0]
    if missing:
        sys.exit("histogram: never answered: " + ", ".join(missing))
    if counts["directions", "differ"] < counts["directions", "agree"]:
        sys.exit("histogram: the two directions seldom differ")
    for command in ("ordinary", "ordinary, old record"):
        accepted = counts[command, "0:zero"] + counts[command, "0:latest"]
        if 5 * accepted < sum(number for (name, key), number in counts.items() if name == command and key != "10013"):
            sys.exit(f"histogram: {command}: less than a fifth of the returns out of grace is accepted")


def main():
    path, counts = sys.argv[1], Counter()
    if os.path.exists(path):
        with open(path) as saved:
            counts.update({(command, key): number for command, key, number in json.load(saved)})
    if len(sys.argv) == 2:
        show(counts)
        return
    count(sys.argv[2], sys.argv[3], counts)
    with open(path, "w") as saved:
        json.dump([(command, key, number) for (command, key), number in counts.items()], saved)


if __name__ == "__main__":
    main()
