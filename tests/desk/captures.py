#!/usr/bin/env python3
"""Makes scripts for replay from the captures, with the output that the captures themselves call for.

    captures.py NAME CAPTURE SCRIPT EXPECTED [lowest|highest|proxy]

NAME is layout-bodies, linux-layoutcommit, layoutreturn-damaged, linux-layoutreturn or ganesha-epochs. What is expected comes from the columns
that other programs wrote beside each input, never from replay or the second program. In this order: layout bodies; LAYOUTCOMMIT;
LAYOUTRETURN requests, and the report that a request leaves on a file, in grace and as an ordinary return (Ticket 13); the two LAYOUTRETURN captures;
epochs; main.
The lists are asked for with the lowest source by name; for `highest` no direction is asked for, which gives the highest. For `proxy` the file of each
report has a proxy (Ticket 7): the last of the devices that it would have as mirrors otherwise, and a fifth beside all four.
"""
import struct
import sys

FILE, OTHER_FILE, CLIENT, OTHER_CLIENT = 7, 8, 1, 2
# The word that a list is asked for with, and which of the places that are not blamed is then its source (Ticket 11).
WORD, FIRST = ("", max) if sys.argv[5:] == ["highest"] else (" lowest", min)
PROXIES = sys.argv[5:] == ["proxy"]
LETTERS = ["a0" * 15 + "01", "b0" * 15 + "02", "c0" * 15 + "03", "d0" * 15 + "04", "e0" * 15 + "05"]
PLACES, PROXY = 5, 4
# The stateid of returns that were captured with the all-zero one: seqid 0 is the latest.
SEQID, OTHER = 0, "5a" * 12


def lines_of(path):
    with open(path) as capture:
        return [line.rstrip("\n") for line in capture]


def layout_bodies(path):
    """Columns: hex, refusal number (0 accepted), place or extent count, and more that is not about document 01."""
    for line in lines_of(path):
        if line.startswith("#"):
            continue
        body, number, place = line.split()[:3]
        if number != "0":
            yield f"layout {body}", f"refused {number} at {place}"
            continue
        fields = list(struct.iter_unpack(">16sQQQI", bytes.fromhex(body)[4:]))
        assert len(fields) == int(place)
        extents = "".join(f" {offset}:{length}:{storage}:{state}" for _, offset, length, storage, state in fields)
        yield f"layout {body}", f"extents {place}{extents}"


def linux_layoutcommit(path):
    """Lines `layout BODY`, `block SIZE`, `commit LIST` and `result BODY`, in turn: what the client's extents are after the commit, merged."""
    lines = [line.split() for line in lines_of(path) if not line.startswith("#")]
    for (_, layout), (_, block), (_, commit), (_, result) in zip(*[iter(lines)] * 4, strict=True):
        room = len(result) // 2
        yield f"commit {block} 65536 {commit} {layout[8:]}", f"0 {result}"
        yield f"commit {block} {room} {commit} {layout[8:]}", f"0 {result}"
        yield f"commit {block} {room - 1} {commit} {layout[8:]}", "refused 8 at 0"
        yield f"commit {block} {room} {commit} {result[8:] or '-'}", f"0 {result}"


def said(status, stateid="00" * 16):
    """What replay prints for the answer of steps 1 to 7, given as `on` or a number; for 0 with a stateid."""
    if status == "on":
        return "handed on"
    if status == "0":
        return "0 " + "00000000" + "00000001" + stateid
    return f"{status} {int(status):08x}"


def places(mirrors, proxy):
    """Each device of a file with its place: mirrors from 0, and the proxy, if there is one, at 4."""
    return dict(zip(mirrors, range(len(mirrors)))) | ({proxy: PROXY} if proxy else {})


def source_after(mirrors, proxy, errors):
    """The resilver list's entry once this report is accepted (01, step 7), or nothing. A proxy is no source."""
    place = places(mirrors, proxy)
    known = all(device in place for device, _ in errors)
    blamed = {place[device] for device, status in errors if status != 0} if known else set()
    if known and not blamed:
        return ""
    return f"{FILE}:{FIRST(set(range(len(mirrors))) - blamed, default=255)}"


def listing(entry):
    return f"0 1 {entry}" if entry else "0 0"


NO_TOTALS = "0:0 0:0 0:0 0:0 0:0"


def total(sums):
    """A sum as it is told: at most 2^64 - 1, and flagged where it passes that."""
    return f"{min(sums, 2**64 - 1)}{'!' if sums > 2**64 - 1 else ''}"


def totals_after(mirrors, proxy, errors, statistics):
    """The totals once this report is accepted (Ticket 3)."""
    place = places(mirrors, proxy)
    if any(device not in place for device, _ in errors):
        return NO_TOTALS
    by_place = [[0, 0] for _ in range(PLACES)]
    for device, *counts in statistics:
        for k, count in enumerate(counts):
            if device in place:
                by_place[place[device]][k] += count
    return " ".join(f"{total(read)}:{total(written)}" for read, written in by_place)


def report(mirrors, proxy, request, in_grace, errors, statistics):
    """A file with these mirrors, and a proxy if it is not None, and the request in grace; in_grace is the answer of steps 1 to 5, `ok` where step 6 is reached."""
    reached = in_grace == "ok"
    yield "fresh", "0"
    yield f"register {FILE} {''.join(mirrors)}", "0"
    if proxy:
        yield f"addproxy {FILE} {proxy}", "0"
    yield f"open {FILE} {CLIENT}", "0"
    yield "restart", "0"
    yield f"layoutreturn {OTHER_FILE} {CLIENT} 24 {request}", said("70" if reached else in_grace)
    yield f"layoutreturn {FILE} {OTHER_CLIENT} 25 {request}", said("10034" if reached else in_grace)
    yield "totals", NO_TOTALS
    yield f"layoutreturn {FILE} {CLIENT} 23 {request}", "28"
    yield f"resilver 1 1{WORD}", "0 0"
    yield f"layoutreturn {FILE} {CLIENT} 24 {request}", said("0" if reached else in_grace)
    yield "totals", totals_after(mirrors, proxy, errors, statistics) if reached else NO_TOTALS
    yield f"layoutreturn {FILE} {CLIENT} 23 {request}", "28"
    yield "totals", NO_TOTALS
    entry = source_after(mirrors, proxy, errors) if reached else ""
    yield f"resilver 1 1{WORD}", listing(entry)
    yield f"offered 1 1{WORD}", "0 0"
    yield f"reclaim {FILE} {CLIENT}", "0"
    yield "end", "0"
    yield f"close {FILE} {CLIENT}", "0"
    yield f"offered 1 1{WORD}", listing(entry)
    if proxy:
        yield f"removeproxy {FILE}", "0"
        yield f"offered 1 1{WORD}", listing(entry)


def with_stateid(request, stateid):
    return request[:64] + stateid + request[96:]


def raised(other, seqid):
    """Empty returns that raise a stateid's seqid from 1 to this one."""
    for k in range(1, seqid):
        stateid, after = f"{k:08x}{other}", f"{k + 1:08x}{other}"
        yield f"layoutreturn {FILE} {CLIENT} 24 {'0000000000000004000000030000000100000000000000000000000000000000' + stateid + '00000008' + 16 * '0'}", said("0", after)


def ordinary(mirrors, proxy, request, body, errors, statistics, edition=""):
    """The same file, and the request with its own stateid out of grace, or with another one if that is the all-zero one; body is `ok` or step 5's refusal."""
    if kind(request[64:96]) != "ordinary":
        request = with_stateid(request, f"{SEQID:08x}{OTHER}")
    seqid, other = int(request[64:72], 16), request[72:96]
    latest = seqid if 1 < seqid < 100 else 1
    known = seqid in (0, latest)
    status = ("0" if body == "ok" else body) if known else "10024"
    counted = status == "0" and edition == ""
    yield f"fresh{edition}", "0"
    yield f"register {FILE} {''.join(mirrors)}", "0"
    if proxy:
        yield f"addproxy {FILE} {proxy}", "0"
    yield f"open {FILE} {CLIENT}", "0"
    yield f"open {FILE} {OTHER_CLIENT}", "0"
    yield f"layoutreturn {FILE} {CLIENT} 24 {request}", said("10025")
    yield f"stateid {FILE} {CLIENT} {other}", "0"
    yield f"stateid {FILE} {OTHER_CLIENT} {other}", "22"
    yield f"layoutreturn {OTHER_FILE} {CLIENT} 24 {request}", said("70")
    yield f"layoutreturn {FILE} {OTHER_CLIENT} 25 {request}", said("10025")
    yield from raised(other, latest)
    yield f"layoutreturn {FILE} {CLIENT} 24 {with_stateid(request, f'{latest + 1:08x}{other}')}", said("10025")
    yield f"layoutreturn {FILE} {CLIENT} 23 {request}", "28"
    yield f"resilver 1 1{WORD}", "0 0"
    yield f"layoutreturn {FILE} {CLIENT} 24 {request}", said(status, f"{latest + 1:08x}{other}")
    yield "totals", totals_after(mirrors, proxy, errors, statistics) if counted else NO_TOTALS
    if status == "0":
        yield f"layoutreturn {FILE} {CLIENT} 24 {with_stateid(request, f'{latest:08x}{other}')}", said("10024")
        yield "totals", NO_TOTALS
    entry = source_after(mirrors, proxy, errors) if counted else ""
    yield f"resilver 1 1{WORD}", listing(entry)
    yield f"close {FILE} {CLIENT}", "0"
    yield f"offered 1 1{WORD}", "0 0"
    yield f"close {FILE} {OTHER_CLIENT}", "0"
    yield f"offered 1 1{WORD}", listing(entry)
    yield f"open {FILE} {CLIENT}", "0"
    yield f"layoutreturn {FILE} {CLIENT} 24 {request}", said("10025")


def copies(devices):
    """These devices as the mirrors and the proxy of a file: up to four mirrors, and a proxy or None."""
    return (devices[:-1], devices[-1]) if PROXIES and len(devices) > 1 else (devices[:4], None)


def layoutreturn(request, in_grace, out_of_grace, body, errors, statistics):
    """One request out of grace, then in grace with the letters' mirrors, and with the first four or, with a proxy, five devices that it names; and with all
    of these as an ordinary return, where step 5's answer to its body is known."""
    yield "fresh", "0"
    yield f"register {FILE} {LETTERS[0]}", "0"
    yield f"request {request}", asked(request, out_of_grace)
    yield f"layoutreturn {FILE} {CLIENT} 24 {request}", said(out_of_grace)
    yield "totals", NO_TOTALS
    named = list(dict.fromkeys([device for device, _ in errors] + [device for device, _, _ in statistics]))[: PLACES if PROXIES else 4]
    for devices in [LETTERS] + ([named, named[::-1]] if named else []):
        yield from report(*copies(devices), request, in_grace, errors, statistics)
        if body:
            yield from ordinary(*copies(devices), request, body, errors, statistics)
    if body:
        yield from ordinary(*copies(LETTERS), request, body, errors, statistics, " old")


def device_errors(column):
    """`device:status` or `device:status:operation`, with commas between; `-` for none."""
    entries = [] if column == "-" else [entry.split(":") for entry in column.split(",")]
    return [(entry[0], int(entry[1])) for entry in entries]


def statistics_records(column):
    """`device:read:written`, with commas between; `-` for none."""
    entries = [] if column == "-" else [entry.split(":") for entry in column.split(",")]
    return [(entry[0], int(entry[1]), int(entry[2])) for entry in entries]


def kind(stateid):
    """The kind of a stateid, of which these are the hex digits (RFC 8881, 8.2.3; Ticket 6)."""
    seqid, other = stateid[:8], stateid[8:]
    if other == 12 * "00":
        return {"00000000": "anonymous", "00000001": "current"}.get(seqid, "invalid")
    if other == 12 * "ff":
        return "bypass" if seqid == "ffffffff" else "invalid"
    return "ordinary"


def by_kind(request, out_of_grace):
    """The answer out of grace, where no stateid is set up: of the file returns that were handed on, those with the bypass or an invalid stateid are refused
    since Ticket 6, and those with an ordinary one since Ticket 13."""
    one_file = request[24:32] == "00000001"
    return "10025" if out_of_grace == "on" and one_file and kind(request[64:96]) != "current" else out_of_grace


def asked(request, out_of_grace):
    """What `request` prints, from the answer out of grace: a refusal of step 1 or 2, or the kind and where the body lies."""
    if out_of_grace in ("10036", "10062", "10049"):
        return "refused " + out_of_grace
    if request[24:32] != "00000001":
        return "handed on"
    return f"{kind(request[64:96])} 52 {int(request[96:104], 16)}"


def layoutreturn_damaged(path):
    """Columns: hex, answer of steps 1 to 5 before Ticket 3, the same out of grace before Ticket 6, that in grace with statistics read, errors, statistics."""
    for line in lines_of(path):
        if line.startswith("#"):
            continue
        request, _, out_of_grace, in_grace, errors, statistics = line.split()
        body = in_grace if in_grace == "ok" or (in_grace, out_of_grace) == ("10036", "10033") else None
        yield from layoutreturn(request, in_grace, by_kind(request, out_of_grace), body, device_errors(errors), statistics_records(statistics))


def answers(head, stateid, body):
    """The answers of steps 1 to 5 in and out of grace, for a request of which an rpcgen reader gave these fields."""
    _, layout_type, iomode, return_type = (int(number) for number in head.split())
    assert return_type == 1 and 1 <= iomode <= 3
    if layout_type != 4:
        return "10062", "10062"
    if kind(stateid.replace(":", "")) != "anonymous":
        return "10013", "on" if kind(stateid.replace(":", "")) == "current" else "10025"
    if body == "malformed":
        return "10036", "10033"
    return "ok", "10033"


def linux_layoutreturn(path):
    """Lines `= reclaim type iomode returntype | stateid | length | body .. | errors .. | stats ..`, each with the request after it."""
    fields = None
    for line in lines_of(path):
        if line.startswith("="):
            fields = [part.strip() for part in line[1:].split("|")]
        elif not line.startswith("#"):
            head, stateid, _, body, errors, statistics = fields
            in_grace, out_of_grace = answers(head, stateid, body.split()[1])
            form = None if in_grace == "10062" else "ok" if body.split()[1] == "ok" else "10036"
            yield from layoutreturn(line, in_grace, out_of_grace, form, device_errors(errors.split()[1]), statistics_records(statistics.split()[1]))


def may(node, recovery, need, enforcing, members):
    """May reclaim, from the epochs that the other program left."""
    every = int(members, 16) & ~int(enforcing, 16) == 0
    return "yes" if recovery != "0" and int(need, 16) >> node & 1 and every else "no"


def ganesha_epochs(path):
    """Lines `script N`, which begins fresh, and `call node answer C R need enforcing members`."""
    for line in lines_of(path):
        if line.startswith("#"):
            continue
        if line.startswith("script"):
            yield "fresh", "0"
            continue
        call, node, answer, current, recovery, need, enforcing, members = line.split()
        yield f"{call} {node}", answer
        yield "epochs", f"{current} {recovery} {members} {need} {enforcing}"
        for n in (int(node), 0, 31):
            yield f"may {n}", may(n, recovery, need, enforcing, members)


CAPTURES = {
    "layout-bodies": layout_bodies,
    "linux-layoutcommit": linux_layoutcommit,
    "layoutreturn-damaged": layoutreturn_damaged,
    "linux-layoutreturn": linux_layoutreturn,
    "ganesha-epochs": ganesha_epochs,
}


def main():
    name, capture, script, expected = sys.argv[1:5]
    with open(script, "w") as calls, open(expected, "w") as answers_file:
        for call, answer in CAPTURES[name](capture):
            calls.write(call + "\n")
            answers_file.write(answer + "\n")


if __name__ == "__main__":
    main()
