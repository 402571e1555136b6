#!/usr/bin/env python3
"""Writes the call log that `./run` replays, and what must be printed of it.

    python3 samples/calls.py            writes crates/replay/stdin and crates/replay/stdout
    python3 samples/calls.py --check    says whether they are what it would write
    python3 samples/calls.py --list     prints the cases, each beside what it shows

Every expected line is worked out here from document 01: the replies are built from its layouts, and each answer stands beside its call. Last come generated calls with the lines
that an independent responder gives them, kept in samples/generated.log and .txt; `compare/run log 1 3000 samples/generated.log samples/generated.txt` writes these.
"""
import os
import sys

TOP = os.path.dirname(os.path.dirname(os.path.abspath(__file__)))

# ---- Frames, by document 01's layouts --------------------------------------------------------------------------------


def le(width, number):
    return number.to_bytes(width, "little")


def header(transaction, status=0, algorithm=7):
    return le(2, algorithm) + le(2, transaction) + le(2, status)


def element(kind, content):
    return bytes([kind, len(content)]) + content


def suite(kind, selector=b"\x00\x0f\xac"):
    return selector + bytes([kind])


def rsne(akms, ciphers, pmkids=(), group=7, management=7, capabilities=0x00C0, version=1, tail=b""):
    """Suites are given by their type, or as four octets of their own."""
    own = lambda s: suite(s) if isinstance(s, int) else s
    content = le(2, version) + own(group)
    content += le(2, len(ciphers)) + b"".join(map(own, ciphers))
    content += le(2, len(akms)) + b"".join(map(own, akms))
    content += le(2, capabilities) + le(2, len(pmkids)) + b"".join(pmkids) + own(management) + tail
    return element(48, content)


def timeout(seconds, kind=2):
    return element(56, bytes([kind]) + le(4, seconds))


def parameters(key, group=19, form=0, control=2, cookie=b"", tail=b""):
    content = bytes([100, control, form])
    if control & 1:
        content += bytes([len(cookie)]) + cookie
    if control & 2:
        content += le(2, group) + bytes([len(key)]) + key
    return element(255, content + tail)


def mic_element(octets):
    return element(140, octets)


WRAPPED = element(255, b"\x08wrapped")
FRAGMENT = element(242, b"more")


def first(akm=8, cipher=4, pmkids=None, key=None, seconds=None, **rsne_words):
    """A first frame that the rules accept, by the settings and the cache of the cases."""
    pmkids = [PMKID[akm]] if pmkids is None and akm != 21 else (pmkids or [])
    body = header(1) + rsne([akm], [cipher], pmkids, **rsne_words)
    if seconds is not None:
        body += timeout(seconds)
    return body + parameters(STATION_KEY if key is None else key)


def third(octets, status=0):
    return header(3, status) + element(255, bytes([100, 0, 0])) + mic_element(octets)


def second(akm, cipher, seconds, key, pmkid=None):
    """The second frame as document 01 has it written."""
    return (
        header(2)
        + rsne([akm], [cipher], [pmkid] if pmkid else [])
        + timeout(seconds)
        + parameters(key)
        + mic_element(bytes(16))
    )


def padded(body, length):
    """The body with elements of an unknown ID behind it, so that it has so many octets."""
    while length - len(body) > 257:
        body += element(200, bytes(253))
    return body + element(200, bytes(length - len(body) - 2))


def in_tu(seconds):
    return seconds * 15625 // 16


# ---- What the cases share --------------------------------------------------------------------------------------------

STATION_KEY = b"\x03" + bytes([0x51]) * 32
STATION_KEY_65 = b"\x04" + bytes([0x52]) * 64
OWN_KEY = b"\x02" + bytes([0x11]) * 32
OWN_KEY_65 = b"\x04" + bytes([0x22]) * 64
PMKID = {akm: bytes([0xA0 + akm]) * 16 for akm in (5, 6, 8)}
MIC = bytes(range(16))
FAR = 1 << 40
ALL_CIPHERS = 0b1111
CIPHER_FLAG = {4: 1, 8: 2, 9: 4, 10: 8}
LIFETIME, DEADLINE = 3600, 1000


# what is in force before the first record of each tag
NOTHING_SET_UP = {1: bytes(10), 2: b"", 3: b"\0", 4: b"", 5: b"", 6: le(2, 148)}


def train(n):
    return b"\x02\x00\x00\x00\x00" + bytes([n])


def record(pmkid, akm, end):
    return b"\x31" + le(2, 25) + pmkid + bytes([akm]) + le(8, end)


CACHE = b"".join(record(PMKID[akm], akm, FAR) for akm in (5, 6, 8))


# ---- The log and its lines -------------------------------------------------------------------------------------------


class Log:
    def __init__(self):
        self.octets, self.lines, self.cases = b"", [], []
        self.in_force = {}
        self.counted = 0

    def put(self, tag, value):
        self.octets += bytes([tag]) + le(2, len(value)) + value

    def set_up(self, tag, value):
        if self.in_force.get(tag) != value:
            self.in_force[tag] = value
            self.put(tag, value)

    def case(self, shows):
        """A case starts from the empty table and the set-up that most cases have."""
        self.cases.append(shows)
        self.put(22, b"")
        self.lines.append("empty")
        self.settings()
        self.cache(CACHE)
        self.point(True)
        self.own_key(OWN_KEY)
        self.mic(MIC)
        self.room(148)

    def settings(self, pmkless=True, ciphers=ALL_CIPHERS, seconds=LIFETIME, deadline=DEADLINE):
        self.set_up(1, bytes([pmkless, ciphers]) + le(4, seconds) + le(4, deadline))

    def cache(self, file):
        self.set_up(2, file)

    def point(self, is_valid):
        self.set_up(3, bytes([is_valid]))

    def own_key(self, key):
        self.set_up(4, key)

    def mic(self, octets):
        self.set_up(5, octets)

    def room(self, octets):
        self.set_up(6, le(2, octets))

    def receive(self, at, who, body, answer, status="-", reply=b""):
        self.put(16, le(8, at) + who + body)
        self.lines.append(f"receive {answer} {status} {len(reply)} {reply.hex() or '-'}")
        self.counted += answer == 15

    def refused(self, at, who, body, status):
        self.receive(at, who, body, 11, status, header(2, status))

    def accepted(self, at, who, body, reply):
        self.receive(at, who, body, 0, reply=reply)

    def look(self, at, who, answer, shown=""):
        self.put(17, le(8, at) + who)
        self.lines.append(f"look {answer}{shown}")

    def waiting(self, at, who, deadline, akm=8, cipher=4, pmkid=None, seconds=LIFETIME):
        self.look(at, who, 18, shown("waiting", cipher, akm, pmkid, seconds, deadline))

    def installed(self, at, who, end, akm=8, cipher=4, pmkid=None, seconds=LIFETIME):
        self.look(at, who, 18, shown("installed", cipher, akm, pmkid, seconds, end))

    def remove(self, at, who, answer):
        self.put(18, le(8, at) + who)
        self.lines.append(f"remove {answer}")

    def key(self, body, key):
        self.put(19, body)
        self.lines.append(f"key {key.hex() or '-'}")

    def zero(self, room, body, answer, output=b""):
        self.put(20, le(2, room) + body)
        self.lines.append(f"zero {answer} {output.hex() or '-'}")

    def set(self, body, answer, output=b""):
        self.put(21, body)
        self.lines.append(f"set {answer} {output.hex() or '-'}")

    def text(self):
        return "\n".join(self.lines + [f"counted {self.counted}"]) + "\n"


def shown(phase, cipher, akm, pmkid, seconds, time):
    return f" {phase} {cipher} {akm} {pmkid.hex() if pmkid else '-'} {seconds} {time}"


# ---- The cases -------------------------------------------------------------------------------------------------------


def before_any_set_up(log):
    log.cases.append("before the first set-up record: settings out of range (3), and the empty table shows nobody")
    log.receive(0, train(1), first(), 3)
    log.look(5, train(1), 17)


def exchanges(log):
    log.case("an exchange for each AKM and cipher, with both key lengths: 0, the second frame, 15, and the record at each point")
    now = 0
    for akm in (5, 6, 8, 21):
        for cipher in (4, 8, 9, 10):
            who, now = train(1), now + 10
            pmkid = PMKID.get(akm)
            log.own_key(OWN_KEY_65 if cipher in (8, 10) else OWN_KEY)
            own = OWN_KEY_65 if cipher in (8, 10) else OWN_KEY
            log.accepted(now, who, first(akm, cipher), second(akm, cipher, LIFETIME, own, pmkid))
            log.waiting(now, who, now + DEADLINE, akm, cipher, pmkid)
            log.receive(now + 1, who, third(MIC), 15)
            log.installed(now + 1, who, now + 1 + in_tu(LIFETIME), akm, cipher, pmkid)
            log.remove(now + 2, who, 16)
            log.look(now + 2, who, 17)


def lengths(log):
    log.case("a second frame has 100 octets with a key of 33 and no PMKID, 148 with a key of 65 and one (P6)")
    short = second(21, 4, LIFETIME, OWN_KEY)
    long = second(8, 4, LIFETIME, OWN_KEY_65, PMKID[8])
    assert (len(short), len(long)) == (100, 148)
    log.accepted(1, train(1), first(21), short)
    log.own_key(OWN_KEY_65)
    log.accepted(1, train(2), first(8, key=STATION_KEY_65), long)


def hostap(log):
    log.case("exchanges of a hostap station: its frames are read, and the MIC it was sent is set and zeroed")
    now = 100
    with open(os.path.join(TOP, "samples", "hostap.txt"), encoding="ascii") as lines:
        text = "".join(line for line in lines if not line.startswith("#"))
    for block in text.strip().split("\n\n"):
        words = dict(line.split() for line in block.splitlines())
        octets = {name: bytes.fromhex(word) for name, word in words.items() if name not in ("akm", "cipher", "lifetime", "pmkid")}
        akm, cipher, seconds = int(words["akm"]), int(words["cipher"]), int(words["lifetime"])
        pmkid = None if words["pmkid"] == "-" else bytes.fromhex(words["pmkid"])
        who = octets["station"]
        log.settings(seconds=86400)
        log.own_key(octets["key"])
        log.cache(record(pmkid, akm, FAR) if pmkid else b"")
        reply = second(akm, cipher, seconds, octets["key"], pmkid)
        # the station's key stands in PASN Parameters, behind its group and length
        at = octets["first"].index(bytes([100, 2, 0, 19, 0])) + 5
        log.key(octets["first"], octets["first"][at + 1 : at + 1 + octets["first"][at]])
        log.accepted(now, who, octets["first"], reply)
        log.mic(octets["mic2"])
        log.set(reply, 19, reply[:-16] + octets["mic2"])
        log.zero(1024, reply[:-16] + octets["mic2"], 19, reply)
        log.mic(octets["mic3"])
        log.receive(now + 1, who, octets["third"], 15)
        log.installed(now + 1, who, now + 1 + in_tu(seconds), akm, cipher, pmkid, seconds)
        log.remove(now + 2, who, 16)
        now += 10


def eleven_steps(log):
    log.case("the steps in their order: a frame wrong at each of them is put right one by one, 40, 1, 41, 42, 43, 45, 77, 40, 1, 53, then 0")
    who, other = train(1), bytes([0x77]) * 16
    log.point(False)

    def frame(form=2, wrapped=WRAPPED, group=8, cipher=5, akm=9, capabilities=0, dh=20, key=b"", pmkids=(other,)):
        return header(1) + rsne([akm], [cipher], pmkids, group, capabilities=capabilities) + parameters(key, dh, form) + wrapped

    right = {}
    for status, repair in [
        (40, {"wrapped": b""}),
        (1, {"wrapped": WRAPPED}),
        (41, {"form": 0, "wrapped": b""}),
        (42, {"group": 7}),
        (43, {"cipher": 4}),
        (45, {"akm": 8}),
        (77, {"capabilities": 0x00C0}),
        (40, {"dh": 19}),
        (1, {"key": STATION_KEY}),
    ]:
        right.update(repair)
        log.refused(1, who, frame(**right), status)
    log.point(True)
    log.refused(1, who, frame(**right), 53)
    right["pmkids"] = (PMKID[8],)
    log.accepted(1, who, frame(**right), second(8, 4, LIFETIME, OWN_KEY, PMKID[8]))


def ill_formed(log):
    log.case("each way to be ill-formed is 40, and what is ignored is not")
    who, good = train(1), first(8)
    parts = [rsne([8], [4], [PMKID[8]]), parameters(STATION_KEY)]
    reply = second(8, 4, LIFETIME, OWN_KEY, PMKID[8])
    for body in [
        good + b"\x00",  # a single octet left over
        good + b"\x38\x05\x02",  # an element past the end
        good + b"\xff\x00",  # ID 255 of length 0
        good + FRAGMENT,
        good + parts[0],  # RSNE twice
        good + parts[1],  # PASN Parameters twice
        good + timeout(5) + timeout(5),
        good + WRAPPED,  # wrapped, with format 0
        header(1) + parts[0],  # no PASN Parameters
        header(1) + parts[1],  # no RSNE
        header(1) + rsne([8], [4], [PMKID[8]], version=2) + parts[1],
        header(1) + rsne([8], [4], [PMKID[8]], tail=b"\x00") + parts[1],
        good + timeout(5, kind=3),
        good + element(56, b"\x02\x05\x00\x00"),
        header(1) + parts[0] + parameters(STATION_KEY, tail=b"\x00"),
        header(1) + parts[0] + parameters(STATION_KEY, form=4) + WRAPPED,
        header(1) + parts[0] + parameters(STATION_KEY, form=3),  # nothing wrapped
        header(1) + parts[0] + parameters(STATION_KEY, control=0),  # B1 clear
        header(1) + parts[0] + parameters(STATION_KEY[:-1]),  # a key of 32
        header(1) + parts[0] + parameters(b"\x04" + STATION_KEY[1:]),  # of 33, and begins with 4
        header(1) + parts[0] + parameters(b"\x02" + STATION_KEY_65[1:]),  # of 65, and begins with 2
    ]:
        log.refused(1, who, body, 40)
    for body in [
        header(1, status=99) + parts[0] + parts[1],  # the status of a first frame
        good + mic_element(b"") + mic_element(bytes(200)),
        header(1) + parts[1] + element(200, b"") + parts[0],  # another order, and an unknown element
        header(1) + parts[0] + parameters(STATION_KEY, control=0xFF, cookie=b"cookie"),
    ]:
        log.accepted(1, who, body, reply)


def suites(log):
    log.case("not exactly one suite, one that is not allowed, one of another selector: 41, 42, 43; bits of the capabilities: 45; group 20: 77")
    who, other = train(1), suite(4, b"\x00\x0f\xad")
    params = parameters(STATION_KEY)
    for status, element_ in [
        (41, rsne([8], [4], group=4)),
        (41, rsne([8], [4], management=6)),
        (41, rsne([8], [4], group=suite(7, b"\x00\x50\xf2"))),
        (42, rsne([8], [])),
        (42, rsne([8], [4, 8])),
        (42, rsne([8], [4, other])),
        (42, rsne([8], [other])),
        (42, rsne([8], [2])),
        (43, rsne([], [4])),
        (43, rsne([8, 6], [4])),
        (43, rsne([suite(8, b"\x00\x0f\xad")], [4])),
        (43, rsne([9], [4])),
        (45, rsne([8], [4], capabilities=0x0040)),
        (45, rsne([8], [4], capabilities=0x0080)),
        (45, rsne([8], [4], capabilities=0x00C2)),
        (53, rsne([8], [4], capabilities=0xFFFD)),
    ]:
        log.refused(1, who, header(1) + element_ + params, status)
    log.refused(1, who, header(1) + rsne([8], [4]) + parameters(STATION_KEY, group=20), 77)
    for cipher, flag in CIPHER_FLAG.items():
        log.settings(ciphers=ALL_CIPHERS - flag)
        log.refused(1, who, first(8, cipher), 42)
        log.settings(ciphers=flag | 0xF0)
        log.accepted(1, who, first(8, cipher), second(8, cipher, LIFETIME, OWN_KEY, PMKID[8]))
    log.settings(pmkless=False)
    log.refused(1, who, first(21), 43)


def pmkids(log):
    log.case("the PMKID chosen: the first of the frame's list that the cache has under that AKM with an end later than now; with AKM 21 none may be listed")
    who, stale, unknown = train(1), bytes([1]) * 16, bytes([2]) * 16
    log.cache(record(stale, 8, 50) + record(PMKID[6], 8, FAR) + record(PMKID[8], 8, FAR))
    log.accepted(49, who, first(8, pmkids=[unknown, stale]), second(8, 4, LIFETIME, OWN_KEY, stale))
    log.refused(50, who, first(8, pmkids=[stale]), 53)
    log.accepted(50, who, first(8, pmkids=[stale, PMKID[8], PMKID[6]]), second(8, 4, LIFETIME, OWN_KEY, PMKID[8]))
    log.waiting(50, who, 50 + DEADLINE, pmkid=PMKID[8])
    log.refused(51, who, first(8, pmkids=[]), 53)
    log.refused(51, who, first(21, pmkids=[PMKID[8]]), 53)
    many = [bytes([i]) * 16 for i in range(100, 113)] + [PMKID[8]]
    log.accepted(51, who, first(8, pmkids=many), second(8, 4, LIFETIME, OWN_KEY, PMKID[8]))


def other_akm(log):
    log.case("version three's fault: a PMKID cached under AKM 6, and the frame says 8: 53; it says 6: 0 (P9)")
    log.cache(record(PMKID[6], 6, FAR))
    log.refused(1, train(1), first(8, pmkids=[PMKID[6]]), 53)
    log.look(1, train(1), 17)
    log.accepted(1, train(1), first(6), second(6, 4, LIFETIME, OWN_KEY, PMKID[6]))


def no_third(log):
    log.case("version one's fault: a second frame without a third counts nobody, and the record is gone at its deadline (P4)")
    log.accepted(10, train(1), first(8), second(8, 4, LIFETIME, OWN_KEY, PMKID[8]))
    log.waiting(10, train(1), 1010, pmkid=PMKID[8])
    log.waiting(1009, train(1), 1010, pmkid=PMKID[8])
    log.look(1010, train(1), 17)
    log.receive(1010, train(1), third(MIC), 13)
    log.remove(1010, train(1), 17)


def two_trains(log):
    log.case("version two's fault: two trains at two platforms, calls mixed; a bad frame of one leaves the other's record")
    reply = second(8, 4, LIFETIME, OWN_KEY, PMKID[8])
    east, west = train(1), train(2)
    log.accepted(1, east, first(8), reply)
    log.accepted(2, west, first(8), reply)
    log.receive(3, east, third(bytes(16)), 14)
    log.look(3, east, 17)
    log.waiting(3, west, 1002, pmkid=PMKID[8])
    log.accepted(4, east, first(8), reply)
    log.receive(5, west, third(MIC), 15)
    log.refused(6, east, header(1), 40)
    log.receive(7, east, header(1, algorithm=0), 8)
    log.installed(8, west, 5 + in_tu(LIFETIME), pmkid=PMKID[8])
    log.look(8, east, 17)
    log.remove(9, east, 17)
    log.installed(9, west, 5 + in_tu(LIFETIME), pmkid=PMKID[8])


def shortcuts(log):
    reply = second(8, 4, LIFETIME, OWN_KEY, PMKID[8])
    end = 2 + in_tu(LIFETIME)
    log.case("shortcut 1, installing when the second frame goes out: the record waits, and only the third counts")
    log.accepted(1, train(1), first(8), reply)
    log.waiting(1, train(1), 1001, pmkid=PMKID[8])
    log.receive(2, train(1), third(MIC), 15)
    log.installed(2, train(1), end, pmkid=PMKID[8])
    log.case("shortcut 2, the PMKID without its AKM: one cached under 5 does not serve 6")
    log.refused(1, train(1), first(6, pmkids=[PMKID[5]]), 53)
    log.case("shortcut 3, a repeated third frame as a failure: 15, then 13, and the key stays (P10); so does it after a bad one")
    log.accepted(1, train(1), first(8), reply)
    log.receive(2, train(1), third(MIC), 15)
    log.receive(3, train(1), third(MIC), 13)
    log.receive(4, train(1), third(bytes(16)), 13)
    log.receive(5, train(1), third(MIC, status=1), 13)
    log.installed(5, train(1), end, pmkid=PMKID[8])
    log.case("shortcut 4, a first frame that displaces an installed key: 10, whatever the frame holds, and the key stays")
    log.accepted(1, train(1), first(8), reply)
    log.receive(2, train(1), third(MIC), 15)
    log.receive(3, train(1), first(8), 10)
    log.receive(3, train(1), header(1), 10)
    log.receive(4, train(1), header(1, algorithm=1), 8)
    log.installed(4, train(1), end, pmkid=PMKID[8])
    log.case("shortcut 5, seconds rounded up: a key of 1 s is held for 976 TU (P1)")
    log.settings(seconds=1)
    log.accepted(1, train(1), first(8), second(8, 4, 1, OWN_KEY, PMKID[8]))
    log.receive(2, train(1), third(MIC), 15)
    log.installed(977, train(1), 978, pmkid=PMKID[8], seconds=1)
    log.look(978, train(1), 17)
    log.accepted(978, train(1), first(8), second(8, 4, 1, OWN_KEY, PMKID[8]))


def lifetimes(log):
    log.case("the smaller lifetime of the settings' and the frame's; 0 in a Timeout is 40; 16 s and a day in TU (P2, P3)")
    log.refused(1, train(1), first(8, seconds=0), 40)
    log.accepted(1, train(1), first(8, seconds=1), second(8, 4, 1, OWN_KEY, PMKID[8]))
    log.accepted(1, train(1), first(8, seconds=16), second(8, 4, 16, OWN_KEY, PMKID[8]))
    log.receive(1, train(1), third(MIC), 15)
    log.installed(1, train(1), 1 + 15625, pmkid=PMKID[8], seconds=16)
    log.accepted(1, train(2), first(8, seconds=LIFETIME + 1), second(8, 4, LIFETIME, OWN_KEY, PMKID[8]))
    log.settings(seconds=86400)
    log.accepted(1, train(3), first(8, seconds=0xFFFFFFFF), second(8, 4, 86400, OWN_KEY, PMKID[8]))
    log.receive(1, train(3), third(MIC), 15)
    log.installed(1, train(3), 1 + 84375000, pmkid=PMKID[8], seconds=86400)


def body_lengths(log):
    log.case("a body of 5 octets is 7, of 6 is read; of 1,024 is read, of 1,025 is 7")
    reply = second(8, 4, LIFETIME, OWN_KEY, PMKID[8])
    log.receive(1, train(1), b"", 7)
    log.receive(1, train(1), header(1)[:5], 7)
    log.refused(1, train(1), header(1), 40)
    log.accepted(1, train(1), padded(first(8), 1024), reply)
    log.receive(1, train(1), padded(first(8), 1025), 7)
    log.waiting(1, train(1), 1001, pmkid=PMKID[8])
    log.receive(2, train(1), padded(third(MIC), 1024), 15)
    log.receive(2, train(1), bytes(4096), 7)


def cache_lengths(log):
    log.case("a cache of 64 records is searched to its last, one of 65 is 5; so is any other tag, length or tail")
    fill = b"".join(record(bytes([i]) * 16, 8, FAR) for i in range(63))
    log.cache(fill + record(PMKID[8], 8, FAR))
    log.accepted(1, train(1), first(8), second(8, 4, LIFETIME, OWN_KEY, PMKID[8]))
    for file in [
        fill + record(PMKID[8], 8, FAR) * 2,
        CACHE[:-1],
        CACHE + b"\x31",
        b"\x32" + CACHE[1:],
        b"\x31\x1a\x00" + CACHE[3:],
        bytes(40000),
    ]:
        log.cache(file)
        log.receive(1, train(1), third(MIC), 5)
    log.cache(b"")
    log.receive(1, train(1), third(MIC), 15)


def seventeen(log):
    log.case("sixteen peers and one: the 17th gets 30 and changes nobody, until a place is free; a waiting one of the sixteen is replaced")
    reply = second(8, 4, LIFETIME, OWN_KEY, PMKID[8])
    for n in range(16):
        log.accepted(10 + n, train(n), first(8), reply)
    log.refused(26, train(16), first(8), 30)
    log.refused(26, train(16), header(1), 40)
    log.accepted(27, train(15), first(8), reply)
    for n in range(1, 15):
        log.waiting(27, train(n), 10 + n + DEADLINE, pmkid=PMKID[8])
    log.receive(28, train(15), third(MIC), 15)
    log.refused(1009, train(16), first(8), 30)
    log.accepted(1010, train(16), first(8), reply)
    log.look(1010, train(0), 17)
    log.refused(1010, train(0), first(8), 30)
    log.remove(1010, train(5), 16)
    log.accepted(1010, train(0), first(8), reply)
    log.installed(1010, train(15), 28 + in_tu(LIFETIME), pmkid=PMKID[8])


def checks(log):
    log.case("the checks 1 to 5 come first, in their order, and leave the latest reading as it was")
    who, group = train(1), b"\x01\x00\x00\x00\x00\x01"
    log.room(147)
    log.settings(seconds=0)
    log.cache(b"\x00")
    log.receive((1 << 48) + 1, group, b"", 1)
    log.receive(50, group, b"", 2)
    log.room(148)
    log.receive(40, group, b"", 3)
    log.settings()
    log.receive(30, group, b"", 4)
    log.receive(20, who, b"", 5)
    log.cache(CACHE)
    log.receive(10, who, b"", 7)
    log.receive(9, who, first(8), 1)
    log.look(9, who, 1)
    log.remove(9, who, 1)
    log.look(60, who, 17)
    log.receive(10, who, header(2), 9)
    log.remove(11, who, 17)
    log.receive(10, who, header(2), 1)
    log.remove(12, group, 4)
    log.look(12, group, 4)
    log.receive(11, who, header(5), 9)
    log.receive(1 << 48, who, header(5), 9)
    log.look((1 << 48) + 1, who, 1)
    log.remove((1 << 48) + 1, who, 1)


def settings_edges(log):
    log.case("settings at their ends: a lifetime of 1 to 86,400 s, a deadline of 1 to 10,000 TU, else 3")
    for seconds, deadline, answer in [(0, 1, 3), (86401, 1, 3), (1, 0, 3), (1, 10001, 3), (1, 1, 9), (86400, 10000, 9)]:
        log.settings(seconds=seconds, deadline=deadline)
        log.receive(1, train(1), header(2), answer)
    log.room(0)
    log.receive(1, train(1), header(2), 2)


def own_key(log):
    log.case("an own key that is not of the group: 6, after every refusal, and all stays as it was")
    reply = second(8, 4, LIFETIME, OWN_KEY, PMKID[8])
    log.accepted(1, train(1), first(8), reply)
    for key in [b"", OWN_KEY[:-1], b"\x04" + OWN_KEY[1:], b"\x02" + OWN_KEY_65[1:], bytes(255)]:
        log.own_key(key)
        log.receive(2, train(1), first(8, 9), 6)
        log.refused(2, train(2), first(8, 5), 42)
    log.waiting(2, train(1), 1001, pmkid=PMKID[8])
    log.look(2, train(2), 17)


def what_goes(log):
    log.case("what ends an exchange: a refusal, another algorithm, a third frame with a status or refused, a removal; what does not: 9, 7, 2")
    reply = second(8, 4, LIFETIME, OWN_KEY, PMKID[8])
    bad_thirds = [
        third(MIC) + FRAGMENT,
        third(MIC) + WRAPPED,
        third(MIC) + b"\x00",
        third(MIC) + mic_element(MIC),
        third(MIC[:15]),
        third(bytes(16)),
        header(3) + mic_element(MIC),
        header(3) + element(255, bytes([100, 0, 0])),
        header(3) + parameters(STATION_KEY) + mic_element(MIC),
        header(3) + element(255, bytes([100, 0, 1])) + mic_element(MIC),
        third(MIC) + element(255, bytes([100, 0, 0])),
    ]
    ends = [(first(21, 5), 11, 42, header(2, 42)), (header(3, algorithm=3), 8, "-", b""), (third(MIC, 1), 12, "-", b"")]
    ends += [(body, 14, "-", b"") for body in bad_thirds]
    for body, answer, status, octets in ends:
        log.accepted(1, train(1), first(8), reply)
        log.receive(1, train(1), header(4), 9)
        log.receive(1, train(1), header(3)[:5], 7)
        log.waiting(1, train(1), 1001, pmkid=PMKID[8])
        log.receive(1, train(1), body, answer, status, octets)
        log.look(1, train(1), 17)
    log.accepted(1, train(1), first(8), reply)
    log.remove(1, train(1), 16)
    log.receive(1, train(1), third(MIC), 13)
    log.accepted(1, train(1), first(8), reply)
    log.mic(MIC + b"\x00")
    log.receive(1, train(1), third(MIC), 14)
    log.mic(MIC)
    log.accepted(1, train(1), first(8), reply)
    log.receive(1, train(1), rsne([8], [4]).join([header(3), third(MIC)[6:]]) + timeout(0), 15)


def group_bit(log):
    log.case("an address whose first octet is 01 is a group's: 4; one of 02 is not (P8)")
    log.receive(1, b"\x01" + train(1)[1:], first(8), 4)
    log.accepted(1, b"\x02" + train(1)[1:], first(8), second(8, 4, LIFETIME, OWN_KEY, PMKID[8]))


def keys_shown(log):
    log.case("the key of a first frame is shown if the frame passes steps 1, 7 and 8, whatever else is wrong with it; else nothing")
    log.key(first(8), STATION_KEY)
    log.key(first(8, key=STATION_KEY_65), STATION_KEY_65)
    log.key(first(9, 5, pmkids=[]), STATION_KEY)
    log.key(padded(first(8), 1024), STATION_KEY)
    for body in [
        b"",
        padded(first(8), 1025),
        header(3) + first(8)[6:],
        header(1, algorithm=0) + first(8)[6:],
        first(8) + FRAGMENT,
        first(8, key=STATION_KEY[1:]),
        header(1) + rsne([8], [4]) + parameters(STATION_KEY, group=20),
        bytes(4096),
    ]:
        log.key(body, b"")


def mics(log):
    log.case("zeroing and setting a MIC: 19 and the whole body, 2 for a short second buffer, 20 for any other body or MIC")
    zeroed = third(bytes(16))
    log.zero(len(zeroed), third(MIC), 19, zeroed)
    log.zero(2048, padded(third(MIC), 1024), 19, padded(zeroed, 1024))
    log.zero(len(zeroed) - 1, third(MIC), 2)
    log.zero(0, third(MIC), 2)
    log.set(zeroed, 19, third(MIC))
    log.set(second(8, 4, 1, OWN_KEY, PMKID[8]), 19, second(8, 4, 1, OWN_KEY, PMKID[8])[:-16] + MIC)
    for body in [
        b"",
        header(3),
        header(1) + mic_element(MIC),
        header(3, algorithm=1) + mic_element(MIC),
        third(MIC) + mic_element(MIC),
        third(MIC[:15]),
        third(MIC) + b"\x00",
        padded(third(MIC), 1025),
        bytes(4096),
    ]:
        log.zero(2048, body, 20)
        log.set(body, 20)
    for octets in [b"", MIC[:15], MIC + b"\x00", bytes(255)]:
        log.mic(octets)
        log.set(zeroed, 20)


def generated(log):
    log.cases.append("generated calls of 24 addresses, and what the independent responder of compare/ answers them")
    log.put(22, b"")
    log.lines.append("empty")
    for tag, value in NOTHING_SET_UP.items():
        log.set_up(tag, value)
    with open(os.path.join(TOP, "samples", "generated.log"), "rb") as octets:
        log.octets += octets.read()
    with open(os.path.join(TOP, "samples", "generated.txt"), encoding="ascii") as text:
        lines = text.read().splitlines()
    word, counted = lines.pop().split()
    assert word == "counted"
    log.lines += lines
    log.counted += int(counted)


CASES = [
    before_any_set_up,
    exchanges,
    lengths,
    hostap,
    eleven_steps,
    ill_formed,
    suites,
    pmkids,
    other_akm,
    no_third,
    two_trains,
    shortcuts,
    lifetimes,
    body_lengths,
    cache_lengths,
    seventeen,
    checks,
    settings_edges,
    own_key,
    what_goes,
    group_bit,
    keys_shown,
    mics,
    generated,
]


def main(words):
    log = Log()
    for case in CASES:
        case(log)
    files = {"stdin": log.octets, "stdout": log.text().encode()}
    if words == ["--list"]:
        print("\n".join(log.cases))
    elif words == ["--check"]:
        for name, octets in files.items():
            with open(os.path.join(TOP, "crates", "replay", name), "rb") as stored:
                if stored.read() != octets:
                    sys.exit(f"crates/replay/{name} is not what this script writes")
        print(f"crates/replay: {len(log.lines)} calls of {len(log.cases)} cases, as this script writes them")
    elif words == []:
        for name, octets in files.items():
            with open(os.path.join(TOP, "crates", "replay", name), "wb") as stored:
                stored.write(octets)
    else:
        sys.exit(__doc__)


if __name__ == "__main__":
    main(sys.argv[1:])
