"""What is measured: fixed sheets, packets and events, and the rows of the tables made of them."""
from dataclasses import dataclass

import programs

KEYS = ("request", "response", "endrequest", "endresponse", "txend", "txendresponse", "ack")
CAUSE, USER_ID, SOURCE, MESSAGE_TYPE, INDICATOR, RESULT, SKIPPED = 2, 6, 10, 12, 13, 20, 100
SERVER = 1000

S = programs.sheet
P1, P2, P3, P4, P5 = (bytes.fromhex(line) for line in programs.packets)


def sheet(seats, limit, name):
    """A sheet with the numbers of S; seat s has SSRC s + 1."""
    numbers = "".join(f"{key}={number}\n" for number, key in enumerate(KEYS, 1))
    users = "".join(f"seat={s + 1},{name(s)}\n" for s in range(seats))
    return f"server={SERVER}\nlimit={limit}\n{numbers}resultid={RESULT}\nseats={seats}\n{users}"


def short(seat):
    return "sip:" + "abcdefgh"[seat]


def sixty(seat):
    return "sip:mcvideo.user.with.a.long.identity.in.a.vehicle@example." + "abcdefgh"[seat]


def field(id_, value):
    return bytes([id_, len(value)]) + value + bytes(-(2 + len(value)) % 4)


def packet(kind, ssrc, *fields, ack=0):
    body = ssrc.to_bytes(4, "big") + b"MCV" + b"0122222"[kind - 1 : kind] + b"".join(fields)
    return bytes([0x80 | ack << 4 | kind, 204]) + (len(body) // 4).to_bytes(2, "big") + body


def user(name):
    return field(USER_ID, name.encode())


def number(id_, n):
    return field(id_, n.to_bytes(2, "big"))


def filled(kind, ssrc, octets, *fields):
    """A packet with so many octets: fields of one word that are skipped stand behind the others."""
    words = (octets - len(packet(kind, ssrc, *fields))) // 4
    return packet(kind, ssrc, *fields, *[number(SKIPPED + w % 50, w) for w in range(words)])


def requested(seat, stream, name=short, *fields):
    return packet(1, seat + 1, user(name(seat)), user(name(stream)), *fields)


LONG = [
    requested(1, 0, sixty, number(INDICATOR, 7)),
    filled(1, 2, 256, user(sixty(1)), user(sixty(0))),
    packet(2, SERVER, number(RESULT, 0), field(CAUSE, b"\0\1" + b"a phrase of some length " * 4), number(INDICATOR, 1)),
    filled(2, SERVER, 128, number(RESULT, 1)),
    packet(3, 2, number(INDICATOR, 1), field(SKIPPED, bytes(range(100))), user(sixty(0))),
    packet(4, SERVER, user(sixty(7))),
    packet(5, SERVER, field(CAUSE, b"\0\x08" + b"p" * 200), number(INDICATOR, 65535)),
    filled(6, 1, 256),
    filled(7, SERVER, 64, number(MESSAGE_TYPE, 256), number(SOURCE, 2)),
]


def with_octet(p, at, octet):
    return p[:at] + bytes([octet]) + p[at + 1 :]


# a size, the version, the padding bit, the type, the length, letters, a number
DAMAGED_HEAD = [P3[:-1], P1[:8], with_octet(P1, 0, 0x42), with_octet(P3, 0, 0xA1), with_octet(P2, 1, 203), with_octet(LONG[0], 3, 1),
                with_octet(P4, 11, ord("3")), with_octet(P5, 0, 0x88), with_octet(LONG[1], 8, ord("m"))]
# an ID, a length, padding; in the first and in the last field
DAMAGED_FIELD = [with_octet(P1, 12, 192), with_octet(P2, 17, 3), with_octet(P3, 19, 1), with_octet(P3, 27, 1), with_octet(LONG[0], 75, 1),
                 with_octet(LONG[1], 252, 255), with_octet(LONG[6], 13, 255), with_octet(LONG[7], 253, 3), with_octet(LONG[4], 17, 200)]
# a value, a length that is no message's, a field missing, repeated, beside another
DAMAGED_VALUE = [with_octet(P1, 15, 2), with_octet(P3, 18, 0x20), with_octet(LONG[0], 135, 0x7F), with_octet(P5, 19, 1), with_octet(P4, 12, SKIPPED),
                 packet(1, 2, user(short(1))), packet(5, SERVER, number(CAUSE, 8), number(CAUSE, 8)), packet(2, SERVER, number(RESULT, 1), number(CAUSE, 0)),
                 packet(3, 2, user(short(0)), field(INDICATOR, b"\1"))]
DAMAGED = [p for three in zip(DAMAGED_HEAD, DAMAGED_FIELD, DAMAGED_VALUE) for p in three]

END_REQUEST = packet(3, 2, user(short(0)))
END_RESPONSE = packet(6, 1, ack=1)
# refused with 1 to 5, and then with 8, 6 and 7
NO_EVENTS = [*DAMAGED[::3], *DAMAGED[1::3], *DAMAGED[2::3], P1, P4, packet(1, 9, user("sip:b"), user("sip:a")), packet(1, 2, user("sip:c"), user("sip:a")),
             packet(3, 2, user("sip:d")), packet(1, 2, user("sip:b"), user("sip:aa"))]

OPEN, T11, RELEASE = 3, 4, 6


def request(by, stream):
    return bytes([1, stream, by, 0])


def end(by, stream):
    return bytes([2, stream, by, 0])


def end_response(stream, ack):
    return bytes([5, stream, 0, ack])


def own(what, stream):
    return bytes([what, stream, 0, 0])


# every rule of the event table, under four seats and limit 2; all streams are free again at its end
EVENTS = [request(1, 0), own(OPEN, 0), request(1, 0), request(2, 0), request(1, 0), request(3, 0), own(OPEN, 1), request(0, 0), request(3, 1), own(T11, 0),
          end(1, 0), end(1, 0), end(2, 0), own(OPEN, 0), own(T11, 0), request(2, 0), end(3, 1), end_response(1, 1), end_response(0, 1), end_response(0, 0),
          request(0, 1), own(RELEASE, 1), own(RELEASE, 1), own(OPEN, 3), own(RELEASE, 3), own(OPEN, 2), own(T11, 2), own(RELEASE, 2), own(OPEN, 2), own(T11, 2),
          end_response(2, 0)]
FOUR = sheet(4, 2, short)
EIGHT = sheet(8, 3, sixty)

BAD_SHEETS = [S.replace("limit=1", "limit=9"), S.replace("ack=7", "ack=6"), S.replace("seat=3,sip:c", "seat=3,sip:a"), EIGHT[:-1], EIGHT.replace("resultid=", "resultid=0"), ""]


@dataclass(frozen=True)
class Row:
    """A row of a table: its name, the call, the sheet that it is made under, and its inputs."""

    name: str
    call: str
    sheet: str
    inputs: tuple

    def lines(self):
        return "".join(octets.hex() + "\n" for octets in (self.sheet.encode(), *self.inputs))


def row(name, call, text, *given):
    return Row(name, call, text, tuple(one if isinstance(one, bytes) else one.encode() for one in given))


BENCH = {"P1": P1, "P2": P2, "P3": P3, "P4": P4, "P5": P5}

CALLS = [
    *(row(f"read {name}", "read", S, p) for name, p in BENCH.items()),
    row("read long", "read", S, *LONG),
    row("read damaged", "read", S, *DAMAGED),
    *(row(f"write {name}", "write", S, p) for name, p in BENCH.items()),
    row("write long", "write", S, *LONG),
    row("event P3", "event", S, P3),
    row("event end request", "event", S, END_REQUEST),
    row("event end response", "event", S, END_RESPONSE),
    row("event damaged", "event", S, *NO_EVENTS),
    row("event, eight long seats", "event", EIGHT, requested(7, 6, sixty), packet(3, 8, user(sixty(6))), packet(6, 8)),
    row("seen, work_out, store", "steps", FOUR, *EVENTS),
    row("seen", "seen", FOUR, *EVENTS),
    row("work_out", "work_out", FOUR, *EVENTS),
    row("store", "store", FOUR, *EVENTS),
    row("count", "count", FOUR, *EVENTS),
    row("packet", "packet", FOUR, *EVENTS),
    row("field P3", "field", S, P3),
    row("field long", "field", S, LONG[0], LONG[2], LONG[4], LONG[6], LONG[8]),
    row("sheet S", "sheet", S, S),
    row("sheet of eight", "sheet", S, EIGHT),
    row("sheet damaged", "sheet", S, *BAD_SHEETS),
]

LENGTHS = [
    *(row(f"read {n} octets, a field a word", "read", S, filled(2, SERVER, n, number(RESULT, 1))) for n in (16, 32, 64, 128, 192, 256)),
    *(row(f"read {n} octets, a long field", "read", S, packet(2, SERVER, number(RESULT, 1), field(SKIPPED, bytes(n - 18)))) for n in (32, 64, 128, 192, 256)),
    *(row(f"read {12 + 2 * n} octets, two User IDs", "read", S, packet(1, 2, user("u" * (n - 2)), user("v" * (n - 2)))) for n in (4, 16, 32, 48, 60)),
    *(row(f"write {12 + 2 * n} octets, two User IDs", "write", S, packet(1, 2, user("u" * (n - 2)), user("v" * (n - 2)))) for n in (4, 16, 32, 48, 60)),
]


def asked(seats):
    """The last seat asks for the one before it, or for its own."""
    return requested(seats - 1, max(seats - 2, 0))


SEATS = [
    *(row(f"read, {n} seats", "read", sheet(n, 1, short), asked(n)) for n in range(1, 9)),
    *(row(f"event, {n} seats", "event", sheet(n, 1, short), asked(n)) for n in range(1, 9)),
    *(row(f"event, {n} seats of 60 octets", "event", sheet(n, 1, sixty), requested(n - 1, max(n - 2, 0), sixty)) for n in range(1, 9)),
]
