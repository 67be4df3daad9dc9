"""A Remy trainer and sender whose every promise is proved, for hosts in Python.

It needs the standard library and the shared library that `hosts/python/build` makes of the stored one. A trainer is kept as the bytes of
its record, a sender in 108 bytes; docs/HOSTS.md has the formats. What is excluded is refused by its number, a `Refusal`, and then
nothing has changed.

    >>> trainer = Trainer.start(Settings())
    >>> trainer.question()
    Question(kind='counts', leaf=None, action=None, progress=0.0)
    >>> len(trainer.record)
    196
    >>> print(trainer.panel([5]), end='')
    leaves 1 splits 0
    0 1000
"""

import ctypes
import os
import struct
from collections import namedtuple
from dataclasses import dataclass, field

REFUSED = 1 << 63
RECORD_MOST = 11_076
ASKED_MOST = 4097
CANDIDATES_MOST = 4096
NODES_MOST = 513
LINES_MOST = 180_191
GROUP_MOST = 65_535
BURST_MOST = 256
NO_ROW = 64

WORDS = {
    1: "a moment that is not admitted, or an action that is not valid",
    2: "settings or a repeat mode out of range",
    3: "no such leaf",
    4: "counts that are not one per node, above 0 at a parent, or over 2^53 in all",
    5: "a draw that is due and absent, or out of range",
    6: "bytes of another length than they should have",
    7: "a record of an unknown version",
    8: "a record with a field that no trainer holds",
    9: "a buffer that is too short, or a burst of more than 256 acks",
    10: "a tree or trainer that was not grown",
    20: "a 65th split",
    21: "another kind of answer than was asked for, or training is done",
    22: "no rule for this ack",
    23: "a total that is full",
    24: "no split to take back",
    25: "a trace that is not whole events, or of another length or version",
    26: "a generator of four zeros",
    27: "settings that a running training cannot take",
    28: "ranges with a NaN end or a lowest above its highest",
    29: "a list shorter than the leaves found",
    30: "no list of so many splits that grows a tree",
}


class Refusal(Exception):
    """Why a call was refused: the number that the promises give it."""

    def __init__(self, number):
        super().__init__("refused %d: %s" % (number, WORDS.get(number, "an unknown refusal")))
        self.number = number


def _library():
    name = os.environ.get("KNELLSTONE_SO", os.path.join(os.path.dirname(os.path.abspath(__file__)), "libknellstone.so"))
    return ctypes.CDLL(name)


_lib = None


def _call(name, *args):
    """Hands numbers over as they are, bytes and bytearrays as a pointer and a length; bytearrays may be written."""
    global _lib
    if _lib is None:
        _lib = _library()
    function = getattr(_lib, "knellstone_" + name)
    function.restype = ctypes.c_uint64
    passed = []
    for arg in args:
        if isinstance(arg, bytearray):
            passed += [(ctypes.c_uint8 * len(arg)).from_buffer(arg) if arg else None, ctypes.c_size_t(len(arg))]
        elif isinstance(arg, bytes):
            passed += [ctypes.c_char_p(arg), ctypes.c_size_t(len(arg))]
        else:
            passed.append(arg)
    answer = function(*passed)
    if answer >= REFUSED:
        raise Refusal(answer - REFUSED)
    return answer


def _written(most, name, *args):
    out = bytearray(most)
    return bytes(out[: _call(name, *args, out)])


Action = namedtuple("Action", "window_multiplier window_increment intersend_delay")
Point = namedtuple("Point", "ack_ewma send_ewma rtt_ratio")
Question = namedtuple("Question", "kind leaf action progress")
Lookup = namedtuple("Lookup", "found tested")
Reply = namedtuple("Reply", "window clipped")
Burst = namedtuple("Burst", "replies stopped")
Ack = namedtuple("Ack", "sent received draw", defaults=(None,))
Send = namedtuple("Send", "at")
Tick = namedtuple("Tick", "")


def _action_bytes(action):
    return struct.pack(">did", *action)


def _action(data):
    return Action(*struct.unpack(">did", data))


def _actions(data):
    return [_action(data[i : i + 20]) for i in range(0, len(data), 20)]


def _points(points):
    return b"".join(struct.pack(">ddd", *p) for p in points)


def _found(data):
    return _action(data[1:21]) if data[0] == 1 else None


def _milliseconds(multiplier, increment, wait):
    return Action(multiplier, increment, wait / 1000.0)


@dataclass
class Settings:
    """How a trainer searches, and in which box; the defaults are those of FlowForge's `RemyTrainer::default`."""

    rule_splits: int = 12
    optimization_rounds_per_split: int = 2
    action_change_multiplier: int = 4
    drill_down: bool = True
    min_action: Action = _milliseconds(0.0, 0, 0.25)
    max_action: Action = _milliseconds(1.0, 256, 3.0)
    initial_action_change: Action = _milliseconds(0.01, 1, 0.05)
    max_action_change: Action = _milliseconds(0.5, 32, 1.0)
    default_action: Action = _milliseconds(1.0, 1, 3.0)
    ends: tuple = field(default=(600.0, 600.0, 1000.0))

    def to_bytes(self):
        actions = [self.min_action, self.max_action, self.initial_action_change, self.max_action_change, self.default_action]
        numbers = (self.rule_splits, self.optimization_rounds_per_split, self.action_change_multiplier, int(self.drill_down))
        return struct.pack(">IIIB", *numbers) + b"".join(map(_action_bytes, actions)) + struct.pack(">ddd", *self.ends)

    def candidates(self, action):
        """The candidates that an action may give way to, in the order in which they are asked for."""
        return _actions(_written(20 * CANDIDATES_MOST, "candidates", self.to_bytes(), _action_bytes(action)))


class Trainer:
    """A trainer, kept as the bytes of its record."""

    def __init__(self, record):
        self.record = record

    @classmethod
    def start(cls, settings):
        return cls(_written(RECORD_MOST, "start", settings.to_bytes()))

    @classmethod
    def load(cls, record):
        """The trainer whose record these bytes are; one of version 1 or 2 is kept as version 3."""
        return cls(_written(RECORD_MOST, "answers", bytes(record), b""))

    def question(self):
        data = _written(31, "question", self.record)
        (progress,) = struct.unpack(">d", data[23:])
        if data[0] != 2:
            return Question("counts" if data[0] == 1 else "done", None, None, progress)
        return Question("score", int.from_bytes(data[1:3], "big"), _action(data[3:23]), progress)

    def answer_counts(self, counts):
        data = b"".join(struct.pack(">Q", n) for n in counts)
        self.record = _written(RECORD_MOST, "answer_counts", self.record, data)

    def answer_score(self, score):
        bits = struct.unpack(">Q", struct.pack(">d", score))[0]
        self.record = _written(RECORD_MOST, "answer_score", self.record, ctypes.c_uint64(bits))

    def asked(self):
        """The actions whose scores it asks for in a row, whatever those scores are."""
        return _actions(_written(20 * ASKED_MOST, "asked", self.record))

    def answer_scores(self, scores):
        """The scores of what it asked for in a row, or of the first of these."""
        data = b""
        for at in range(0, len(scores), GROUP_MOST):
            part = scores[at : at + GROUP_MOST]
            data += struct.pack(">BH", 2, len(part)) + b"".join(struct.pack(">d", s) for s in part)
        self.record = _written(RECORD_MOST, "answers", self.record, data)

    def undo_split(self):
        self.record = _written(RECORD_MOST, "undo_split", self.record)

    def change_settings(self, settings):
        self.record = _written(RECORD_MOST, "change_settings", self.record, settings.to_bytes())

    def same_tree(self, other):
        return _call("equal", self.record, other.record) == 1

    def nodes(self):
        return 1 + 8 * int.from_bytes(self.record[142:144], "big")

    def lookup(self, points):
        """The action of the leaf that holds each point, or none outside the root box."""
        data = _written(21 * len(points), "lookup", self.record, _points(points))
        return [_found(data[i : i + 21]) for i in range(0, len(data), 21)]

    def lookup_replaced(self, leaf, action, points):
        """The same with one leaf's action replaced."""
        leaf = ctypes.c_uint16(leaf)
        data = _written(21 * len(points), "lookup_replaced", self.record, leaf, _action_bytes(action), _points(points))
        return [_found(data[i : i + 21]) for i in range(0, len(data), 21)]

    def lookup_tested(self, points):
        """The same with the number of boxes that each lookup tested."""
        data = _written(23 * len(points), "lookup_tested", self.record, _points(points))
        rows = [data[i : i + 23] for i in range(0, len(data), 23)]
        return [Lookup(_found(row), int.from_bytes(row[21:], "big")) for row in rows]

    def leaves_within(self, ack, send, ratio):
        """The leaves that some point within the ranges could reach; each range is its lowest and its highest value."""
        data = _written(2 * NODES_MOST, "ranges", self.record, struct.pack(">dddddd", *ack, *send, *ratio))
        return [int.from_bytes(data[i : i + 2], "big") for i in range(0, len(data), 2)]

    def tally(self, points):
        """How many of the points each node's leaf holds, 0 for parents: what a question for counts wants."""
        counts = [0] * self.nodes()
        for p in points:
            for leaf in self.leaves_within((p[0], p[0]), (p[1], p[1]), (p[2], p[2])):
                counts[leaf] += 1
        return counts

    def panel(self, counts):
        """The panel's lines: the share of each leaf, in thousandths that add up to 1000."""
        return _written(8192, "panel", self.record + b"".join(struct.pack(">Q", n) for n in counts)).decode()

    def trace(self, events):
        """The lines that the program trace prints for these events on a fresh sender with repeat off."""
        return self.trace_bytes(trace_bytes(events))

    def trace_bytes(self, trace):
        return _written(LINES_MOST, "trace", self.record + trace).decode()


def trace_bytes(events):
    """Events as a trace: draws are left out."""
    body = b""
    for e in events:
        if isinstance(e, Ack):
            body += struct.pack(">BBdd", 17, 1, e.sent, e.received)
        elif isinstance(e, Send):
            body += struct.pack(">BBd", 9, 2, e.at)
        else:
            body += b"\x01\x03"
    return struct.pack(">IB", len(body) + 1, 1) + body


def _draw(draw):
    return struct.pack(">BI", 0 if draw is None else 1, draw or 0)


def _event(e):
    if isinstance(e, Ack):
        return struct.pack(">Bdd", 0, e.sent, e.received) + _draw(e.draw)
    if isinstance(e, Send):
        return struct.pack(">Bd", 1, e.at) + bytes(13)
    return b"\x02" + bytes(21)


def _reply(data):
    return Refusal(data[0]) if data[0] else Reply(int.from_bytes(data[1:5], "big"), data[5] == 1)


class Sender:
    """A sender, in the 108 bytes that docs/HOSTS.md lays out. The mode is 'off', ('always', n) or ('between', lo, hi)."""

    def __init__(self, mode="off"):
        kind, *numbers = (mode,) if isinstance(mode, str) else mode
        lo, hi = (list(numbers) + [0, 0])[:2]
        data = struct.pack(">BII", {"off": 0, "always": 1, "between": 2}[kind], lo, hi)
        self.bytes = bytearray(_written(108, "sender", data))

    def window(self):
        return int.from_bytes(self.bytes[96:100], "big")

    def wait(self):
        return struct.unpack(">d", self.bytes[100:])[0]

    def run(self, trainer, events):
        """Each event in turn over the trainer's tree: its reply, or the refusal, after which the sender is as it was."""
        data = _written(6 * len(events), "events", trainer.record, self.bytes, b"".join(map(_event, events)))
        return [_reply(data[i : i + 6]) for i in range(0, len(data), 6)]

    def run_drawing(self, trainer, generator, events):
        """The same with the generator's draws; the events' own are ignored."""
        list_ = b"".join(map(_event, events))
        data = _written(6 * len(events), "own_events", trainer.record, self.bytes, generator.bytes, list_)
        return [_reply(data[i : i + 6]) for i in range(0, len(data), 6)]

    def ack(self, trainer, sent, received, draw=None):
        (reply,) = self.run(trainer, [Ack(sent, received, draw)])
        if isinstance(reply, Refusal):
            raise reply
        return reply

    def burst(self, trainer, acks):
        """Up to 256 acks up to the first that is refused: a reply for each that was taken, and the refusal, or none."""
        list_ = b"".join(struct.pack(">dd", a.sent, a.received) + _draw(a.draw) for a in acks)
        windows, clipped = bytearray(4 * len(acks)), bytearray(len(acks))
        answer = _call("burst", trainer.record, self.bytes, list_, windows, clipped)
        taken, stopped = answer & 0xFFFFFFFF, answer >> 32
        replies = [Reply(int.from_bytes(windows[4 * i : 4 * i + 4], "big"), clipped[i] == 1) for i in range(taken)]
        return Burst(replies, Refusal(stopped) if stopped else None)


class Generator:
    """xoshiro256++, in 32 bytes; four zeros are refused with 26 when they are used."""

    def __init__(self, s0, s1, s2, s3):
        self.bytes = bytearray(struct.pack(">QQQQ", s0, s1, s2, s3))

    def state(self):
        return struct.unpack(">QQQQ", self.bytes)

    def step(self):
        out = bytearray(8)
        _call("step", self.bytes, out)
        return int.from_bytes(out, "big")

    def step_back(self):
        _call("step_back", self.bytes)


def next_list(n, nodes):
    """The list of splits after another among those of at most n splits, none after the last."""
    data = bytes([len(nodes)]) + b"".join(struct.pack(">H", i) for i in nodes)
    out = _written(7, "next_list", ctypes.c_uint32(n), data)
    return [int.from_bytes(out[i : i + 2], "big") for i in range(1, len(out), 2)] if out else None


def even_row(point):
    """The row of the even tree that holds a point, or none."""
    row = _call("even_row", struct.pack(">ddd", *point))
    return None if row == NO_ROW else row
