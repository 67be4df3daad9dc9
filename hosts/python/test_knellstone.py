"""Every call of the module, taken and refused. `tools/check-python` runs it."""

import math
import unittest

import knellstone
from knellstone import Ack, Action, Generator, Point, Refusal, Reply, Send, Sender, Settings, Tick, Trainer

INSIDE = Point(0.5, 0.5, 1.5)
OUTSIDE = Point(700.0, 0.5, 1.5)


def number(call, *args):
    """The number that a call is refused with, 0 where it is taken."""
    try:
        call(*args)
    except Refusal as refusal:
        return refusal.number
    return 0


def split_once():
    trainer = Trainer.start(Settings(rule_splits=2, optimization_rounds_per_split=0, drill_down=False))
    trainer.answer_counts([5])
    return trainer


class Trainers(unittest.TestCase):
    def test_start_and_load(self):
        trainer = Trainer.start(Settings())
        self.assertEqual(len(trainer.record), 196)
        self.assertEqual(Trainer.load(trainer.record).record, trainer.record)
        self.assertEqual(number(Trainer.start, Settings(rule_splits=65)), 2)
        self.assertEqual(number(Trainer.load, b"abc"), 6)
        self.assertEqual(number(Trainer.load, b"\0\0\0\0"), 7)
        self.assertEqual(number(Trainer.load, trainer.record[:-1] + b"\1"), 8)

    def test_questions_and_answers(self):
        settings = Settings(rule_splits=1, optimization_rounds_per_split=1, drill_down=False)
        trainer = Trainer.start(settings)
        self.assertEqual(trainer.question().kind, "counts")
        self.assertEqual(number(trainer.answer_score, 1.0), 21)
        self.assertEqual(number(trainer.answer_counts, [1, 1]), 4)
        while trainer.question().kind == "counts":
            leaf = trainer.nodes() - 1
            trainer.answer_counts([3 if i == leaf else 0 for i in range(trainer.nodes())])
        question = trainer.question()
        self.assertEqual((question.kind, question.leaf), ("score", leaf))
        row = trainer.asked()
        self.assertEqual(row[0], question.action)
        self.assertEqual(row[1:], settings.candidates(question.action))
        one_by_one = Trainer(trainer.record)
        for score in range(len(row)):
            one_by_one.answer_score(float(score))
        trainer.answer_scores([float(score) for score in range(len(row))])
        self.assertEqual(trainer.record, one_by_one.record)
        self.assertTrue(trainer.same_tree(one_by_one))

    def test_a_split_taken_back(self):
        trainer = split_once()
        trainer.undo_split()
        self.assertEqual(trainer.nodes(), 1)
        self.assertEqual(number(trainer.undo_split), 24)

    def test_new_settings(self):
        trainer = split_once()
        before = trainer.record
        self.assertEqual(number(trainer.change_settings, Settings(ends=(1.0, 1.0, 1.0))), 27)
        self.assertEqual(number(trainer.change_settings, Settings(action_change_multiplier=1)), 2)
        self.assertEqual(trainer.record, before)
        trainer.change_settings(Settings(rule_splits=5))
        self.assertNotEqual(trainer.record, before)

    def test_lookups(self):
        trainer = split_once()
        found = trainer.lookup([INSIDE, OUTSIDE, Point(math.nan, 0.0, 0.0)])
        self.assertEqual(found, [Settings().default_action, None, None])
        other = Action(0.5, 7, 0.001)
        self.assertEqual(trainer.lookup_replaced(1, other, [INSIDE, OUTSIDE]), [other, None])
        self.assertEqual(number(trainer.lookup_replaced, 0, other, [INSIDE]), 3)
        self.assertEqual(number(trainer.lookup_replaced, 1, Action(math.nan, 0, 0.0), [INSIDE]), 1)
        tested = trainer.lookup_tested([INSIDE, Point(599.0, 599.0, 999.0), OUTSIDE])
        self.assertEqual([row.tested for row in tested], [2, 9, 1])
        self.assertEqual([row.found for row in tested], [found[0], found[0], None])

    def test_ranges(self):
        trainer = split_once()
        everything = (-math.inf, math.inf)
        self.assertEqual(trainer.leaves_within(everything, everything, everything), list(range(1, 9)))
        self.assertEqual(trainer.leaves_within((0.5, 0.5), (0.5, 0.5), (1.5, 1.5)), [1])
        self.assertEqual(trainer.leaves_within((700.0, 700.0), everything, everything), [])
        self.assertEqual(number(trainer.leaves_within, (1.0, 0.0), everything, everything), 28)
        self.assertEqual(trainer.tally([INSIDE, INSIDE, OUTSIDE]), [0, 2, 0, 0, 0, 0, 0, 0, 0])

    def test_panel(self):
        trainer = split_once()
        lines = trainer.panel([0, 1, 1, 1, 0, 0, 0, 0, 0]).splitlines()
        self.assertEqual(lines[:4], ["leaves 8 splits 1", "1 334", "2 333", "3 333"])
        self.assertEqual(number(trainer.panel, [1]), 4)


class Senders(unittest.TestCase):
    def setUp(self):
        self.trainer = Trainer.start(Settings())

    def test_events(self):
        sender = Sender()
        replies = sender.run(self.trainer, [Ack(0.0, 1.0), Send(1.0), Ack(1.0, 2.0), Tick()])
        self.assertEqual(replies, [Reply(2, False), Reply(0, False), Reply(0, False), Reply(3, False)])
        self.assertEqual((sender.window(), sender.wait()), (3, 0.003))
        self.assertEqual(number(sender.ack, self.trainer, math.nan, 1.0), 1)
        self.assertEqual(number(Sender, ("between", 3, 2)), 2)

    def test_bursts(self):
        acks = [Ack(0.1 * i, 0.1 * i + 0.05) for i in range(257)]
        for count in (0, 1, 255, 256):
            one, other = Sender(), Sender()
            burst = one.burst(self.trainer, acks[:count])
            self.assertEqual(burst.replies, other.run(self.trainer, acks[:count]))
            self.assertIsNone(burst.stopped)
            self.assertEqual(one.bytes, other.bytes)
        sender = Sender()
        before = bytes(sender.bytes)
        self.assertEqual(number(sender.burst, self.trainer, acks), 9)
        self.assertEqual(bytes(sender.bytes), before)

    def test_bursts_that_stop(self):
        for stop, refusal in ((Ack(-1.0, 1.0), 1), (Ack(0.0, 5000.0), 22)):
            sender = Sender()
            burst = sender.burst(self.trainer, [Ack(0.0, 1.0), stop, Ack(1.0, 2.0)])
            self.assertEqual(burst.replies, [Reply(2, False)])
            self.assertEqual(burst.stopped.number, refusal)
        burst = Sender(("between", 0, 0)).burst(self.trainer, [Ack(0.0, 1.0, 0), Ack(1.0, 2.0), Ack(2.0, 3.0)])
        self.assertEqual((len(burst.replies), burst.stopped.number), (2, 5))

    def test_own_draws(self):
        acks = [Ack(0.1 * i, 0.1 * i + 0.05) for i in range(40)]
        generator, handed = Generator(1, 2, 3, 4), Generator(1, 2, 3, 4)
        one, other = Sender(("between", 0, 3)), Sender(("between", 0, 3))
        replies = one.run_drawing(self.trainer, generator, acks)
        drawn = []
        for ack in acks:
            pending = other.bytes[53] == 1
            draw = None if pending else handed.step() % 4
            drawn += other.run(self.trainer, [Ack(ack.sent, ack.received, draw)])
        self.assertEqual(replies, drawn)
        self.assertEqual(one.bytes, other.bytes)
        self.assertEqual(generator.state(), handed.state())
        self.assertEqual(number(one.run_drawing, self.trainer, Generator(0, 0, 0, 0), acks), 26)

    def test_generator(self):
        generator = Generator(1, 2, 3, 4)
        self.assertEqual([generator.step() for _ in range(3)], [41943041, 58720359, 3588806011781223])
        for _ in range(3):
            generator.step_back()
        self.assertEqual(generator.state(), (1, 2, 3, 4))
        self.assertEqual(number(Generator(0, 0, 0, 0).step), 26)
        self.assertEqual(number(Generator(0, 0, 0, 0).step_back), 26)

    def test_traces(self):
        events = [Tick(), Ack(0.0, 1.0), Send(1.0), Ack(1.0, 2.0), Ack(5.0, -1.0), Tick()]
        self.assertEqual(self.trainer.trace(events), "1\n2\n0\n0\nrefused 1\n3\n")
        self.assertEqual(self.trainer.trace([]), "")
        self.assertEqual(number(self.trainer.trace_bytes, b"\0\0\0\1\2"), 25)


class Trees(unittest.TestCase):
    def test_every_small_tree(self):
        lists, now = [], []
        while now is not None:
            lists.append(now)
            now = knellstone.next_list(3, now)
        self.assertEqual(len(lists), 130)
        self.assertEqual(lists[:3] + lists[-1:], [[], [0], [0, 1], [0, 8, 16]])
        self.assertEqual(number(knellstone.next_list, 4, []), 30)

    def test_even_rows(self):
        self.assertEqual(knellstone.even_row(Point(0.0, 0.0, 0.0)), 0)
        self.assertEqual(knellstone.even_row(Point(599.0, 599.0, 999.0)), 63)
        self.assertIsNone(knellstone.even_row(OUTSIDE))


if __name__ == "__main__":
    unittest.main()
