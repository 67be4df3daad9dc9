#!/usr/bin/env python3
"""A host in small: it trains a tree against a stand-in for a simulator, saves the record, prints the panel, and paces a trace by the tree.

    lamp.py [FILE]      the record is saved in FILE, by default lamp.record in the temporary folder
"""

import math
import os
import sys
import tempfile

from knellstone import Ack, Point, Refusal, Send, Sender, Settings, Tick, Trainer


def memories():
    """What a link box may remember: quiet air with short gaps, busy air with long ones and a higher ratio."""
    busy = [(i % 12) / 12.0 for i in range(48)]
    return [Point(0.01 + 400.0 * b, 0.01 + 350.0 * b, 1.0 + 700.0 * b * b) for b in busy]


def score(found, points):
    """The stand-in for a simulator: how close each memory's action comes to a window and a wait that would suit it."""
    missed = 0.0
    for action, p in zip(found, points):
        busy = p.ack_ewma / 400.0
        if action is None:
            missed += 10.0
            continue
        window = 20.0 * action.window_multiplier + action.window_increment
        missed += abs(window - (30.0 - 24.0 * busy)) + abs(action.intersend_delay - 0.0005 - 0.002 * busy) * 1000.0
    return -missed


def main():
    file = sys.argv[1] if len(sys.argv) > 1 else os.path.join(tempfile.gettempdir(), "lamp.record")
    points = memories()
    trainer = Trainer.start(Settings(rule_splits=2, optimization_rounds_per_split=1, drill_down=False))
    told, counts, scores = -1.0, 0, 0
    while (question := trainer.question()).kind != "done":
        if question.kind == "counts":
            counts += 1
            trainer.answer_counts(trainer.tally(points))
        else:
            row = [score(trainer.lookup_replaced(question.leaf, action, points), points) for action in trainer.asked()]
            scores += len(row)
            trainer.answer_scores(row)
        if question.progress > told:
            told = question.progress
            print("progress %.2f" % told)
    print("done after %d lists of counts and %d scores" % (counts, scores))

    with open(file, "wb") as out:
        out.write(trainer.record)
    with open(file, "rb") as saved:
        trainer = Trainer.load(saved.read())
    print("saved and loaded, %d bytes" % len(trainer.record))
    print(trainer.panel(trainer.tally(points)), end="")

    sender = Sender()
    for i in range(6):
        sent = i * 0.02
        reply = sender.run(trainer, [Send(sent), Tick(), Ack(sent, sent + 0.05)])[2]
        if isinstance(reply, Refusal):
            print("ack %d: %s" % (i, reply))
        else:
            print("ack %d: window %d, wait %.2f ms" % (i, reply.window, 1000.0 * sender.wait()))
    try:
        print("window %d" % sender.ack(trainer, 1.0, math.nan).window)
    except Refusal as refusal:
        print(refusal)


main()
