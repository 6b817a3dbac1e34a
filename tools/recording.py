#!/usr/bin/env python3
"""Writes the recorded shifts of examples/: a bay, and the calls that were put to its cell.

usage: python3 tools/recording.py      at the top of the repository

It writes
  examples/toggles.shift   the bay of examples/toggles.bay and calls of every kind; crates/replay_log/stdin is the same file
  examples/lift.bay        a lift of four floors that may coast when it is empty, and a shuttle, on a table of two phases
  examples/lift.shift      five ticks of that bay, cut off inside a report
The records of the lift's shift are those that the program tables writes for the deal that the program bay finds:
  tables 30 18 18 30 examples/lift.record examples/shuttle.record < examples/lift.bay
docs/RECORDINGS.md has the format.
"""

import pathlib

EXAMPLES = pathlib.Path("examples")


def pair(n):
    return n.to_bytes(2, "little")


def part(data):
    return pair(len(data)) + data


# calls


def offer(table, terms, first, second):
    numbers = b"".join(n.to_bytes(4, "little") for n in terms)
    return b"\x01" + part(table) + numbers + part(first) + part(second)


def report(first, second):
    return b"\x02" + pair(first) + pair(second)


STATES, PHASE, WAITS, SIGNALS, RANKS = (bytes([3, n]) for n in range(5))
QUESTIONS = STATES + PHASE + WAITS + SIGNALS + RANKS


# the toggles


def toggle_record(*ranks):
    return pair(4) + bytes([1, 2, 1, 1, 1, 1]) + b"".join(map(pair, ranks))


def toggles():
    bay = (EXAMPLES / "toggles.bay").read_bytes()
    table = bay[-7:]
    terms = [2, 2, 2, 2]
    slow, solved = toggle_record(5, 0, 6, 0), toggle_record(1, 0, 2, 0)
    broken = bytearray(solved)
    broken[5] = 2
    calls = [
        report(3, 3),
        QUESTIONS,
        offer(table, [0, 2, 2, 2], solved, solved),
        offer(table, [3, 2, 2, 2], solved, solved),
        offer(table[:-1] + b"\x01", terms, solved, solved),
        offer(table, terms, solved, bytes(broken)),
        offer(table, terms, toggle_record(1, 0, 1, 0), solved),
        offer(table, terms, slow, slow),
        QUESTIONS,
        offer(table, terms, solved, solved),
        offer(table, terms, slow, slow),
        report(0, 3),
        report(3, 3),
        RANKS,
        QUESTIONS,
    ]
    return part(bay) + b"".join(calls)


# the lift and the shuttle

FLOORS = 4


def machine(own, partner, labels, moves):
    """A machine sheet; moves go from (state, own signal, partner signal) to a set of next states."""
    listed = [((s * own + a) * partner + b, to) for (s, a, b), nexts in moves.items() for to in nexts]
    listed.sort()
    head = pair(len(labels)) + bytes([own, partner]) + pair(0) + pair(len(listed)) + bytes(labels)
    return head + b"".join(pair(key) for key, _ in listed) + b"".join(pair(to) for _, to in listed)


def rule(accepting, rows):
    return bytes([len(rows), accepting, 0, 0]) + b"".join(map(bytes, rows))


def lift():
    """State 2 x floor + load; signal 0 stays, 1 goes up, 2 down, 3 takes or gives a load if the shuttle shows 1."""
    moves = {}
    for floor in range(FLOORS):
        for load in range(2):
            state = 2 * floor + load
            steps = [1] if load else [1, 2]
            up = {2 * (floor + step) + load for step in steps if floor + step < FLOORS}
            for shown in range(2):
                moves[state, 0, shown] = {state}
                moves[state, 1, shown] = up
                moves[state, 2, shown] = {state - 2} if floor > 0 else set()
            if floor in (0, FLOORS - 1):
                moves[state, 3, 1] = {state + 1 - 2 * load}
    labels = [0] * (2 * FLOORS)
    labels[0], labels[1], labels[-2], labels[-1] = 1, 2, 3, 4
    return machine(4, 2, labels, moves)


# waits for a load on floor 0, then for the top floor without it, where it accepts
LIFT_RULE = rule(4, [[0, 0, 1, 0, 0, 0, 0, 0], [1, 1, 1, 2, 1, 1, 1, 1], [0, 0, 1, 0, 0, 0, 0, 0]])


def shuttle():
    """At the lift, on its way, in the cold store, on its way back; signal 0 goes on, maybe fast, and 1 stands still."""
    moves = {}
    nexts = [{1, 2}, {2}, {3}, {0, 1}]
    for state in range(4):
        for shown in range(4):
            moves[state, 0, shown] = nexts[state]
            moves[state, 1, shown] = {state}
    return machine(2, 4, [0, 0, 1, 0], moves)


# accepts in the cold store
SHUTTLE_RULE = rule(2, [[0, 1, 0, 0, 0, 0, 0, 0], [0, 1, 0, 0, 0, 0, 0, 0]])

# two phases in turn, whatever is shown
TURNS = bytes([2, 4, 2] + [1] * 8 + [0] * 8)


def lift_bay():
    sheets = [lift(), LIFT_RULE, shuttle(), SHUTTLE_RULE, TURNS]
    return b"".join(pair(len(sheet)) for sheet in sheets) + b"".join(sheets)


def lift_shift():
    records = [(EXAMPLES / name).read_bytes() for name in ("lift.record", "shuttle.record")]
    solved = offer(TURNS, [30, 18, 18, 30], *records)
    calls = [solved, QUESTIONS]
    # takes a load, goes up floor by floor while the shuttle goes to the cold store
    for states in [(4, 0), (4, 2), (10, 2), (10, 5), (16, 5)]:
        calls += [report(*states), PHASE, WAITS, RANKS]
    calls += [solved, report(22, 7)[:3]]
    return part(lift_bay()) + b"".join(calls)


if __name__ == "__main__":
    (EXAMPLES / "toggles.shift").write_bytes(toggles())
    pathlib.Path("crates/replay_log/stdin").write_bytes(toggles())
    (EXAMPLES / "lift.bay").write_bytes(lift_bay())
    if (EXAMPLES / "lift.record").exists():
        (EXAMPLES / "lift.shift").write_bytes(lift_shift())
