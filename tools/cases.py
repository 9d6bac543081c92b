#!/usr/bin/env python3
"""Writes crates/cases/stdin and crates/cases/stdout: the cases that `rt ci` runs.

    cd oracle && cargo build --release && cd ..      # once; docs/ORACLE.md says what it needs
    python3 tools/cases.py                           # ORACLE=path names another build of the oracle

The expected answers of the first part are written out here from document 01's rules, place by place, and from no run.
Those of the second part are the oracle's: `oracle gen` makes a replay a profile, `oracle run` answers it. So are those of
the third, the days of days/. The files are committed, so that the gate needs neither Python nor Rust.

A case is a line `# NAME` and then, a line each, a replay line, a blank and the answer expected. A line that is the one
before it again is written as a dot. What only the tables show, as `count` at -1, is left to the trace program; where
an answer depends on it, a case here asks for that answer.
"""
import os
import subprocess

ROOT = os.path.join(os.path.dirname(os.path.abspath(__file__)), '..')
ORACLE = os.environ.get('ORACLE', os.path.join(ROOT, 'oracle', 'target', 'release', 'oracle'))
SEEDS = range(1, 33)
LINES = 700

STEP, ACQUIRE, RELEASE, PROTECT, TRY, TRY_PROTECT, RESET, RAW, SWAP, RETIRE, EAGER, CLEANUP, SHUTDOWN = range(13)
STEPPED, STARTED, DONE, RETRY, RECLAIMED = range(5)
DUE = 2_000_000_000
PASS = 'B1 S0 S1 S2 S3 S4 S5 S6 S7'
HEADS = 'L0 L1 L2 L3 L4 L5 L6 L7'


def frame(kind, thread, a=0, b=0, c=0):
    return b'%02x%02x%04x%04x%016x' % (kind, thread, a, b, c)


def answer(number, thread, value=0):
    return b'%02x%02x%016x' % (number, thread, value)


class Case:
    def __init__(self, name):
        self.name = name
        self.lines = []
        CASES.append(self)

    def line(self, text, expected):
        self.lines.append((text, expected))

    def bad(self, text):
        self.line(text, answer(28, 0, len(self.lines) + 1))

    def start(self, kind, thread, a=0, b=0, c=0, number=STARTED):
        self.line(frame(kind, thread, a, b, c), answer(number, thread))

    def refused(self, number, kind, thread, a=0, b=0, c=0):
        self.start(kind, thread, a, b, c, number)

    def step(self, thread, number, value=0, clock=0, flag=0):
        self.line(frame(STEP, thread, flag, 0, clock), answer(number, thread, value))

    # Steps that go on, by the names of their places in document 01 (S, X, L, G: a swap, an examining step, a load of a
    # head, the two steps of the kept list).
    def go(self, thread, places, clock=0):
        for _ in places.split():
            self.step(thread, STEPPED, 0, clock)

    def done(self, thread, value=0, clock=0):
        self.step(thread, DONE, value, clock)

    def reclaimed(self, thread, nodes):
        for node in nodes:
            self.step(thread, RECLAIMED, node)

    def acquire(self, thread, record):
        self.start(ACQUIRE, thread)
        self.go(thread, 'A1 N1 N2')
        self.done(thread, record)

    # Of a record that was released before: the last one released is taken.
    def acquire_again(self, thread, record):
        self.start(ACQUIRE, thread)
        self.go(thread, 'A1 A2 A3 A4 A5')
        self.done(thread, record)

    def release(self, thread, record):
        self.start(RELEASE, thread, record)
        self.go(thread, 'D1 D2 P1 P2')
        self.done(thread)

    def swap(self, thread, source, node, old):
        self.start(SWAP, thread, 0, source, node)
        self.done(thread, old)

    def live(self, thread, node):
        self.swap(thread, 1, node, 0)
        self.swap(thread, 1, 0, node)

    def raw(self, thread, record, node):
        self.start(RAW, thread, record, 0, node)
        self.done(thread)

    def reset(self, thread, record):
        self.start(RESET, thread, record)
        self.done(thread)

    # The first retire of a fresh domain is due: 31 steps, the node reclaimed at the 20th. No other is until DUE.
    def first(self, thread, node):
        self.live(thread, node)
        self.start(RETIRE, thread, node)
        self.go(thread, 'T1 T2 T3 K1 K2 E1 E2 E3 ' + PASS + ' H1 X')
        self.reclaimed(thread, [node])
        self.go(thread, HEADS + ' K1 K2')
        self.done(thread, 1)

    # A retire of a live node that nothing makes due.
    def retire(self, thread, node, address=0, clock=0):
        self.start(RETIRE, thread, node, 0, address)
        self.go(thread, 'T1 T2 T3 K1 K2', clock)
        self.done(thread, 0, clock)

    def live_retire(self, thread, node, address=0):
        self.live(thread, node)
        self.retire(thread, node, address)

    # Nodes first to last, each swapped in for the one before, which is retired then; the last one is left in source 1.
    def retire_many(self, thread, first, last, address):
        self.swap(thread, 1, first, 0)
        for node in range(first, last + 1):
            self.swap(thread, 1, node + 1, node)
            self.retire(thread, node, address(node))

    # An eager over nodes that are all in one shard, none guarded.
    def eager(self, thread, nodes, records=0):
        self.start(EAGER, thread)
        self.go(thread, PASS)
        if nodes:
            self.go(thread, 'H1' + ' H2' * records + ' X' * len(nodes))
            self.reclaimed(thread, nodes)
            self.go(thread, HEADS + ' C1')
        self.go(thread, 'K1 K2')
        self.done(thread, len(nodes))

    # An eager over nodes that are all guarded.
    def eager_keeps(self, thread, nodes, records):
        self.start(EAGER, thread)
        self.go(thread, PASS + ' H1' + ' H2' * records + ' X' * nodes + ' ' + HEADS + ' G1 G2 K1 K2')
        self.done(thread, 0)


CASES = []


# ---- Document 01, "The replay program" and "Bench cases"

c = Case('an acquire and four steps at clock 0')
c.line(b'0100000000000000000000000000', b'01000000000000000000')
c.line(b'0000000000000000000000000000', b'00000000000000000000')
c.line(b'0000000000000000000000000000', b'00000000000000000000')
c.line(b'0000000000000000000000000000', b'00000000000000000000')
c.line(b'0000000000000000000000000000', b'02000000000000000001')

c = Case('first retire at clock 0: 31 steps, reclaimed at step 20, answer 1')
c.swap(0, 1, 1, 0)
c.swap(0, 1, 0, 1)
c.start(RETIRE, 0, 1)
for n in range(1, 32):
    if n == 20:
        c.step(0, RECLAIMED, 1)
    elif n == 31:
        c.step(0, DONE, 1)
    else:
        c.step(0, STEPPED)
c.step(0, 21)

c = Case('a retire stopped after T2 and an eager: count is -1, and 0 after T3')
# Were it 0 and then 1, E3 would take 1 and the retire would go on to B1.
c.live(0, 1)
c.start(RETIRE, 0, 1)
c.go(0, 'T1 T2')
c.eager(1, [1])
c.go(0, 'T3 K1 K2 E1 E2')
c.done(0, 0)

c = Case('retired a, b, c in shard 0, unguarded: reclaimed a, b, c')
c.first(0, 9)
for n in [1, 2, 3]:
    c.live_retire(0, n)
c.eager(1, [1, 2, 3])

c = Case('retired a, b, c in shard 0, all kept once, then freed: c, b, a')
c.first(0, 9)
for n in [1, 2, 3]:
    c.live_retire(0, n)
for n in [1, 2, 3]:
    c.acquire(2, n)
    c.raw(2, n, n)
c.eager_keeps(1, 3, 3)
for n in [1, 2, 3]:
    c.reset(2, n)
c.eager(1, [3, 2, 1], 3)

c = Case('retired a, b, c in shard 0, shutdown with no scan before: c, b, a')
c.first(0, 9)
for n in [1, 2, 3]:
    c.live_retire(0, n)
c.start(SHUTDOWN, 0)
c.go(0, 'S0')
c.reclaimed(0, [3, 2, 1])
c.go(0, 'S1 S2 S3 S4 S5 S6 S7')
c.done(0, 3)

c = Case('shutdown by shards: each swap, then its nodes from the head')
c.first(0, 9)
for n, address in [(1, 0x700), (2, 0xff), (3, 0x7ff), (4, 0x800), (5, 2**64 - 1), (6, 0x100)]:
    c.live_retire(0, n, address)
c.start(SHUTDOWN, 3)
c.go(3, 'S0')
c.reclaimed(3, [4, 2])
c.go(3, 'S1')
c.reclaimed(3, [6])
c.go(3, 'S2 S3 S4 S5 S6 S7')
c.reclaimed(3, [5, 3, 1])
c.done(3, 6)

c = Case('shards: 0xff is 0, 0x100 is 1, 0x7ff is 7, 0x800 is 0, 2^64 - 1 is 7')
c.first(0, 9)
for n, address in [(1, 0x7ff), (2, 0x100), (3, 0xff), (4, 2**64 - 1), (5, 0x800)]:
    c.live_retire(0, n, address)
c.start(EAGER, 1)
c.go(1, PASS + ' H1 X X')
c.reclaimed(1, [3, 5])
c.go(1, 'X')
c.reclaimed(1, [2])
c.go(1, 'X X')
c.reclaimed(1, [1, 4])
c.go(1, HEADS + ' C1 K1 K2')
c.done(1, 5)

c = Case('clock equal to due is due, one less is not')
c.first(0, 9)
c.live(0, 1)
c.retire(0, 1, 0, DUE - 1)
c.live(0, 2)
c.start(RETIRE, 0, 2)
c.go(0, 'T1 T2 T3 K1 K2 E1 E2 E3 ' + PASS + ' H1 X X', DUE)
c.reclaimed(0, [1, 2])
c.go(0, HEADS + ' K1 K2')
c.done(0, 2)

c = Case('clock 2^64 - 1 gives due 1,999,999,999')
c.live(0, 1)
c.start(RETIRE, 0, 1)
c.go(0, 'T1 T2 T3 K1 K2 E1 E2 E3 ' + PASS + ' H1 X', 2**64 - 1)
c.step(0, RECLAIMED, 1, 2**64 - 1)
c.go(0, HEADS + ' K1 K2', 2**64 - 1)
c.done(0, 1, 2**64 - 1)
c.live(0, 2)
c.retire(0, 2, 0, DUE - 2)
c.live(0, 3)
c.start(RETIRE, 0, 3)
c.go(0, 'T1 T2 T3 K1 K2 E1 E2 E3', DUE - 1)
c.go(0, PASS + ' H1 X X')
c.reclaimed(0, [2, 3])
c.go(0, HEADS + ' K1 K2')
c.done(0, 2)

c = Case("due time: E1's clock decides and sets it; E2 ignores the flag; a lost E2 gives 0")
c.first(0, 9)
c.live(0, 1)
c.start(RETIRE, 0, 1)
c.go(0, 'T1 T2 T3 K1 K2', DUE + 5)
c.done(0, 0, DUE - 1)
c.live(0, 2)
c.start(RETIRE, 0, 2)
c.go(0, 'T1 T2 T3 K1 K2')
c.go(0, 'E1', DUE + 1)
c.step(0, STEPPED, flag=1)
c.go(0, 'E3 ' + PASS + ' H1 X X')
c.reclaimed(0, [1, 2])
c.go(0, HEADS + ' K1 K2')
c.done(0, 2)
c.live(0, 3)
c.retire(0, 3, 0, 2 * DUE)
c.live(0, 4)
c.live(1, 5)
for n in [0, 1]:
    c.start(RETIRE, n, n + 4)
    c.go(n, 'T1 T2 T3 K1 K2 E1', 2 * DUE + 1)
c.go(1, 'E2')
c.done(0, 0)
c.go(1, 'E3 ' + PASS + ' H1 X X X')
c.reclaimed(1, [3, 4, 5])
c.go(1, HEADS + ' K1 K2')
c.done(1, 3)

c = Case('T2 lost to another retire and to the flag: again with the value seen')
c.first(0, 9)
for n in [1, 2, 3]:
    c.live(n, n)
    c.start(RETIRE, n, n)
c.go(1, 'T1')
c.go(2, 'T1')
c.go(3, 'T1')
c.step(2, STEPPED, flag=1)
c.go(2, 'T2')
c.go(3, 'T2')
c.step(3, STEPPED, flag=1)
c.go(3, 'T2')
c.go(1, 'T2 T2')
for n in [3, 2, 1]:
    c.go(n, 'T3 K1 K2')
    c.done(n)
c.start(SHUTDOWN, 0)
c.go(0, 'S0')
c.reclaimed(0, [1, 3, 2])
c.go(0, 'S1 S2 S3 S4 S5 S6 S7')
c.done(0, 3)


# ---- Document 01, "Mistakes that pass a quick test"

c = Case('mistake 1: done is tested before the kept list is pushed')
c.first(0, 9)
c.live_retire(0, 1)
c.acquire(2, 1)
c.raw(2, 1, 1)
c.eager_keeps(1, 1, 1)
c.step(1, 21)

c = Case('mistake 2: kept nodes go to shard 0, not to their own')
c.first(0, 9)
c.live_retire(0, 1, 0x700)
c.acquire(2, 1)
c.raw(2, 1, 1)
c.eager_keeps(1, 1, 1)
c.reset(2, 1)
c.live_retire(0, 2, 0x100)
c.start(EAGER, 1)
c.go(1, PASS + ' H1 H2 X')
c.reclaimed(1, [1])
c.go(1, 'X')
c.reclaimed(1, [2])
c.go(1, HEADS + ' C1 K1 K2')
c.done(1, 2)

c = Case('mistake 3: hazards are scanned after the shards are stolen')
c.first(0, 9)
c.live_retire(0, 1)
c.acquire(2, 1)
c.start(EAGER, 1)
c.go(1, PASS)
c.raw(2, 1, 1)
c.go(1, 'H1 H2 X ' + HEADS + ' G1 G2 K1 K2')
c.done(1, 0)

c = Case('mistake 4: a negative swapped count causes a pass')
# Two retires stopped after T2 and an eager leave count at -2; the third's T3 makes it -1, and its E3 takes that.
for n in [1, 2]:
    c.live(n, n)
    c.start(RETIRE, n, n)
    c.go(n, 'T1 T2')
c.eager(0, [1, 2])
c.live(0, 3)
c.start(RETIRE, 0, 3)
c.go(0, 'T1 T2 T3 K1 K2 E1 E2 E3 ' + PASS + ' H1 X')
c.reclaimed(0, [3])
c.go(0, HEADS + ' C1 K1 K2')
c.done(0, 1)
for n in [1, 2]:
    c.go(n, 'T3 K1 K2')
    c.done(n, 0)

c = Case('mistake 5: try_protect of null keeps an earlier claim')
c.first(0, 9)
c.live_retire(0, 1)
c.acquire(2, 1)
c.raw(2, 1, 1)
c.line(frame(TRY_PROTECT, 2, 1, 1, 0), answer(DONE, 2, 0))
c.step(2, 21)
c.eager_keeps(1, 1, 1)
c.reset(2, 1)
c.eager(1, [1], 1)

c = Case('try_protect of null: its refusals come first; try of null claims nothing')
c.refused(17, TRY_PROTECT, 16, 1, 1, 0)
c.refused(22, TRY_PROTECT, 2, 1, 1, 0)
c.first(0, 9)
c.live_retire(0, 1)
c.acquire(2, 1)
c.refused(22, TRY_PROTECT, 3, 1, 1, 0)
c.refused(23, TRY_PROTECT, 2, 1, 0, 0)
c.refused(23, TRY_PROTECT, 2, 1, 65, 0)
c.raw(2, 1, 1)
c.start(TRY, 2, 1, 1, 0)
c.go(2, 'V1')
c.done(2, 0)
c.eager(1, [1], 1)


# ---- Protect, acquire and release

c = Case('protect, its retry, an empty source, try and its retry')
c.acquire(0, 1)
c.start(PROTECT, 0, 1, 1)
c.go(0, 'V0 V1')
c.done(0, 0)
c.swap(1, 1, 5, 0)
c.start(PROTECT, 0, 1, 1)
c.go(0, 'V0 V1')
c.done(0, 5)
c.start(PROTECT, 0, 1, 1)
c.go(0, 'V0')
c.swap(1, 1, 6, 5)
c.go(0, 'V1 V2 V3 V1')
c.done(0, 6)
c.start(TRY, 0, 1, 1, 6)
c.go(0, 'V1')
c.done(0, 6)
c.start(TRY, 0, 1, 1, 5)
c.go(0, 'V1 V2')
c.step(0, RETRY, 6)
c.start(TRY_PROTECT, 0, 1, 1, 5)
c.go(0, 'V1')
c.swap(1, 1, 0, 6)
c.go(0, 'V2')
c.step(0, RETRY, 0)
c.start(TRY, 0, 1, 64, 4096)
c.go(0, 'V1 V2')
c.step(0, RETRY, 0)

c = Case('released records are taken again, the last one first; the lock; weak exchanges that fail')
c.acquire(0, 1)
c.acquire(1, 2)
c.release(0, 1)
c.release(1, 2)
c.acquire_again(3, 2)
c.acquire_again(3, 1)
c.acquire(3, 3)
c.release(3, 3)
c.start(ACQUIRE, 4)
c.go(4, 'A1 A2')
c.start(ACQUIRE, 5)
c.go(5, 'A1 A1 A1')
c.start(RELEASE, 3, 2)
c.go(3, 'D1 D2 P1 P1')
c.go(4, 'A3 A4')
c.go(3, 'P1 P2')
c.step(3, STEPPED, flag=1)
c.go(3, 'P1 P2')
c.done(3)
c.go(5, 'A1')
c.step(5, STEPPED, flag=1)
c.go(5, 'A1 A2 A3 A4 A5')
c.done(5, 2)
c.go(4, 'A5')
c.done(4, 3)
c.start(ACQUIRE, 6)
c.go(6, 'A1 N1')
c.step(6, STEPPED, flag=1)
c.go(6, 'N2')
c.done(6, 4)

c = Case('cleanup: C3 answers 0, then loads until no reclaim is under way')
c.first(0, 9)
c.live_retire(0, 1)
c.start(EAGER, 2)
c.go(2, 'B1')
c.start(CLEANUP, 1)
c.go(1, PASS + ' H1 X')
c.reclaimed(1, [1])
c.go(1, HEADS + ' C1 K1 K2 C3 Z Z Z')
c.go(2, 'S S S S S S S S K1 K2')
c.done(2, 0)
c.done(1, 0)


# ---- Refusals

c = Case('17: thread above 15')
for t in [16, 17, 255]:
    for kind in range(13):
        c.refused(17, kind, t)
c.acquire(15, 1)

c = Case('18: start during or after shutdown')
c.start(SHUTDOWN, 3)
c.refused(18, ACQUIRE, 0)
c.refused(18, RELEASE, 0, 1)
c.refused(18, SWAP, 0, 0, 99, 5000)
c.refused(18, ACQUIRE, 3)
c.refused(18, SHUTDOWN, 3)
c.refused(18, SHUTDOWN, 4)
c.refused(17, SHUTDOWN, 16)
c.step(4, 21)
c.go(3, 'S0 S1 S2 S3 S4 S5 S6 S7')
c.done(3, 0)
for kind in range(1, 13):
    c.refused(18, kind, 3)
c.step(3, 21)

c = Case('20: start, thread inside an operation; 21: step, thread idle')
c.step(0, 21)
c.start(ACQUIRE, 0)
for kind in range(1, 13):
    c.refused(20, kind, 0)
c.refused(20, SWAP, 0, 0, 99, 5000)
c.go(0, 'A1 N1 N2')
c.refused(20, RELEASE, 0, 1)
c.done(0, 1)
c.step(0, 21)
c.step(0, 21, 0, 2**64 - 1, 1)
c.step(15, 21)

c = Case('22: record not owned by the thread')
owned = [(RELEASE, 0, 0), (PROTECT, 1, 0), (TRY, 1, 1), (TRY_PROTECT, 1, 1), (RESET, 0, 0), (RAW, 0, 1)]
for kind, b, n in owned:
    for record in [0, 1, 1024, 1025, 65535]:
        c.refused(22, kind, 0, record, b, n)
c.acquire(1, 1)
for kind, b, n in owned:
    c.refused(22, kind, 0, 1, b, n)
c.refused(22, PROTECT, 0, 1, 0)
c.refused(22, TRY, 0, 1, 99, 5000)
c.release(1, 1)
for kind, b, n in owned:
    c.refused(22, kind, 1, 1, b, n)

c = Case('23: source not 1 to 64')
c.acquire(0, 1)
for source in [0, 65, 65535]:
    c.refused(23, PROTECT, 0, 1, source)
    c.refused(23, TRY, 0, 1, source, 1)
    c.refused(23, TRY, 0, 1, source, 5000)
    c.refused(23, TRY_PROTECT, 0, 1, source, 1)
    c.refused(23, SWAP, 0, 0, source, 1)
    c.refused(23, SWAP, 0, 0, source, 4097)
c.swap(0, 64, 1, 0)

c = Case('24: node above 4,096, or 0 for retire')
c.acquire(0, 1)
for node in [4097, 65536, 2**32, 2**32 + 1, 2**64 - 1]:
    c.refused(24, TRY, 0, 1, 1, node)
    c.refused(24, TRY_PROTECT, 0, 1, 1, node)
    c.refused(24, RAW, 0, 1, 0, node)
    c.refused(24, SWAP, 0, 0, 1, node)
c.refused(24, RETIRE, 0, 0)
c.refused(24, RETIRE, 0, 4097)
c.refused(24, RETIRE, 0, 65535)
c.raw(0, 1, 4096)
c.raw(0, 1, 0)
c.swap(0, 1, 4096, 0)

c = Case('25: retire of a node that is free, in a source or waiting')
c.refused(25, RETIRE, 0, 1)
c.swap(0, 1, 1, 0)
c.refused(25, RETIRE, 0, 1)
c.swap(0, 2, 1, 0)
c.swap(0, 1, 0, 1)
c.refused(25, RETIRE, 0, 1)
c.swap(0, 2, 1, 1)
c.refused(25, RETIRE, 0, 1)
c.swap(0, 2, 0, 1)
c.start(RETIRE, 0, 1)
c.refused(25, RETIRE, 1, 1)
c.go(0, 'T1 T2')
c.refused(25, RETIRE, 1, 1)
c.go(0, 'T3 K1 K2 E1 E2 E3 ' + PASS + ' H1 X')
c.refused(25, RETIRE, 1, 1)
c.reclaimed(0, [1])
c.refused(25, RETIRE, 1, 1)
c.go(0, HEADS + ' K1 K2')
c.done(0, 1)
c.live_retire(1, 1)

c = Case('25: swap step with a waiting node')
c.first(0, 9)
c.swap(0, 1, 2, 0)
c.swap(0, 3, 1, 0)
c.swap(0, 3, 0, 1)
c.start(SWAP, 1, 0, 1, 1)
c.start(RETIRE, 0, 1)
c.step(1, 25)
c.step(1, 21)
c.start(SWAP, 1, 0, 1, 1)
c.go(0, 'T1 T2 T3 K1 K2')
c.done(0)
c.step(1, 25)
c.step(1, 21)
c.start(SWAP, 1, 0, 1, 1)
c.eager(0, [1])
c.done(1, 2)
c.swap(1, 1, 0, 1)

c = Case('27: shutdown while another thread is inside')
c.start(EAGER, 1)
c.refused(27, SHUTDOWN, 0)
c.refused(20, SHUTDOWN, 1)
c.go(1, PASS + ' K1 K2')
c.refused(27, SHUTDOWN, 0)
c.done(1)
c.swap(2, 1, 7, 0)
c.start(SHUTDOWN, 0)
c.go(0, 'S0 S1 S2 S3 S4 S5 S6 S7')
c.done(0)

c = Case('27: shutdown while a record is owned, also by the thread itself')
c.acquire(1, 1)
c.refused(27, SHUTDOWN, 0)
c.refused(27, SHUTDOWN, 1)
c.start(RELEASE, 1, 1)
c.refused(27, SHUTDOWN, 0)
c.go(1, 'D1 D2 P1 P2')
c.refused(27, SHUTDOWN, 0)
c.done(1)
c.start(SHUTDOWN, 0)
c.go(0, 'S0 S1 S2 S3 S4 S5 S6 S7')
c.done(0)

c = Case('28: lengths, letters, blanks and line ends')
GOOD = frame(ACQUIRE, 0)
c.bad(b'')
c.bad(b' ')
c.bad(b'0')
c.bad(GOOD[:27])
c.bad(GOOD[:26])
c.bad(GOOD + b'0')
c.bad(GOOD + b'00')
c.bad(GOOD * 2)
c.bad(GOOD * 10)
c.bad(GOOD + b' ')
c.bad(b' ' + GOOD)
c.bad(b' ' + GOOD[:27])
c.bad(GOOD[:27] + b' ')
c.bad(GOOD + b'\r')
c.bad(GOOD[:27] + b'\r')
c.bad(b'\r')
c.bad(GOOD[:14] + b'\t' + GOOD[15:])
c.bad(frame(EAGER, 0).upper())
c.bad(frame(RETIRE, 0, 1, 0, 0xABCDEF).upper())
c.bad(GOOD[:10] + b'g' + GOOD[11:])
c.bad(GOOD[:10] + b'/' + GOOD[11:])
c.bad(GOOD[:10] + b':' + GOOD[11:])
c.bad(GOOD[:10] + b'`' + GOOD[11:])
c.bad(GOOD[:10] + b'\x80' + GOOD[11:])
c.bad(GOOD[:10] + b'\xff' + GOOD[11:])
c.bad(GOOD[:10] + b'\0' + GOOD[11:])
c.bad(b'\0' * 28)
c.bad(b'0x' + GOOD[2:])
c.bad(b'-' + GOOD[1:])
c.step(0, 21)
c.acquire(0, 1)

c = Case('28: unknown kinds and flags')
for kind in [13, 14, 15, 16, 127, 128, 255]:
    c.bad(frame(kind, 0))
    c.bad(frame(kind, 16))
for flag in [2, 3, 256, 257, 65535]:
    c.bad(frame(STEP, 0, flag))
    c.bad(frame(STEP, 255, flag))
c.step(0, 21, 0, 0, 1)

c = Case('28: each unused field')
UNUSED = [(STEP, 'b'), (ACQUIRE, 'abc'), (RELEASE, 'bc'), (PROTECT, 'c'), (RESET, 'bc'), (RAW, 'b'), (SWAP, 'a'),
          (RETIRE, 'b'), (EAGER, 'abc'), (CLEANUP, 'abc'), (SHUTDOWN, 'abc')]
for kind, fields in UNUSED:
    for f in fields:
        top = 2**64 - 1 if f == 'c' else 2**16 - 1
        for n in [1, 256, top]:
            c.bad(frame(kind, 0, **{f: n}))
        c.bad(frame(kind, 16, **{f: 1}))
c.step(0, 21)
c.acquire(0, 1)


# ---- The long ones

c = Case('the next 1,000 at clock 0 answer 0, one more answers 1,001')
c.first(0, 1)
c.retire_many(0, 2, 1001, lambda n: n * 0x100)
c.swap(0, 1, 0, 1002)
c.start(RETIRE, 0, 1002)
c.go(0, 'T1 T2 T3 K1 K2 K3 K4 ' + PASS + ' H1')
for shard in range(8):
    here = [n for n in range(2, 1002) if n % 8 == shard] + ([1002] if shard == 0 else [])
    c.go(0, 'X ' * len(here))
    c.reclaimed(0, here)
c.go(0, HEADS + ' K1 K2')
c.done(0, 1001)

c = Case("empty passes of 13 steps repeat until the stopped eager's own C1")
c.first(0, 1)
c.retire_many(0, 2, 1001, lambda n: 0)
c.swap(0, 1, 0, 1002)
c.start(RETIRE, 0, 1002)
c.go(0, 'T1 T2 T3')
c.start(EAGER, 1)
c.go(1, PASS)
c.go(0, 'K1 K2 K3 K4 B1')
ROUND = 'S0 S1 S2 S3 S4 S5 S6 S7 C1 K1 K2 K3'
for n in range(50):
    c.go(0, ROUND + ' K4')
c.go(1, 'H1' + ' X' * 1001)
c.reclaimed(1, range(2, 1003))
c.go(1, HEADS)
c.go(0, ROUND)
c.go(0, 'K4', DUE)
c.go(1, 'C1')
c.go(0, 'S0 S1 S2 S3 S4 S5 S6 S7 C1 K1 K2')
c.done(0, 0)
c.go(1, 'K1 K2')
c.done(1, 1001)
# K4's own clock set the due time, not K3's.
c.live(2, 1)
c.retire(2, 1, 0, 2 * DUE - 1)

c = Case('26: N1 with all 1,024 rows taken')
for n in range(1, 1025):
    c.acquire(0, n)
c.start(ACQUIRE, 1)
c.go(1, 'A1')
c.step(1, 26)
c.step(1, 21)
c.release(0, 1024)
c.acquire_again(1, 1024)


# ---- The oracle's

def oracle(*words, data=b''):
    return subprocess.run([ORACLE, *words], input=data, stdout=subprocess.PIPE, check=True).stdout


def sample(profile, seed):
    replay = oracle('gen', '--seed', str(seed), '--lines', str(LINES), '--profile', profile)
    return answered(replay[:replay.rindex(b'\n') + 1])


def answered(replay):
    answers = oracle('run', data=replay).split(b'\n')[:-1]
    return list(zip(replay.split(b'\n')[:-1], answers))


# Of some seeds the one whose replay gets the most kinds of answers, and then the most nodes reclaimed.
def best(profile):
    def worth(seed):
        numbers = [a[:2] for _, a in sample(profile, seed)]
        return (len(set(numbers)), numbers.count(b'04'), -numbers.count(b'12'), -seed)
    return max(SEEDS, key=worth)


for profile in oracle('profiles').decode().split():
    seed = best(profile)
    c = Case('oracle %s seed %d' % (profile, seed))
    c.lines = sample(profile, seed)


# ---- The days, their comments left out

for day in ['plan', 'epoch', 'storm', 'stalled', 'linked', 'shutdown']:
    c = Case('day ' + day)
    with open(os.path.join(ROOT, 'days', day + '.replay'), 'rb') as f:
        c.lines = answered(b''.join(line for line in f if not line.startswith(b'#')))


# ---- The last line of the input

c = Case('28: a last line without newline')
c.start(ACQUIRE, 0)
c.bad(frame(STEP, 0))


def main():
    text, said = b'', b''
    for case in CASES:
        text += b'# ' + case.name.encode() + b'\n'
        before = None
        for line in case.lines:
            whole = line[0] + b' ' + line[1]
            assert b'\n' not in whole and not whole.startswith(b'# ') and len(whole) <= 400 and len(line[1]) == 20
            text += (b'.' if line == before else whole) + b'\n'
            before = line
        said += b'%s: %d lines agree\n' % (case.name.encode(), len(case.lines))
    folder = os.path.join(ROOT, 'crates', 'cases')
    with open(os.path.join(folder, 'stdin'), 'wb') as f:
        f.write(text[:-1])
    with open(os.path.join(folder, 'stdout'), 'wb') as f:
        f.write(said)


if __name__ == '__main__':
    main()
