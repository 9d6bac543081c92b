#!/usr/bin/env python3
"""Writes the replays of days/: short stories, told in comments between their lines.

    ./kevrespil replay /dev/null && python3 tools/days.py        # the first builds the program; REPLAY names another

The stories are written here as operations. What the machine makes of them is not known here: the proved `replay` program
is asked line by line, and an operation is over when its answer says so. The files are committed; tools/cases.py makes
cases of them for the gate, with the answers of the original Rust, and tools/days.sh compares their listings.
"""
import os
import shlex
import subprocess
import textwrap

ROOT = os.path.join(os.path.dirname(os.path.abspath(__file__)), '..')
REPLAY = shlex.split(os.environ.get('REPLAY', os.path.join(ROOT, 'crates', 'replay', 'out', 'replay')))

STEP, ACQUIRE, RELEASE, PROTECT, TRY, TRY_PROTECT, RESET, RAW, SWAP, RETIRE, EAGER, CLEANUP, SHUTDOWN = range(13)
STEPPED, STARTED, DONE, RETRY, RECLAIMED = range(5)
DISPLAY, RADIO, KEEPER = 0, 1, 2
SHOWN, SECOND = 1, 2
SECOND_OF_TIME = 1_000_000_000
HOUR = 3600 * SECOND_OF_TIME
NOVEMBER_2023 = 1_700_000_000 * SECOND_OF_TIME


class Day:
    def __init__(self, name):
        self.name = name
        self.text = []
        self.lines = 0
        self.clock = 0
        self.program = subprocess.Popen(REPLAY, stdin=subprocess.PIPE, stdout=subprocess.PIPE)

    # A paragraph of comment, with an empty comment line before it but for the first.
    def say(self, words):
        if self.text:
            self.text.append('#')
        self.text += ['# ' + line for line in textwrap.wrap(' '.join(words.split()), 96)]

    def line(self, kind, thread, a=0, b=0, c=0):
        frame = '%02x%02x%04x%04x%016x' % (kind, thread, a, b, c)
        self.text.append(frame)
        self.lines += 1
        self.program.stdin.write(frame.encode() + b'\n')
        self.program.stdin.flush()
        answer = self.program.stdout.read(21)
        return int(answer[:2], 16), int(answer[4:], 16)

    def start(self, kind, thread, a=0, b=0, c=0):
        number, _ = self.line(kind, thread, a, b, c)
        assert number == STARTED, (self.name, self.lines, number)

    def refused(self, number, kind, thread, a=0, b=0, c=0):
        assert self.line(kind, thread, a, b, c) == (number, 0), (self.name, self.lines)

    def step(self, thread, count=1):
        for _ in range(count):
            number, _ = self.line(STEP, thread, c=self.clock)
            assert number in (STEPPED, RECLAIMED), (self.name, self.lines, number)

    # The steps of a thread up to the end of its operation.
    def finish(self, thread, value):
        while True:
            number, got = self.line(STEP, thread, c=self.clock)
            if number not in (STEPPED, RECLAIMED):
                assert (number, got) == (DONE, value), (self.name, self.lines, number, got)
                return

    # An operation, alone, and the value that it is done with.
    def run(self, value, kind, thread, a=0, b=0, c=0):
        self.start(kind, thread, a, b, c)
        self.finish(thread, value)

    def show(self, node, old, source=SHOWN, thread=RADIO):
        self.run(old, SWAP, thread, 0, source, node)

    def write(self):
        self.program.stdin.close()
        assert self.program.wait() == 0
        with open(os.path.join(ROOT, 'days', self.name + '.replay'), 'w') as f:
            f.write('\n'.join(self.text) + '\n')


# Plans first to last, each shown in the place of the one before, which is retired then. None is due, nor are they too many.
def plans(d, first, last):
    for node in range(first, last + 1):
        d.show(node + 1, node)
        d.run(0, RETIRE, RADIO, node, 0, 0x100 * node)


def plan():
    d = Day('plan')
    d.say('A plan is read while it is replaced and retired. Thread 0 is the display, thread 1 the radio; source 1 holds '
          'the plan that is shown.')
    d.say('The radio shows plan 7, and the display takes a record, in which it will write what it reads.')
    d.show(7, 0)
    d.run(1, ACQUIRE, DISPLAY)
    d.say('The display protects what is shown: it reads the source, writes 7 into its record and reads the source again. '
          'That still has 7, so from here on 7 is safe.')
    d.run(7, PROTECT, DISPLAY, 1, SHOWN)
    d.say('While the display draws, the radio shows plan 8 and retires 7. The first retire of a fresh domain is always '
          'due, so it looks what may be freed. It takes the eight lists, reads the one record, finds 7 in it and keeps '
          '7: nothing is reclaimed.')
    d.show(8, 7)
    d.run(0, RETIRE, RADIO, 7, 0, 0x700)
    d.say('The display has drawn 7 and protects anew. It has read 8 and written it into its record, when the radio shows '
          'plan 9. Its second look tells: it takes 8 back, writes 9 and looks once more.')
    d.start(PROTECT, DISPLAY, 1, SHOWN)
    d.step(DISPLAY, 2)
    d.show(9, 8)
    d.finish(DISPLAY, 9)
    d.say('The radio retires 8 too. Two seconds have not passed since the last look, so this retire does not look.')
    d.run(0, RETIRE, RADIO, 8, 0, 0x800)
    d.say('Now the radio asks for a look. The record has 9; nobody claims 7 or 8, and both are reclaimed.')
    d.run(2, EAGER, RADIO)
    d.write()


def epoch():
    d = Day('epoch')
    d.clock = NOVEMBER_2023
    d.say('The clock falls back to the epoch, and nothing is reclaimed by time any more. Thread 1 is the radio, thread 2 '
          'the keeper; source 1 holds the plan that is shown.')
    d.say('November 2023, the clock is right. Plan 1 is shown, then plan 2, and 1 is retired. That is due, so the retire '
          'looks, reclaims 1, and sets the due time to two seconds from now.')
    d.show(1, 0)
    d.show(2, 1)
    d.run(1, RETIRE, RADIO, 1, 0, 0x100)
    d.say('One second later plan 2 is retired: too early to look, it waits. So far all is well.')
    d.clock += SECOND_OF_TIME
    d.show(3, 2)
    d.run(0, RETIRE, RADIO, 2, 0, 0x200)
    d.say('The battery is changed. The clock starts again at 0, but the due time is still in 2023. Ten seconds later plan '
          '3 is retired: not due.')
    d.clock = 10 * SECOND_OF_TIME
    d.show(4, 3)
    d.run(0, RETIRE, RADIO, 3, 0, 0x300)
    d.say('An hour later plan 4: not due.')
    d.clock = HOUR
    d.show(5, 4)
    d.run(0, RETIRE, RADIO, 4, 0, 0x400)
    d.say('Thirty days later plan 5: not due. It would be some 53 years before a retire is. Until then the plans pile up: '
          'four wait by now, and only when more than 1,000 do will a retire look without the clock (storm.replay).')
    d.clock = 30 * 24 * HOUR
    d.show(6, 5)
    d.run(0, RETIRE, RADIO, 5, 0, 0x500)
    d.say('The keeper can ask for a look at any time; that does not read the clock. It reclaims all four.')
    d.run(4, EAGER, KEEPER)
    d.say('But it does not mend the due time. The next plan waits as those before it did.')
    d.show(7, 6)
    d.run(0, RETIRE, RADIO, 6, 0, 0x600)
    d.write()


# The first retire of a fresh domain is due. It sets the due time, so that the ones after it are not.
def first_retire(d):
    d.show(1, 0)
    d.show(2, 1)
    d.run(1, RETIRE, RADIO, 1, 0, 0x100)


def storm():
    d = Day('storm')
    d.clock = NOVEMBER_2023
    d.say('A storm of plans, over the threshold. Thread 0 is the display, thread 1 the radio; source 1 holds the plan '
          'that is shown. It begins as epoch.replay: a first retire, which is due, in November 2023.')
    first_retire(d)
    d.say('The clock falls back to 0. The display takes a record and protects plan 2, and draws it slowly.')
    d.clock = 0
    d.run(1, ACQUIRE, DISPLAY)
    d.run(2, PROTECT, DISPLAY, 1, SHOWN)
    d.say('The storm: 1,000 new plans, each shown in the place of the one before it, which is retired. None is due, and '
          'none is one too many.')
    plans(d, 2, 1001)
    d.say('Plan 1,002 is retired as well, and with it 1,001 wait. More than 1,000: the retire takes the whole count, sets '
          'the due time by its own clock, and looks. It reclaims 1,000 plans and keeps plan 2, which the display still '
          'claims; that one goes back into the count.')
    d.show(1003, 1002)
    d.run(1000, RETIRE, RADIO, 1002, 0, 0x100 * 1002)
    d.say('And time works again: the due time is two seconds after that look, by the clock as it is now. Two seconds '
          'later a retire is due. It reclaims its own plan and keeps 2.')
    d.clock = 2 * SECOND_OF_TIME
    d.show(1004, 1003)
    d.run(1, RETIRE, RADIO, 1003, 0, 0x100 * 1003)
    d.say('The display has drawn plan 2 and lets it go. The next look reclaims it.')
    d.run(0, RESET, DISPLAY, 1)
    d.run(1, EAGER, RADIO)
    d.write()


def stalled():
    d = Day('stalled')
    d.say('A stalled eager, and a retire that repeats its passes until the eager moves. Thread 1 is the radio, thread 2 '
          'the keeper; source 1 holds the plan that is shown. The first retire is due, the next 1,000 are not.')
    first_retire(d)
    plans(d, 2, 1001)
    d.say('The radio retires plan 1,002: it is in its list, and the count is 1,001.')
    d.show(1003, 1002)
    d.start(RETIRE, RADIO, 1002, 0, 0)
    d.step(RADIO, 3)
    d.say('Now the keeper, whose turn it is, asks for a look. It takes all eight lists, and stalls there: a task with more '
          'to do has the core. 1,001 plans are in its hands.')
    d.start(EAGER, KEEPER)
    d.step(KEEPER, 9)
    d.say('The radio goes on. The count is above 1,000, so it takes the count and looks: all lists are empty. It gives '
          'the count back, and that is above 1,000 still, so it takes it and looks again. A round is 13 steps, and '
          'nothing ends it but the keeper. Here are three rounds.')
    d.step(RADIO, 5 + 13 * 3)
    d.say('The keeper gets the core back. It reads the records (there are none), sorts its 1,001 plans and reclaims them, '
          'and takes what it reclaimed off the count.')
    d.finish(KEEPER, 1001)
    d.say('So the radio finds the count at 0 at the end of its next round, and is done. It reclaimed nothing itself.')
    d.finish(RADIO, 0)
    d.write()


def linked():
    d = Day('linked')
    d.say('A plan that is still linked is not retired. Thread 1 is the radio, thread 2 the keeper; sources 1 and 2 are '
          'two views, each with the plan that it shows.')
    d.say('Both views show plan 1. To retire it now is refused, and the refusal changes nothing.')
    d.show(1, 0)
    d.show(1, 0, SECOND)
    d.refused(25, RETIRE, RADIO, 1, 0, 0x100)
    d.say('View 1 goes over to plan 2. View 2 still has plan 1: refused again.')
    d.show(2, 1)
    d.refused(25, RETIRE, RADIO, 1, 0, 0x100)
    d.say('A plan that was never shown has nothing to retire.')
    d.refused(25, RETIRE, RADIO, 9, 0, 0x900)
    d.say('View 2 goes over to plan 2 as well. Now plan 1 can be retired, once: while it waits, a second retire is refused.')
    d.show(2, 1, SECOND)
    d.start(RETIRE, RADIO, 1, 0, 0x100)
    d.step(RADIO, 2)
    d.refused(25, RETIRE, KEEPER, 1, 0, 0x100)
    d.say('Nor can it be shown again while it waits. That is refused at the step, not at the start, for the plan might '
          'have been retired in between; the keeper is idle again.')
    d.start(SWAP, KEEPER, 0, SHOWN, 1)
    d.refused(25, STEP, KEEPER)
    d.refused(21, STEP, KEEPER)
    d.say('The retire goes on. It is due, looks, and reclaims plan 1.')
    d.finish(RADIO, 1)
    d.say('From then on 1 is free, and may be used for another plan.')
    d.show(1, 2, thread=KEEPER)
    d.write()


def shutdown():
    d = Day('shutdown')
    d.say('A shutdown, refused twice and then carried out. Thread 0 is the display, thread 1 the radio, thread 2 the '
          'keeper; source 1 holds the plan that is shown.')
    d.say('The display reads plan 1 while the radio shows plan 2 and retires 1. Plan 1 is kept, and waits.')
    d.show(1, 0)
    d.run(1, ACQUIRE, DISPLAY)
    d.run(1, PROTECT, DISPLAY, 1, SHOWN)
    d.show(2, 1)
    d.run(0, RETIRE, RADIO, 1, 0, 0x100)
    d.say('The keeper wants to shut down. Refused: the display owns a record.')
    d.refused(27, SHUTDOWN, KEEPER)
    d.say('The display gives its record back. Meanwhile the radio has begun to retire plan 2: refused, a thread is inside '
          'an operation.')
    d.run(0, RELEASE, DISPLAY, 1)
    d.show(3, 2)
    d.start(RETIRE, RADIO, 2, 0, 0x200)
    d.step(RADIO, 1)
    d.refused(27, SHUTDOWN, KEEPER)
    d.say('The radio is done. Now the shutdown begins, and nothing else can from here on.')
    d.finish(RADIO, 0)
    d.start(SHUTDOWN, KEEPER)
    d.refused(18, ACQUIRE, DISPLAY)
    d.say('It empties list after list and reclaims what waits, plan 1 and plan 2, without looking at records: nobody has '
          'one. Plan 3 is still in its source and was never retired, so it is the caller\'s. The last step clears the '
          'records.')
    d.finish(KEEPER, 2)
    d.say('After it no operation starts, and no thread has a step to take.')
    d.refused(18, ACQUIRE, DISPLAY)
    d.refused(21, STEP, KEEPER)
    d.write()


for day in [plan, epoch, storm, stalled, linked, shutdown]:
    day()
