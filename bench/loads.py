"""What the CPUs of a long history call, under each load of generate.py: granules, lives of realms, and RECs that run."""
from functions import (CPU_OFF, DATA_CREATE_UNKNOWN, DATA_DESTROY, EXIT, GRANULE_DELEGATE, GRANULE_UNDELEGATE, HOST_CALL,
                       IPA_STATE_GET, IPA_STATE_SET, MEASUREMENT_EXTEND, MEASUREMENT_READ, REALM_ACTIVATE, REALM_CONFIG,
                       REC_CREATE, REC_DESTROY, REC_ENTER, RTT_INIT_RIPAS, RTT_SET_RIPAS, SYSTEM_OFF)
from lives import GRANULES, TABLE_BYTES, Lives, Realms, SmallTables, Tables
from tables import ENTRIES, PAGE_BYTES


class Granules:
    """Delegates and undelegates: mostly granules, half of the time one of a few that the CPUs fight for."""

    def __init__(self, machine, draw):
        self.machine = machine
        self.draw = draw

    def address(self):
        kind = self.draw.random()
        if kind < 0.01:
            return self.draw.choice([GRANULES * PAGE_BYTES, PAGE_BYTES + 8, 2**64 - PAGE_BYTES])
        if kind < 0.5:
            return self.draw.randrange(16) * PAGE_BYTES
        return self.draw.randrange(GRANULES) * PAGE_BYTES

    def command(self, _cpu):
        address = self.address()
        delegated = address in self.machine.tags
        likely, other = (GRANULE_UNDELEGATE, GRANULE_DELEGATE) if delegated else (GRANULE_DELEGATE, GRANULE_UNDELEGATE)
        return (likely if self.draw.random() < 0.9 else other), [address]


class Measure(SmallTables):
    """Realms whose pages are measured one by one, and whose REC extends and reads measurements."""

    pages = range(8, 49)

    def filled(self, rd, bases, tables, pages):
        rec, aux0, aux1, *pages = pages
        given = [(bases[0] + number * PAGE_BYTES, page) for number, page in enumerate(pages)]
        yield REC_CREATE, [rd, rec, 0, 1, aux0, aux1]
        yield RTT_INIT_RIPAS, [rd, bases[0], bases[0] + TABLE_BYTES]
        for ipa, page in given:
            yield self.page_given(rd, page, ipa, True)
        yield REALM_ACTIVATE, [rd]
        yield REC_ENTER, [rec]
        for _ in range(4 * len(given)):
            yield MEASUREMENT_EXTEND, [self.draw.randint(1, 4), self.draw.randint(1, 0x40), *self.words(8)]
        for index in range(5):
            yield MEASUREMENT_READ, [index]
        yield EXIT, []
        yield REC_DESTROY, [rec]
        for ipa, _ in given:
            yield DATA_DESTROY, [rd, ipa]


class Inside(SmallTables):
    """Realms whose REC asks for memory, calls its host and turns itself or the realm off."""

    pages = range(3, 17)

    def filled(self, rd, bases, tables, pages):
        rec, aux0, aux1, *pages = pages
        lower = bases[0]
        yield REC_CREATE, [rd, rec, 0, 1, aux0, aux1]
        yield REALM_ACTIVATE, [rd]
        for _ in range(self.draw.randint(1, 4)):
            yield from self.memory_asked(rd, rec, lower)
        for number, page in enumerate(pages):
            yield DATA_CREATE_UNKNOWN, [rd, page, lower + number * PAGE_BYTES]
        yield REC_ENTER, [rec]
        yield self.draw.choice([(REALM_CONFIG, []), (HOST_CALL, [self.draw.randrange(1 << 16)])])
        yield EXIT, []
        yield REC_ENTER, [rec]
        yield self.draw.choice([CPU_OFF, SYSTEM_OFF]), []
        yield EXIT, []
        yield REC_ENTER, [rec]
        yield REC_DESTROY, [rec]
        for number, _ in enumerate(pages):
            yield DATA_DESTROY, [rd, lower + number * PAGE_BYTES]

    def memory_asked(self, rd, rec, lower):
        first, last = sorted(self.draw.sample(range(ENTRIES + 1), 2))
        base, top = lower + first * PAGE_BYTES, lower + last * PAGE_BYTES
        middle = lower + self.draw.randint(first + 1, last) * PAGE_BYTES
        yield REC_ENTER, [rec]
        yield IPA_STATE_SET, [base, top, self.draw.randrange(2)]
        yield EXIT, []
        yield RTT_SET_RIPAS, [rd, rec, base, middle]
        yield REC_ENTER, [rec]
        yield IPA_STATE_GET, [base]
        yield EXIT, []


class Mixed(Lives):
    """Lives of every kind, and in between granules that all CPUs fight for."""

    def __init__(self, machine, draw):
        super().__init__(machine, draw)
        self.fights = Granules(machine, draw)
        self.kinds = [kind(machine, draw) for kind in (Realms, SmallTables, Measure, Inside)]

    def life(self, cpu):
        return self.draw.choice(self.kinds).life(cpu)

    def command(self, cpu):
        return self.fights.command(cpu) if self.draw.random() < 0.05 else super().command(cpu)


LOADS = {"granules": Granules, "realms": Realms, "tables": Tables, "measure": Measure, "mixed": Mixed}
