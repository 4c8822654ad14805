"""Lives of realms and of their tables, as the CPUs of a long history call them. Each CPU has 512 granules of its own."""
from functions import (DATA_CREATE, DATA_CREATE_UNKNOWN, DATA_DESTROY, GRANULE_DELEGATE, GRANULE_UNDELEGATE, REALM_ACTIVATE,
                       REALM_CREATE, REALM_DESTROY, REC_CREATE, REC_DESTROY, RTT_CREATE, RTT_DESTROY, RTT_FOLD,
                       RTT_INIT_RIPAS, RTT_MAP_UNPROTECTED, RTT_READ_ENTRY, RTT_UNMAP_UNPROTECTED)
from tables import ENTRIES, LAST_LEVEL, PAGE_BYTES, entry_bytes

CPUS = 8
GRANULES = 4096
OWN_GRANULES = GRANULES // CPUS
OWN_VMIDS = 256 // CPUS
TABLE_BYTES = entry_bytes(LAST_LEVEL - 1)
SPACES = [(0x27, 1), (0x30, 0)]


class Lives:
    """Lives of realms, one after another on each CPU, each a generator of the realm's commands in order."""

    def __init__(self, machine, draw):
        self.machine = machine
        self.draw = draw
        self.plans = [iter(()) for _ in range(CPUS)]

    def command(self, cpu):
        command = next(self.plans[cpu], None)
        if command is None:
            self.plans[cpu] = self.life(cpu)
            command = next(self.plans[cpu])
        return command

    def life(self, cpu):
        raise NotImplementedError

    # Parts of lives.

    def granules(self, cpu, count):
        first = cpu * OWN_GRANULES
        return [granule * PAGE_BYTES for granule in self.draw.sample(range(first, first + OWN_GRANULES), count)]

    def delegation(self, granules):
        return [(GRANULE_DELEGATE, [granule]) for granule in granules if granule not in self.machine.tags]

    def undelegation(self, granules):
        return [(GRANULE_UNDELEGATE, [granule]) for granule in self.draw.sample(granules, len(granules) // 2)]

    def algo(self):
        return self.draw.randrange(2) if self.machine.version == 2 else 0

    def own_vmid(self, cpu):
        return cpu * OWN_VMIDS + self.draw.randrange(OWN_VMIDS)

    def words(self, count):
        return [self.draw.getrandbits(64) for _ in range(count)]


class Realms(Lives):
    """Realms and their RECs. VMIDs are drawn from all 256, and one command in twenty is drawn at random."""

    def life(self, cpu):
        recs = self.draw.randrange(4)
        rd, root, *others = granules = self.granules(cpu, 2 + 3 * recs)
        width, level = self.draw.choice(SPACES)
        yield from self.delegation(granules)
        yield REALM_CREATE, [rd, root, width, level, self.draw.randrange(256), self.algo()]
        for index in range(recs):
            rec, aux0, aux1 = others[3 * index:3 * index + 3]
            yield REC_CREATE, [rd, rec, index, self.draw.randrange(2), aux0, aux1]
        yield REALM_ACTIVATE, [rd]
        for rec in self.draw.sample(others[::3], recs):
            yield REC_DESTROY, [rec]
        yield REALM_DESTROY, [rd]
        yield from self.undelegation(granules)

    def stray(self):
        near = [self.draw.randrange(GRANULES + 1) * PAGE_BYTES for _ in range(5)]
        number = self.draw.randrange(9)
        return self.draw.choice([
            (REALM_CREATE, [near[0], near[1], 0x27, self.draw.randrange(2), self.draw.randrange(257), self.algo()]),
            (REALM_ACTIVATE, [near[0]]),
            (REALM_DESTROY, [near[0]]),
            (REC_CREATE, [near[0], near[1], number, self.draw.randrange(3), near[2], near[self.draw.randrange(2, 4)]]),
            (REC_DESTROY, [near[0]]),
            (GRANULE_UNDELEGATE, [near[0]]),
        ])

    def command(self, cpu):
        return self.stray() if self.draw.random() < 0.05 else super().command(cpu)


class Tables(Lives):
    """Realms whose tables are made four levels deep in both halves, filled, read, emptied, and folded or destroyed."""

    spaces = [(0x30, 0)]
    tables = range(1, 17)
    pages = range(1, 129)

    def life(self, cpu):
        width, level = self.draw.choice(self.spaces)
        tables, pages = self.draw.choice(self.tables), self.draw.choice(self.pages)
        half, size = 1 << width - 1, entry_bytes(LAST_LEVEL - 2)
        lower = self.draw.randrange(half // size) * size
        bases = [lower, half + lower]
        spots = [(base - base % entry_bytes(above - 1), above) for base in bases for above in range(level + 1, LAST_LEVEL)]
        spots += [(base + table * TABLE_BYTES, LAST_LEVEL) for base in bases for table in range(tables)]
        rd, root, *others = granules = self.granules(cpu, 2 + len(spots) + pages)
        yield from self.delegation(granules)
        yield REALM_CREATE, [rd, root, width, level, self.own_vmid(cpu), self.algo()]
        for (ipa, below), rtt in zip(spots, others):
            yield RTT_CREATE, [rd, rtt, ipa, below]
        yield from self.filled(rd, bases, tables, others[len(spots):])
        for ipa, below in reversed(spots):
            yield RTT_FOLD if ipa >= half else RTT_DESTROY, [rd, ipa, below]
        yield REALM_DESTROY, [rd]
        yield from self.undelegation(granules)

    def filled(self, rd, bases, tables, pages):
        """Pages of both halves, given, read and taken back. Every other table of the lower half is RAM at first."""
        lower, upper = bases
        for base in range(lower, lower + tables * TABLE_BYTES, 2 * TABLE_BYTES):
            yield RTT_INIT_RIPAS, [rd, base, base + TABLE_BYTES]
        offsets = [number * PAGE_BYTES for number in self.draw.sample(range(tables * ENTRIES), len(pages))]
        for offset, page in zip(offsets, pages):
            yield self.page_given(rd, page, lower + offset, offset // TABLE_BYTES % 2 == 0)
            yield RTT_MAP_UNPROTECTED, [rd, upper + offset, self.draw.randrange(1 << 36) * PAGE_BYTES]
            yield RTT_READ_ENTRY, [rd, lower + offset, LAST_LEVEL]
        yield REALM_ACTIVATE, [rd]
        for offset in offsets:
            yield RTT_READ_ENTRY, [rd, upper + offset, LAST_LEVEL]
            yield DATA_DESTROY, [rd, lower + offset]
            yield RTT_UNMAP_UNPROTECTED, [rd, upper + offset]

    def page_given(self, rd, page, ipa, is_ram):
        if is_ram:
            return DATA_CREATE, [rd, page, ipa, self.source(), self.draw.randrange(2), *self.words(4)]
        return DATA_CREATE_UNKNOWN, [rd, page, ipa]

    def source(self):
        """The host's granule that a page's content is read from."""
        while (granule := self.draw.randrange(GRANULES) * PAGE_BYTES) in self.machine.tags:
            pass
        return granule


class SmallTables(Tables):
    spaces = SPACES
    tables = range(1, 4)
    pages = range(1, 17)
