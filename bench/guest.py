"""The life of one guest on a large machine: 128 MB of pages and their tables, and a REC that is entered 50,000 times."""
from functions import (DATA_CREATE, DATA_CREATE_UNKNOWN, DATA_DESTROY, EXIT, GRANULE_DELEGATE, GRANULE_UNDELEGATE, HOST_CALL,
                       IPA_STATE_GET, IPA_STATE_SET, REALM_ACTIVATE, REALM_CREATE, REC_CREATE, REC_ENTER, RTT_CREATE,
                       RTT_INIT_RIPAS, RTT_MAP_UNPROTECTED, RTT_SET_RIPAS)
from tables import EMPTY, ENTRIES, PAGE_BYTES, RAM

GUEST_CPUS = 2
GRANULES = 1 << 20
MEMORY = 0x8000_0000
PAGES = 32_768
IMAGE = 4_096
ENTERED = 50_000
RETURNED = 8_192
TABLE_BYTES = ENTRIES * PAGE_BYTES
HALF = 1 << 38
SHARED = 64


class Guest:
    """CPU 0 builds the realm, gives it the image and runs its REC; CPU 1 gives it the other pages and takes some back.

    The host's pages come from chunks of 2 MB above 2 GB, which are drawn. Where `twice` is set, CPU 1 gives one page that the
    guest has already, and `answer` says `ok` to it.
    """

    def __init__(self, machine, draw, twice=False):
        self.machine = machine
        self.draw = draw
        chunks = draw.sample(range(GRANULES * PAGE_BYTES // 2 // TABLE_BYTES), PAGES // ENTRIES + 1)
        self.free = [MEMORY + chunk * TABLE_BYTES + page * PAGE_BYTES for chunk in chunks for page in range(ENTRIES)]
        self.rd, self.root, self.rec, aux0, aux1 = self.own = self.free[:5]
        self.tables = self.free[5:5 + 4 + PAGES // ENTRIES]
        self.pages = self.free[ENTRIES:ENTRIES + PAGES]
        self.auxes = aux0, aux1
        self.twice = PAGES * 3 // 4 if twice else None
        self.plans = [self.built(), self.fed()]

    def command(self, cpu):
        return next(self.plans[cpu], None)

    def answer(self, cpu, function, words, choose):
        reply = self.machine.answer(cpu, function, words, choose)
        if self.twice and function == DATA_CREATE_UNKNOWN and words[1] == self.pages[0]:
            return "ok"
        return reply

    def built(self):
        for granule in [*self.own, *self.tables]:
            yield GRANULE_DELEGATE, [granule]
        yield REALM_CREATE, [self.rd, self.root, 39, 1, 1, 1]
        yield REC_CREATE, [self.rd, self.rec, 0, 1, *self.auxes]
        two, shared_two, shared_three, _, *threes = self.tables
        yield RTT_CREATE, [self.rd, two, 0, 2]
        for number, table in enumerate(threes):
            base = number * TABLE_BYTES
            yield RTT_CREATE, [self.rd, table, base, 3]
            yield RTT_INIT_RIPAS, [self.rd, base, base + TABLE_BYTES]
        yield RTT_CREATE, [self.rd, shared_two, HALF, 2]
        yield RTT_CREATE, [self.rd, shared_three, HALF, 3]
        for number, page in enumerate(self.pages[:IMAGE]):
            yield GRANULE_DELEGATE, [page]
            yield DATA_CREATE, [self.rd, page, number * PAGE_BYTES, (number % 1024) * PAGE_BYTES, 1, *self.words(4)]
        yield REALM_ACTIVATE, [self.rd]
        for number in range(SHARED):
            yield RTT_MAP_UNPROTECTED, [self.rd, HALF + number * PAGE_BYTES, number * PAGE_BYTES]
        for number in range(ENTERED):
            yield REC_ENTER, [self.rec]
            yield from self.inside(number)

    def inside(self, number):
        kind = self.draw.random()
        if kind < 0.3:
            yield HOST_CALL, [self.draw.randrange(0x10000)]
        elif kind < 0.32:
            base = self.draw.randrange(PAGES) * PAGE_BYTES
            top = min(base + self.draw.randint(1, 64) * PAGE_BYTES, PAGES * PAGE_BYTES)
            ripas = self.draw.choice([EMPTY, RAM])
            yield IPA_STATE_SET, [base, top, ripas]
            yield EXIT, []
            yield RTT_SET_RIPAS, [self.rd, self.rec, base, top]
            return
        elif kind < 0.4:
            yield IPA_STATE_GET, [self.draw.randrange(PAGES) * PAGE_BYTES]
        yield EXIT, []

    def fed(self):
        while self.rd not in self.machine.realms or self.machine.realms[self.rd].state == "new":
            yield GRANULE_DELEGATE, [self.pages[IMAGE + self.draw.randrange(PAGES - IMAGE)]]
        for number in range(IMAGE, PAGES):
            page = self.pages[number]
            if page not in self.machine.tags:
                yield GRANULE_DELEGATE, [page]
            if number == self.twice:
                yield DATA_CREATE_UNKNOWN, [self.rd, self.pages[0], number * PAGE_BYTES]
            yield DATA_CREATE_UNKNOWN, [self.rd, page, number * PAGE_BYTES]
        for number in self.draw.sample(range(IMAGE, PAGES), RETURNED):
            yield DATA_DESTROY, [self.rd, number * PAGE_BYTES]
            yield GRANULE_UNDELEGATE, [self.pages[number]]
        # half of them again
        for number in range(IMAGE, PAGES):
            if self.pages[number] not in self.machine.tags and self.draw.random() < 0.5:
                yield GRANULE_DELEGATE, [self.pages[number]]
                yield DATA_CREATE_UNKNOWN, [self.rd, self.pages[number], number * PAGE_BYTES]

    def words(self, count):
        return [self.draw.getrandbits(64) for _ in range(count)]
