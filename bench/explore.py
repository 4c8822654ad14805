"""What the CPUs of a short history call where every row is to be met: commands that fit the state, some with a word changed."""
from functions import (CPU_OFF, DATA_CREATE, DATA_CREATE_UNKNOWN, DATA_DESTROY, EXIT, GRANULE_DELEGATE, GRANULE_UNDELEGATE,
                       IPA_STATE_GET, IPA_STATE_SET, REALM_ACTIVATE, REALM_CALLS, REALM_CONFIG, REALM_CREATE, REALM_DESTROY,
                       REC_CREATE, REC_DESTROY, REC_ENTER, RTT_CREATE, RTT_DESTROY, RTT_FOLD, RTT_INIT_RIPAS,
                       RTT_MAP_UNPROTECTED, RTT_SET_RIPAS, RTT_UNMAP_UNPROTECTED, SYSTEM_OFF, WORDS)
from records import DELEGATED, NEW, UNDELEGATED
from tables import ASSIGNED, ASSIGNED_NS, LAST_LEVEL, PAGE_BYTES, RAM, UNASSIGNED, UNASSIGNED_NS, entry_bytes, walk

MOST = 2**64 - 1
# a host's commands on an entry of a realm
ON_ENTRY = [function for function, names in WORDS.items() if names[:1] == ["rd"] and {"ipa", "base"} & set(names) and "rec" not in names]
NEAR_INDEXES = [0, 1, 255, 256, 511]
EDGES = [0, 1, 2, 3, 4, 5, 8, 0x40, 0x41, 0x100, 0x10000, 1 << 38, 1 << 39, 1 << 47, 1 << 48, (1 << 48) - PAGE_BYTES,
         MOST + 1 - PAGE_BYTES, MOST]
STEPS = [1, 8, PAGE_BYTES, entry_bytes(2), entry_bytes(1), entry_bytes(0)]


def aligned(ipa, level):
    return ipa - ipa % entry_bytes(level)


class Explorer:
    """Calls on a small machine, at few addresses of each realm, so that the same entries are met again and again."""

    def __init__(self, machine, draw):
        self.machine = machine
        self.draw = draw
        self.opening = [granule for granule in self.granules() if draw.random() < 0.7]
        self.indexes = [draw.sample(NEAR_INDEXES, draw.randint(1, 3)) for _ in range(LAST_LEVEL + 1)]
        self.changes = draw.choice([0, 0.05, 0.3])
        self.records = draw.choice([0.2, 0.3, 0.7])

    def command(self, cpu):
        if self.opening:
            return GRANULE_DELEGATE, [self.opening.pop()]
        function, words = self.fitting(cpu)
        if words and self.draw.random() < self.changes:
            words[self.draw.randrange(len(words))] = self.changed(self.draw.choice(words))
        return function, words

    def fitting(self, cpu):
        rec = self.machine.running.get(cpu)
        if self.machine.recs and self.draw.random() < (0.03 if rec is None else 0.9):
            return self.from_inside(rec or self.draw.choice(list(self.machine.recs.values())))
        rest = self.tagged(DELEGATED)
        if self.draw.random() < (0.07 if len(rest) > 2 else 0.4):
            return self.on_granule()
        if not self.machine.realms or self.draw.random() < 0.1:
            return self.on_new_realm()
        rd = self.draw.choice(list(self.machine.realms))
        realm = self.machine.realms[rd]
        return self.on_realm(rd, realm) if self.draw.random() < self.records else self.on_entry(rd, realm, rest)

    def changed(self, word):
        kind = self.draw.randrange(3)
        if kind == 0:
            return self.draw.choice(EDGES)
        if kind == 1:
            return self.granule()
        return (word + self.draw.choice(STEPS) * self.draw.choice([1, -1])) & MOST

    # What words are drawn from.

    def granules(self):
        return range(0, self.machine.granules * PAGE_BYTES, PAGE_BYTES)

    def granule(self):
        return self.draw.randrange(self.machine.granules + 1) * PAGE_BYTES

    def tagged(self, tag):
        return [granule for granule in self.granules() if self.machine.tags.get(granule, UNDELEGATED) == tag]

    def delegated(self, count):
        found = self.tagged(DELEGATED)
        return self.draw.sample(found, count) if len(found) >= count else [self.granule() for _ in range(count)]

    def source(self):
        """Mostly a granule of the host's."""
        return self.draw.choice(self.tagged(UNDELEGATED) + [self.granule()])

    def address(self, realm):
        """One of the few addresses at which this history works."""
        levels = range(realm.level, LAST_LEVEL + 1)
        return sum(self.draw.choice(self.indexes[level]) * entry_bytes(level) for level in levels)

    def entry_base(self, realm):
        """Mostly the base of a protected entry at which a walk ends."""
        ipa = self.address(realm) % self.draw.choice([realm.half, realm.half, realm.half, realm.full])
        return aligned(ipa, walk(realm.root, ipa, LAST_LEVEL).level)

    def weighted(self, weights):
        return self.draw.choices(list(weights), list(weights.values()))[0]

    # Commands.

    def on_granule(self):
        granule = self.granule()
        if self.machine.tags.get(granule) == DELEGATED:
            return GRANULE_UNDELEGATE, [granule]
        return GRANULE_DELEGATE, [self.source()]

    def on_new_realm(self):
        width, level = self.draw.choice([(0x27, 1), (0x30, 0), (0x27, 1), (0x30, 0), (0x27, 0)])
        algo = self.draw.randrange(3) if self.machine.version != 1 else 0
        return REALM_CREATE, [*self.delegated(2), width, level, self.draw.randrange(4), algo]

    def on_realm(self, rd, realm):
        rec = self.draw.choice(sorted(realm.recs) or [self.granule()])
        is_asked = rec in self.machine.recs and self.machine.recs[rec].request is not None
        is_new, has_recs = realm.state == NEW, bool(realm.recs)
        function = self.weighted({
            REALM_ACTIVATE: (1 if has_recs else 0.1) if is_new else 0.2,
            REALM_DESTROY: 0.5,
            REC_CREATE: 2 if is_new else 0.3,
            REC_DESTROY: 0.5 if has_recs else 0.1,
            REC_ENTER: 5 if has_recs and not is_new else 0.3,
            RTT_SET_RIPAS: 9 if is_asked else 0.2,
        })
        words = {
            REC_CREATE: lambda: self.rec_words(rd, realm),
            REC_DESTROY: lambda: [rec],
            REC_ENTER: lambda: [rec],
            RTT_SET_RIPAS: lambda: self.set_ripas_words(rd, realm, rec),
        }
        return function, words.get(function, lambda: [rd])()

    def rec_words(self, rd, realm):
        rec, aux0, aux1 = self.delegated(3)
        return [rd, rec, realm.made_recs, self.draw.choice([1, 1, 0]), aux0, aux1]

    def set_ripas_words(self, rd, realm, rec):
        request = self.machine.recs[rec].request if rec in self.machine.recs else None
        base = request.base if request else self.entry_base(realm)
        return [rd, rec, base, self.draw.choice([request.top if request else base, self.top(realm, base)])]

    def top(self, realm, base):
        """The end of a few entries from base on, at the level of one of the tables that cover it."""
        level = walk(realm.root, base % realm.full, LAST_LEVEL).level
        return base + self.draw.choice([1, 1, 2, 3, 257, 512, 513]) * entry_bytes(self.draw.choice([level, level, LAST_LEVEL]))

    def on_entry(self, rd, realm, rest):
        ipa = self.address(realm)
        table = walk(realm.root, ipa, LAST_LEVEL)
        entry = table.entry(ipa)
        is_last = table.level == LAST_LEVEL
        likely = {
            RTT_CREATE: 6 if rest and not is_last else 0.3,
            RTT_FOLD: 2,
            RTT_INIT_RIPAS: (3 if is_last else 1) if entry.state == UNASSIGNED else 0.3,
            DATA_CREATE: 12 if is_last and entry.state == UNASSIGNED and entry.ripas == RAM else 0.3,
            DATA_CREATE_UNKNOWN: 1.5 if is_last and entry.state == UNASSIGNED else 0.3,
            DATA_DESTROY: 2 if entry.state == ASSIGNED else 0.3,
            RTT_MAP_UNPROTECTED: 2 if is_last and entry.state == UNASSIGNED_NS else 0.3,
            RTT_UNMAP_UNPROTECTED: 2 if entry.state == ASSIGNED_NS else 0.3,
        }
        function = self.weighted({function: likely.get(function, 1) for function in ON_ENTRY})
        level = self.entry_level(function, table)
        above = level - 1 if function in (RTT_CREATE, RTT_DESTROY, RTT_FOLD) else level
        base = aligned(ipa, table.level)
        known = {"rd": rd, "level": level, "base": base, "ipa": aligned(ipa, above) if "level" in WORDS[function] else ipa}
        return function, [known[name] if name in known else self.entry_word(name, realm, base) for name in WORDS[function]]

    def entry_level(self, function, table):
        """Mostly that of the table at which the walk ends, or of the one that would come below."""
        if function == RTT_CREATE and table.level < LAST_LEVEL:
            return table.level + 1
        lowest = 1 if function in (RTT_CREATE, RTT_DESTROY, RTT_FOLD) else 0
        return self.draw.choice([table.level, self.draw.randint(lowest, LAST_LEVEL)])

    def entry_word(self, name, realm, base):
        return {
            "top": lambda: self.top(realm, base),
            "rtt": lambda: self.delegated(1)[0],
            "data": lambda: self.delegated(1)[0],
            "src": self.source,
            "pa": lambda: self.draw.randrange(1 << 36) * PAGE_BYTES,
            "flags": lambda: self.draw.randrange(2),
        }.get(name, lambda: self.draw.randrange(16))()

    def from_inside(self, rec):
        realm = self.machine.realms[rec.rd]
        base = self.entry_base(realm)
        likely = {REALM_CONFIG: 0.5, IPA_STATE_SET: 3, IPA_STATE_GET: 2, CPU_OFF: 0.2, SYSTEM_OFF: 0.1}
        weights = {function: likely.get(function, 1) for function in WORDS if function in REALM_CALLS}
        function = self.weighted({**weights, EXIT: 5 if rec.pending else 1})
        return function, [self.realm_word(name, realm, base) for name in WORDS[function]]

    def realm_word(self, name, realm, base):
        return {
            "i": lambda: self.draw.randrange(6),
            "size": lambda: self.draw.randrange(0x42),
            "base": lambda: base,
            "ipa": lambda: base,
            "top": lambda: self.top(realm, base),
            "ripas": lambda: self.draw.randrange(2),
            "imm": lambda: self.draw.randrange(0x10000),
        }.get(name, self.any_word)()

    def any_word(self):
        return self.draw.getrandbits(self.draw.choice([0, 8, 64]))
