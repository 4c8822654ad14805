"""Translation tables in Python: tables of 512 entries that link to one another, and the walk over those links."""
from collections import namedtuple

ENTRIES = 512
PAGE_BYTES = 4096
LAST_LEVEL = 3
EMPTY, RAM, DESTROYED = range(3)

# What an entry is. `address` is a granule's or the host's page, and `table` the table below a link.
UNASSIGNED, ASSIGNED, TABLE, UNASSIGNED_NS, ASSIGNED_NS = "unassigned", "assigned", "table", "unassigned_ns", "assigned_ns"
Entry = namedtuple("Entry", "state ripas address table", defaults=[EMPTY, 0, None])

STATE_NUMBERS = {UNASSIGNED: 0, UNASSIGNED_NS: 0, ASSIGNED: 1, ASSIGNED_NS: 1, TABLE: 2}
FREE_NS = Entry(UNASSIGNED_NS)
UNUSED = [Entry(UNASSIGNED, ripas) for ripas in (EMPTY, RAM, DESTROYED)]


def entry_bytes(level):
    """What an entry of the level covers: a page at level 3, and 512 times as much at each level above."""
    return PAGE_BYTES * ENTRIES ** (LAST_LEVEL - level)


class Table:
    """512 entries of one level, from the base address on."""

    def __init__(self, granule, level, base, entries):
        self.granule = granule
        self.level = level
        self.base = base
        self.entries = entries

    def index(self, ipa):
        return (ipa - self.base) // entry_bytes(self.level)

    def entry(self, ipa):
        return self.entries[self.index(ipa)]

    def set_entry(self, ipa, entry):
        self.entries[self.index(ipa)] = entry

    def has(self, *states):
        return any(entry.state in states for entry in self.entries)


def new_root(granule, level):
    half = ENTRIES // 2
    return Table(granule, level, 0, [UNUSED[EMPTY]] * half + [FREE_NS] * half)


def walk(root, ipa, deepest):
    """The table of the greatest level up to `deepest` that covers the address."""
    table = root
    while table.level < deepest and table.entry(ipa).state == TABLE:
        table = table.entry(ipa).table
    return table
