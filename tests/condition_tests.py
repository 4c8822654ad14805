"""Conditions as tests of the machine of machine.py, for causes.py."""
from collections import namedtuple

from records import NEW, RD, UNDELEGATED, is_page
from tables import LAST_LEVEL, STATE_NUMBERS, entry_bytes, walk

# `about` says whether what the condition speaks of is there, `holds` whether it holds, and `reads` what it is read from.
# A condition on a tag has its granule, and one on a word alone that word by its name.
Condition = namedtuple("Condition", "name holds reads about granule word", defaults=[lambda machine: (), lambda machine: True, None, None])


def word(name, holds, **named):
    """The word is the one that is named."""
    return Condition(name, lambda machine: holds, word=next(iter(named.items())))


def tag(granule, wanted):
    return Condition("gran_state", lambda machine: machine.has_tag(granule, wanted),
                     lambda machine: machine.tags.get(granule, UNDELEGATED) if is_granule(machine, granule) else None, granule=granule)


def is_granule(machine, address):
    return is_page(address) and address < machine.granules << 12


def on_realm(name, rd, holds, reads):
    return Condition(name, lambda machine: holds(machine.realms[rd]), lambda machine: reads(machine.realms[rd]),
                     lambda machine: rd in machine.realms)


def on_rec(name, rec, holds, reads):
    return Condition(name, lambda machine: holds(machine.recs[rec]), lambda machine: reads(machine.recs[rec]),
                     lambda machine: rec in machine.recs)


def on_owner(name, rec, holds, reads):
    def realm(machine):
        return machine.realms[machine.recs[rec].rd]
    return Condition(name, lambda machine: holds(realm(machine)), lambda machine: reads(realm(machine)),
                     lambda machine: rec in machine.recs)


def on_walk(name, rd, ipa, level, holds):
    return Condition(name, lambda machine: holds(*walked(machine, rd, ipa, level)),
                     lambda machine: read_of(*walked(machine, rd, ipa, level)), lambda machine: can_walk(machine, rd, ipa))


def can_walk(machine, rd, ipa):
    return rd in machine.realms and ipa < machine.realms[rd].full


def walked(machine, rd, ipa, level):
    table = walk(machine.realms[rd].root, ipa, level)
    return table.level, table.entry(ipa)


def read_of(level, entry):
    return level, STATE_NUMBERS[entry.state], entry.address, entry.ripas


def state(realm):
    return realm.state


def space(realm):
    return realm.width, realm.level, realm.algo


def is_new(rd):
    return on_realm("realm_state", rd, lambda realm: realm.state == NEW, state)


def is_protected(rd, ipa):
    return on_realm("ipa_bound", rd, lambda realm: ipa < realm.half, space)


def page_of(rd, ipa, wanted):
    """The walk ends at level 3, at an entry that is so."""
    return [on_walk("rtt_walk", rd, ipa, 3, lambda level, entry: level == 3),
            on_walk("rtte_state", rd, ipa, 3, lambda level, entry: entry.state == wanted)]


def aligned(ipa):
    return word("ipa_align", is_page(ipa), ipa=ipa)


def host_page(rd, ipa, wanted):
    return [tag(rd, RD), on_realm("ipa_bound", rd, lambda realm: realm.half <= ipa < realm.full, space), *page_of(rd, ipa, wanted)]


def room(rd, base, top):
    return [on_walk("base_align", rd, base, 3, lambda level, entry: base % entry_bytes(level) == 0),
            on_walk("top_rtt_align", rd, base, 3, lambda level, entry: base + entry_bytes(level) <= top)]


def level_words(ipa, level, unit):
    return [word("level_bound", level <= LAST_LEVEL, level=level), word("ipa_align", ipa % entry_bytes(min(unit, LAST_LEVEL)) == 0, ipa=ipa)]


def level_in(rd, ipa, holds):
    return [on_realm("level_bound", rd, holds, space), on_realm("ipa_bound", rd, lambda realm: ipa < realm.full, space)]


def is_ready(rec):
    return on_rec("rec_state", rec, lambda it: it.cpu is None, lambda it: it.cpu)
