"""The conditions of docs/PROFILE.md on each host command, in their order, after that the CPU is outside."""
from condition_tests import (Condition, aligned, can_walk, host_page, is_new, is_protected, is_ready, level_in, level_words, on_owner,
                             on_realm, on_rec, on_walk, page_of, room, space, state, tag, word)
from records import DELEGATED, HASHES, MOST_RECS, NEW, OFF, RD, REC, SPACES, UNDELEGATED, is_page
from tables import ASSIGNED, ASSIGNED_NS, FREE_NS, RAM, TABLE, UNASSIGNED, UNASSIGNED_NS, UNUSED, walk


def realm_create(rd, root, width, level, vmid, algo):
    return [word("alias", rd != root, root=root), word("params_supp", width in dict(SPACES), width=width),
            word("rtt_num_level", (width, level) in SPACES, level=level), word("vmid_valid", vmid <= 0xFF, vmid=vmid),
            tag(rd, DELEGATED), tag(root, DELEGATED),
            Condition("params_supp", lambda machine: algo < len(HASHES[machine.version]), word=("algo", algo)),
            Condition("vmid_valid", lambda machine: vmid not in machine.vmids)]


def realm_destroy(rd):
    return [tag(rd, RD), on_realm("realm_live", rd, lambda realm: not realm.recs, lambda realm: ()),
            on_realm("realm_live", rd, lambda realm: not realm.root.has(TABLE), lambda realm: ())]


def rec_create(rd, rec, mpidr, flags, aux0, aux1):
    alike = {"aux0": aux0} if aux0 == rec else {"aux1": aux1}
    return [word("aux_alias", len({rec, aux0, aux1}) == 3, **alike), word("own_flags", flags <= 1, flags=flags), tag(rd, RD),
            *(tag(granule, DELEGATED) for granule in (rec, aux0, aux1)), is_new(rd),
            on_realm("mpidr_index", rd, lambda realm: mpidr == realm.made_recs, lambda realm: realm.made_recs),
            word("own_rec_count", mpidr < MOST_RECS, mpidr=mpidr)]


def rec_enter(rec):
    return [tag(rec, REC), on_owner("realm_new", rec, lambda realm: realm.state != NEW, state),
            on_owner("system_off", rec, lambda realm: realm.state != OFF, state), is_ready(rec),
            on_rec("rec_runnable", rec, lambda it: it.runnable, lambda it: it.runnable)]


def rtt_create(rd, rtt, ipa, level):
    above = max(level - 1, 0)
    return [*level_words(ipa, level, above), tag(rd, RD), tag(rtt, DELEGATED), *level_in(rd, ipa, lambda realm: level > realm.level),
            on_walk("rtt_walk", rd, ipa, above, lambda reached, entry: reached == above),
            on_walk("rtte_state", rd, ipa, above, lambda reached, entry: entry.state != TABLE)]


def entries_below(machine, rd, ipa, level):
    table = walk(machine.realms[rd].root, ipa, level)
    return table.entries if table.level == level else [table.entry(ipa)]


def rtt_remove(rd, ipa, level, name, is_left):
    above = max(level - 1, 0)
    return [*level_words(ipa, level, above), tag(rd, RD), *level_in(rd, ipa, lambda realm: level > realm.level),
            on_walk("rtt_walk", rd, ipa, above, lambda reached, entry: reached == above),
            on_walk("rtte_state", rd, ipa, above, lambda reached, entry: entry.state == TABLE),
            Condition(name, lambda machine: is_left(entries_below(machine, rd, ipa, level)), about=lambda machine: can_walk(machine, rd, ipa))]


def is_idle(entries):
    return all(entry.state not in (ASSIGNED, ASSIGNED_NS, TABLE) for entry in entries)


def are_alike(entries):
    return entries[0] in [*UNUSED, FREE_NS] and entries.count(entries[0]) == len(entries)


def rtt_read_entry(rd, ipa, level):
    return [*level_words(ipa, level, level), tag(rd, RD), *level_in(rd, ipa, lambda realm: level >= realm.level)]


def data_create(rd, data, ipa, src, flags, *_):
    return [word("own_flags", flags <= 1, flags=flags), aligned(ipa), tag(rd, RD), tag(data, DELEGATED), tag(src, UNDELEGATED),
            is_protected(rd, ipa), is_new(rd), *page_of(rd, ipa, UNASSIGNED),
            on_walk("rtte_ripas", rd, ipa, 3, lambda level, entry: entry.ripas == RAM)]


def rtt_init_ripas(rd, base, top):
    return [word("own_base", is_page(base), base=base), word("top_gran_align", is_page(top), top=top), word("size_valid", base < top, base=base),
            tag(rd, RD),
            on_realm("top_bound", rd, lambda realm: top <= realm.half, space), is_new(rd),
            on_walk("rtte_state", rd, base, 3, lambda level, entry: entry.state == UNASSIGNED), *room(rd, base, top)]


def rtt_set_ripas(rd, rec, base, top):
    def request(it):
        return it.request

    def asked(it):
        """The definitions read 0 where nothing is asked for."""
        return (it.request.base, it.request.top) if it.request else (0, 0)

    return [tag(rd, RD), tag(rec, REC), on_rec("rec_owner", rec, lambda it: it.rd == rd, lambda it: it.rd), is_ready(rec),
            on_rec("own_request", rec, lambda it: it.request is not None, request),
            on_rec("base_bound", rec, lambda it: base == asked(it)[0], request),
            on_rec("top_bound", rec, lambda it: top <= asked(it)[1], request),
            word("size_valid", base < top, base=base), word("top_gran_align", is_page(top), top=top), *room(rd, base, top)]


HOST_CONDITIONS = {
    "GRANULE_DELEGATE": lambda g: [tag(g, UNDELEGATED)],
    "GRANULE_UNDELEGATE": lambda g: [tag(g, DELEGATED)],
    "DATA_CREATE": data_create,
    "DATA_CREATE_UNKNOWN": lambda rd, data, ipa: [aligned(ipa), tag(rd, RD), tag(data, DELEGATED), is_protected(rd, ipa),
                                                  *page_of(rd, ipa, UNASSIGNED)],
    "DATA_DESTROY": lambda rd, ipa: [aligned(ipa), tag(rd, RD), is_protected(rd, ipa), *page_of(rd, ipa, ASSIGNED)],
    "REALM_ACTIVATE": lambda rd: [tag(rd, RD), is_new(rd)],
    "REALM_CREATE": realm_create,
    "REALM_DESTROY": realm_destroy,
    "REC_CREATE": rec_create,
    "REC_DESTROY": lambda rec: [tag(rec, REC), is_ready(rec)],
    "REC_ENTER": rec_enter,
    "RTT_CREATE": rtt_create,
    "RTT_DESTROY": lambda rd, ipa, level: rtt_remove(rd, ipa, level, "rtt_live", is_idle),
    "RTT_FOLD": lambda rd, ipa, level: rtt_remove(rd, ipa, level, "own_alike", are_alike),
    "RTT_MAP_UNPROTECTED": lambda rd, ipa, pa: [aligned(ipa), word("own_page", is_page(pa) and pa < 1 << 48, pa=pa),
                                                *host_page(rd, ipa, UNASSIGNED_NS)],
    "RTT_UNMAP_UNPROTECTED": lambda rd, ipa: [aligned(ipa), *host_page(rd, ipa, ASSIGNED_NS)],
    "RTT_READ_ENTRY": rtt_read_entry,
    "RTT_INIT_RIPAS": rtt_init_ripas,
    "RTT_SET_RIPAS": rtt_set_ripas,
}
