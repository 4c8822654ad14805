"""A plain machine in Python: what each command of docs/PROFILE.md answers and changes. Written from that page's prose."""
from functions import (DATA_CREATE, DATA_CREATE_UNKNOWN, DATA_DESTROY, EXIT, GRANULE_DELEGATE, GRANULE_UNDELEGATE, REALM_ACTIVATE,
                       REALM_CALLS, REALM_CREATE, REALM_DESTROY, REC_CREATE, REC_DESTROY, REC_ENTER, RTT_CREATE, RTT_DESTROY,
                       RTT_FOLD, RTT_INIT_RIPAS, RTT_MAP_UNPROTECTED, RTT_READ_ENTRY, RTT_SET_RIPAS, RTT_UNMAP_UNPROTECTED)
from realm_calls import RealmCalls
from records import (ACTIVE, DATA, DELEGATED, HASHES, INPUT_ERROR, MOST_RECS, NEW, OFF, RD, REALM_ERROR, REC, REC_AUX, REC_ERROR,
                     RTT, SPACES, SYSTEM_OFF_ERROR, UNDELEGATED, Realm, Rec, Refused, Stretch, is_page, table_error)
from tables import (ASSIGNED, ASSIGNED_NS, DESTROYED, ENTRIES, FREE_NS, LAST_LEVEL, PAGE_BYTES, RAM, STATE_NUMBERS, TABLE,
                    UNASSIGNED, UNASSIGNED_NS, UNUSED, Entry, Table, entry_bytes, new_root, walk)


class Machine(RealmCalls):
    """Tags by address (an address without one is UNDELEGATED), realms by rd, RECs by address, and the RECs that run by CPU.

    `row` is the number of the row that refused the last command, as docs/PROFILE.md counts them, and 0 where none did.
    """

    def __init__(self, granules, version=1):
        self.granules = granules
        self.version = version
        self.tags = {}
        self.realms = {}
        self.recs = {}
        self.vmids = set()
        self.running = {}
        self.row = 0

    def answer(self, cpu, function, words, choose=max):
        """The reply to a command of that many words. Anything but `ok` changes nothing.

        Where several ends of a stretch are allowed, `choose` picks one of them.
        """
        self.row = 0
        if self.is_misplaced(cpu, function):
            return "misplaced"
        try:
            done = self.decide(cpu, function, words)
        except Refused as refused:
            return str(refused)
        self.row = 0
        if isinstance(done, Stretch):
            top = choose(done.tops)
            done.set_up_to(top)
            done = [top]
        return " ".join(["ok", *(f"{word:x}" for word in done or [])])

    def is_misplaced(self, cpu, function):
        rec = self.running.get(cpu)
        if function == EXIT:
            return rec is None
        if function in REALM_CALLS:
            return rec is None or rec.pending is not None
        return rec is not None

    def decide(self, cpu, function, words):
        if function in self.FROM_INSIDE:
            return self.FROM_INSIDE[function](self, self.running[cpu], *words)
        if function == REC_ENTER:
            return self.enter(cpu, *words)
        return self.FROM_HOST[function](self, *words)

    # Rows.

    def need(self, holds, otherwise=INPUT_ERROR):
        self.row += 1
        if not holds:
            raise Refused(otherwise)

    def has_tag(self, address, tag):
        is_granule = is_page(address) and address // PAGE_BYTES < self.granules
        return is_granule and self.tags.get(address, UNDELEGATED) == tag

    def need_tag(self, address, tag):
        self.need(self.has_tag(address, tag))

    def need_realm(self, rd):
        self.need_tag(rd, RD)
        return self.realms[rd]

    def need_rec(self, rec):
        self.need_tag(rec, REC)
        return self.recs[rec]

    def need_page_table(self, realm, ipa):
        table = walk(realm.root, ipa, LAST_LEVEL)
        self.need(table.level == LAST_LEVEL, table_error(table.level))
        return table

    # Granules.

    def delegate(self, granule):
        self.need_tag(granule, UNDELEGATED)
        self.tags[granule] = DELEGATED

    def undelegate(self, granule):
        self.need_tag(granule, DELEGATED)
        del self.tags[granule]

    # Realms.

    def create_realm(self, rd, root, width, level, vmid, algo):
        self.need(rd != root)
        self.need(width in (space for space, _ in SPACES))
        self.need((width, level) in SPACES)
        self.need(vmid <= 0xFF)
        self.need_tag(rd, DELEGATED)
        self.need_tag(root, DELEGATED)
        hashes = HASHES[self.version]
        self.need(algo < len(hashes))
        self.need(vmid not in self.vmids)
        self.tags[rd], self.tags[root] = RD, RTT
        self.realms[rd] = Realm(width, level, vmid, algo, new_root(root, level), hashes[algo])
        self.vmids.add(vmid)

    def activate_realm(self, rd):
        realm = self.need_realm(rd)
        self.need(realm.state == NEW, REALM_ERROR)
        realm.state = ACTIVE

    def destroy_realm(self, rd):
        realm = self.need_realm(rd)
        self.need(not realm.recs, REALM_ERROR)
        self.need(not realm.root.has(TABLE), REALM_ERROR)
        del self.realms[rd]
        self.vmids.remove(realm.vmid)
        self.tags[rd] = self.tags[realm.root.granule] = DELEGATED

    # RECs.

    def create_rec(self, rd, rec, mpidr, flags, aux0, aux1):
        self.need(len({rec, aux0, aux1}) == 3)
        self.need(flags <= 1)
        realm = self.need_realm(rd)
        self.need_tag(rec, DELEGATED)
        self.need_tag(aux0, DELEGATED)
        self.need_tag(aux1, DELEGATED)
        self.need(realm.state == NEW, REALM_ERROR)
        self.need(mpidr == realm.made_recs)
        self.need(mpidr < MOST_RECS)
        self.tags[rec], self.tags[aux0], self.tags[aux1] = REC, REC_AUX, REC_AUX
        self.recs[rec] = Rec(rec, rd, flags == 1, aux0, aux1)
        realm.recs.add(rec)
        realm.made_recs += 1
        realm.measure(REC_CREATE, mpidr, flags)

    def destroy_rec(self, address):
        rec = self.need_rec(address)
        self.need(rec.cpu is None, REC_ERROR)
        del self.recs[address]
        self.realms[rec.rd].recs.remove(address)
        self.tags[address] = self.tags[rec.aux0] = self.tags[rec.aux1] = DELEGATED

    def enter(self, cpu, address):
        rec = self.need_rec(address)
        realm = self.realms[rec.rd]
        self.need(realm.state != NEW, REALM_ERROR)
        self.need(realm.state != OFF, SYSTEM_OFF_ERROR)
        self.need(rec.cpu is None, REC_ERROR)
        self.need(rec.runnable, REC_ERROR)
        reached = rec.request.base if rec.request else 0
        rec.cpu, rec.request = cpu, None
        self.running[cpu] = rec
        return [reached]

    # Tables.

    def create_table(self, rd, rtt, ipa, level):
        self.need(level <= LAST_LEVEL)
        self.need(ipa % entry_bytes(level - 1) == 0)
        realm = self.need_realm(rd)
        self.need_tag(rtt, DELEGATED)
        self.need(level > realm.level)
        self.need(ipa < realm.full)
        above = walk(realm.root, ipa, level - 1)
        self.need(above.level == level - 1, table_error(above.level))
        entry = above.entry(ipa)
        self.need(entry.state != TABLE, table_error(level - 1))
        self.tags[rtt] = RTT
        above.set_entry(ipa, Entry(TABLE, address=rtt, table=Table(rtt, level, ipa, [entry] * ENTRIES)))

    def need_link(self, rd, ipa, level):
        self.need(level <= LAST_LEVEL)
        self.need(ipa % entry_bytes(level - 1) == 0)
        realm = self.need_realm(rd)
        self.need(level > realm.level)
        self.need(ipa < realm.full)
        above = walk(realm.root, ipa, level - 1)
        entry = above.entry(ipa)
        self.need(above.level == level - 1, table_error(above.level))
        self.need(entry.state == TABLE, table_error(above.level))
        return realm, above, entry.table

    def take_table(self, above, ipa, left):
        granule = above.entry(ipa).address
        self.tags[granule] = DELEGATED
        above.set_entry(ipa, left)
        return [granule]

    def destroy_table(self, rd, ipa, level):
        realm, above, table = self.need_link(rd, ipa, level)
        self.need(not table.has(ASSIGNED, ASSIGNED_NS, TABLE), table_error(level))
        return self.take_table(above, ipa, UNUSED[DESTROYED] if ipa < realm.half else FREE_NS)

    def fold_table(self, rd, ipa, level):
        _, above, table = self.need_link(rd, ipa, level)
        first = table.entries[0]
        self.need(first in [*UNUSED, FREE_NS] and table.entries.count(first) == ENTRIES, table_error(level))
        return self.take_table(above, ipa, first)

    def read_entry(self, rd, ipa, level):
        self.need(level <= LAST_LEVEL)
        self.need(ipa % entry_bytes(level) == 0)
        realm = self.need_realm(rd)
        self.need(level >= realm.level)
        self.need(ipa < realm.full)
        table = walk(realm.root, ipa, level)
        entry = table.entry(ipa)
        return [table.level, STATE_NUMBERS[entry.state], entry.address, entry.ripas]

    # Data.

    def create_data(self, rd, data, ipa, src, flags, *digest):
        self.need(flags <= 1)
        self.need(is_page(ipa))
        realm = self.need_realm(rd)
        self.need_tag(data, DELEGATED)
        self.need_tag(src, UNDELEGATED)
        self.need(ipa < realm.half)
        self.need(realm.state == NEW, REALM_ERROR)
        table = self.need_page_table(realm, ipa)
        entry = table.entry(ipa)
        self.need(entry.state == UNASSIGNED, table_error(LAST_LEVEL))
        self.need(entry.ripas == RAM, table_error(LAST_LEVEL))
        self.tags[data] = DATA
        table.set_entry(ipa, Entry(ASSIGNED, RAM, data))
        realm.measure(DATA_CREATE, ipa, flags, *(digest if flags == 1 else [0] * 4))

    def create_unknown_data(self, rd, data, ipa):
        self.need(is_page(ipa))
        realm = self.need_realm(rd)
        self.need_tag(data, DELEGATED)
        self.need(ipa < realm.half)
        table = self.need_page_table(realm, ipa)
        entry = table.entry(ipa)
        self.need(entry.state == UNASSIGNED, table_error(LAST_LEVEL))
        self.tags[data] = DATA
        table.set_entry(ipa, Entry(ASSIGNED, entry.ripas, data))

    def destroy_data(self, rd, ipa):
        self.need(is_page(ipa))
        realm = self.need_realm(rd)
        self.need(ipa < realm.half)
        table = self.need_page_table(realm, ipa)
        entry = table.entry(ipa)
        self.need(entry.state == ASSIGNED, table_error(LAST_LEVEL))
        self.tags[entry.address] = DELEGATED
        table.set_entry(ipa, UNUSED[DESTROYED if entry.ripas == RAM else entry.ripas])
        return [entry.address]

    # The host's pages.

    def map_unprotected(self, rd, ipa, pa):
        self.need(is_page(ipa))
        self.need(is_page(pa) and pa < 1 << 48)
        realm = self.need_realm(rd)
        self.need(realm.half <= ipa < realm.full)
        table = self.need_page_table(realm, ipa)
        self.need(table.entry(ipa).state == UNASSIGNED_NS, table_error(LAST_LEVEL))
        table.set_entry(ipa, Entry(ASSIGNED_NS, address=pa))

    def unmap_unprotected(self, rd, ipa):
        self.need(is_page(ipa))
        realm = self.need_realm(rd)
        self.need(realm.half <= ipa < realm.full)
        table = self.need_page_table(realm, ipa)
        self.need(table.entry(ipa).state == ASSIGNED_NS, table_error(LAST_LEVEL))
        table.set_entry(ipa, FREE_NS)

    # RIPAS.

    def init_ripas(self, rd, base, top):
        self.need(is_page(base))
        self.need(is_page(top))
        self.need(base < top)
        realm = self.need_realm(rd)
        self.need(top <= realm.half)
        self.need(realm.state == NEW, REALM_ERROR)
        table = walk(realm.root, base, LAST_LEVEL)
        self.need(table.entry(base).state == UNASSIGNED, table_error(table.level))
        self.need_room(table, base, top)

        def set_up_to(end):
            self.set_ripas(table, base, end, RAM)
            realm.measure(RTT_INIT_RIPAS, base, end)

        return Stretch(self.tops(table, base, top, TABLE, ASSIGNED), set_up_to)

    def set_requested_ripas(self, rd, address, base, top):
        realm = self.need_realm(rd)
        rec = self.need_rec(address)
        request = rec.request
        self.need(rec.rd == rd, REC_ERROR)
        self.need(rec.cpu is None, REC_ERROR)
        self.need(request is not None)
        self.need(base == request.base)
        self.need(top <= request.top)
        self.need(base < top)
        self.need(is_page(top))
        table = walk(realm.root, base, LAST_LEVEL)
        self.need_room(table, base, top)

        def set_up_to(end):
            self.set_ripas(table, base, end, request.ripas)
            rec.request = request._replace(base=end)

        return Stretch(self.tops(table, base, top, TABLE), set_up_to)

    def need_room(self, table, base, top):
        size = entry_bytes(table.level)
        self.need(base % size == 0, table_error(table.level))
        self.need(base + size <= top, table_error(table.level))

    @staticmethod
    def tops(table, base, top, *barred):
        """The ends that are allowed, the least first. The entry at base isn't barred, and there is room for it."""
        size, count = entry_bytes(table.level), 0
        for entry in table.entries[table.index(base):]:
            if entry.state in barred or base + (count + 1) * size > top:
                break
            count += 1
        return range(base + size, base + count * size + 1, size)

    @staticmethod
    def set_ripas(table, base, end, ripas):
        first, last = table.index(base), table.index(end)
        table.entries[first:last] = [entry._replace(ripas=ripas) for entry in table.entries[first:last]]

    FROM_HOST = {
        GRANULE_DELEGATE: delegate,
        GRANULE_UNDELEGATE: undelegate,
        DATA_CREATE: create_data,
        DATA_CREATE_UNKNOWN: create_unknown_data,
        DATA_DESTROY: destroy_data,
        REALM_ACTIVATE: activate_realm,
        REALM_CREATE: create_realm,
        REALM_DESTROY: destroy_realm,
        REC_CREATE: create_rec,
        REC_DESTROY: destroy_rec,
        RTT_CREATE: create_table,
        RTT_DESTROY: destroy_table,
        RTT_FOLD: fold_table,
        RTT_MAP_UNPROTECTED: map_unprotected,
        RTT_READ_ENTRY: read_entry,
        RTT_UNMAP_UNPROTECTED: unmap_unprotected,
        RTT_INIT_RIPAS: init_ripas,
        RTT_SET_RIPAS: set_requested_ripas,
    }
