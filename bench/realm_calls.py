"""What each realm call of docs/PROFILE.md answers and changes: of the REC that runs on the CPU, and of its realm."""
import struct

from functions import (CPU_OFF, EXIT, HOST_CALL, IPA_STATE_GET, IPA_STATE_SET, MEASUREMENT_EXTEND, MEASUREMENT_READ, REALM_CONFIG,
                       SYSTEM_OFF)
from records import OFF, Request, is_page
from tables import LAST_LEVEL, walk


class RealmCalls:
    """The part of a machine that is called from inside of RECs."""

    def read_measurement(self, rec, index):
        self.need(index <= 4)
        realm = self.realms[rec.rd]
        measurement = realm.rems[index - 1] if index else realm.rim
        return struct.unpack(f"<{len(measurement) // 8}Q", measurement)

    def extend_measurement(self, rec, index, size, *values):
        self.need(1 <= index <= 4)
        self.need(1 <= size <= 0x40)
        realm = self.realms[rec.rd]
        realm.rems[index - 1] = realm.hashed(realm.rems[index - 1] + struct.pack("<8Q", *values)[:size]).digest()

    def config(self, rec):
        realm = self.realms[rec.rd]
        return [realm.width, realm.algo]

    def request_ripas(self, rec, base, top, ripas):
        self.need(is_page(base))
        self.need(is_page(top))
        self.need(base < top)
        self.need(ripas <= 1)
        self.need(top <= self.realms[rec.rd].half)
        rec.request, rec.pending = Request(base, top, ripas), [4, base, top, ripas]

    def read_ripas(self, rec, ipa):
        realm = self.realms[rec.rd]
        self.need(is_page(ipa))
        self.need(ipa < realm.half)
        return [walk(realm.root, ipa, LAST_LEVEL).entry(ipa).ripas]

    def call_host(self, rec, imm):
        self.need(imm < 0x10000)
        rec.pending = [5, imm, 0, 0]

    def turn_off(self, rec):
        rec.runnable, rec.pending = False, [3, int(CPU_OFF, 16), 0, 0]

    def turn_system_off(self, rec):
        self.realms[rec.rd].state = OFF
        rec.pending = [3, int(SYSTEM_OFF, 16), 0, 0]

    def leave(self, rec):
        words = rec.pending or [1, 0, 0, 0]
        del self.running[rec.cpu]
        rec.cpu = rec.pending = None
        return words

    FROM_INSIDE = {
        MEASUREMENT_READ: read_measurement,
        MEASUREMENT_EXTEND: extend_measurement,
        REALM_CONFIG: config,
        IPA_STATE_SET: request_ripas,
        IPA_STATE_GET: read_ripas,
        HOST_CALL: call_host,
        CPU_OFF: turn_off,
        SYSTEM_OFF: turn_system_off,
        EXIT: leave,
    }
