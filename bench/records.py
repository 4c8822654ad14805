"""What a plain machine in Python keeps of realms and RECs, its tags, and the replies that refuse a command."""
import hashlib
import struct
from collections import namedtuple

from functions import REALM_CREATE
from tables import PAGE_BYTES

UNDELEGATED, DELEGATED, RD, REC, REC_AUX, DATA, RTT = "undelegated", "delegated", "rd", "rec", "aux", "data", "rtt"
NEW, ACTIVE, OFF = "new", "active", "off"
SPACES = {(0x27, 1), (0x30, 0)}
LARGE = "large"
# of each version the hashes by algo, the first word of a history, and how many granules there are at most
HASHES = {1: [hashlib.sha256], 2: [hashlib.sha256, hashlib.sha512], LARGE: [hashlib.sha256, hashlib.sha512]}
MARKS = {1: "rmh1", 2: "rmh2", LARGE: "rml1"}
LIMITS = {1: 1 << 12, 2: 1 << 12, LARGE: 1 << 20}
MOST_RECS = 8
INPUT_ERROR, REALM_ERROR, SYSTEM_OFF_ERROR, REC_ERROR = "err 1 0", "err 2 0", "err 2 1", "err 3 0"


def table_error(level):
    return f"err 4 {level}"


def is_page(address):
    return address % PAGE_BYTES == 0


def measured(hashed, old, words):
    """The hash of the old measurement and of words, each written as 8 bytes with the lowest first."""
    return hashed(old + struct.pack(f"<{len(words)}Q", *words)).digest()


class Realm:
    def __init__(self, width, level, vmid, algo, root, hashed):
        self.state = NEW
        self.width = width
        self.level = level
        self.vmid = vmid
        self.algo = algo
        self.hashed = hashed
        self.root = root
        self.made_recs = 0
        self.recs = set()
        self.rim = measured(hashed, b"", [int(REALM_CREATE, 16), width, level, algo])
        self.rems = [bytes(hashed().digest_size)] * 4

    @property
    def full(self):
        return 1 << self.width

    @property
    def half(self):
        return 1 << (self.width - 1)

    def measure(self, function, *words):
        self.rim = measured(self.hashed, self.rim, [int(function, 16), *words])


class Rec:
    """A REC. `pending` holds the words that Exit will report, where something is pending."""

    def __init__(self, address, rd, runnable, aux0, aux1):
        self.address = address
        self.rd = rd
        self.runnable = runnable
        self.aux0 = aux0
        self.aux1 = aux1
        self.cpu = None
        self.request = None
        self.pending = None


Request = namedtuple("Request", "base top ripas")

# Where a command may choose how far it gets: the ends that it may reply, and what is done once one of them is chosen.
Stretch = namedtuple("Stretch", "tops set_up_to")


class Refused(Exception):
    """A row that doesn't hold, with the reply."""
