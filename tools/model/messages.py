"""Messages in chains of blocks, the pool that the blocks come from, and queues of messages: putq(9F), putbq(9F), getq(9F), flushq(9F).

A block is a message block that names a data block of 256 bytes; data blocks may be shared (dupb(9F)), so both kinds are counted apart.
"""
import collections

M_DATA, M_PROTO, M_IOCTL, M_SETOPTS = 0x00, 0x01, 0x0E, 0x10
M_IOCACK, M_IOCNAK, M_PCPROTO, M_PCSIG, M_FLUSH = 0x81, 0x82, 0x83, 0x84, 0x86
M_STOP, M_START, M_HANGUP = 0x87, 0x88, 0x89
BOOKED = (M_DATA, M_PROTO, M_PCPROTO)
PROTOS = (M_PROTO, M_PCPROTO)
FLUSHR, FLUSHW, FLUSHBAND = 1, 2, 4
SIZE = 256
# Bytes of a message block, and the count of references of its data block: a list of one number, which those that share it have.
Block = collections.namedtuple("Block", "bytes references")


class Pool:
    """How many blocks of each kind are free."""

    def __init__(self, blocks):
        self.messages = self.datas = blocks

    def has(self, count):
        return self.messages >= count and self.datas >= count

    def make(self, text):
        """The text in blocks: one for each begun 256 bytes, at least one."""
        chain = [Block(bytearray(text[at:at + SIZE]), [1]) for at in range(0, max(len(text), 1), SIZE)]
        self.messages -= len(chain)
        self.datas -= len(chain)
        return chain

    def share(self, chain):
        """Further message blocks over the same data blocks."""
        for block in chain:
            block.references[0] += 1
        self.messages -= len(chain)
        return [Block(block.bytes, block.references) for block in chain]

    def free(self, chain):
        for block in chain:
            block.references[0] -= 1
            self.datas += block.references[0] == 0
        self.messages += len(chain)

    def append(self, chain, text):
        """Puts bytes behind a chain that nobody shares: a block is made when the last one is full."""
        while text:
            if not chain or len(chain[-1].bytes) == SIZE:
                chain += self.make(b"")
            room = SIZE - len(chain[-1].bytes)
            chain[-1].bytes.extend(text[:room])
            text = text[room:]

    def take(self, chain, count):
        """Takes so many bytes from a chain's front, and gives back the blocks that are emptied."""
        text = bytearray()
        while count and chain:
            block = chain[0]
            part = block.bytes[:count]
            text += part
            count -= len(part)
            if len(part) < len(block.bytes):
                chain[0] = Block(block.bytes[len(part):], block.references)
            else:
                self.free([chain.pop(0)])
        return bytes(text)


def size_of(chain):
    return sum(len(block.bytes) for block in chain or ())


class Message:
    """A kind, a band, and two parts: chains of blocks, None where a part is absent."""
    __slots__ = ("kind", "band", "control", "data")

    def __init__(self, kind, band, control, data):
        self.kind, self.band, self.control, self.data = kind, band, control, data

    @property
    def rank(self):
        return 256 if self.kind >= 0x80 else self.band

    @property
    def size(self):
        return size_of(self.control) + size_of(self.data)

    @property
    def booked(self):
        """How many of its bytes the ledger counts."""
        return self.size if self.kind in BOOKED else 0

    @property
    def chain(self):
        return (self.control or []) + (self.data or [])

    @property
    def text(self):
        return b"".join(block.bytes for block in self.chain)


class Queue:
    """Messages in order of rank, with a count of bytes for each band; band 0 counts messages of high priority too."""

    def __init__(self, high=512, low=128):
        self.messages, self.high, self.low = [], high, low
        self.want_read, self.want_write, self.counts = True, set(), {}

    def count(self, message, sign):
        band = 0 if message.rank == 256 else message.band
        self.counts[band] = self.counts.get(band, 0) + sign * message.size

    def full(self, band):
        return self.counts.get(band, 0) >= self.high

    def put(self, message):
        """Behind all of at least its rank. Says whether the queue is to be enabled."""
        at = len(self.messages)
        while at and self.messages[at - 1].rank < message.rank:
            at -= 1
        self.messages.insert(at, message)
        self.count(message, 1)
        return message.rank > 0 or self.want_read

    def put_back(self, message):
        """In front of all of at most its rank."""
        at = 0
        while at < len(self.messages) and self.messages[at].rank > message.rank:
            at += 1
        self.messages.insert(at, message)
        self.count(message, 1)

    def take(self, at=0):
        message = self.messages.pop(at)
        self.count(message, -1)
        self.want_read = False
        return message

    def drop(self, wanted):
        """Takes all messages of which that holds."""
        gone = [message for message in self.messages if wanted(message)]
        self.messages = [message for message in self.messages if not wanted(message)]
        for message in gone:
            self.count(message, -1)
        if not self.messages:
            self.want_read = True
        return gone

    def released(self):
        """Whether a waiting writer is let go: a band that one waits for is at or below its low mark."""
        free = {band for band in self.want_write if self.counts.get(band, 0) <= self.low}
        self.want_write -= free
        return bool(free)

    @property
    def size(self):
        return sum(message.size for message in self.messages)

    @property
    def booked(self):
        return sum(message.booked for message in self.messages)


def flushes(band):
    """Which messages a flush takes: of all bands (None), or of one, where band 0 has those of high priority too."""
    def wanted(message):
        return message.kind in BOOKED and (band is None or (0 if message.rank == 256 else message.band) == band)
    return wanted
