"""The image of a model: all that its pair is, as docs/IMAGES.md spells it and tools/images.py writes it."""
import images

from .messages import PROTOS
from .modules import NAK_EINVAL
from .pair import RULES

SIDES, PLACES, WAYS = "ms", ("head", "ldterm", "drv"), "rw"


def text_of(chain):
    return b"".join(block.bytes for block in chain or ())


def message_of(it):
    """A part that is absent is None; the data part may be so beside a control part alone."""
    control = text_of(it.control) if it.kind in PROTOS else None
    return images.Message(it.kind, it.band, control, None if it.kind in PROTOS and it.data is None else text_of(it.data))


def queue_of(at, queue):
    flows = [images.new_flow(at)] * images.BANDS
    for band in queue.want_write:
        flows[band] = (queue.high, queue.low, 1)
    return images.Queue(at, int(queue.want_read), flows, [message_of(it) for it in queue.messages])


def module_of(it):
    if it.name == "ldterm":
        queues = {"read": queue_of("read", it.r), "write": queue_of("write", it.w)}
        return images.Module(images.LDTERM, it.termios.text, (it.stopped, it.after_lnext), it.column, bytes(it.line), **queues)
    return images.Module(images.PTEM, it.termios, window=it.window) if it.name == "ptem" else images.Module(images.PCKT)


def slot_of(waits):
    """The ioctl under way."""
    if waits is None or waits.answer is None:
        return (0,) if waits is None else (1, waits.number, waits.command)
    obeyed, text = waits.answer
    return 2, waits.number, waits.command, obeyed, 0 if obeyed else NAK_EINVAL, text


def stream_of(model, side):
    head = model.heads[side]
    flags = head.hung_up + 2 * head.tostop + 4 * (head.group > 0)
    queues = {"head": queue_of("head", head.r), "driver": queue_of("driver", model.drivers[side])}
    modules = [module_of(it) for it in model.modules[side]]
    return images.Stream((head.mode, head.control_mode), flags, head.group, bytes(head.signals), slot_of(head.waits), modules, **queues)


def image_of(model):
    enabled = [(SIDES.index(side), PLACES.index(place), WAYS.index(way)) for side, place, way in model.enabled]
    ledgers = [images.Ledger(model.written[side], model.made[side], [model.fates[side][rule] for rule in RULES]) for side in SIDES]
    opened = tuple(model.sides[side] for side in SIDES)
    return images.write(images.Image(opened, model.locked, model.next, [stream_of(model, side) for side in SIDES], enabled, ledgers))
