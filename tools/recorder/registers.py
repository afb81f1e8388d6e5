"""Register writes as rows: names, and the halves of 64-bit registers joined."""
from collections import namedtuple

from qemu_log import Bell, Write

Register = namedtuple('Register', 'key name value')

OPERATIONAL = {0x00: ('usbcmd', None), 0x04: ('usbsts', None), 0x14: ('dnctrl', None), 0x18: ('crcr', 0), 0x1c: ('crcr', 1),
               0x30: ('dcbaap', 0), 0x34: ('dcbaap', 1), 0x38: ('config', None)}
INTERRUPTER = {0x00: ('iman', None), 0x04: ('imod', None), 0x08: ('erstsz', None), 0x10: ('erstba', 0), 0x14: ('erstba', 1),
               0x18: ('erdp', 0), 0x1c: ('erdp', 1)}
USBCMD = 0x00
RUN, RESET, SAVE, RESTORE = 1, 2, 1 << 8, 1 << 9  # of it
STOP_OR_ABORT = 6  # of CRCR: it names no ring then
EVENT_RING_REGISTERS = ('erstsz', 'erdp', 'erstba')


def name_of(write):
    """The register's name and, of a 64-bit one, which half; None for ports, interrupters above 0 and what is only read."""
    if write.region == 'oper':
        return OPERATIONAL.get(write.off)
    if write.region == 'runtime' and 0x20 <= write.off < 0x40:
        return INTERRUPTER.get(write.off - 0x20)
    return None


def is_command(item, bit):
    return isinstance(item, Write) and name_of(item) == ('usbcmd', None) and item.value & bit != 0


def joined(items):
    """The rows of the register writes: one for two halves that directly follow each other, where the second is written."""
    stores = [item for item in items if isinstance(item, (Write, Bell))]
    halves = {}
    rows = []
    awaited = None  # the half that is awaited, the other one having just been written
    for i, write in enumerate(stores):
        known = isinstance(write, Write) and name_of(write)
        if not known:
            continue
        name, half = known
        if half is None:
            rows.append(Register(write.key, name, write.value))
            continue
        halves[name, half] = write.value
        after = stores[i + 1] if i + 1 < len(stores) else None
        is_first = isinstance(after, Write) and name_of(after) == (name, 1 - half) and awaited != (name, half)
        awaited = (name, 1 - half) if is_first else None
        if not is_first:
            rows.append(Register(write.key, name, halves.get((name, 0), 0) | halves.get((name, 1), 0) << 32))
    return rows


def left_out(items):
    """How many writes make no row, by where they go."""
    counts = {}
    for item in items:
        if isinstance(item, Write) and not name_of(item):
            where = {'port': 'ports', 'oper': 'other operational registers'}.get(item.region)
            where = where or ('interrupters above 0' if item.off >= 0x40 else 'other runtime registers')
            counts[where] = counts.get(where, 0) + 1
    return counts
