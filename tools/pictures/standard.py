"""The standard's words for what a trace has in numbers (xHCI 1.2, 4.5.3, 5.4, 5.5.2, 6.2, 6.4)."""

TYPES = {
    1: 'Normal', 2: 'Setup Stage', 3: 'Data Stage', 4: 'Status Stage', 5: 'Isoch', 6: 'Link', 7: 'Event Data', 8: 'No Op',
    9: 'Enable Slot', 10: 'Disable Slot', 11: 'Address Device', 12: 'Configure Endpoint', 13: 'Evaluate Context',
    14: 'Reset Endpoint', 15: 'Stop Endpoint', 16: 'Set TR Dequeue Pointer', 17: 'Reset Device', 23: 'No Op Command',
    32: 'Transfer Event', 33: 'Command Completion Event', 34: 'Port Status Change Event', 35: 'Bandwidth Request Event',
    36: 'Doorbell Event', 37: 'Host Controller Event', 38: 'Device Notification Event', 39: 'MFINDEX Wrap Event'}
LINK, ADDRESS_DEVICE, CONFIGURE_ENDPOINT, EVALUATE_CONTEXT = 6, 11, 12, 13
SET_TR_DEQUEUE = 16
TRANSFER_EVENT, COMMAND_COMPLETION, PORT_STATUS_CHANGE = 32, 33, 34
WITH_INPUT_CONTEXT = (ADDRESS_DEVICE, CONFIGURE_ENDPOINT, EVALUATE_CONTEXT)

CODES = {
    0: 'Invalid', 1: 'Success', 2: 'Data Buffer Error', 3: 'Babble Detected Error', 4: 'USB Transaction Error', 5: 'TRB Error',
    6: 'Stall Error', 7: 'Resource Error', 8: 'Bandwidth Error', 9: 'No Slots Available Error', 11: 'Slot Not Enabled Error',
    12: 'Endpoint Not Enabled Error', 13: 'Short Packet', 14: 'Ring Underrun', 15: 'Ring Overrun', 17: 'Parameter Error',
    18: 'Bandwidth Overrun Error', 19: 'Context State Error', 20: 'No Ping Response Error', 23: 'Missed Service Error',
    24: 'Command Ring Stopped', 25: 'Command Aborted', 26: 'Stopped', 27: 'Stopped - Length Invalid', 28: 'Stopped - Short Packet',
    31: 'Isoch Buffer Overrun', 36: 'Split Transaction Error'}

HARMS = {
    1: 'it takes a TRB that was not submitted, or not the next one',
    2: 'it takes other words than were submitted',
    3: 'it waits inside a TD',
    4: 'it fetches outside the ring',
    5: 'it posts over an event that the driver has not read',
    6: 'it works on an Input Context that has changed'}
NO_EVENT_RING = 'it posts where no Event Ring is'

ENDPOINT_TYPES = {1: 'Isoch OUT', 2: 'Bulk OUT', 3: 'Interrupt OUT', 4: 'Control', 5: 'Isoch IN', 6: 'Bulk IN', 7: 'Interrupt IN'}
LINK_WORDS = ('Ring Segment Pointer', 'Ring Segment Pointer, high word', 'Interrupter Target')


def type_of(control):
    """The TRB Type of a TRB's word 3."""
    return control >> 10 & 63


def type_name(control):
    return TYPES.get(type_of(control), f'TRB of type {type_of(control)}')


def code_name(word):
    """The Completion Code of an event's word 2."""
    return CODES.get(word >> 24, f'Completion Code {word >> 24}')


def command_name(words):
    """A command with the slot and the endpoint that it names."""
    slot, endpoint = words[3] >> 24, words[3] >> 16 & 31
    name = type_name(words[3])
    if slot:
        name += f' of slot {slot}'
    return name + (f', DCI {endpoint}' if endpoint else '')


def tells_value(words):
    """A Transfer Event tells the value of an Event Data TRB in words 1 and 0, and no address (ED)."""
    return type_of(words[3]) == TRANSFER_EVENT and words[3] >> 2 & 1 == 1


def pointer_of(words):
    """Words 1 and 0 as the address of a TRB or a context."""
    return words[1] << 32 | words[0] & ~15


def flags(word, letter):
    """The flags of an Input Control Context: D2, A0, A1 and so on."""
    named = [f'{letter}{number}' for number in range(32) if word >> number & 1]
    return ' '.join(named if len(named) < 8 else [*named[:6], '..', named[-1]]) or 'none'


def input_control_word(word, value):
    if word == 0:
        return f'Drop Context flags {flags(value, "D")}'
    return f'Add Context flags {flags(value, "A")}' if word == 1 else f'Input Control Context, word {word}'


def endpoint_context_word(word, value):
    if word == 1:
        return f'EP Type {ENDPOINT_TYPES.get(value >> 3 & 7, "Not Valid")}'
    if word == 2:
        return f'TR Dequeue Pointer {value & ~15:x}, DCS {value & 1}'
    return 'TR Dequeue Pointer, high word' if word == 3 else f'word {word}'


def context_word(offset, size, value):
    """A word of a Device Context: which context, and what it says."""
    index, word = offset // size, offset % size // 4
    if index == 0:
        return f'Slot Context, word {word}'
    return f'Endpoint Context {index}, {endpoint_context_word(word, value)}'


def input_context_word(offset, size, value):
    if offset < size:
        return input_control_word(offset // 4, value)
    return context_word(offset - size, size, value)


def register_text(name, value):
    """A write of a register."""
    if name == 'usbcmd':
        return f'USBCMD: Run/Stop {value & 1}' + (', HCRST 1' if value & 2 else '')
    if name == 'crcr':
        return f'CRCR: Command Ring Pointer {value & ~63:x}, RCS {value & 1}'
    if name == 'config':
        return f'CONFIG: MaxSlotsEn {value & 255}'
    shown = {'dcbaap': ~63, 'erstba': ~63, 'erdp': ~15}.get(name, ~0)
    return f'{name.upper()}: {value & shown:x}'


def status_text(name, value):
    """What was read of a register."""
    return f'USBSTS: HCHalted {value & 1}' if name == 'usbsts' else f'{name.upper()}: {value:x}'
