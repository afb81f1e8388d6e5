"""What a row of a trace, or a step of a controller, does, in the standard's words."""
import standard
from places import DCBAA_ENTRY, DEVICE_CONTEXT, ERST, EVENT_RING, INPUT_CONTEXT, LINK_TRB
from program import RANGE


class Meanings:
    """Tells what the rows of a trace do. `begun` are the leases that begin at each row."""

    def __init__(self, trace, memory, begun):
        self.trace, self.memory, self.begun = trace, memory, begun

    def of_row(self, number):
        word, *fields = self.trace.row(number).split()
        tell = {'sub': self.submission, 'w': self.write, 'reg': self.register, 'rd': self.reading, 'db': self.doorbell, 'ev': self.event,
                'ring': self.coming, 'free': self.going, 'nop': self.withdrawal}[word]
        return tell(number, fields)

    def coming(self, number, fields):
        count = len(fields) - 2
        return f'{self.ring_text(fields[0])} comes, of {count} segment{"" if count == 1 else "s"}'

    def going(self, number, fields):
        return f'{self.ring_text(fields[0])} goes'

    def ring_text(self, number):
        ring = self.trace.ring(int(number, 16))
        return f'the {ring.name}, ring {number},' if ring and ring.kind != 'xfer' else f'ring {number}'

    def withdrawal(self, number, fields):
        return f'withdraws the TD at TRB {int(fields[1], 16)} of ring {fields[0]}: its TRBs become No Ops'

    def submission(self, number, fields):
        ring, words = int(fields[0], 16), [int(field, 16) for field in fields[1:]]
        known = self.trace.ring(ring)
        if known and known.kind == 'cmd':
            return f'submits: {standard.command_name(words[:4])}'
        names = [standard.type_name(control) for control in words[3::4]]
        text = ' + '.join(names) if len(names) < 4 else f'{len(names)} TRBs, the first {names[0]}'
        return f'submits to ring {ring:02x} a TD: {text}'

    def register(self, number, fields):
        name, value = fields[0], int(fields[1], 16)
        if name == 'erdp':
            return f'ERDP: {self.memory.trb_text(value & ~15)}'
        return standard.register_text(name, value)

    def reading(self, number, fields):
        return f'reads {standard.status_text(fields[0], int(fields[1], 16))}'

    def doorbell(self, number, fields):
        slot, target = int(fields[0], 16), int(fields[1], 16)
        return f'doorbell: slot {slot}, DCI {target}' if slot or target else 'doorbell: Command Ring'

    def event(self, number, fields):
        return 'reads ' + self.event_text([int(field, 16) for field in fields], number)

    def event_text(self, words, row):
        name, pointer = standard.type_name(words[3]), standard.pointer_of(words)
        if standard.type_of(words[3]) == standard.COMMAND_COMPLETION:
            command = standard.type_name(self.trace.word(pointer + 12, row))
            return f'{name}: {command}, {standard.code_name(words[2])}'
        if standard.tells_value(words):
            return f'{name}: Event Data {words[1]:08x}{words[0]:08x}, {standard.code_name(words[2])}'
        if standard.type_of(words[3]) == standard.TRANSFER_EVENT:
            return f'{name}: {self.memory.trb_text(pointer)}, {standard.code_name(words[2])}'
        return f'{name}: port {words[0] >> 24}' if standard.type_of(words[3]) == standard.PORT_STATUS_CHANGE else name

    def write(self, number, fields):
        address, value = int(fields[0], 16), int(fields[1], 16)
        if any(lease.kind != RANGE for lease in self.begun.get(number, ())):
            return f'Cycle bit handed over: {standard.type_name(value)} is the controller\u2019s'
        return self.word(address, value)

    def word(self, address, value):
        """A word of memory by its place, and what this value says there."""
        place = self.memory.place_at(address)
        return word_text(place, address - place.start, value, self.trace.context_bytes) if place else f'memory at {address:x}'


def word_text(place, offset, value, context_bytes):
    """A word of a place, and what it says where a name can be given to that."""
    if place.kind == INPUT_CONTEXT:
        return f'Input Context: {standard.input_context_word(offset, context_bytes, value)}'
    if place.kind == DEVICE_CONTEXT:
        return f'Device Context: {standard.context_word(offset, context_bytes, value)}'
    if place.kind == EVENT_RING:
        return f'Event Ring, TRB at {place.start + offset // 16 * 16:x}, word {offset % 16 // 4}'
    if place.kind in (ERST, DCBAA_ENTRY):
        return f'{place.label}, word {offset // 4}'
    return trb_word_text(place, offset // 4, value)


def trb_word_text(place, word, value):
    where = f'{place.label} of {place.group}'
    if word == 3:
        return f'{where}, word 3: {standard.type_name(value)}, Cycle {value & 1}'
    if place.kind == LINK_TRB:
        return f'{where}: {standard.LINK_WORDS[word]}' + (f' {value & ~15:x}' if word == 0 else '')
    return f'{where}, word {word}'
