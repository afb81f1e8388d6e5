"""What a controller took of a ring, and the harms that a run of it does (xHCI 4.9.2, 4.11.5.1, 4.11.5.2)."""
from collections import namedtuple

from blocks import has_value, pointer, tells_value, with_cycle

# where a block was taken, and its words
Take = namedtuple('Take', 'address block')


def first_at(ring, address, least):
    """The least position from one on at whose place, by its block or by the Link before it, an address lies."""
    places = range(least, least + ring.place_count)
    at = lambda p: ring.address(p) == address or ring.is_crossing(p) and ring.link_address(p) == address
    return next((p for p in places if at(p)), least)


class Takes:
    """The takes of one ring, judged as they come."""

    def __init__(self):
        self.taken = []
        # how many of them were reported
        self.reported = 0
        # the position of the next one, and whether the dequeue pointer was set since the last one
        self.next = 0
        self.is_placed = False
        self.is_inside = False
        self.is_out_of_order = False
        self.has_other_words = False

    @property
    def unreported(self):
        return self.taken[self.reported:]

    def named_by(self, event):
        """How many unreported takes lie before the oldest that an event names, by its value or its address; None where it names none."""
        names = (lambda take: has_value(take.block, pointer(event))) if tells_value(event) else (lambda take: take.address == pointer(event))
        return next((i for i, take in enumerate(self.unreported) if names(take)), None)

    def is_last(self, event):
        """An event names the last take, which wasn't reported: by its address, or by a value that none before it has."""
        if tells_value(event):
            return self.unreported != [] and self.named_by(event) == len(self.unreported) - 1
        return [take.address for take in self.unreported[-1:]] == [pointer(event)]

    def take(self, ring, declared, address, block):
        position, lengths = self.next, declared.lengths
        blocks = declared.queue[position:position + 1]
        is_right = blocks and (position in lengths or not self.is_placed) and ring.address(position) == address
        self.is_out_of_order |= not is_right
        self.has_other_words |= not blocks or with_cycle(blocks[0], ring.cycle(position)) != block
        self.is_inside = not blocks or not (position + 1 in lengths or position + 1 == len(declared.queue))
        self.taken.append(Take(address, block))
        self.next, self.is_placed = position + 1, False

    def place(self, ring, address):
        """The dequeue pointer is set: the next take is of the place there, not before what was taken."""
        self.next = first_at(ring, address, self.next)
        self.is_placed, self.is_inside = True, False


def harm_of(controller):
    """The least harm that there is; None where there is none."""
    takes = controller.takes.values()
    found = [any(of_ring.is_out_of_order for of_ring in takes), any(of_ring.has_other_words for of_ring in takes), controller.waits_inside(),
             controller.looked_outside, controller.posts_wrongly(), controller.has_changed_context()]
    return next((number for number, is_found in enumerate(found, start=1) if is_found), None)
