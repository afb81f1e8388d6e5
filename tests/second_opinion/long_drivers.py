"""Random drivers of version 4 that declare descriptors of more blocks than an earlier version has, over several segments. They take few steps: each makes many rows."""
from blocks import CHAIN, DATA_STAGE, EVENT_DATA, ISOCH, NORMAL, NO_OP
from drivers import Driver
from rings import Ring, Segment
from trace import MOST_BLOCKS, Doorbell

# the least of these descriptors, and the TRBs of the segments of the rings
LEAST = MOST_BLOCKS[3] + 1
SEGMENTS = [(140, 140), (100, 3, 100, 90), (280, 4), (3, 258), (256, 256)]
# the first blocks and the last one; of the last three none is a form of version 4's profile
FORMS = [(NORMAL, NORMAL)] * 6 + [(DATA_STAGE, NORMAL), (ISOCH, NORMAL), (NORMAL, EVENT_DATA), (NORMAL, EVENT_DATA)]
FORMS += [(NORMAL, NO_OP), (ISOCH, ISOCH), (EVENT_DATA, NORMAL)]


class LongDriver(Driver):
    VERSIONS = [4]
    REACH = [1, 20, 500]

    def some_rings(self):
        others = super().some_rings()[:2]
        transfers = [Ring(number, 'xfer', [Segment((number << 4 | i) << 16, count) for i, count in enumerate(self.pick.choice(SEGMENTS))])
                     for number in range(2, 6)]
        return [*others, *transfers]

    def declare_long(self, ring):
        """Mostly of few more than the least, or of as many as the ring may take, or of one more; of two blocks where the ring is short."""
        most = ring.place_count - 1
        length = max(2, self.pick.choice([LEAST, LEAST, LEAST + 1, most, most, most + 1]))
        first, last = self.pick.choice(FORMS)
        behind = self.pick.choices([NORMAL, EVENT_DATA], [50, 1], k=length - 2)
        self.declare_form(ring, [first] + behind + [last])

    def declare_form(self, ring, kinds):
        """In words that are mostly 0, so that few are written."""
        if len(kinds) < LEAST:
            return super().declare_form(ring, kinds)
        chained = [1 << CHAIN] * (len(kinds) - 1) + [0]
        self.declare(ring, [(self.pick.choice([0] * 40 + [0x1000]), 0, 0, kind << 10 | chain) for kind, chain in zip(kinds, chained)])

    def long_transfer(self):
        """A long descriptor is given, rung for and done, with what tells of blocks inside it before."""
        self.finish_all()
        slot, index = self.some_endpoint_with_work()
        ring = self.known.ring_of(slot, index) or self.one_of(self.known.driver_rings)
        self.try_step(lambda driver: driver.declare_long(ring))
        self.try_step(lambda driver: driver.give_all(ring))
        self.try_step(lambda driver: driver.make(Doorbell(slot, index)))
        for _ in range(self.pick.randrange(3)):
            self.try_step(lambda driver: driver.transfer_of(slot, index, [1, 1, 13], driver.spots_inside(slot, index)))
            self.try_step(lambda driver: driver.value_of(slot, index, [1, 1, 13]))
            self.try_step(lambda driver: driver.stray_block_of(ring))
        self.try_step(lambda driver: driver.end_all(slot, index))
        self.read_all()

    def drive(self, steps):
        self.try_step(Driver.start)
        self.enable_endpoints(6)
        for step in self.pick.choices([LongDriver.long_transfer, Driver.cancel, Driver.descriptor, Driver.stray_write], [5, 5, 2, 1], k=steps):
            self.try_step(step)
