"""Blocks (TRBs), their fields, and which lists of them are a descriptor (xHCI 4.11, 6.4). A block is a tuple of four words."""

NORMAL, SETUP_STAGE, DATA_STAGE, STATUS_STAGE, ISOCH, LINK, EVENT_DATA, NO_OP = range(1, 9)
(ENABLE_SLOT, DISABLE_SLOT, ADDRESS_DEVICE, CONFIGURE_ENDPOINT, EVALUATE_CONTEXT, RESET_ENDPOINT, STOP_ENDPOINT, SET_TR_DEQUEUE,
 RESET_DEVICE) = range(9, 18)
NO_OP_COMMAND = 23
TRANSFER_EVENT, COMMAND_COMPLETION = 32, 33

TRANSFER_TYPES = {NORMAL, SETUP_STAGE, DATA_STAGE, STATUS_STAGE, ISOCH, EVENT_DATA, NO_OP}
COMMAND_TYPES = {*range(9, 18), NO_OP_COMMAND}
LEFT_OUT_COMMAND_TYPES = {*range(18, 23), 24, 25, *range(48, 64)}
EVENT_TYPES = set(range(32, 40))

# the places of the Chain bit in a control word, and of ED in that of a Transfer Event
CHAIN, ED = 4, 2
# the code of a command that was done
SUCCESS = 1
# how many blocks a descriptor has
MOST_BLOCKS = 4096


def bits(word, low, count):
    return word >> low & (1 << count) - 1


def is_set(word, bit):
    return bits(word, bit, 1) == 1


def cycle(block):
    return bits(block[3], 0, 1)


def type_of(block):
    return bits(block[3], 10, 6)


def is_chained(block):
    return is_set(block[3], CHAIN)


def pointer(block):
    return block[0] + (block[1] << 32)


def aligned(address, boundary):
    return address - address % boundary


def code(block):
    return bits(block[2], 24, 8)


def tells_value(block):
    """A Transfer Event tells words 0 and 1 of an Event Data block, and no address."""
    return is_set(block[3], ED)


def has_value(block, value):
    """It is an Event Data block with these words 0 and 1."""
    return type_of(block) == EVENT_DATA and pointer(block) == value


def slot(block):
    return bits(block[3], 24, 8)


def endpoint(block):
    return bits(block[3], 16, 5)


def with_cycle(block, bit):
    return (*block[:3], block[3] - cycle(block) + bit)


# ---- descriptors (TDs)

def is_chain(blocks):
    """The Chain bit is 1 in all blocks but the last, and 0 there."""
    return all(is_chained(block) for block in blocks[:-1]) and not is_chained(blocks[-1])


def is_badly_formed(blocks):
    return not blocks or len(blocks) > MOST_BLOCKS or any(cycle(block) == 1 for block in blocks) or not is_chain(blocks)


def has_setup_data(block):
    """Eight bytes in the block itself (IDT), and no reserved transfer type (TRT)."""
    return bits(block[2], 0, 17) == 8 and is_set(block[3], 6) and bits(block[3], 16, 2) != 1


def is_transfer_arrangement(blocks):
    first, behind = blocks[0], [type_of(block) for block in blocks[1:]]
    if type_of(first) in (NORMAL, DATA_STAGE, ISOCH):
        return all(kind in (NORMAL, EVENT_DATA) for kind in behind)
    if type_of(first) == SETUP_STAGE:
        return has_setup_data(first) and not behind
    if type_of(first) == STATUS_STAGE:
        return behind in ([], [EVENT_DATA])
    return type_of(first) == NO_OP and not behind


def has_left_out_transfer_type(blocks, is_full):
    """Event Data and Isoch blocks where the version has none."""
    return not is_full and any(type_of(block) in (EVENT_DATA, ISOCH) for block in blocks)


def is_bad_transfer(blocks, is_full):
    if is_badly_formed(blocks) or any(type_of(block) not in TRANSFER_TYPES for block in blocks):
        return True
    return not has_left_out_transfer_type(blocks, is_full) and not is_transfer_arrangement(blocks)


def is_left_out_transfer(blocks, is_full):
    """Blocks of a left out type, or an interrupter target other than 0."""
    return has_left_out_transfer_type(blocks, is_full) or any(bits(block[2], 22, 10) != 0 for block in blocks)


def is_bad_command(blocks):
    return is_badly_formed(blocks) or len(blocks) != 1 or type_of(blocks[0]) not in COMMAND_TYPES | LEFT_OUT_COMMAND_TYPES


def is_left_out_command(block):
    """A command type that the profile leaves out, Set TR Dequeue of a stream, Reset Endpoint that keeps the transfer state."""
    if type_of(block) == SET_TR_DEQUEUE:
        return bits(block[0], 1, 3) != 0
    if type_of(block) == RESET_ENDPOINT:
        return is_set(block[3], 9)
    return type_of(block) in LEFT_OUT_COMMAND_TYPES
