"""Fields of blocks (TRBs, xHCI 6.4)."""

ISOCH, EVENT_DATA = 5, 7
LINK, ENABLE_SLOT, DISABLE_SLOT, ADDRESS_DEVICE, CONFIGURE_ENDPOINT, EVALUATE_CONTEXT = 6, 9, 10, 11, 12, 13
RESET_ENDPOINT, STOP_ENDPOINT, SET_TR_DEQUEUE, RESET_DEVICE = 14, 15, 16, 17
STOPPING = (RESET_ENDPOINT, STOP_ENDPOINT, SET_TR_DEQUEUE)  # where they succeed the endpoint is stopped
TRANSFER_EVENT, COMMAND_COMPLETION = 32, 33
SUCCESS, TRB_ERROR, STOPPED_CODES, HALTING_CODES = 1, 5, (26, 27, 28), (3, 4, 5, 6, 36)
SERVICE_CODES = (14, 15, 23)  # Ring Underrun, Ring Overrun, Missed Service Error: no TRB is passed by them (4.10.3)

CHAIN = 1 << 4  # in a control word


def kind(words):
    return words[3] >> 10 & 63


def cycle(words):
    return words[3] & 1


def chained(words):
    return words[3] >> 4 & 1


def toggles(words):
    return words[3] >> 1 & 1


def pointer(words):
    """Words 1 and 0 whole, as events name a block."""
    return words[0] | words[1] << 32


def target(words):
    """The 16-byte aligned address of a Link, a command or a dequeue pointer."""
    return pointer(words) & ~15


def code(words):
    return words[2] >> 24


def tells_value(words):
    """Whether a Transfer Event tells words 1 and 0 of an Event Data TRB, and no address (ED, 4.11.5.2)."""
    return words[3] >> 2 & 1


def has_value(words, event):
    """Whether a block is an Event Data TRB whose value a Transfer Event tells."""
    return kind(words) == EVENT_DATA and pointer(words) == pointer(event)


def slot(words):
    return words[3] >> 24


def endpoint(words):
    return words[3] >> 16 & 31


def stops(words, is_isochronous):
    """Whether a Transfer Event says that its endpoint works no more; no error halts an isochronous one (4.10.2)."""
    return code(words) in STOPPED_CODES + ((TRB_ERROR,) if is_isochronous else HALTING_CODES)


def drops_all(words):
    """Configure Endpoint with DC 1."""
    return words[3] >> 9 & 1


def is_isochronous(context):
    """EP Type 1 or 5 in word 1 of an Endpoint Context (6.2.3)."""
    return context >> 3 & 3 == 1


def streams(context):
    """MaxPStreams in word 0 of an Endpoint Context (6.2.3): above 0 the context names an array of streams and no ring."""
    return context >> 10 & 31
