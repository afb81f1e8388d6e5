"""What the Completion Code of a Transfer Event says (xHCI 4.10.2, 4.10.3, 4.11.5.2, 4.14, 6.4.5)."""
from blocks import code, endpoint, slot, tells_value

# the block that is named was passed; it is the last one before the endpoint halted, or came to the Error state; the endpoint stopped there
PASSED, HALTED, ERROR, STOPPED = 'passed', 'halted', 'error', 'stopped'
# nothing is told of any block; no controller posts it
OF_SERVICE, NEVER = 'of service', 'never'

EVERYWHERE = {1: PASSED, 13: PASSED, 3: HALTED, 4: HALTED, 6: HALTED, 36: HALTED, 5: ERROR, 26: STOPPED, 27: STOPPED, 28: STOPPED}
SERVICE = {14: OF_SERVICE, 15: OF_SERVICE, 23: OF_SERVICE}
ISOCHRONOUS = EVERYWHERE | {2: PASSED, 3: PASSED, 4: PASSED, 18: PASSED, 20: PASSED, 31: PASSED, 36: PASSED, 6: NEVER}


def said_by(known, block):
    """By the endpoint that a Transfer Event names; None where the profile has no such code there."""
    if not known.trace.has_isoch:
        return EVERYWHERE.get(code(block))
    codes = ISOCHRONOUS if known.is_isochronous(slot(block), endpoint(block)) else EVERYWHERE
    return (codes | SERVICE).get(code(block))


def has_fitting_name(known, block):
    """A Transfer Event names an address; or, where the version has Event Data, a value: not where it stopped, nor of the service."""
    return not tells_value(block) or known.trace.has_event_data and said_by(known, block) not in (STOPPED, OF_SERVICE)
