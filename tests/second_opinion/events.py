"""Which events no controller can have posted (xHCI 4.5.3, 4.6, 4.8.3, 4.10, 4.11.5.2, 6.4.2)."""
from blocks import ENABLE_SLOT, STOP_ENDPOINT, SUCCESS, bits, code, endpoint, pointer, slot
from codes import ERROR, HALTED, NEVER, OF_SERVICE, PASSED, has_fitting_name, said_by
from commands import endpoint_after_success, is_stop_of, names_slot, slot_after_success
from rings import is_data


def is_in_profile(known, block):
    """A Transfer Event with a code of the profile, which with Event Data (ED) tells of a block."""
    return has_fitting_name(known, block) and said_by(known, block) is not None


def may_be_taken(known):
    """The controller may have come to the next command."""
    return known.command_ring is not None and known.next_command < known.ceiling(known.command_ring)


def is_possible_stop(known, ring, spot, number, index):
    """The controller may have stopped there, for the Stop Endpoint that is finished next."""
    given = known.given_count(ring)
    is_stopping = may_be_taken(known) and is_stop_of(known.command_at(known.next_command), number, index)
    if not is_data(spot):
        return is_stopping and spot.number <= given
    return is_stopping and (spot.number < given or (spot.number == given and known.is_way_given(ring, given)))


def is_impossible_transfer(known, block):
    number, index, said = slot(block), endpoint(block), said_by(known, block)
    at = known.spot_of_event(block)
    if known.endpoint_state(number, index) == 'Disabled':
        return True
    if said == OF_SERVICE or at is None:
        return said != OF_SERVICE
    ring, spot = at
    is_begun = is_data(spot) and spot.number < known.ceiling(ring)
    is_working = known.endpoint_state(number, index) == 'Running' and known.is_open(ring)
    if said == PASSED:
        return not is_begun
    if said in (HALTED, ERROR):
        return not is_begun or not is_working
    return said == NEVER or not is_working or not is_possible_stop(known, ring, spot, number, index)


def can_succeed(known, command, slot_of_event):
    if command.type == ENABLE_SLOT and not 1 <= slot_of_event <= bits(known.register('config') or 0, 0, 8):
        return False
    number = command.slot if names_slot(command) else slot_of_event
    return (slot_after_success(command, known.slot_state(number)) is not None
            and endpoint_after_success(command, known.endpoint_state(number, command.endpoint)) is not None)


def can_finish(known, command, block):
    """A controller can have finished the command with this event."""
    if command is None or (names_slot(command) and slot(block) != command.slot):
        return False
    if code(block) == SUCCESS:
        return can_succeed(known, command, slot(block))
    return not (command.type == STOP_ENDPOINT and known.was_stop_seen(command.slot, command.endpoint))


def is_impossible_completion(known, block):
    ring = known.command_ring
    return (not may_be_taken(known) or pointer(block) != ring.address(known.next_command) or code(block) == 0
            or not can_finish(known, known.command_at(known.next_command), block))
