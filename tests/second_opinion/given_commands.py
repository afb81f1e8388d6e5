"""Which commands may be given, and what an unfinished one hinders (xHCI 4.5.3, 4.6, 6.2.5)."""
import contexts
from areas import is_bad_area, is_in_range_lease, is_soiled
from blocks import ADDRESS_DEVICE, CONFIGURE_ENDPOINT, EVALUATE_CONTEXT
from commands import adds_endpoints, name_one_slot, name_two_endpoints, named_context, names_endpoint, names_slot
from effects import disabled_by, takes_device
from rings import overlap


def is_bad_context(known, context):
    length = known.trace.input_context_bytes
    return is_bad_area(known, context, length) or is_soiled(known, context, length)


def is_bad_device(known, command):
    """A new device context needs DCBAAP, a good entry, and a place where it touches nothing that is leased."""
    entry, device, length = known.slot_entry(command.slot), known.device_named(command.slot), known.trace.device_context_bytes
    return (not known.is_written('dcbaap')
            or is_bad_area(known, entry, 8) or is_soiled(known, entry, 8)
            or device == 0 or device % 64 != 0
            or is_bad_area(known, device, length) or is_in_range_lease(known, device, length)
            or overlap(device, length, entry, 8)
            or overlap(device, length, command.pointer, known.trace.input_context_bytes))


def is_bad_address_device(known, command):
    adds_both = contexts.is_added(known, command.pointer, 0) and contexts.is_added(known, command.pointer, 1)
    has_type = contexts.endpoint_type(known, command.pointer, 1) != 0
    return not adds_both or not has_type or (takes_device(known, command) and is_bad_device(known, command))


def is_bad_added(known, command, index):
    """An endpoint is added without a type, or while it is enabled and not dropped."""
    is_free = known.endpoint_state(command.slot, index) == 'Disabled' or contexts.is_dropped(known, command.pointer, index)
    return contexts.endpoint_type(known, command.pointer, index) == 0 or not is_free


def is_refused(known, command):
    """It names a Disabled slot or endpoint, or its contexts lie in a wrong place or have wrong content."""
    if names_slot(command) and known.slot_state(command.slot) == 'Disabled':
        return True
    if names_endpoint(command):
        return command.endpoint == 0 or known.endpoint_state(command.slot, command.endpoint) == 'Disabled'
    if named_context(command) is not None and is_bad_context(known, named_context(command)):
        return True
    if command.type == ADDRESS_DEVICE:
        return is_bad_address_device(known, command)
    return adds_endpoints(command) and any(is_bad_added(known, command, i) for i in contexts.endpoints_added_by(known, command))


def leaves_alone(known, command, index):
    """A Configure Endpoint or Evaluate Context that isn't about an endpoint of its slot, by its input context as it stands: the one is about those that it drops
    or adds, with DC 1 about all but the default control endpoint, the other about those whose contexts it gives."""
    if command.type == CONFIGURE_ENDPOINT and command.option:
        return index == 1
    is_about = {CONFIGURE_ENDPOINT: [contexts.is_dropped, contexts.is_added], EVALUATE_CONTEXT: [contexts.is_added]}
    return command.type in is_about and not any(test(known, command.pointer, index) for test in is_about[command.type])


def may_stand_side_by_side(known, command, other):
    """From version 3 on commands of different endpoints; from version 4 on also one of an endpoint, and one that leaves this endpoint alone."""
    def is_let_alone(one, two):
        return known.trace.version >= 4 and names_endpoint(one) and leaves_alone(known, two, one.endpoint)
    are_two = known.trace.version >= 3 and name_two_endpoints(command, other)
    return are_two or is_let_alone(command, other) or is_let_alone(other, command)


def is_in_the_way(known, command, other):
    """An unfinished command of the same slot, beside which the trace's version lets no such command stand."""
    return name_one_slot(command, other) and not may_stand_side_by_side(known, command, other)


def moves_ring(known, command, ring):
    """An Address Device for a slot whose default control endpoint has the ring."""
    is_enabled = known.endpoint_state(command.slot, 1) != 'Disabled'
    return command.type == ADDRESS_DEVICE and is_enabled and known.ring_of(command.slot, 1) is ring


def adds_left_out_endpoint(known, command):
    added = contexts.endpoints_added_by(known, command)
    return any(contexts.is_left_out_endpoint(known, command.pointer, index) for index in added)


def changes_endpoint(known, command, number, index):
    """The success of a command may change an endpoint."""
    if command.slot != number or not names_slot(command):
        return False
    is_named = names_endpoint(command) and command.endpoint == index
    return is_named or index in disabled_by(known, command) or index in contexts.endpoints_added_by(known, command)
