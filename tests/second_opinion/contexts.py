"""Input contexts in memory, and the endpoints that they drop and add (xHCI 6.2.3, 6.2.5)."""
from collections import namedtuple

from blocks import ADDRESS_DEVICE, aligned, bits, is_set
from commands import adds_endpoints

# The pointer and the cycle state of an endpoint's ring
Binding = namedtuple('Binding', 'pointer cycle')


def is_dropped(known, context, index):
    return is_set(known.word(context), index)


def is_added(known, context, index):
    return is_set(known.word(context + 4), index)


def dropped_endpoints(known, context):
    return [index for index in range(2, 32) if is_dropped(known, context, index)]


def endpoints_added_by(known, command):
    """The endpoints of whose contexts a command takes the ring."""
    if command.type == ADDRESS_DEVICE:
        return [1]
    if adds_endpoints(command):
        return [index for index in range(2, 32) if is_added(known, command.pointer, index)]
    return []


def endpoint_context(known, context, index):
    return context + (index + 1) * known.trace.context_bytes


def endpoint_type(known, context, index):
    return bits(known.word(endpoint_context(known, context, index) + 4), 3, 3)


def is_isochronous(known, context, index):
    """The context of an endpoint says so. The default control endpoint never is."""
    return index > 1 and endpoint_type(known, context, index) in (1, 5)


def is_left_out_endpoint(known, context, index):
    """An endpoint with streams; before version 3 an isochronous one too."""
    streams = bits(known.word(endpoint_context(known, context, index)), 10, 5)
    has_left_out_type = endpoint_type(known, context, index) in (1, 5) and known.trace.version < 3
    return has_left_out_type or streams > 0


def binding_in(known, context, index):
    pointer = known.long(endpoint_context(known, context, index) + 8)
    return Binding(aligned(pointer, 16), pointer % 2)
