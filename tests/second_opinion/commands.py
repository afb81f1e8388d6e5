"""What a command block says, and from which states it can succeed (xHCI 4.5.3, 4.6, 4.8.3, 6.4.3)."""
from collections import namedtuple

from blocks import (ADDRESS_DEVICE, CONFIGURE_ENDPOINT, DISABLE_SLOT, ENABLE_SLOT, EVALUATE_CONTEXT, NO_OP_COMMAND, RESET_DEVICE,
                    RESET_ENDPOINT, SET_TR_DEQUEUE, STOP_ENDPOINT, COMMAND_TYPES, aligned, bits, endpoint, is_left_out_command,
                    is_set, pointer, slot, type_of)

# option: BSR of Address Device, DC of Configure Endpoint; pointer and cycle: those of Set TR Dequeue, or the input context
Command = namedtuple('Command', 'type slot endpoint option pointer cycle')

ANY_SLOT = ('Enabled', 'Default', 'Addressed', 'Configured')

# by type and option: the state of the slot after a success, by the state before
SLOT_SUCCESS = {
    (ENABLE_SLOT, False): {'Disabled': 'Enabled'},
    (DISABLE_SLOT, False): dict.fromkeys(ANY_SLOT, 'Disabled'),
    (ADDRESS_DEVICE, True): {'Enabled': 'Default'},
    (ADDRESS_DEVICE, False): {'Enabled': 'Addressed', 'Default': 'Addressed'},
    (CONFIGURE_ENDPOINT, False): {'Addressed': 'Configured', 'Configured': 'Configured'},
    (CONFIGURE_ENDPOINT, True): {'Configured': 'Addressed', 'Addressed': 'Addressed'},
    (EVALUATE_CONTEXT, False): {'Default': 'Default', 'Addressed': 'Addressed', 'Configured': 'Configured'},
    (RESET_DEVICE, False): {'Default': 'Default', 'Addressed': 'Default', 'Configured': 'Default'},
}

# by type: the state of the endpoint after a success, by the state before
ENDPOINT_SUCCESS = {
    STOP_ENDPOINT: {'Running': 'Stopped'},
    RESET_ENDPOINT: {'Halted': 'Stopped'},
    SET_TR_DEQUEUE: {'Stopped': 'Stopped', 'Error': 'Stopped'},
}


def command_of(block):
    """The command that a block spells; None where it is none of the profile."""
    if type_of(block) not in COMMAND_TYPES or is_left_out_command(block):
        return None
    option = type_of(block) in (ADDRESS_DEVICE, CONFIGURE_ENDPOINT) and is_set(block[3], 9)
    return Command(type_of(block), slot(block), endpoint(block), option, aligned(pointer(block), 16), bits(block[0], 0, 1))


def names_slot(command):
    return command.type not in (NO_OP_COMMAND, ENABLE_SLOT)


def names_endpoint(command):
    return command.type in ENDPOINT_SUCCESS


def adds_endpoints(command):
    """A Configure Endpoint with DC 0."""
    return command.type == CONFIGURE_ENDPOINT and not command.option


def named_context(command):
    """The address of the input context that a command reads; None where it reads none."""
    reads = command.type in (ADDRESS_DEVICE, EVALUATE_CONTEXT) or adds_endpoints(command)
    return command.pointer if reads else None


def name_one_slot(command, other):
    return names_slot(command) and names_slot(other) and command.slot == other.slot


def name_two_endpoints(command, other):
    """Both are Stop Endpoint, Reset Endpoint or Set TR Dequeue Pointer, of different endpoints."""
    return names_endpoint(command) and names_endpoint(other) and command.endpoint != other.endpoint


def is_stop_of(command, slot_number, index):
    return command is not None and command.type == STOP_ENDPOINT and (command.slot, command.endpoint) == (slot_number, index)


def slot_after_success(command, state):
    """None where the command can't succeed from this state of its slot."""
    table = SLOT_SUCCESS.get((command.type, command.option))
    return state if table is None else table.get(state)


def endpoint_after_success(command, state):
    table = ENDPOINT_SUCCESS.get(command.type)
    return state if table is None else table.get(state)
