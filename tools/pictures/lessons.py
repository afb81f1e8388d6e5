"""What the teaching page tells: its lessons in a learner's order, each with its trace, its words, and the rows that its picture shows."""
from dataclasses import dataclass

HARMS, HAND_MADE = 'tests/harms', 'examples/lessons'


@dataclass(frozen=True)
class Lesson:
    """A mistake. `trace` is the path of the trace and the schedule without their endings, `harm` the worked harm of tests/harms that the
    lesson is about, where its trace is another one, and `rows` those that the picture shows; without any it shows all."""
    trace: str
    title: str
    mistake: str
    cure: str
    rows: str = ''
    harm: str = ''

    @property
    def worked_harm(self):
        return self.harm or self.trace.rpartition('/')[2]


@dataclass(frozen=True)
class Chapter:
    title: str
    anchor: str
    beginning: str
    lessons: tuple


HANDING_OVER = Chapter(
    'Handing over a TRB', 'handing-over',
    'The store that flips a TRB\u2019s Cycle bit is the moment from which the controller may read it. It reads all 16 bytes at once, whenever it '
    'likes, and needs no doorbell for it once its ring runs.',
    (
        Lesson(f'{HAND_MADE}/stray_cycle_bit', 'A Cycle bit where no TD was meant',
               'The driver sets the Cycle bit of a TRB for which it has submitted nothing: a stray store, or a ring that was not cleared. To the '
               'controller that is work, and it takes whatever stands there.',
               'Clear a ring before its first use, and write Cycle bits in one place of your code alone.', harm='undeclared-blocks-may-be-given'),
        Lesson(f'{HAND_MADE}/cycle_bit_before_the_words', 'The Cycle bit first, the words later',
               'Word 3 with its Cycle bit is written while word 0 still lacks the address of the Input Context. A controller that fetches between '
               'the two stores takes an Address Device command whose Input Context lies at 0.',
               'Write words 0 to 2, then a write barrier, then word 3.', '18-24', 'control-words-alone-are-compared'),
        Lesson(f'{HAND_MADE}/first_trb_first', 'The first TRB of a TD before the others',
               'The Data Stage TD has two TRBs, and its first one is handed over while the second is not there yet. A controller that comes now '
               'begins the TD and waits in its middle, for a TRB that may never come.',
               'Write the first TRB with the Cycle bit that does not hand it over, then all others, and flip the first one\u2019s Cycle bit last.',
               '27-37', 'descriptors-may-be-given-in-part'),
        Lesson('examples/write_after_the_doorbell', 'A store to a TRB behind its Cycle bit',
               'The driver changes its mind and writes a word of a TRB that it has already handed over. The controller that fetched early saw the '
               'old word; the one that fetches late takes words that nobody submitted.',
               'Do not touch a TRB until an event has given it back; to withdraw it, stop the endpoint and move its dequeue pointer past it.',
               '27-31', 'blocks-have-no-lease'),
        Lesson(f'{HARMS}/links-may-be-declared', 'A Link as part of a TD',
               'The driver submits a Link as if it were a command of its own, in the middle of the segment. The controller follows it to wherever '
               'it points, here to memory that belongs to no ring.',
               'Keep Links out of TDs: a ring has one at the end of each segment, and nowhere else.'),
    ))

LINKS = Chapter(
    'Links and laps', 'links',
    'The last TRB of each segment is a Link. The controller owns a Link from its Cycle bit on, as it owns any other TRB, and reads it once in '
    'each lap.',
    (
        Lesson(f'{HARMS}/link-targets-are-not-looked-at', 'A Link that leads nowhere',
               'The driver hands over a Link whose Ring Segment Pointer was never written. The controller follows it to address 0 and fetches there.',
               'Write a Link\u2019s pointer when the ring is made, and only flip its Cycle bit later.'),
        Lesson(f'{HAND_MADE}/link_without_toggle', 'The last Link without Toggle Cycle',
               'The ring\u2019s last Link lacks Toggle Cycle, so the controller begins the second lap looking for the Cycle bit of the first one. The '
               'TRBs of the first lap still have it, and it takes them again.',
               'Set Toggle Cycle (TC) on the Link of the last segment, and on no other.', '21-27', 'toggle-cycle-is-not-looked-at'),
        Lesson(f'{HARMS}/links-have-no-lease', 'A store to a Link that was handed over',
               'The driver writes the Ring Segment Pointer again after it has handed the Link over. The controller that comes there later reads half '
               'of the new address, and leaves the ring.',
               'Write a Link\u2019s words before its Cycle bit, and then leave it alone until the controller has passed it.',
               '33-34, 39-41, 45-49'),
        Lesson(f'{HARMS}/link-lease-ends-at-the-crossing', 'A Link that is not passed yet',
               'All TRBs before the Link are done, and the driver takes the Link for free. But an event only says that the TRB before it is done: '
               'the controller still stands at the Link, and reads it later.',
               'Take a Link back only with an event that names a TRB behind it.', '40-41, 53-61'),
        Lesson(f'{HARMS}/rings-hold-one-block-more', 'A ring that is filled to the last TRB',
               'The driver puts a TRB into the last free place of a ring. Then the place where the ring begins and the one where it ends are the '
               'same: a dequeue pointer no longer tells a full ring from an empty one, and a TRB that was taken is taken again.',
               'Keep one place of each ring free.', '26-28, 55, 58, 61, 63-77, 85-93'),
    ))

EVENTS = Chapter(
    'The Event Ring', 'events',
    'On the Event Ring the controller writes and the driver reads. ERDP says how far the driver has read, and with it gives places back.',
    (
        Lesson(f'{HAND_MADE}/erdp_ahead', 'ERDP past what was read',
               'Four events are there; the driver reads one, and writes ERDP as if it had read them all. The controller takes the unread ones for '
               'free places, goes round its ring, and posts over them.',
               'Write ERDP with the address behind the last event that was read, and no further.', harm='erdp-past-what-was-read'),
    ))

COMMANDS = Chapter(
    'Commands and contexts', 'commands',
    'A command names memory: an Input Context, which is the controller\u2019s until the Command Completion Event; a Device Context and its entry '
    'in the DCBAA, which are the controller\u2019s until Disable Slot; and rings.',
    (
        Lesson(f'{HARMS}/crcr-may-name-any-address', 'CRCR with another address',
               'CRCR names an address that is not the first TRB of the Command Ring. The first doorbell lets the controller fetch there.',
               'Write CRCR once, before the start, with the address of the Command Ring\u2019s first TRB and RCS 1.', '5-12'),
        Lesson(f'{HAND_MADE}/input_context_reused', 'An Input Context that is written too early',
               'Address Device is under way, and the driver prepares its next command in the same Input Context. The controller may read the '
               'context at any time until it completes the command, and so reads a mixture of both.',
               'Wait for the Command Completion Event, or use another Input Context.', '18-27', 'input-contexts-have-no-lease'),
        Lesson(f'{HARMS}/dcbaa-entries-have-no-lease', 'A DCBAA entry that changes under a slot',
               'The driver points the DCBAA entry of an addressed slot to other memory. From then on the controller writes its Device Context '
               'there: here into a Link of the Command Ring.',
               'Leave the DCBAA entry of a slot alone until Disable Slot has succeeded.', '22, 25-30, 38-40'),
        Lesson(f'{HARMS}/device-contexts-over-input-contexts', 'Two contexts in the same memory',
               'The Device Context that the DCBAA names and the Input Context of Address Device lie over each other. The controller writes the one '
               'while it reads the other.',
               'Give each context memory of its own.', '20-28'),
        Lesson(f'{HARMS}/doorbells-beside-touching-commands', 'A doorbell beside a command for its endpoint',
               'Set TR Dequeue Pointer is under way, and the driver already rings the endpoint\u2019s doorbell. The controller may start from the old '
               'place, take TDs there, and then be moved back to take them again.',
               'Ring the doorbell only after the command\u2019s completion was read.', '79-81, 87, 97-99, 104, 107-113, 119'),
        Lesson(f'{HAND_MADE}/wrong_dequeue_cycle_state', 'A ring that is bound with the wrong cycle state',
               'The Endpoint Context names a new ring with DCS 0. In cleared memory every TRB has the Cycle bit 0, so to this controller all of them '
               'are handed over.',
               'Bind a new ring with DCS 1, at its first TRB, with all its Cycle bits 0.', '18-28', 'dequeue-cycle-state-is-not-looked-at'),
        Lesson(f'{HARMS}/used-rings-may-be-bound', 'A ring that is bound a second time',
               'The slot was disabled and enabled again, and the new Endpoint Context names a ring that was in use before. What was taken from it '
               'still stands there with its Cycle bit, and is taken again.',
               'Use a new ring for a new endpoint, or go on where the old one stands, which version 3 of the format follows.',
               '24, 29-32, 36-37, 39-43, 45, 47-48, 73-76, 86-90'),
    ))

STOPPING = Chapter(
    'Stopping and moving', 'stopping',
    'To take TRBs back without waiting for them, a driver stops the endpoint and moves its dequeue pointer. The controller may have gone further '
    'than the driver\u2019s events say, until the stop is told.',
    (
        Lesson(f'{HARMS}/givings-beside-a-second-address-device', 'A TRB for a ring that a command is moving',
               'A second Address Device for the slot is under way, which places the controller at the ring\u2019s first TRB again. Meanwhile the driver '
               'hands that TRB over: the controller may take it before the command is done, and once more after it.',
               'Hand nothing over on a ring while a command that places or moves it is unfinished.', '26, 33-46'),
        Lesson(f'{HARMS}/second-address-device-with-blocks-left', 'Address Device again, with TRBs left on the ring',
               'The default control endpoint\u2019s ring still holds a TRB when the second Address Device places the controller at the ring\u2019s beginning. '
               'That TRB may be taken before the command and again after it.',
               'Wait for the events of all TRBs before the second Address Device, and name the place where the ring stands.', '47-62'),
        Lesson(f'{HARMS}/stopped-event-holds-at-its-block', 'Back to the TRB that a Stopped event names',
               'The Transfer Event with the code Stopped names a TRB that the controller has begun, and the driver moves the ring back to it. What '
               'was taken already is taken a second time.',
               'Continue behind the TD that the Stopped event names, or put its rest into a new TD.', '55-56, 60, 63, 66-68, 75-79'),
        Lesson(f'{HARMS}/stop-endpoint-holds-at-the-floor', 'Back to where the last event was',
               'Stop Endpoint has completed without a Transfer Event, and the driver takes the TRB behind the last event for untouched. The '
               'controller may have taken it without a word, and takes it again after the move.',
               'After Stop Endpoint, move on to a place behind everything that was handed over.', '76-93'),
        Lesson(f'{HARMS}/moves-from-the-floor-on', 'Back over a TRB that may be done',
               'Two TDs were handed over, the event of the first was read, and the driver moves the ring to the second. Nothing says that the second '
               'was not taken before the stop: this controller did take it, and takes it twice.',
               'Move past all that was handed over, and submit again what must be done.', '50-54, 57-64, 72-79'),
        Lesson(f'{HARMS}/moves-into-descriptors', 'Into the middle of a TD',
               'Set TR Dequeue Pointer names the Link between the two TRBs of a TD. The controller takes the second TRB without the first.',
               'Move to the first TRB of a TD, or behind the last one.', '59-61, 63-69, 76-80'),
    ))

CHAPTERS = (HANDING_OVER, LINKS, EVENTS, COMMANDS, STOPPING)
FIRST_LESSON = 'examples/control_transfer'
