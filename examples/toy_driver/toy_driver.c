// SPDX-License-Identifier: MIT
/*
 * A toy xHCI driver: toy_driver TRACE [TRACE] writes its own traces, one for each controller, beside toy controllers; where XHCI_BENCH is
 * defined, toy_driver runs against `xhcitrace bench`.
 *
 * It starts the controller, addresses a device, makes control transfers, configures a bulk endpoint, moves data on it, cancels TDs by Set
 * TR Dequeue Pointer and by No Ops, drops the endpoint and frees its ring, configures it again, halts the controller between two transfers
 * and lets it go on, has its device unplugged and plugged, and stops; then it resets the controller and starts it again in the same memory.
 * It waits for each event, and rests on nothing that no event has told: endpoints halt, TRBs are found wrong, packets are short, commands
 * fail, events come late, and events of other kinds between.
 *
 * Status 0: done; 3: it waits for an event, and none will come.
 *
 * One of these macros gives it a bug. In a trace the checker refuses these (the first trace) by this rule:
 *
 *	BUG_WRITE_AFTER_DOORBELL	10 WriteToOwned		a TRB is changed behind its doorbell
 *	BUG_FORGOTTEN_WORD		11 NotAsSubmitted	word 2 of a TRB is not written
 *	BUG_FIRST_TRB_FIRST		13 NotWhole		the first TRB of a TD is handed over before the others
 *	BUG_NO_TOGGLE			14 LinkFault		the last Link TRB of a ring has no Toggle Cycle
 *	BUG_RESET_RUNNING		17 BadRegister		the controller is reset before it has halted
 *	BUG_MIXED_UP			21 ImpossibleEvent	events of the second controller are told in the first one's trace
 *	BUG_ERDP_TOO_FAR		22 BadErdp		ERDP names an event that the driver has not read
 *	BUG_MOVE_TOO_FAR		25 BadMove		Set TR Dequeue Pointer names a TRB past the last TD
 *	BUG_WITHDRAWN_RUNNING		32 BadWithdraw		a TD becomes No Ops while the endpoint runs
 *	BUG_NOT_RESTORED		33 NotRestored		the doorbell rings before all its TRBs are No Ops
 *	BUG_FREED_IN_USE		34 BadFree		a ring is freed before its endpoint is dropped
 *	BUG_STALE_CYCLE			35 BadRing		a ring is made in memory that still has Cycle bits
 *	BUG_UNTOLD_MEMSET		35 BadRing		that memory is cleared by a memset that the trace lacks
 *
 * These do nothing beside the toy controller, with which all goes well. The bench finds them:
 *
 *	BUG_NO_MOVE			18 BadDoorbell		an endpoint that has halted is reset, and not moved past the TD
 *	BUG_SHORT_IS_ALL		15 RingFull		a Short Packet within a TD is taken for its end
 *	BUG_FIRST_BY_GUESS		25 BadMove		a TD is moved past, wherever the endpoint has stopped
 *	BUG_FAILURE_IGNORED		19 BadCommand, or more	a command that has failed is taken for one that has succeeded
 *	BUG_LATE_EVENT			15 RingFull		a late event of a TD that became No Ops is taken for one of the next
 *	BUG_ERDP_NEVER			a hang			ERDP is not written, and the Event Ring fills
 *
 * With EVENT_DATA a bulk TD of several TRBs ends with an Event Data TRB: its event tells the number that this holds, and no address. The
 * bench finds these bugs of it:
 *
 *	BUG_NUMBER_AGAIN		15 RingFull		a number is held again while an event may still tell the first one
 *	BUG_NUMBER_WITHDRAWN		32 BadWithdraw		a TD becomes No Ops while an event may still tell its number
 *	BUG_ED_IGNORED			a hang			a number is taken for the address of a TRB
 */
#include <stdio.h>
#include <stdlib.h>
#include <string.h>

#include "toy_controller.h"

#define XT_CONTROLLERS 2
static struct toy toys[XT_CONTROLLERS];

#ifdef OWN_HOOKS
#include "own_hooks.h"
#else
#define XHCI_TRACE_HERE
#define XB_WORD(bus) ((bus) < MEMORY_BYTES ? &toys[xt - xt_states].memory.word[(bus) / 4] : 0)
#include "xhci_bench.h"
#endif

#define CYCLE 1u
#define TOGGLE 2u
#define ISP 4u			/* Interrupt on Short Packet */
#define CHAIN 0x10u
#define IOC 0x20u		/* Interrupt On Completion */
#define IMMEDIATE 0x40u
#ifdef BUG_ED_IGNORED
#define ED 0
#else
#define ED 4u			/* Event Data, of an event: it tells a number, and no address */
#endif
#define TYPE(type) ((uint32_t)(type) << 10)

/* TRB types */
#define NORMAL 1
#define SETUP_STAGE 2
#define DATA_STAGE 3
#define STATUS_STAGE 4
#define LINK 6
#define EVENT_DATA_TRB 7
#define NO_OP 8
#define ENABLE_SLOT 9
#define DISABLE_SLOT 10
#define ADDRESS_DEVICE 11
#define CONFIGURE_ENDPOINT 12
#define RESET_ENDPOINT 14
#define STOP_ENDPOINT 15
#define SET_TR_DEQUEUE 16
#define TRANSFER_EVENT 32
#define COMMAND_COMPLETION 33

/* Completion Codes */
#define SUCCESS 1
#define BABBLE_DETECTED 3
#define USB_TRANSACTION_ERROR 4
#define TRB_ERROR 5
#define STALL 6
#define SHORT_PACKET 13
#define STOPPED 26
#define STOPPED_LENGTH_INVALID 27
#define STOPPED_SHORT_PACKET 28
#define SPLIT_TRANSACTION_ERROR 36

#define DCI_CONTROL 1
#define DCI_BULK_IN 3

#define ERST 0x40000
#define DCBAA 0x50000
#define SLOTS 8
#define INPUT_CONTEXT 0x60000
#define INPUT_CONTEXT_WORDS (5 * 8)	/* up to the context of DCI 3 */
#define DEVICE_CONTEXT 0x70000
#define DEVICE_CONTEXT_WORDS (4 * 8)
#define BUFFER 0x80000

#define ATTEMPTS 3	/* of a command, before the device is given up */
#define WAITS 1000	/* in a row in which nothing ends, before that counts as a hang */

struct ring {
	unsigned int id;
	unsigned int segments;
	uint64_t base[2];
	uint16_t trbs[2];	/* of each segment, its Link TRB too */
	unsigned int segment;	/* where the next TRB goes */
	unsigned int index;
	uint32_t cycle;
	uint64_t count;		/* of the TRBs that were put on it */
};

/* IDs are given when a ring is made */
static const struct ring new_command_ring = { 0, 1, { 0x10000, 0 }, { 16, 0 }, 0, 0, CYCLE, 0 };
static const struct ring new_event_ring = { 0, 1, { 0x20000, 0 }, { 16, 0 }, 0, 0, CYCLE, 0 };
static const struct ring new_control_ring = { 0, 1, { 0x30000, 0 }, { 8, 0 }, 0, 0, CYCLE, 0 };
static const struct ring new_bulk_ring = { 0, 2, { 0x31000, 0x32000 }, { 4, 4 }, 0, 0, CYCLE, 0 };

enum endpoint_state { EP_NONE, EP_RUNNING, EP_STOPPED, EP_HALTED, EP_ERROR };

/* A TD on a Transfer Ring, or the three of a control transfer. Its last TRB alone asks for an event */
struct transfer {
	unsigned int trbs;
	int is_begun;		/* a Short Packet was told of a TRB before the last */
	int is_withdrawn;	/* its TRBs are No Ops: no event comes for it */
};

#define TRANSFERS 8	/* that a ring here has room for, at most */
#ifdef BUG_NUMBER_AGAIN
#define NUMBERS 1
#else
#define NUMBERS TRANSFERS	/* so no two on a ring are the same */
#endif

struct endpoint {
	unsigned int dci;
	enum endpoint_state state;	/* as the events tell */
	struct ring ring;	/* where the next TRB is put */
	struct ring done;	/* the same ring, where the oldest transfer begins: all before that is done */
	struct transfer transfers[TRANSFERS];	/* that stand there, the oldest first */
	unsigned int count;
	int is_at_oldest;	/* it stands in the oldest transfer, or at its first TRB */
#ifdef EVENT_DATA
	unsigned int next_number;
	uint64_t ends[NUMBERS];	/* by the number that a TD holds: how many TRBs there are up to its end, as the ring counts them */
#endif
};

struct controller {
	struct xt_state *trace;
	struct toy *hc;
	unsigned int rings;	/* that were made: each has its own ID */
	struct ring commands, events;
	uint64_t command;	/* the TRB of the command that was given last */
	unsigned int code;	/* with which it was completed; 0: it isn't yet */
	unsigned int code_slot;	/* that the completion named */
	unsigned int slot;	/* 0: there is no device */
	struct endpoint control, bulk;
	unsigned int waits;	/* in a row in which nothing has ended */
	int is_over;		/* a slot couldn't be disabled: what the controller has of it stays as it is until the reset */
};

static struct controller controllers[XT_CONTROLLERS];

/* ---- memory ---- */

static void store(struct controller *c, uint64_t bus, uint32_t value)
{
	xt_store32(c->trace, &c->hc->memory.word[bus / 4], bus, value);
}

static void store_pointer(struct controller *c, uint64_t bus, uint64_t value)
{
	xt_store64(c->trace, &c->hc->memory.pair[bus / 8], bus, value);
}

static void clear(struct controller *c, uint64_t bus, unsigned int words)
{
#ifndef BUG_UNTOLD_MEMSET
	xt_zero32(c->trace, bus, words);
#endif
	memset((void *)&c->hc->memory.word[bus / 4], 0, 4 * words);
}

static void copy(struct controller *c, uint64_t bus, const uint32_t *little_endian, unsigned int words)
{
	xt_copy32(c->trace, bus, little_endian, words);
	memcpy((void *)&c->hc->memory.word[bus / 4], little_endian, 4 * words);
}

/* ---- rings ---- */

static void make_ring(struct controller *c, struct ring *ring, const struct ring *made, const char *kind)
{
	*ring = *made;
	ring->id = c->rings++;
	xt_ring_segments(c->trace, ring->id, kind, ring->segments, ring->base, ring->trbs);
}

static uint64_t next_trb(const struct ring *ring)
{
	return ring->base[ring->segment] + 16 * ring->index;
}

static int is_before_link(const struct ring *ring)
{
	return ring->index + 2u == ring->trbs[ring->segment];
}

/* Goes to the next TRB, over a Link */
static void advance(struct ring *ring)
{
	ring->count++;
	if (++ring->index < ring->trbs[ring->segment] - 1u)
		return;
	ring->index = 0;
	ring->segment = (ring->segment + 1) % ring->segments;
	if (ring->segment == 0)
		ring->cycle ^= CYCLE;
}

static struct ring advanced(struct ring ring, unsigned int trbs)
{
	for (; trbs; trbs--)
		advance(&ring);
	return ring;
}

/* Hands over the Link TRB behind a segment's last TRB */
static void put_link(struct controller *c, const struct ring *ring, uint32_t chain)
{
	uint64_t link = next_trb(ring) + 16;
	unsigned int next = (ring->segment + 1) % ring->segments;
#ifdef BUG_NO_TOGGLE
	uint32_t toggle = 0;
#else
	uint32_t toggle = next == 0 ? TOGGLE : 0;
#endif

	store(c, link, (uint32_t)ring->base[next]);
	store(c, link + 4, 0);
	store(c, link + 8, 0);
	store(c, link + 12, TYPE(LINK) | toggle | chain | ring->cycle);
}

/* Writes a TRB with this Cycle bit in its control word */
static void put_trb(struct controller *c, struct ring *ring, const uint32_t *trb, uint32_t cycle)
{
	uint64_t bus = next_trb(ring);

	store(c, bus, trb[0]);
	store(c, bus + 4, trb[1]);
#ifndef BUG_FORGOTTEN_WORD
	store(c, bus + 8, trb[2]);
#endif
	store(c, bus + 12, (trb[3] & ~CYCLE) | cycle);
	if (is_before_link(ring))
		put_link(c, ring, trb[3] & CHAIN);
	advance(ring);
}

/* Puts a TD on a ring. Its first TRB gets the other Cycle bit at first, and the right one when all the others are there */
static void queue_td(struct controller *c, struct ring *ring, uint32_t (*td)[4], unsigned int trbs, int block_by_block)
{
	uint64_t first = next_trb(ring);
	uint32_t cycle = ring->cycle;
	unsigned int i;

	if (!block_by_block)
		xt_submit(c->trace, ring->id, td[0], trbs);
	for (i = 0; i < trbs; i++) {
		if (block_by_block)
			xt_submit_block(c->trace, ring->id, td[i][0], td[i][1], td[i][2], td[i][3]);
#ifdef BUG_FIRST_TRB_FIRST
		put_trb(c, ring, td[i], ring->cycle);
#else
		put_trb(c, ring, td[i], i == 0 ? ring->cycle ^ CYCLE : ring->cycle);
#endif
	}
#ifndef BUG_FIRST_TRB_FIRST
	store(c, first + 12, (td[0][3] & ~CYCLE) | cycle);
#else
	(void)first, (void)cycle;
#endif
}

/* Makes No Ops of a TD's TRBs, with the Cycle bits that they have; Links stay. The ring is as it was when the TD was put there */
static void store_no_ops(struct controller *c, struct ring ring, unsigned int trbs)
{
	for (; trbs; trbs--) {
		uint64_t bus = next_trb(&ring);

		store(c, bus, 0);
		store(c, bus + 4, 0);
		store(c, bus + 8, 0);
		store(c, bus + 12, TYPE(NO_OP) | ring.cycle);
		advance(&ring);
	}
}

/* ---- what stands on a Transfer Ring ---- */

/* Memory of an earlier ring is used again, so it is cleared first */
static void make_transfer_ring(struct controller *c, struct endpoint *ep, unsigned int dci, const struct ring *made)
{
#ifndef BUG_STALE_CYCLE
	unsigned int i;

	for (i = 0; i < made->segments; i++)
		clear(c, made->base[i], 4u * made->trbs[i]);
#endif
	memset(ep, 0, sizeof(*ep));
	ep->dci = dci;
	make_ring(c, &ep->ring, made, "xfer");
	ep->done = ep->ring;
}

static void free_transfer_ring(struct controller *c, struct endpoint *ep)
{
	if (ep->ring.segments)
		xt_free(c->trace, ep->ring.id);
	memset(ep, 0, sizeof(*ep));
}

static void add_transfer(struct endpoint *ep, unsigned int trbs)
{
	struct transfer *transfer = &ep->transfers[ep->count++];

	memset(transfer, 0, sizeof(*transfer));
	transfer->trbs = trbs;
}

/* How many TRBs may be put on the ring: one place stays free */
static unsigned int room(const struct endpoint *ep)
{
	unsigned int places = 0, i;

	for (i = 0; i < ep->ring.segments; i++)
		places += ep->ring.trbs[i] - 1u;
	return places - 1 - (unsigned int)(ep->ring.count - ep->done.count);
}

/* Events are still to come for what stands there */
static int is_busy(const struct endpoint *ep)
{
	unsigned int i;

	for (i = 0; i < ep->count; i++)
		if (!ep->transfers[i].is_withdrawn)
			return 1;
	return 0;
}

/* The oldest transfer is done or given up: its TRBs are the driver's again */
static void retire(struct endpoint *ep)
{
	ep->done = advanced(ep->done, ep->transfers[0].trbs);
	ep->count--;
	memmove(ep->transfers, ep->transfers + 1, ep->count * sizeof(ep->transfers[0]));
}

/* So many TRBs from the oldest on are done. How many of them are those of a transfer that isn't at its end */
static unsigned int pass(struct endpoint *ep, unsigned int trbs)
{
	while (ep->count && trbs >= ep->transfers[0].trbs) {
		trbs -= ep->transfers[0].trbs;
		retire(ep);
	}
	return trbs;
}

/*
 * How many TRBs stand before the one that an event names, from the oldest on; -1 where it names none of these. A controller that has
 * stopped may also name the next place where a TRB is put, or the Link before it.
 */
static int trbs_before(const struct endpoint *ep, uint64_t bus)
{
	struct ring at = ep->done;
	int before;

	for (before = 0; next_trb(&at) != bus; before++) {
		if (at.count == ep->ring.count)
			return -1;
		if (is_before_link(&at) && next_trb(&at) + 16 == bus)
			return before + 1;
		advance(&at);
	}
	return before;
}

#ifdef EVENT_DATA
/* The last TRB of a TD, so many TRBs from here: it holds a number, by which its event tells of it */
static void hold_number(struct endpoint *ep, uint32_t *trb, unsigned int trbs)
{
	unsigned int number = ep->next_number++ % NUMBERS;

	ep->ends[number] = ep->ring.count + trbs;
	trb[0] = number;
	trb[1] = trb[2] = 0;
	trb[3] = TYPE(EVENT_DATA_TRB) | IOC;
}

/* How many TRBs stand before the one that holds a number; -1 where none does */
static int trbs_before_number(const struct endpoint *ep, uint64_t number)
{
	if (number >= NUMBERS || ep->ends[number] <= ep->done.count)
		return -1;
	return (int)(ep->ends[number] - ep->done.count) - 1;
}
#endif

/* ---- events ---- */

static struct endpoint *endpoint_of(struct controller *c, uint32_t control)
{
	unsigned int dci = control >> 16 & 31;

	if (!c->slot || control >> 24 != c->slot)
		return 0;
	if (dci == c->control.dci)
		return &c->control;
	return dci == c->bulk.dci ? &c->bulk : 0;
}

#ifdef BUG_LATE_EVENT
/* What was withdrawn is forgotten: an event of it is taken for that of the next transfer's last TRB */
static unsigned int last_of_next(const struct endpoint *ep, unsigned int before)
{
	unsigned int end = 0, i = 0;

	while (i + 1 < ep->count && (end += ep->transfers[i].trbs) <= before)
		i++;
	if (!ep->transfers[i].is_withdrawn || i + 1 == ep->count)
		return before;
	return end + ep->transfers[i + 1].trbs - 1;
}
#endif

/* A TRB is done: in a ring's order, so all before it are too */
static void trb_is_done(struct endpoint *ep, unsigned int before)
{
	unsigned int within;

#ifdef BUG_LATE_EVENT
	before = last_of_next(ep, before);
#endif
	within = pass(ep, before + 1);
#ifdef BUG_SHORT_IS_ALL
	if (within)
		retire(ep);
#else
	/* A Short Packet within a TD: the TRBs behind it are the controller's until the event of the last one */
	if (within)
		ep->transfers[0].is_begun = 1;
#endif
}

static void transfer_event(struct controller *c, uint64_t trb, unsigned int code, uint32_t control)
{
	struct endpoint *ep = endpoint_of(c, control);
	int before = ep ? trbs_before(ep, trb) : -1;

#ifdef EVENT_DATA
	if (ep && control & ED)
		before = trbs_before_number(ep, trb);
#endif
	if (before < 0)
		return;
	c->waits = 0;
	switch (code) {
	case SUCCESS:
	case SHORT_PACKET:
		trb_is_done(ep, (unsigned int)before);
		return;
	case STOPPED:
	case STOPPED_LENGTH_INVALID:
	case STOPPED_SHORT_PACKET:
		ep->is_at_oldest = 1;
		break;
	case TRB_ERROR:
		ep->state = EP_ERROR;
		break;
	case BABBLE_DETECTED:
	case USB_TRANSACTION_ERROR:
	case STALL:
	case SPLIT_TRANSACTION_ERROR:
		ep->state = EP_HALTED;
		break;
	}
	/* What it names isn't done, but all that stands before it */
	pass(ep, (unsigned int)before);
}

static void command_completion(struct controller *c, uint64_t trb, unsigned int code, uint32_t control)
{
	if (trb != c->command)
		return;
	c->waits = 0;
	c->code = code;
	c->code_slot = control >> 24;
}

static void handle_event(struct controller *c, const uint32_t event[4])
{
	uint64_t trb = event[0] | (uint64_t)event[1] << 32;

	switch (event[3] >> 10 & 63) {
	case TRANSFER_EVENT:
		transfer_event(c, trb, event[2] >> 24, event[3]);
		break;
	case COMMAND_COMPLETION:
		command_completion(c, trb, event[2] >> 24, event[3]);
		break;
	default: /* Port Status Change and others: of no ring */
		break;
	}
}

/* The Cycle bit tells that an event is there. Words 0 to 2 are read behind it: where loads may pass one another, behind a barrier */
static int read_event(struct controller *c, uint32_t event[4])
{
	uint64_t bus = next_trb(&c->events);
#ifdef BUG_MIXED_UP
	struct xt_state *trace = controllers[0].trace;
#else
	struct xt_state *trace = c->trace;
#endif
	int i;

	event[3] = le32(c->hc->memory.word[bus / 4 + 3]);
	if ((event[3] & CYCLE) != c->events.cycle)
		return 0;
	for (i = 0; i < 3; i++)
		event[i] = le32(c->hc->memory.word[bus / 4 + i]);
	xt_event(trace, event[0], event[1], event[2], event[3]);
	if (++c->events.index == c->events.trbs[0]) {
		c->events.index = 0;
		c->events.cycle ^= CYCLE;
	}
	return 1;
}

/* The places of all events that were read are the controller's again. ERDP is written by halves, as a CPU of 32 bits does */
static void write_erdp(struct controller *c)
{
	uint32_t dequeue = (uint32_t)next_trb(&c->events) | 8;

#ifdef BUG_ERDP_TOO_FAR
	dequeue = (uint32_t)(c->events.base[0] + 16 * ((c->events.index + 1) % c->events.trbs[0])) | 8;
#endif
#ifndef BUG_ERDP_NEVER
	xt_reg_half(c->trace, "erdp", 0, dequeue, hc_write_half(c->hc, HC_ERDP, 0, dequeue));
	xt_reg_half(c->trace, "erdp", 1, 0, hc_write_half(c->hc, HC_ERDP, 1, 0));
#else
	(void)dequeue;
#endif
}

/* Reads and handles all events that are there */
static void read_events(struct controller *c)
{
	uint32_t event[4];
	int any = 0;

	while (read_event(c, event)) {
		handle_event(c, event);
		any = 1;
	}
	if (any)
		write_erdp(c);
}

static void look_for_events(struct controller *c)
{
	xb_poll(c->trace);
	read_events(c);
}

static void hang(const char *what)
{
	int i;

	fprintf(stderr, "toy_driver: it waits for the end of %s, and no event comes\n", what);
	for (i = 0; i < XT_CONTROLLERS && controllers[i].trace; i++)
		xt_close(controllers[i].trace);
	exit(3);
}

/* Waits for an interrupt, and handles the events that have come */
static void wait_for_events(struct controller *c, const char *what)
{
	if (!xb_wait(c->trace) || ++c->waits > WAITS)
		hang(what);
	read_events(c);
}

/* ---- commands: 0, or -1 where one has failed in all attempts ---- */

static void ring_doorbell(struct controller *c, unsigned int slot, unsigned int target)
{
	xt_doorbell(c->trace, slot, target, hc_doorbell(c->hc, slot, target));
}

/* Gives a command once and waits for its completion: the code */
static unsigned int try_command(struct controller *c, uint64_t pointer, uint32_t control)
{
	uint32_t trb[1][4] = { { (uint32_t)pointer, (uint32_t)(pointer >> 32), 0, control } };

	c->command = next_trb(&c->commands);
	c->code = 0;
	queue_td(c, &c->commands, trb, 1, 0);
	ring_doorbell(c, 0, 0);
	while (!c->code)
		wait_for_events(c, "a command");
	return c->code;
}

static int command(struct controller *c, uint64_t pointer, uint32_t control)
{
	int i;

	for (i = 0; i < ATTEMPTS; i++)
#ifdef BUG_FAILURE_IGNORED
		if (try_command(c, pointer, control))
#else
		if (try_command(c, pointer, control) == SUCCESS)
#endif
			return 0;
	return -1;
}

static int slot_command(struct controller *c, unsigned int type, uint64_t pointer)
{
	return command(c, pointer, TYPE(type) | (uint32_t)c->slot << 24);
}

static uint32_t endpoint_command(const struct controller *c, const struct endpoint *ep, unsigned int type)
{
	return TYPE(type) | (uint32_t)c->slot << 24 | (uint32_t)ep->dci << 16;
}

/* Stops the endpoint. It may have halted before: then the event that says so came before the completion, which is a failure */
static int stop_endpoint(struct controller *c, struct endpoint *ep)
{
	int i;

	for (i = 0; i < ATTEMPTS && ep->state == EP_RUNNING; i++)
		if (try_command(c, 0, endpoint_command(c, ep, STOP_ENDPOINT)) == SUCCESS)
			ep->state = EP_STOPPED;
	return ep->state == EP_RUNNING ? -1 : 0;
}

/* Moves an endpoint that doesn't run to a place where a transfer begins, or the next one will. What stands before that is given up */
static int move(struct controller *c, struct endpoint *ep, struct ring to)
{
	if (command(c, next_trb(&to) | to.cycle, endpoint_command(c, ep, SET_TR_DEQUEUE)))
		return -1;
	while (ep->count && ep->done.count < to.count)
		retire(ep);
	ep->state = EP_STOPPED;
	ep->is_at_oldest = 1;
	return 0;
}

/* Ends a halt, or the state Error: moves past the transfer with the TRB that led to it */
static int clear_error(struct controller *c, struct endpoint *ep)
{
	if (ep->state == EP_HALTED && command(c, 0, endpoint_command(c, ep, RESET_ENDPOINT)))
		return -1;
#ifdef BUG_NO_MOVE
	ep->state = EP_STOPPED;
	return 0;
#endif
	return move(c, ep, advanced(ep->done, ep->transfers[0].trbs));
}

/* ---- transfers ---- */

static int has_error(const struct endpoint *ep)
{
	return ep->state == EP_HALTED || ep->state == EP_ERROR;
}

static void ring_endpoint(struct controller *c, struct endpoint *ep)
{
	ep->state = EP_RUNNING;
	ep->is_at_oldest = 0;
	ring_doorbell(c, c->slot, ep->dci);
}

/* Goes on behind a transfer that has failed: a driver with callers tells them here */
static int recover(struct controller *c, struct endpoint *ep)
{
	if (clear_error(c, ep))
		return -1;
	if (ep->count)
		ring_endpoint(c, ep);
	return 0;
}

/* Waits until so many TRBs may be put on the ring of an endpoint that works */
static int wait_for_room(struct controller *c, struct endpoint *ep, unsigned int trbs)
{
	while (has_error(ep) || room(ep) < trbs) {
		if (!has_error(ep))
			wait_for_events(c, "a transfer");
		else if (recover(c, ep))
			return -1;
	}
	return 0;
}

static int wait_for_all(struct controller *c, struct endpoint *ep)
{
	while (has_error(ep) || is_busy(ep)) {
		if (!has_error(ep))
			wait_for_events(c, "a transfer");
		else if (recover(c, ep))
			return -1;
	}
	return 0;
}

/* GET_DESCRIPTOR: three TDs, one for each stage */
static int control_in(struct controller *c, uint32_t bytes)
{
	uint32_t setup[1][4] = { { 0x01000680, bytes << 16, 8, TYPE(SETUP_STAGE) | 3 << 16 | IMMEDIATE } };
	uint32_t data[1][4] = { { BUFFER, 0, bytes, TYPE(DATA_STAGE) | 1 << 16 | ISP } };
	uint32_t status[1][4] = { { 0, 0, 0, TYPE(STATUS_STAGE) | IOC } };

	if (wait_for_room(c, &c->control, 3))
		return -1;
	queue_td(c, &c->control.ring, setup, 1, 0);
	queue_td(c, &c->control.ring, data, 1, 0);
	queue_td(c, &c->control.ring, status, 1, 0);
	add_transfer(&c->control, 3);
	ring_endpoint(c, &c->control);
	return wait_for_all(c, &c->control);
}

/* A TD of so many TRBs of 512 bytes each */
static void queue_bulk_in(struct controller *c, unsigned int trbs)
{
	uint32_t td[4][4];
	unsigned int i;

	for (i = 0; i < trbs; i++) {
		td[i][0] = BUFFER + 512 * i;
		td[i][1] = 0;
		td[i][2] = 512;
		td[i][3] = TYPE(NORMAL) | (i + 1 < trbs ? CHAIN | ISP : IOC);
	}
#ifdef EVENT_DATA
	if (trbs > 1)
		hold_number(&c->bulk, td[trbs - 1], trbs);
#endif
	queue_td(c, &c->bulk.ring, td, trbs, 1);
	add_transfer(&c->bulk, trbs);
}

/* Puts it on the ring when there is room, and doesn't wait for its end */
static int bulk_in(struct controller *c, unsigned int trbs)
{
#ifdef BUG_WRITE_AFTER_DOORBELL
	uint64_t first;
#endif

	if (wait_for_room(c, &c->bulk, trbs))
		return -1;
#ifdef BUG_WRITE_AFTER_DOORBELL
	first = next_trb(&c->bulk.ring);
#endif
	queue_bulk_in(c, trbs);
	ring_endpoint(c, &c->bulk);
#ifdef BUG_WRITE_AFTER_DOORBELL
	store(c, first, BUFFER + 0x1000);
#endif
	look_for_events(c);
	return 0;
}

/* ---- transfers that are taken back ---- */

/* All that stands on the ring: stops the endpoint and moves it to where the next TD will begin */
static int cancel_all(struct controller *c, struct endpoint *ep)
{
	struct ring to;

	if (stop_endpoint(c, ep) || (has_error(ep) && clear_error(c, ep)))
		return -1;
	to = ep->ring;
#ifdef BUG_MOVE_TOO_FAR
	advance(&to);
#endif
	return move(c, ep, to);
}

/* The transfer that begins there; 0 where it is done */
static struct transfer *transfer_at(struct endpoint *ep, const struct ring *at)
{
	uint64_t position = ep->done.count;
	unsigned int i;

	for (i = 0; i < ep->count; position += ep->transfers[i++].trbs)
		if (position == at->count)
			return &ep->transfers[i];
	return 0;
}

/* The transfer becomes No Ops. The endpoint is stopped */
static void withdraw(struct controller *c, struct transfer *transfer, struct ring at)
{
#ifdef BUG_NOT_RESTORED
	unsigned int no_ops = 1;
#else
	unsigned int no_ops = transfer->trbs;
#endif

	xt_withdraw(c->trace, at.id, at.count);
	store_no_ops(c, at, no_ops);
	transfer->is_withdrawn = 1;
}

/*
 * Takes the transfer back that was put there, of an endpoint that has stopped or had an error. Where an event tells that it stands in this
 * transfer it is moved past it. Else it may have gone on anywhere, up to the end of what was handed over: a move might lead it back over
 * what it has done, and No Ops don't.
 */
static int take_back(struct controller *c, struct endpoint *ep, struct ring at, unsigned int trbs)
{
	struct transfer *transfer = transfer_at(ep, &at);

#ifdef BUG_FIRST_BY_GUESS
	return move(c, ep, advanced(at, trbs));
#endif
	if (!transfer || transfer->is_begun)
		return 0; /* it is done, or as good as done */
	if (ep->is_at_oldest && transfer == ep->transfers)
		return move(c, ep, advanced(at, trbs));
#if defined(EVENT_DATA) && !defined(BUG_NUMBER_WITHDRAWN)
	if (!ep->is_at_oldest)
		return 0; /* an event may still tell its number: it is left as it is */
#endif
	withdraw(c, transfer, at);
	return 0;
}

/* Takes a TD back that stands behind this many TRBs and before others, and lets the endpoint go on */
static int cancel_one(struct controller *c, struct endpoint *ep, unsigned int trbs_before_it)
{
	struct ring at;

	if (wait_for_room(c, ep, 5))
		return -1;
	if (trbs_before_it)
		queue_bulk_in(c, trbs_before_it);
	at = ep->ring;
	queue_bulk_in(c, 2);
	queue_bulk_in(c, 3 - trbs_before_it);
#ifndef BUG_WITHDRAWN_RUNNING
	if (stop_endpoint(c, ep) || (has_error(ep) && clear_error(c, ep)))
		return -1;
#endif
	if (take_back(c, ep, at, 2))
		return -1;
	if (ep->count)
		ring_endpoint(c, ep);
	return 0;
}

/* ---- set-up ---- */

static void write_register(struct controller *c, const char *name, enum hc_register reg, uint64_t value)
{
	xt_reg(c->trace, name, value, hc_write(c->hc, reg, value));
}

/* A driver of hardware resets the controller, waits until it is ready, and enables interrupts (USBCMD.INTE, IMAN.IE) too */
static int start(struct controller *c)
{
	make_ring(c, &c->commands, &new_command_ring, "cmd");
	make_ring(c, &c->events, &new_event_ring, "evt");
	store_pointer(c, ERST, c->events.base[0]);
	store(c, ERST + 8, c->events.trbs[0]);
	write_register(c, "config", HC_CONFIG, SLOTS);
	write_register(c, "dcbaap", HC_DCBAAP, DCBAA);
	write_register(c, "crcr", HC_CRCR, c->commands.base[0] | CYCLE);
	write_register(c, "erstsz", HC_ERSTSZ, 1);
	write_register(c, "erdp", HC_ERDP, c->events.base[0]);
	write_register(c, "erstba", HC_ERSTBA, ERST);
	write_register(c, "usbcmd", HC_USBCMD, 1);
	return 0;
}

/* An Input Context that drops and adds these endpoints, and has so many contexts */
static void begin_input_context(struct controller *c, uint32_t drop, uint32_t add, uint32_t entries)
{
	uint32_t slot_context[2];

	slot_context[0] = le32(entries << 27);
	slot_context[1] = le32(1 << 16);
	clear(c, INPUT_CONTEXT, INPUT_CONTEXT_WORDS);
	if (drop)
		store(c, INPUT_CONTEXT, drop);
	store(c, INPUT_CONTEXT + 4, add);
	copy(c, INPUT_CONTEXT + 32, slot_context, 2);
}

static void write_endpoint_context(struct controller *c, const struct endpoint *ep, unsigned int type, uint32_t packet)
{
	uint64_t context = INPUT_CONTEXT + 32 * (ep->dci + 1);

	store(c, context + 4, packet << 16 | type << 3 | 3 << 1);
	store_pointer(c, context + 8, ep->ring.base[0] | CYCLE);
	store(c, context + 16, 8);
}

static int address_device(struct controller *c)
{
	if (command(c, 0, TYPE(ENABLE_SLOT)))
		return -1;
	c->slot = c->code_slot;
	make_transfer_ring(c, &c->control, DCI_CONTROL, &new_control_ring);
	clear(c, DEVICE_CONTEXT, DEVICE_CONTEXT_WORDS);
	store_pointer(c, DCBAA + 8 * c->slot, DEVICE_CONTEXT);
	begin_input_context(c, 0, 1 << 0 | 1 << DCI_CONTROL, 1);
	write_endpoint_context(c, &c->control, 4, 64);
	if (slot_command(c, ADDRESS_DEVICE, INPUT_CONTEXT))
		return -1;
	c->control.state = EP_RUNNING;
	return 0;
}

static int configure_bulk(struct controller *c)
{
	make_transfer_ring(c, &c->bulk, DCI_BULK_IN, &new_bulk_ring);
	begin_input_context(c, 0, 1 << 0 | 1 << DCI_BULK_IN, 3);
	write_endpoint_context(c, &c->bulk, 6, 512);
	if (slot_command(c, CONFIGURE_ENDPOINT, INPUT_CONTEXT))
		return -1;
	c->bulk.state = EP_RUNNING;
	return 0;
}

/* The endpoint goes, and then its ring */
static int drop_bulk(struct controller *c)
{
	begin_input_context(c, 1 << DCI_BULK_IN, 1 << 0, 1);
#ifdef BUG_FREED_IN_USE
	free_transfer_ring(c, &c->bulk);
#endif
	if (slot_command(c, CONFIGURE_ENDPOINT, INPUT_CONTEXT))
		return -1;
	free_transfer_ring(c, &c->bulk);
	return 0;
}

/* ---- a device comes, works and goes: steps that do nothing where there is none ---- */

static int plug(struct controller *c)
{
	unsigned int i;

	if (c->is_over)
		return 0;
	if (address_device(c))
		return -1;
	for (i = 0; i < 3; i++)
		if (control_in(c, 18))
			return -1;
	if (configure_bulk(c))
		return -1;
	for (i = 0; i < 6; i++)
		if (bulk_in(c, 1 + i % 3))
			return -1;
	return wait_for_all(c, &c->bulk);
}

static int cancel(struct controller *c)
{
	unsigned int i;

	if (!c->slot)
		return 0;
	if (wait_for_room(c, &c->bulk, 2))
		return -1;
	queue_bulk_in(c, 2);
	if (cancel_all(c, &c->bulk) || bulk_in(c, 3))
		return -1;
	for (i = 0; i < 6; i++)
		if (cancel_one(c, &c->bulk, i % 2) || bulk_in(c, 3) || bulk_in(c, 2))
			return -1;
	return wait_for_all(c, &c->bulk);
}

/* TDs that fill the ring again and again */
static int configure_again(struct controller *c)
{
	unsigned int i;

	if (!c->slot)
		return 0;
	if (drop_bulk(c) || configure_bulk(c))
		return -1;
	for (i = 0; i < 8; i++)
		if (bulk_in(c, 2 + i % 2))
			return -1;
	return wait_for_all(c, &c->bulk);
}

static int unplug(struct controller *c)
{
	if (!c->slot)
		return 0;
	if (slot_command(c, DISABLE_SLOT, 0))
		return -1;
	store_pointer(c, DCBAA + 8 * c->slot, 0);
	free_transfer_ring(c, &c->bulk);
	free_transfer_ring(c, &c->control);
	c->slot = 0;
	return 0;
}

/* A step has failed: the device is given up. Where even that can't be, nothing is used again that the controller may have */
static void give_up(struct controller *c)
{
	if (!unplug(c))
		return;
	c->is_over = 1;
	c->slot = 0;
}

static int stop(struct controller *c)
{
	write_register(c, "usbcmd", HC_USBCMD, 0);
	return 0;
}

static void wait_for_halt(struct controller *c)
{
	uint32_t status;

	do {
		status = xb_usbsts(c->trace, hc_status(c->hc));
		xt_usbsts(c->trace, status);
	} while (!(status & 1));
}

/* The controller halts while TDs stand on a ring, and goes on where it was. No command may be unfinished then */
static int halt_and_go_on(struct controller *c)
{
	if (c->slot && (bulk_in(c, 2) || bulk_in(c, 3)))
		return -1;
	stop(c);
	wait_for_halt(c);
	write_register(c, "usbcmd", HC_USBCMD, 1);
	return c->slot ? wait_for_all(c, &c->bulk) : 0;
}

/* A ring goes, and its memory is cleared: what the controller has written there too */
static void take_ring(struct controller *c, const struct ring *ring)
{
	unsigned int i;

	xt_free(c->trace, ring->id);
	for (i = 0; i < ring->segments; i++)
		clear(c, ring->base[i], 4u * ring->trbs[i]);
}

/* The controller halts and is reset: all rings and contexts are the driver's, and the device is unknown */
static int reset(struct controller *c)
{
#ifndef BUG_RESET_RUNNING
	wait_for_halt(c);
#endif
	write_register(c, "usbcmd", HC_USBCMD, 2);
	take_ring(c, &c->commands);
	take_ring(c, &c->events);
	free_transfer_ring(c, &c->bulk);
	free_transfer_ring(c, &c->control);
	clear(c, DCBAA, 2 * (1 + SLOTS));
	c->slot = 0;
	c->is_over = 0;
	return 0;
}

/* ---- all controllers, step by step, so that their rows come in turns ---- */

static int (*const steps[])(struct controller *) = {
	start, plug, cancel, configure_again, halt_and_go_on, unplug, plug, stop, reset, start, plug, stop,
};

static int run(int count, char **paths)
{
	unsigned int step;
	int i;

	for (i = 0; i < count; i++) {
		controllers[i].trace = &xt_states[i];
		controllers[i].hc = &toys[i];
		if (xt_open(controllers[i].trace, paths[i], 32)) {
			perror(paths[i]);
			return 1;
		}
	}
	for (step = 0; step < sizeof(steps) / sizeof(steps[0]); step++)
		for (i = 0; i < count; i++)
			if (steps[step](&controllers[i]))
				give_up(&controllers[i]);
	for (i = 0; i < count; i++)
		if (xt_close(controllers[i].trace)) {
			perror(paths[i]);
			return 1;
		}
	return 0;
}

int main(int argc, char **argv)
{
#ifdef XHCI_BENCH
	(void)argc;
	return run(1, argv);
#else
	if (argc < 2 || argc > 1 + XT_CONTROLLERS) {
		fprintf(stderr, "usage: %s TRACE [TRACE]\n", argv[0]);
		return 2;
	}
	return run(argc - 1, argv + 1);
#endif
}
