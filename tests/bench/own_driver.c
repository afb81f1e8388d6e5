/*
 * A driver that is the bench's alone, and not the toy driver's: contexts of 64 bytes, memory above 4 GB, an Event Ring of two segments, bulk
 * OUT. It makes one transfer at a time on each endpoint; where anything fails that it doesn't want to understand it disables the slot.
 */
#include <stdint.h>
#include <stdio.h>
#include <stdlib.h>
#include <string.h>

#define BASE 0x140000000u
#define WORDS 0x10000u
static uint32_t memory[WORDS];
#define XHCI_TRACE_HERE
#define XB_WORD(bus) ((bus) - BASE < 4 * WORDS ? &memory[((bus) - BASE) / 4] : 0)
#include "xhci_bench.h"

enum { COMMANDS = 0x1000, CONTROL = 0x2000, BULK = 0x3000, EVENTS = 0x4000, MORE_EVENTS = 0x5000, TABLE = 0x6000, ARRAY = 0x7000, INPUT = 0x8000,
       DEVICE = 0x9000, DATA = 0x20000 };
enum { CONTROL_DCI = 1, BULK_DCI = 4, TRBS = 16, SUCCESS = 1, HALTED = 6, ERROR = 5 };

struct ring {
	unsigned int id, at;
	uint64_t base;
	uint32_t cycle;
};

static struct ring commands, control, bulk;
static unsigned int event, slot;
static uint32_t event_cycle = 1;
static struct { uint64_t trb; unsigned int code, slot; } waited;	/* an event that is waited for: the TRB that it names */

static void put(uint64_t bus, uint32_t value)
{
	xt_store32(&memory[(bus - BASE) / 4], bus, value);
}

static void put_long(uint64_t bus, uint64_t value)
{
	put(bus, (uint32_t)value);
	put(bus + 4, (uint32_t)(value >> 32));
}

static void zero(uint64_t bus, unsigned int words)
{
	xt_zero32(bus, words);
	memset(&memory[(bus - BASE) / 4], 0, 4 * words);
}

static void make(struct ring *ring, unsigned int id, const char *kind, uint64_t offset)
{
	ring->id = id;
	ring->at = 0;
	ring->base = BASE + offset;
	ring->cycle = 1;
	xt_ring(id, kind, ring->base, TRBS);
}

/* A TD of one TRB: where it lies */
static uint64_t queue(struct ring *ring, uint64_t pointer, uint32_t status, uint32_t control_word)
{
	uint64_t trb = ring->base + 16 * ring->at;
	uint32_t words[4] = { (uint32_t)pointer, (uint32_t)(pointer >> 32), status, control_word };

	xt_submit(ring->id, words, 1);
	put_long(trb, pointer);
	put(trb + 8, status);
	put(trb + 12, control_word | ring->cycle);
	if (++ring->at == TRBS - 1) {
		put_long(trb + 16, ring->base);
		put(trb + 28, 6 << 10 | 2 | ring->cycle);
		ring->at = 0;
		ring->cycle ^= 1;
	}
	return trb;
}

/* An event of the endpoint that isn't a success ends the wait too: all errors name the TRB that was taken last */
static void take_event(const uint32_t *words, unsigned int dci)
{
	unsigned int type = words[3] >> 10 & 63, code = words[2] >> 24;
	uint64_t trb = words[0] | (uint64_t)words[1] << 32;
	int is_failure = type == 32 && code != SUCCESS && code != 13 && (words[3] >> 16 & 31) == dci;

	if ((type != 32 && type != 33) || (trb != waited.trb && !is_failure) || (code >= 26 && code <= 28))
		return;
	waited.code = code;
	waited.slot = words[3] >> 24;
}

static void read_events(unsigned int dci)
{
	uint32_t words[4];
	int i, any = 0;

	for (;; any = 1) {
		uint64_t bus = BASE + (event < TRBS ? EVENTS + 16 * event : MORE_EVENTS + 16 * (event - TRBS));

		for (i = 3; i >= 0; i--)
			words[i] = xt_le32(memory[(bus - BASE) / 4 + (unsigned int)i]);
		if ((words[3] & 1) != event_cycle) {
			if (any)
				xt_reg("erdp", bus | 8, (void)0);
			return;
		}
		xt_event(words[0], words[1], words[2], words[3]);
		take_event(words, dci);
		event = (event + 1) % (2 * TRBS);
		event_cycle ^= event == 0;
	}
}

static unsigned int wait_for(uint64_t trb, unsigned int dci)
{
	int tries;

	waited.trb = trb;
	waited.code = 0;
	for (tries = 0; !waited.code && tries < 1000; tries++) {
		if (!xb_wait())
			break;
		read_events(dci);
	}
	if (!waited.code) {
		fprintf(stderr, "own_driver: no event for %llx\n", (unsigned long long)trb);
		exit(3);
	}
	return waited.code;
}

static unsigned int command(uint64_t pointer, uint32_t control_word)
{
	uint64_t trb = queue(&commands, pointer, 0, control_word);

	xt_doorbell(0, 0, (void)0);
	return wait_for(trb, 0);
}

/* 0 where it has succeeded at last, of four tries */
static int insist(uint64_t pointer, unsigned int type, unsigned int dci)
{
	int tries;

	for (tries = 0; tries < 4; tries++)
		if (command(pointer, type << 10 | dci << 16 | slot << 24) == SUCCESS)
			return 0;
	return -1;
}

/* Waits for a transfer's end; an endpoint that halted or had an error is moved to where its next TD begins */
static int end_of(struct ring *ring, unsigned int dci, uint64_t trb)
{
	unsigned int code;

	xt_doorbell(slot, dci, (void)0);
	code = wait_for(trb, dci);
	if (code == SUCCESS || code == 13)
		return 0;
	if (code != ERROR && insist(0, 14, dci))
		return -1;
	return insist((ring->base + 16 * ring->at) | ring->cycle, 16, dci);
}

static void add_endpoint(unsigned int dci, unsigned int type, const struct ring *ring)
{
	uint64_t context = BASE + INPUT + 64 * (dci + 1);

	zero(BASE + INPUT, 33 * 16);
	put(BASE + INPUT + 4, 1u | 1u << dci);
	put(BASE + INPUT + 64, dci << 27);
	put(context + 4, 512u << 16 | type << 3 | 3 << 1);
	put_long(context + 8, ring->base | 1);
}

static int use_device(void)
{
	unsigned int i;

	add_endpoint(CONTROL_DCI, 4, &control);
	put_long(BASE + ARRAY + 8 * slot, BASE + DEVICE);
	if (insist(BASE + INPUT, 11, 0))
		return -1;
	queue(&control, 0x0000000100000900u, 8, 2 << 10 | 0x40);
	if (end_of(&control, CONTROL_DCI, queue(&control, 0, 0, 4 << 10 | 0x20 | 1 << 16)))
		return -1;
	add_endpoint(BULK_DCI, 2, &bulk);
	if (insist(BASE + INPUT, 12, 0))
		return -1;
	for (i = 0; i < 40; i++)
		if (end_of(&bulk, BULK_DCI, queue(&bulk, BASE + DATA + 512 * i, 512, 1 << 10 | 0x20)))
			return -1;
	return 0;
}

static void start(void)
{
	static const uint64_t bases[2] = { BASE + EVENTS, BASE + MORE_EVENTS };
	static const uint16_t trbs[2] = { TRBS, TRBS };
	unsigned int i;

	xt_open("", 64);
	make(&commands, 0, "cmd", COMMANDS);
	xt_ring_segments(1, "evt", 2, bases, trbs);
	make(&control, 2, "xfer", CONTROL);
	make(&bulk, 3, "xfer", BULK);
	for (i = 0; i < 2; i++) {
		put_long(BASE + TABLE + 16 * i, bases[i]);
		put(BASE + TABLE + 16 * i + 8, TRBS);
	}
	xt_reg("config", 1, (void)0);
	xt_reg("dcbaap", BASE + ARRAY, (void)0);
	xt_reg("crcr", commands.base | 1, (void)0);
	xt_reg("erstsz", 2, (void)0);
	xt_reg("erdp", bases[0], (void)0);
	xt_reg("erstba", BASE + TABLE, (void)0);
	xt_reg("usbcmd", 1, (void)0);
}

int main(void)
{
	start();
	if (command(0, 23 << 10) == SUCCESS && !insist(0, 9, 0)) {
		slot = waited.slot;
		use_device();
		insist(0, 10, 0);
	}
	xt_reg("usbcmd", 0, (void)0);
	return xt_close() ? 1 : 0;
}
