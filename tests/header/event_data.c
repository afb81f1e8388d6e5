/*
 * A driver to which events tell its own numbers of requests: event_data PATH. Data Stage and Status Stage of a control transfer each end with an
 * Event Data TRB that holds such a number, and so does a TD that is cancelled. The events that a controller posts for them are made up here.
 *
 *	BY_BLOCKS	TDs are told TRB by TRB
 *	BUG_FIRST	an Event Data TRB begins a TD			16 BadDescriptor
 *	BUG_UNKNOWN	an event tells a value that no TRB holds	21 ImpossibleEvent
 *	BUG_STOPPED	a Stopped event tells a value			23 NotInProfile
 *	BUG_WITHDRAWN	a TD is cancelled whose value may still be told	32 BadWithdraw
 */
#define XHCI_TRACE_HERE
#include "xhci_trace.h"

enum { NORMAL = 1 << 10, SETUP = 2 << 10, DATA = 3 << 10, STATUS = 4 << 10, EVENT_DATA = 7 << 10, CHAIN = 1 << 4, IOC = 1 << 5, IDT = 1 << 6 };

static uint32_t memory[0x30000];	/* at the bus address 0x10000 */
static unsigned int commands, events, blocks;

static void store(uint64_t bus, uint32_t value)
{
	xt_store32((volatile uint32_t *)&memory[(bus - 0x10000) / 4], bus, value);
}

/* A TD is told, and handed over, the first TRB last */
static void give(unsigned int ring, uint64_t bus, const uint32_t (*td)[4], unsigned int count)
{
	unsigned int i, word;

#ifndef BY_BLOCKS
	xt_submit(ring, td[0], count);
#endif
	for (i = count; i-- > 0;) {
#ifdef BY_BLOCKS
		if (i + 1 == count) {
			unsigned int told;

			for (told = 0; told < count; told++)
				xt_submit_block(ring, td[told][0], td[told][1], td[told][2], td[told][3]);
		}
#endif
		for (word = 0; word < 3; word++)
			store(bus + 16 * i + 4 * word, td[i][word]);
		store(bus + 16 * i + 12, td[i][3] | 1);
	}
}

static void command(uint32_t context, uint32_t control)
{
	const uint32_t td[1][4] = { { context, 0, 0, control } };
	volatile uint32_t doorbell;

	give(0, 0x10000 + 16 * commands, td, 1);
	xt_doorbell(0, 0, doorbell = 0);
	(void)doorbell;
}

static void read_event(uint32_t word0, uint32_t word1, uint32_t word2, uint32_t word3)
{
	volatile uint64_t erdp;

	xt_event(word0, word1, word2, word3 | 1);
	events++;
	xt_reg("erdp", 0x20000 + 16 * events, erdp = 0);
	(void)erdp;
}

static void completed(void)
{
	read_event(0x10000 + 16 * commands, 0, 1u << 24, 1u << 24 | 33 << 10);
	commands++;
}

static void transfer(const uint32_t (*td)[4], unsigned int count)
{
	volatile uint32_t doorbell;

	give(2, 0x30000 + 16 * blocks, td, count);
	blocks += count;
	xt_doorbell(1, 1, doorbell = 1);
	(void)doorbell;
}

/* A Transfer Event of the control endpoint with ED: words 0 and 1 are the value */
static void told(uint64_t value, uint32_t code, uint32_t bytes)
{
	read_event((uint32_t)value, (uint32_t)(value >> 32), code << 24 | bytes, 1u << 24 | 1 << 16 | 32 << 10 | 1 << 2);
}

static void start(void)
{
	static const struct {
		const char *name;
		uint64_t value;
	} set_up[] = { { "erstsz", 1 },       { "erstba", 0x40000 }, { "erdp", 0x20000 }, { "crcr", 0x10001 },
		       { "dcbaap", 0x50000 }, { "config", 8 },       { "usbcmd", 1 } };
	volatile uint64_t reg;
	unsigned int i;

	xt_ring(0, "cmd", 0x10000, 16);
	xt_ring(1, "evt", 0x20000, 64);
	xt_ring(2, "xfer", 0x30000, 64);
	store(0x40000, 0x20000);
	store(0x40008, 64);
	for (i = 0; i < sizeof set_up / sizeof set_up[0]; i++)
		xt_reg(set_up[i].name, set_up[i].value, reg = 0);
	(void)reg;
	command(0, 9 << 10);	/* Enable Slot */
	completed();
	store(0x50008, 0x70000);
	store(0x60004, 3);
	store(0x60044, 0x20);
	store(0x60048, 0x30001);
	command(0x60000, 1u << 24 | 11 << 10);	/* Address Device */
	completed();
}

int main(int argc, char **argv)
{
	static const uint64_t values[3] = { 0xffffa00100012340, 0xffffa00100012350, 0xffffa00100012360 };
#define HOLDS(value) { (uint32_t)(value), (uint32_t)((value) >> 32), 0, EVENT_DATA | IOC }
	const uint32_t setup_td[1][4] = { { 0x01000680, 0x00120000, 8, SETUP | IDT | 3 << 16 } };
	const uint32_t data_td[2][4] = { { 0x80000, 0, 18, DATA | CHAIN | 1 << 16 }, HOLDS(values[0]) };
	const uint32_t status_td[2][4] = { { 0, 0, 0, STATUS | CHAIN }, HOLDS(values[1]) };
#ifdef BUG_FIRST
	const uint32_t cut_td[3][4] = { { (uint32_t)values[2], (uint32_t)(values[2] >> 32), 0, EVENT_DATA | CHAIN }, { 0x80000, 0, 64, NORMAL | CHAIN },
					{ 0x80040, 0, 64, NORMAL } };
#else
	const uint32_t cut_td[3][4] = { { 0x80000, 0, 64, NORMAL | CHAIN }, { 0x80040, 0, 64, NORMAL | CHAIN }, HOLDS(values[2]) };
#endif
	unsigned int i;

	if (argc != 2 || xt_open(argv[1], 32))
		return 1;
	start();
	transfer(setup_td, 1);
	transfer(data_td, 2);
	transfer(status_td, 2);
	told(values[0], 13, 8);
#ifdef BUG_UNKNOWN
	told(values[1] + 1, 1, 0);
#endif
	told(values[1], 1, 0);

	/* The endpoint stops at the first TRB of a TD, which is cancelled: nothing tells its value */
	transfer(cut_td, 3);
	command(0, 1u << 24 | 1 << 16 | 15 << 10);	/* Stop Endpoint */
#if defined(BUG_STOPPED)
	told(values[2], 26, 64);
#elif !defined(BUG_WITHDRAWN)
	read_event(0x30000 + 16 * (blocks - 3), 0, 26u << 24 | 64, 1u << 24 | 1 << 16 | 32 << 10);
#endif
	completed();
	xt_withdraw(2, blocks - 3);
	for (i = blocks - 3; i < blocks; i++) {
		store(0x30000 + 16 * i, 0);
		store(0x30004 + 16 * i, 0);
		store(0x30008 + 16 * i, 0);
		store(0x3000c + 16 * i, 8 << 10 | 1);
	}
	transfer(setup_td, 1);
	return xt_close();
}
