// SPDX-License-Identifier: MIT
/*
 * The toy controller: one slot, endpoints by their DCI. At a doorbell it executes all that was handed over on that ring, and posts the
 * events at once. It believes all that it reads: most bugs that the checker finds do nothing here. On the bench it has no part.
 */
#include "toy_controller.h"

#ifndef XHCI_BENCH

#include <string.h>

static uint32_t word_at(const struct toy *hc, uint64_t bus)
{
	return le32(hc->memory.word[bus / 4]);
}

static uint64_t event_ring(const struct toy *hc)
{
	return word_at(hc, hc->registers[HC_ERSTBA]) & ~63u;
}

static unsigned int event_ring_trbs(const struct toy *hc)
{
	return word_at(hc, hc->registers[HC_ERSTBA] + 8) & 0xffff;
}

static void post(struct toy *hc, uint64_t trb, uint32_t control)
{
	unsigned int trbs = event_ring_trbs(hc);
	uint64_t event = event_ring(hc) + 16 * (hc->posted % trbs);

	hc->memory.word[event / 4] = le32((uint32_t)trb);
	hc->memory.word[event / 4 + 1] = 0;
	hc->memory.word[event / 4 + 2] = le32(1u << 24); /* Success */
	hc->memory.word[event / 4 + 3] = le32(control | !(hc->posted / trbs % 2));
	hc->posted++;
}

static void bind(struct toy *hc, unsigned int dci, uint64_t pointer)
{
	hc->endpoints[dci].trb = pointer & ~15u;
	hc->endpoints[dci].cycle = pointer & 1;
}

/* Endpoints are dropped and added as the Input Control Context says */
static void bind_all(struct toy *hc, uint64_t input_context)
{
	unsigned int dci;

	for (dci = 1; dci < 32; dci++) {
		if (word_at(hc, input_context) >> dci & 1)
			bind(hc, dci, 0);
		if (word_at(hc, input_context + 4) >> dci & 1)
			bind(hc, dci, word_at(hc, input_context + 32 * (dci + 1) + 8));
	}
}

static void command(struct toy *hc, uint64_t trb, uint32_t control)
{
	uint32_t slot = control >> 24;
	uint32_t pointer = word_at(hc, trb);
	unsigned int dci;

	switch (control >> 10 & 63) {
	case 9: /* Enable Slot */
		slot = 1;
		break;
	case 10: /* Disable Slot */
		for (dci = 1; dci < 32; dci++)
			bind(hc, dci, 0);
		break;
	case 11: /* Address Device */
	case 12: /* Configure Endpoint */
		bind_all(hc, pointer);
		break;
	case 16: /* Set TR Dequeue Pointer */
		bind(hc, control >> 16 & 31, pointer);
		break;
	}
	post(hc, trb, slot << 24 | 33 << 10);
}

/* Executes what was handed over on a ring; DCI 0 stands for the Command Ring. It gives up where the ring goes on and on */
static void execute(struct toy *hc, struct dequeue *ring, unsigned int slot, unsigned int dci)
{
	uint32_t control, has_data;
	int left = 32;

	while (ring->trb && left-- && ((control = word_at(hc, ring->trb + 12)) & 1) == ring->cycle) {
		uint64_t trb = ring->trb;

		if ((control >> 10 & 63) == 6) { /* Link */
			ring->trb = word_at(hc, trb) & ~15u;
			ring->cycle ^= control >> 1 & 1;
			continue;
		}
		ring->trb += 16;
		has_data = (control >> 10 & 63) == 7; /* Event Data: the event tells its word 0 */
		if (dci == 0)
			command(hc, trb, control);
		else if (control & 0x20) /* Interrupt On Completion */
			post(hc, has_data ? word_at(hc, trb) : trb, slot << 24 | dci << 16 | 32 << 10 | has_data << 2);
	}
}

/* Run/Stop 0 stops the controller, HCRST resets it: it has no rings, and begins anew */
static void write_command(struct toy *hc, uint64_t value)
{
	unsigned int dci;

	hc->looks = 0;
	if (!(value & 2))
		return;
	for (dci = 0; dci < 32; dci++)
		bind(hc, dci, 0);
	memset(hc->registers, 0, sizeof(hc->registers));
	hc->posted = 0;
}

/* USBSTS: it takes a look until HCHalted is 1 behind Run/Stop 0 */
uint32_t hc_status(struct toy *hc)
{
	return hc->registers[HC_USBCMD] & 1 ? 0 : hc->looks++ > 0;
}

void hc_write(struct toy *hc, enum hc_register reg, uint64_t value)
{
	hc->registers[reg] = value;
	if (reg == HC_USBCMD)
		write_command(hc, value);
	if (reg == HC_CRCR) {
		hc->commands.trb = value & ~(uint64_t)63;
		hc->commands.cycle = value & 1;
	}
}

void hc_write_half(struct toy *hc, enum hc_register reg, unsigned int high, uint32_t value)
{
	unsigned int shift = 32 * high;

	hc_write(hc, reg, (hc->registers[reg] & ~((uint64_t)0xffffffff << shift)) | (uint64_t)value << shift);
}

void hc_doorbell(struct toy *hc, unsigned int slot, unsigned int target)
{
	if (!(hc->registers[HC_USBCMD] & 1))
		return;
	execute(hc, slot ? &hc->endpoints[target] : &hc->commands, slot, target);
}

#endif
