/* SPDX-License-Identifier: MIT */
/*
 * The hooks that toy_driver.c calls, written by hand with stdio for one thread: what xhci_trace.h does, and a start for hooks of your own.
 * All rows of a controller are kept in memory; a sub row that is known late is put in where its TD began.
 */
#ifndef OWN_HOOKS_H
#define OWN_HOOKS_H

#include <inttypes.h>
#include <stdio.h>
#include <string.h>

static struct xt_state {
	FILE *file;
	char rows[1 << 20];
	size_t length;
	size_t td;		/* where the rows of the TD begin that comes block by block */
	char sub[16384];	/* its sub row as far as it goes */
	size_t sub_length;
	int started, halting;	/* the controller; halting until that is read */
	uint32_t low;		/* of a register whose low half was written */
} xt_states[XT_CONTROLLERS];

#define row(xt, ...) \
	((xt)->length += (size_t)snprintf((xt)->rows + (xt)->length, sizeof((xt)->rows) - (xt)->length, __VA_ARGS__))

static int xt_open(struct xt_state *xt, const char *path, unsigned int context_bytes)
{
	xt->file = fopen(path, "w");
	if (!xt->file)
		return -1;
	row(xt, "xtrace 4\nctx %02x\n", context_bytes);
	return 0;
}

static int xt_close(struct xt_state *xt)
{
	fwrite(xt->rows, 1, xt->length, xt->file);
	return fclose(xt->file);
}

static void xt_ring_segments(struct xt_state *xt, unsigned int id, const char *kind, unsigned int segments, const uint64_t *bases,
			     const uint16_t *trbs)
{
	unsigned int i;

	row(xt, "ring %02x %s", id, kind);
	for (i = 0; i < segments; i++)
		row(xt, " %016" PRIx64 ":%04x", bases[i], trbs[i]);
	row(xt, "\n");
}

#define xt_free(xt, id) row(xt, "free %02x\n", id)
#define xt_withdraw(xt, id, position) row(xt, "nop %02x %016" PRIx64 "\n", id, position)

static void xt_submit(struct xt_state *xt, unsigned int ring, const uint32_t *words, unsigned int trbs)
{
	unsigned int i;

	row(xt, "sub %02x", ring);
	for (i = 0; i < trbs; i++, words += 4)
		row(xt, " %08x %08x %08x %08x", words[0], words[1], words[2], words[3] & ~1u);
	row(xt, "\n");
}

static void xt_submit_block(struct xt_state *xt, unsigned int ring, uint32_t word0, uint32_t word1, uint32_t word2, uint32_t word3)
{
	if (!xt->sub_length) {
		xt->td = xt->length;
		xt->sub_length = (size_t)sprintf(xt->sub, "sub %02x", ring);
	}
	xt->sub_length += (size_t)sprintf(xt->sub + xt->sub_length, " %08x %08x %08x %08x", word0, word1, word2, word3 & ~1u);
	if (word3 & 0x10)
		return;
	xt->sub[xt->sub_length++] = '\n';
	memmove(xt->rows + xt->td + xt->sub_length, xt->rows + xt->td, xt->length - xt->td);
	memcpy(xt->rows + xt->td, xt->sub, xt->sub_length);
	xt->length += xt->sub_length;
	xt->sub_length = 0;
}

static void xt_store32(struct xt_state *xt, volatile uint32_t *word, uint64_t bus, uint32_t value)
{
	row(xt, "w %016" PRIx64 " %08x\n", bus, value);
	*word = le32(value);
}

static void xt_store64(struct xt_state *xt, volatile uint64_t *pair, uint64_t bus, uint64_t value)
{
	volatile uint32_t *word = (volatile uint32_t *)pair;

	xt_store32(xt, word, bus, (uint32_t)value);
	xt_store32(xt, word + 1, bus + 4, (uint32_t)(value >> 32));
}

/* The memset or memcpy itself is the driver's, behind these rows */
static void xt_zero32(struct xt_state *xt, uint64_t bus, unsigned int words)
{
	for (; words; words--, bus += 4)
		row(xt, "w %016" PRIx64 " %08x\n", bus, 0u);
}

static void xt_copy32(struct xt_state *xt, uint64_t bus, const void *bytes, unsigned int words)
{
	uint32_t word;
	unsigned int i;

	for (i = 0; i < words; i++) {
		memcpy(&word, (const char *)bytes + 4 * i, 4);
		row(xt, "w %016" PRIx64 " %08x\n", bus + 4 * i, le32(word));
	}
}

static void register_row(struct xt_state *xt, const char *name, uint64_t value)
{
	row(xt, "reg %s %016" PRIx64 "\n", name, value);
	if (!strcmp(name, "usbcmd")) {
		xt->halting = xt->started && !(value & 3);
		xt->started = (value & 1) || xt->halting;
	}
}

/* USBSTS: a row where the driver reads that the controller has halted */
static void xt_usbsts(struct xt_state *xt, uint32_t value)
{
	if (xt->halting && (value & 1))
		row(xt, "rd usbsts %016" PRIx64 "\n", (uint64_t)value);
	xt->halting &= !(value & 1);
}

static void half_row(struct xt_state *xt, const char *name, unsigned int high, uint32_t value)
{
	if (high)
		register_row(xt, name, (uint64_t)value << 32 | xt->low);
	else
		xt->low = value;
}

#define xt_reg(xt, name, value, store) do { register_row(xt, name, value); store; } while (0)
#define xt_reg_half(xt, name, high, value, store) do { half_row(xt, name, high, value); store; } while (0)
#define xt_doorbell(xt, slot, target, store) do { row(xt, "db %02x %02x\n", slot, target); store; } while (0)
#define xb_poll(xt) ((void)(xt))
#define xb_wait(xt) 1
#define xb_usbsts(xt, read) (read)
#define xt_event(xt, word0, word1, word2, word3) row(xt, "ev %08x %08x %08x %08x\n", word0, word1, word2, word3)

#endif
