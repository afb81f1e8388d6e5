/* SPDX-License-Identifier: MIT */
/*
 * xhci_trace.h - with these hooks an xHCI driver writes its own trace for xhcitrace. C99 or C++11, no library, no allocation.
 *
 *	#define XHCI_TRACE		without it each hook is the store alone
 *	#define XHCI_TRACE_HERE		in exactly one file of the driver: the header's state stands there
 *	#include "xhci_trace.h"
 *
 *	xt_open(path, 32)		before the controller's reset; contexts of 32 or 64 bytes
 *	xt_ring(..)			when a ring is made, behind the rows that clear its memory, before a register names it
 *	xt_free(..)			when a ring goes: behind the completion with which its endpoint let it go, or behind HCRST
 *	xt_submit(..)			before the first store for a TD: the TRBs that it is to have
 *	xt_submit_block(..)		or so, TRB by TRB, each before its own stores
 *	xt_withdraw(..)			before the first store that makes a No Op of a TD's TRB
 *	xt_store32(..), xt_store64(..)	in place of each store to a ring, a context, the DCBAA or the ERST
 *	xt_zero32(..), xt_copy32(..)	directly before a memset to 0 or a memcpy of such memory
 *	xt_reg(..), xt_reg_half(..)	in place of each store to a register
 *	xt_doorbell(..)			in place of each store to a doorbell
 *	xt_event(..)			when an event was read, before the driver acts on it
 *	xt_usbsts(..)			when USBSTS was read
 *	xt_close()			at the end
 *
 * Order: a row is made directly before its store, both under one lock; the row of an event, or of USBSTS, is made after that was read.
 * So no effect of a store has a row before the store's own, and rows stand in the order of the stores. The lock is held while the
 * store is made: no hook may be called within one. Barriers stay where they are in the driver: the rows are the order of the program,
 * and whether the controller sees it so is up to them.
 *
 * Addresses are bus addresses, values are in the CPU's byte order; xHCI's is little-endian, and on a big-endian CPU the bytes are
 * swapped here. Memory counts as 0 until a row writes it: clear it before xt_open, or tell it by a hook. Memory that is used again is
 * cleared again, and told so. The controller writes event rings: no hook stores there while they are there.
 *
 * Runs: a trace goes on behind the row that stops the controller. USBSTS is told as often as it is read; a row is made where it says
 * something: HCHalted 1 for the first time behind Run/Stop 0, RSS 0 behind CRS, and SRE 0 besides, HCHalted as it can't be.
 * Behind a halt that was read the driver starts the controller again, or resets it by HCRST: then all rings go (xt_free), and those of
 * the next run are made.
 *
 * When rows are out: they are gathered in a buffer, and all that were made are written to the file before a store to a doorbell or a
 * register, and when the buffer is full, at xt_flush() and at xt_close(). Where the driver dies those since then are missing.
 * xt_flush_unlocked(), in the handler of a signal or a panic, writes them too: it takes no lock, since the driver may have died within a
 * hook. Or each row is written before its store:
 *
 *	#define XT_AT_ONCE 1		0 where it isn't defined, with XT_PRINT 1
 *	#define XT_BUFFER 3072		the buffer's bytes, at least 128
 *
 * In a kernel or in firmware, where there is no stdio, two macros say how text goes out and what lock is held. xt_begin(32) then
 * stands for xt_open, and nothing for xt_close:
 *
 *	#define XT_PRINT(text)	serial_puts(text)	appends the text, less than XT_BUFFER bytes: whole lines, or a piece of a long one
 *	#define XT_LOCKED(...)	do { unsigned long flags; spin_lock_irqsave(&lock, flags); __VA_ARGS__; \
 *				     spin_unlock_irqrestore(&lock, flags); } while (0)
 *
 * Several controllers, each with its own trace: each hook has a pointer to the controller's state as one argument more, the first one,
 * &xt_states[0] and so on: xt_store32(&xt_states[1], word, bus, value). XT_PRINT may use it by the name xt.
 *
 *	#define XT_CONTROLLERS 2
 *
 * A TD has at most 4,096 TRBs; one that comes by xt_submit_block as many as there is room for, alike in all files:
 *
 *	#define XT_TRBS 4096		256 where it isn't defined
 *
 * A state takes less than 4 KB. Each file that calls xt_submit_block has 240 bytes for each of the XT_TRBS besides, for each controller:
 * 61 KB for 256, 983 KB for 4,096.
 */
#ifndef XHCI_TRACE_H
#define XHCI_TRACE_H

#ifdef __KERNEL__
#include <linux/types.h>
#else
#include <stdint.h>
#endif

#ifndef XT_BIG_ENDIAN
#if defined(__BYTE_ORDER__) && defined(__ORDER_BIG_ENDIAN__) && __BYTE_ORDER__ == __ORDER_BIG_ENDIAN__
#define XT_BIG_ENDIAN 1
#else
#define XT_BIG_ENDIAN 0
#endif
#endif

#ifndef XT_CONTROLLERS
#define XT_CONTROLLERS 1
#endif

/* The first parameter of a hook, and what it is in it */
#if XT_CONTROLLERS > 1
#define XT_FIRST struct xt_state *xt,
#define XT_ALONE struct xt_state *xt
#define XT_SELF xt
#define XT_UNUSED (void)xt
#else
#define XT_FIRST
#define XT_ALONE void
#define XT_SELF (&xt_state)
#define XT_UNUSED (void)0
#endif

static inline uint32_t xt_le32(uint32_t value)
{
	if (!XT_BIG_ENDIAN)
		return value;
	return value << 24 | (value & 0xff00) << 8 | (value >> 8 & 0xff00) | value >> 24;
}

static inline uint64_t xt_le64(uint64_t value)
{
	if (!XT_BIG_ENDIAN)
		return value;
	return (uint64_t)xt_le32((uint32_t)value) << 32 | xt_le32((uint32_t)(value >> 32));
}

#ifdef XHCI_TRACE

#ifndef XT_PRINT
#include <stdio.h>
#define XT_STDIO 1
#else
#define XT_STDIO 0
#endif

#ifndef XT_AT_ONCE
#define XT_AT_ONCE !XT_STDIO
#endif

#ifdef XT_LOCKED
#define XT_LOCKED_BY(xt, ...) XT_LOCKED(__VA_ARGS__)
#else
#define XT_LOCKED_BY(xt, ...) \
	do { \
		while (__atomic_test_and_set(&(xt)->lock, __ATOMIC_ACQUIRE)) \
			; \
		__VA_ARGS__; \
		__atomic_clear(&(xt)->lock, __ATOMIC_RELEASE); \
	} while (0)
#endif

#ifndef XT_BUFFER
#define XT_BUFFER 3072
#endif
#if XT_BUFFER < 128
#error "XT_BUFFER is too small"
#endif

#ifndef XT_TRBS
#define XT_TRBS 256
#endif
#if XT_TRBS < 1 || XT_TRBS > 4096
#error "XT_TRBS is 1 to 4096"
#endif

/* How many bytes of rows are held back while a TD comes block by block: 4 rows of 28 bytes for each TRB, and as much again */
#ifndef XT_HOLD
#define XT_HOLD (224 * XT_TRBS)
#endif

#define XT_PIECE 48	/* bytes that are put at once, at most: a row, or the four words of a TRB */

/* A TD that comes block by block, and the rows behind its sub row */
struct xt_hold {
	unsigned int ring;
	unsigned int trbs;	/* how many TRBs of it have come */
	const char *lost;	/* why its rows can't be told */
	unsigned int bytes;
	uint32_t td[XT_TRBS][4];
	char rows[XT_HOLD + 2 * XT_PIECE];
};

/* The halves of a 64-bit register: the one that was written and waits for the other */
struct xt_wide {
	uint32_t half[2];
	unsigned char waits;	/* 0: none, 1: the low half, 2: the high half */
};

struct xt_state {
	unsigned char lock;
	unsigned char on;	/* a trace has begun and not ended */
	unsigned char started;	/* Run/Stop was set, and no HCRST was written since */
	unsigned char halting;	/* Run/Stop was cleared, and not set since */
	unsigned char halted;	/* .. and HCHalted was read as 1 */
	unsigned short awaited;	/* .. and CRS was set: of RSS and SRE what wasn't read as 0 since */
	unsigned char refuted;	/* HCHalted was read as it can't be */
	unsigned int bytes;	/* of the buffer */
	struct xt_hold *hold;	/* where rows are held back for a TD that isn't whole */
	struct xt_wide wide[4];
#if XT_STDIO
	FILE *file;
	int failed;
#endif
	char buffer[XT_BUFFER];
};

#if XT_CONTROLLERS > 1
extern struct xt_state xt_states[XT_CONTROLLERS];
#else
extern struct xt_state xt_state;
#endif
#ifdef XHCI_TRACE_HERE
#if XT_CONTROLLERS > 1
struct xt_state xt_states[XT_CONTROLLERS];
#else
struct xt_state xt_state;
#endif
#endif

/* ---- text; all that follows up to the hooks is called under the lock ---- */

static inline char *xt_word(char *end, const char *word)
{
	while (*word)
		*end++ = *word++;
	return end;
}

static inline char *xt_hex(char *end, uint64_t value, int digits)
{
	int i;

	for (i = digits - 1; i >= 0; i--, value >>= 4)
		end[i] = "0123456789abcdef"[value & 15];
	return end + digits;
}

/* Writes what was gathered */
static inline void xt_give_out(struct xt_state *xt)
{
	if (!xt->bytes)
		return;
	xt->buffer[xt->bytes] = 0;
#if XT_STDIO
	if (fwrite(xt->buffer, 1, xt->bytes, xt->file) != xt->bytes)
		xt->failed = 1;
#else
	XT_PRINT(xt->buffer);
#endif
	xt->bytes = 0;
}

/* Where the next XT_PIECE bytes may be put: with those that are held back, while there are such */
static inline char *xt_piece(struct xt_state *xt)
{
	if (xt->hold) {
		if (xt->hold->bytes > XT_HOLD)
			xt->hold->lost = "XT_HOLD is too small";
		return xt->hold->rows + xt->hold->bytes;
	}
	if (xt->bytes >= XT_BUFFER - XT_PIECE)
		xt_give_out(xt);
	return xt->buffer + xt->bytes;
}

static inline void xt_put(struct xt_state *xt, const char *end)
{
	if (!xt->hold)
		xt->bytes = (unsigned int)(end - xt->buffer);
	else if (xt->hold->bytes <= XT_HOLD)
		xt->hold->bytes = (unsigned int)(end - xt->hold->rows);
}

static inline void xt_text(struct xt_state *xt, const char *text, unsigned int bytes)
{
	char *end = xt_piece(xt);
	unsigned int part = 0;

	for (; bytes; bytes--, part++) {
		if (part == XT_PIECE) {
			xt_put(xt, end);
			end = xt_piece(xt);
			part = 0;
		}
		*end++ = *text++;
	}
	xt_put(xt, end);
}

static inline void xt_row_is_whole(struct xt_state *xt)
{
	if (XT_AT_ONCE && !xt->hold)
		xt_give_out(xt);
}

static inline void xt_end_row(struct xt_state *xt, char *end)
{
	*end++ = '\n';
	xt_put(xt, end);
	xt_row_is_whole(xt);
}

/* A line that no trace has, so that the checker names it: rows were lost */
static inline void xt_complain(struct xt_state *xt, const char *why)
{
	unsigned int bytes = 0;

	while (why[bytes])
		bytes++;
	xt_text(xt, "xhci_trace.h: ", 14);
	xt_text(xt, why, bytes);
	xt_end_row(xt, xt_piece(xt));
}

/* ---- rows ---- */

static inline void xt_sub_row(struct xt_state *xt, unsigned int ring, const uint32_t *words, unsigned int trbs)
{
	char *end = xt_hex(xt_word(xt_piece(xt), "sub "), ring, 2);

	for (; trbs; trbs--, words += 4) {
		xt_put(xt, end);
		end = xt_hex(xt_word(xt_piece(xt), " "), words[0], 8);
		end = xt_hex(xt_word(end, " "), words[1], 8);
		end = xt_hex(xt_word(end, " "), words[2], 8);
		end = xt_hex(xt_word(end, " "), words[3] & ~(uint32_t)1, 8);
	}
	xt_end_row(xt, end);
}

static inline void xt_submit_row(struct xt_state *xt, unsigned int ring, const uint32_t *words, unsigned int trbs)
{
	if (xt->on)
		xt_sub_row(xt, ring, words, trbs);
}

static inline void xt_store_row(struct xt_state *xt, uint64_t bus, uint32_t value)
{
	char *end;

	if (!xt->on)
		return;
	end = xt_hex(xt_word(xt_piece(xt), "w "), bus, 16);
	xt_end_row(xt, xt_hex(xt_word(end, " "), value, 8));
}

static inline void xt_zero_rows(struct xt_state *xt, uint64_t bus, unsigned int words)
{
	for (; words; words--, bus += 4)
		xt_store_row(xt, bus, 0);
}

/* The bytes are those that the controller is to see */
static inline void xt_copy_rows(struct xt_state *xt, uint64_t bus, const unsigned char *bytes, unsigned int words)
{
	for (; words; words--, bus += 4, bytes += 4)
		xt_store_row(xt, bus, bytes[0] | (uint32_t)bytes[1] << 8 | (uint32_t)bytes[2] << 16 | (uint32_t)bytes[3] << 24);
}

static inline void xt_withdraw_row(struct xt_state *xt, unsigned int ring, uint64_t position)
{
	char *end;

	if (!xt->on)
		return;
	end = xt_hex(xt_word(xt_piece(xt), "nop "), ring, 2);
	xt_end_row(xt, xt_hex(xt_word(end, " "), position, 16));
}

static inline void xt_free_row(struct xt_state *xt, unsigned int ring)
{
	if (xt->on)
		xt_end_row(xt, xt_hex(xt_word(xt_piece(xt), "free "), ring, 2));
}

static inline void xt_doorbell_row(struct xt_state *xt, unsigned int slot, unsigned int target)
{
	char *end;

	if (!xt->on)
		return;
	end = xt_hex(xt_word(xt_piece(xt), "db "), slot, 2);
	xt_end_row(xt, xt_hex(xt_word(end, " "), target, 2));
	xt_give_out(xt); /* before a store on which the controller acts */
}

static inline void xt_event_row(struct xt_state *xt, uint32_t word0, uint32_t word1, uint32_t word2, uint32_t word3)
{
	char *end;

	if (!xt->on)
		return;
	end = xt_hex(xt_word(xt_piece(xt), "ev "), word0, 8);
	end = xt_hex(xt_word(end, " "), word1, 8);
	end = xt_hex(xt_word(end, " "), word2, 8);
	xt_end_row(xt, xt_hex(xt_word(end, " "), word3, 8));
}

static inline int xt_is(const char *name, const char *other)
{
	while (*name && *name == *other) {
		name++;
		other++;
	}
	return *name == *other;
}

static inline void xt_named_row(struct xt_state *xt, const char *word, const char *name, uint64_t value)
{
	char *end = xt_word(xt_word(xt_word(xt_piece(xt), word), " "), name);

	xt_end_row(xt, xt_hex(xt_word(end, " "), value, 16));
}

/* What USBCMD makes of the run: Run/Stop is bit 0, HCRST bit 1, CSS bit 8, CRS bit 9 */
static inline void xt_follow(struct xt_state *xt, uint64_t value)
{
	if (value & 3) {
		xt->started = (value & 3) == 1;
		xt->halting = 0;
		xt->halted = 0;
		xt->awaited = 0;
	} else {
		xt->halting = xt->started;
		if (value & 0x300)
			xt->awaited = xt->halted && !(value & 0x100) ? 0x600 : 0;
	}
}

/* Whether a read of USBSTS says something: HCHalted is bit 0, RSS bit 9, SRE bit 10 */
static inline int xt_says(struct xt_state *xt, uint32_t value)
{
	int says;

	if (value & 1 ? xt->halting : xt->started && !xt->halted) {
		says = value & 1 && (!xt->halted || (!(value & xt->awaited & 0x200) && (value & xt->awaited) != xt->awaited));
		if (says)
			xt->awaited &= (unsigned short)value;
		xt->halted |= value & 1;
		return says;
	}
	says = value & 1 ? xt->started && !xt->refuted : !xt->refuted;
	xt->refuted |= (unsigned char)says;
	return says;
}

static inline void xt_status_row(struct xt_state *xt, uint32_t value)
{
	if (xt->on && xt_says(xt, value))
		xt_named_row(xt, "rd", "usbsts", value);
}

static inline void xt_reg_row(struct xt_state *xt, const char *name, uint64_t value)
{
	if (!xt->on)
		return;
	xt_named_row(xt, "reg", name, value);
	if (xt_is(name, "usbcmd"))
		xt_follow(xt, value);
	xt_give_out(xt); /* before a store on which the controller acts */
}

static inline void xt_half_row(struct xt_state *xt, const char *name, unsigned int high, uint32_t value)
{
	static const char *const names[4] = { "crcr", "dcbaap", "erstba", "erdp" };
	struct xt_wide *wide;
	int i = 0;

	while (i < 3 && !xt_is(name, names[i]))
		i++;
	wide = &xt->wide[i];
	if (wide->waits == 1 + high)
		xt_complain(xt, "the same half of a register twice: a half that is written alone goes by xt_reg");
	wide->half[high] = value;
	if (wide->waits == 2 - high) {
		wide->waits = 0;
		xt_reg_row(xt, name, (uint64_t)wide->half[1] << 32 | wide->half[0]);
	} else {
		wide->waits = (unsigned char)(1 + high);
	}
}

/* The rows that were held back, behind the sub row of the TD that they write */
static inline void xt_let_go(struct xt_state *xt)
{
	struct xt_hold *hold = xt->hold;

	xt->hold = 0;
	if (hold->lost)
		xt_complain(xt, hold->lost);
	else
		xt_sub_row(xt, hold->ring, hold->td[0], hold->trbs);
	xt_text(xt, hold->rows, hold->bytes);
}

static inline void xt_hold_back(struct xt_state *xt, struct xt_hold *hold, unsigned int ring)
{
	xt->hold = hold;
	hold->ring = ring;
	hold->trbs = 0;
	hold->lost = 0;
	hold->bytes = 0;
}

static inline void xt_block_row(struct xt_state *xt, struct xt_hold *hold, unsigned int ring, const uint32_t *words)
{
	unsigned int i;

	if (!xt->on)
		return;
	if (!xt->hold)
		xt_hold_back(xt, hold, ring);
	hold = xt->hold;
	if (hold->ring != ring)
		hold->lost = "xt_submit_block of a ring while a TD of another one isn't whole";
	if (hold->trbs == XT_TRBS) {
		hold->lost = "XT_TRBS is too small";
		hold->trbs--;
	}
	for (i = 0; i < 4; i++)
		hold->td[hold->trbs][i] = words[i];
	hold->trbs++;
	if (!(words[3] & 0x10))
		xt_let_go(xt);
}

/* ---- rings ---- */

static inline void xt_ring_line(struct xt_state *xt, unsigned int id, const char *kind, unsigned int segments, const uint64_t *bases,
				const uint16_t *trbs)
{
	char *end = xt_hex(xt_word(xt_piece(xt), "ring "), id, 2);
	unsigned int i;

	end = xt_word(xt_word(end, " "), kind);
	for (i = 0; i < segments; i++) {
		xt_put(xt, end);
		end = xt_hex(xt_word(xt_piece(xt), " "), bases[i], 16);
		end = xt_hex(xt_word(end, ":"), trbs[i], 4);
	}
	*end++ = '\n';
	xt_put(xt, end);
}

/* A ring has its line where it is made */
static inline void xt_make_ring(struct xt_state *xt, unsigned int id, const char *kind, unsigned int segments, const uint64_t *bases,
				const uint16_t *trbs)
{
	if (!xt->on)
		return;
	xt_ring_line(xt, id, kind, segments, bases, trbs);
	xt_row_is_whole(xt);
}

static inline void xt_head(struct xt_state *xt, unsigned int context_bytes)
{
	unsigned int i;

	xt->on = 1;
	xt->started = 0;
	xt->halting = 0;
	xt->halted = 0;
	xt->refuted = 0;
	xt->bytes = 0;
	xt->hold = 0;
	for (i = 0; i < 4; i++)
		xt->wide[i].waits = 0;
	xt_text(xt, context_bytes == 64 ? "xtrace 4\nctx 40\n" : "xtrace 4\nctx 20\n", 16);
}

/* ---- the hooks ---- */

#if XT_STDIO
/* Begins a trace. 0, or -1 and errno */
static inline int xt_open(XT_FIRST const char *path, unsigned int context_bytes)
{
	struct xt_state *state = XT_SELF;

	state->file = fopen(path, "w");
	if (!state->file)
		return -1;
	setvbuf(state->file, 0, _IONBF, 0);
	state->failed = 0;
	XT_LOCKED_BY(state, xt_head(state, context_bytes));
	return 0;
}

/* Ends the trace. 0, or -1 where something could not be written */
static inline int xt_close(XT_ALONE)
{
	struct xt_state *state = XT_SELF;
	int failed;

	XT_LOCKED_BY(state, state->on = 0;
		     if (state->hold) { state->hold->lost = "the last TD isn't whole"; xt_let_go(state); } xt_give_out(state));
	failed = state->failed;
	failed |= fclose(state->file);
	state->file = 0;
	return failed ? -1 : 0;
}
#else
static inline void xt_begin(XT_FIRST unsigned int context_bytes)
{
	XT_LOCKED_BY(XT_SELF, xt_head(XT_SELF, context_bytes));
}
#endif

/* Writes what was gathered; what is held back for a TD that isn't whole stays */
static inline void xt_flush(XT_ALONE)
{
	XT_LOCKED_BY(XT_SELF, xt_give_out(XT_SELF));
}

/* The same where the driver has died, perhaps within a hook: no other may be called behind it */
static inline void xt_flush_unlocked(XT_ALONE)
{
	xt_give_out(XT_SELF);
}

/*
 * A ring of several segments, in their order; the Link TRB counts in trbs. kind: "cmd", "evt" or "xfer". id is yours to choose, once in a
 * trace: a ring that is made where another one went has its own. It comes behind the rows that clear its memory; the Command Ring and the
 * Event Ring before the registers that name them, while the controller isn't started, the Command Ring also where it is known to have halted.
 */
static inline void xt_ring_segments(XT_FIRST unsigned int id, const char *kind, unsigned int segments, const uint64_t *bases,
				    const uint16_t *trbs)
{
	XT_LOCKED_BY(XT_SELF, xt_make_ring(XT_SELF, id, kind, segments, bases, trbs));
}

/*
 * A ring goes: its memory is used for something else from now on. Of a Transfer Ring the driver has read that no endpoint has it; the Command
 * Ring and the Event Ring go behind HCRST, the Command Ring also where the controller is known to have halted and all commands have ended.
 */
static inline void xt_free(XT_FIRST unsigned int ring)
{
	XT_LOCKED_BY(XT_SELF, xt_free_row(XT_SELF, ring));
}

/*
 * What the TRBs of the next TD on this ring are to be, at most 4,096: four words each, Link TRBs left out, Event Data TRBs among them; the Cycle
 * bits don't matter. Each stage of a control transfer is a TD of its own, with the Event Data TRBs behind it, and so is each command. Take them
 * from what is wanted, not from what was stored.
 */
static inline void xt_submit(XT_FIRST unsigned int ring, const uint32_t *words, unsigned int trbs)
{
	XT_LOCKED_BY(XT_SELF, xt_submit_row(XT_SELF, ring, words, trbs));
}

/*
 * The same, TRB by TRB, of at most XT_TRBS, for a driver that never has the whole TD at hand: before each TRB's own stores. All rows are held
 * back until the TRB whose Chain bit is 0, and stand behind the sub row then. No other TD may be put on any ring meanwhile.
 */
static inline void xt_submit_block(XT_FIRST unsigned int ring, uint32_t word0, uint32_t word1, uint32_t word2, uint32_t word3)
{
	static struct xt_hold holds[XT_CONTROLLERS];
#if XT_CONTROLLERS > 1
	struct xt_hold *hold = &holds[xt - xt_states];
#else
	struct xt_hold *hold = holds;
#endif
	uint32_t words[4];

	words[0] = word0;
	words[1] = word1;
	words[2] = word2;
	words[3] = word3;
	XT_LOCKED_BY(XT_SELF, xt_block_row(XT_SELF, hold, ring, words));
}

/*
 * A TD is cancelled: its TRBs become No Ops. The endpoint is stopped, as the driver has read; position is the number of TRBs that were
 * submitted on the ring before the TD since the ring was made. Each TRB that was handed over is stored as a No Op before the endpoint goes on.
 */
static inline void xt_withdraw(XT_FIRST unsigned int ring, uint64_t position)
{
	XT_LOCKED_BY(XT_SELF, xt_withdraw_row(XT_SELF, ring, position));
}

static inline void xt_store32(XT_FIRST volatile uint32_t *word, uint64_t bus, uint32_t value)
{
	XT_LOCKED_BY(XT_SELF, xt_store_row(XT_SELF, bus, value); *word = xt_le32(value));
}

/* One store of 64 bits, two rows, the low word first: the controller may see the halves one after the other */
static inline void xt_store64(XT_FIRST volatile uint64_t *pair, uint64_t bus, uint64_t value)
{
	XT_LOCKED_BY(XT_SELF, xt_store_row(XT_SELF, bus, (uint32_t)value); xt_store_row(XT_SELF, bus + 4, (uint32_t)(value >> 32));
		     *pair = xt_le64(value));
}

/* The rows alone of a memset to 0, and of a memcpy from bytes, of so many words: that is the driver's own, directly behind */
static inline void xt_zero32(XT_FIRST uint64_t bus, unsigned int words)
{
	XT_LOCKED_BY(XT_SELF, xt_zero_rows(XT_SELF, bus, words));
}

static inline void xt_copy32(XT_FIRST uint64_t bus, const void *bytes, unsigned int words)
{
	XT_LOCKED_BY(XT_SELF, xt_copy_rows(XT_SELF, bus, (const unsigned char *)bytes, words));
}

/*
 * xt_reg(name, value, store): the driver's own store as the last argument, for example writel(value, &regs->usbcmd). Names: usbcmd, usbsts,
 * dnctrl, crcr, dcbaap, config; of interrupter 0: iman, imod, erstsz, erstba, erdp. Of all others no row is made: use the store alone.
 * xt_reg_half(name, high, value, store): a half of crcr, dcbaap, erstba or erdp, high 0 or 1. The two halves make one row, at the second.
 * xt_doorbell(slot, target, store): slot 0 and target 0 for the Command Ring, else the slot and the DCI.
 */
#define XT_REG(xt, name, value, ...) XT_LOCKED_BY(xt, xt_reg_row(xt, name, value); __VA_ARGS__)
#define XT_REG_HALF(xt, name, high, value, ...) XT_LOCKED_BY(xt, xt_half_row(xt, name, high, value); __VA_ARGS__)
#define XT_DOORBELL(xt, slot, target, ...) XT_LOCKED_BY(xt, xt_doorbell_row(xt, slot, target); __VA_ARGS__)
#define XT_ONE (&xt_state)

static inline void xt_event(XT_FIRST uint32_t word0, uint32_t word1, uint32_t word2, uint32_t word3)
{
	XT_LOCKED_BY(XT_SELF, xt_event_row(XT_SELF, word0, word1, word2, word3));
}

/* USBSTS was read: directly behind each read in which the driver waits for a halt, and wherever it likes */
static inline void xt_usbsts(XT_FIRST uint32_t value)
{
	XT_LOCKED_BY(XT_SELF, xt_status_row(XT_SELF, value));
}

#else /* no trace: the stores alone */

struct xt_state {
	char none;
};

#if XT_CONTROLLERS > 1
extern struct xt_state xt_states[XT_CONTROLLERS];
#ifdef XHCI_TRACE_HERE
struct xt_state xt_states[XT_CONTROLLERS];
#endif
#endif

static inline int xt_open(XT_FIRST const char *path, unsigned int context_bytes)
{
	XT_UNUSED, (void)path, (void)context_bytes;
	return 0;
}

static inline int xt_close(XT_ALONE)
{
	XT_UNUSED;
	return 0;
}

static inline void xt_begin(XT_FIRST unsigned int context_bytes)
{
	XT_UNUSED, (void)context_bytes;
}

static inline void xt_flush(XT_ALONE)
{
	XT_UNUSED;
}

static inline void xt_flush_unlocked(XT_ALONE)
{
	XT_UNUSED;
}

static inline void xt_ring_segments(XT_FIRST unsigned int id, const char *kind, unsigned int segments, const uint64_t *bases,
				    const uint16_t *trbs)
{
	XT_UNUSED, (void)id, (void)kind, (void)segments, (void)bases, (void)trbs;
}

static inline void xt_free(XT_FIRST unsigned int ring)
{
	XT_UNUSED, (void)ring;
}

static inline void xt_submit(XT_FIRST unsigned int ring, const uint32_t *words, unsigned int trbs)
{
	XT_UNUSED, (void)ring, (void)words, (void)trbs;
}

static inline void xt_submit_block(XT_FIRST unsigned int ring, uint32_t word0, uint32_t word1, uint32_t word2, uint32_t word3)
{
	XT_UNUSED, (void)ring, (void)word0, (void)word1, (void)word2, (void)word3;
}

static inline void xt_withdraw(XT_FIRST unsigned int ring, uint64_t position)
{
	XT_UNUSED, (void)ring, (void)position;
}

static inline void xt_store32(XT_FIRST volatile uint32_t *word, uint64_t bus, uint32_t value)
{
	XT_UNUSED, (void)bus;
	*word = xt_le32(value);
}

static inline void xt_store64(XT_FIRST volatile uint64_t *pair, uint64_t bus, uint64_t value)
{
	XT_UNUSED, (void)bus;
	*pair = xt_le64(value);
}

static inline void xt_zero32(XT_FIRST uint64_t bus, unsigned int words)
{
	XT_UNUSED, (void)bus, (void)words;
}

static inline void xt_copy32(XT_FIRST uint64_t bus, const void *bytes, unsigned int words)
{
	XT_UNUSED, (void)bus, (void)bytes, (void)words;
}

static inline void xt_event(XT_FIRST uint32_t word0, uint32_t word1, uint32_t word2, uint32_t word3)
{
	XT_UNUSED, (void)word0, (void)word1, (void)word2, (void)word3;
}

static inline void xt_usbsts(XT_FIRST uint32_t value)
{
	XT_UNUSED, (void)value;
}

#define XT_ONE 0
#define XT_REG(xt, name, value, ...) do { (void)(xt); (void)(name); (void)(value); __VA_ARGS__; } while (0)
#define XT_REG_HALF(xt, name, high, value, ...) do { (void)(xt); (void)(name); (void)(high); (void)(value); __VA_ARGS__; } while (0)
#define XT_DOORBELL(xt, slot, target, ...) do { (void)(xt); (void)(slot); (void)(target); __VA_ARGS__; } while (0)

#endif

/* A ring of one segment: trbs with its Link TRB; of an Event Ring at least 16. kind: "cmd", "evt" or "xfer" */
static inline void xt_ring(XT_FIRST unsigned int id, const char *kind, uint64_t base, uint16_t trbs)
{
#if XT_CONTROLLERS > 1
	xt_ring_segments(xt, id, kind, 1, &base, &trbs);
#else
	xt_ring_segments(id, kind, 1, &base, &trbs);
#endif
}

#if XT_CONTROLLERS > 1
#define xt_reg(xt, name, value, ...) XT_REG(xt, name, value, __VA_ARGS__)
#define xt_reg_half(xt, name, high, value, ...) XT_REG_HALF(xt, name, high, value, __VA_ARGS__)
#define xt_doorbell(xt, slot, target, ...) XT_DOORBELL(xt, slot, target, __VA_ARGS__)
#else
#define xt_reg(name, value, ...) XT_REG(XT_ONE, name, value, __VA_ARGS__)
#define xt_reg_half(name, high, value, ...) XT_REG_HALF(XT_ONE, name, high, value, __VA_ARGS__)
#define xt_doorbell(slot, target, ...) XT_DOORBELL(XT_ONE, slot, target, __VA_ARGS__)
#endif

#endif
