/*
 * Two controllers: rings PATH PATH. Their traces go to these files, or, where BY_CALLS is defined, to texts that are printed there with
 * the number of calls. The first one makes its rings behind rows, one of them of as many segments as a ring may have.
 */
#include <stdint.h>
#include <stdio.h>
#include <string.h>

#define XT_CONTROLLERS 2
#define SEGMENTS 64
#ifdef BY_CALLS
static void put_text(long controller, const char *text);
#define XT_PRINT(text) put_text(xt - xt_states, text)
#endif
#define XHCI_TRACE_HERE
#include "xhci_trace.h"

#ifdef BY_CALLS
static char logs[XT_CONTROLLERS][1 << 16];
static unsigned int calls[XT_CONTROLLERS];

static void put_text(long controller, const char *text)
{
	strcat(logs[controller], text);
	calls[controller]++;
}

static int xt_open(struct xt_state *xt, const char *path, unsigned int context_bytes)
{
	(void)path;
	xt_begin(xt, context_bytes);
	return 0;
}

static int xt_close(struct xt_state *xt)
{
	printf("%s%u calls\n", logs[xt - xt_states], calls[xt - xt_states]);
	return 0;
}
#endif

int main(int argc, char **argv)
{
	static uint64_t bases[SEGMENTS];
	static uint16_t trbs[SEGMENTS];
	static const uint32_t td[4] = { 0, 0, 0, 0x2401 };
	struct xt_state *first = &xt_states[0], *second = &xt_states[1];
	volatile uint32_t word;
	int i;

	for (i = 0; i < SEGMENTS; i++) {
		bases[i] = 0x20000 + 0x1000 * (uint64_t)i;
		trbs[i] = 16;
	}
	if (argc != 3 || xt_open(first, argv[1], 32) || xt_open(second, argv[2], 64))
		return 1;
	xt_ring(second, 0, "cmd", 0x10000, 16);
	xt_reg(first, "dcbaap", 0x50000, word = 1);
	xt_ring(first, 2, "xfer", 0x30000, 4);
	xt_ring(first, 0, "cmd", 0x10000, 16);
	xt_store32(first, &word, 0x100f0, 0x10000);
	xt_ring_segments(first, 1, "evt", SEGMENTS, bases, trbs);
	for (i = 0; i < XT_CONTROLLERS; i++)
		xt_store32(&xt_states[i], &word, 0x60000, (uint32_t)i);
	xt_submit(second, 0, td, 1);
	xt_flush(second);
	xt_doorbell(first, 0, 0, word = 3);
	return word != 3 || xt_close(first) || xt_close(second);
}
