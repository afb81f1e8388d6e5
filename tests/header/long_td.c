/* A TD of TRBS TRBs on each of two rings, told at once and TRB by TRB: long_td PATH */
#define XHCI_TRACE_HERE
#include "xhci_trace.h"

#define PLACES 4095	/* of a segment, beside its Link TRB */

static uint32_t td[TRBS][4];
static volatile uint32_t memory;

static uint64_t segment(unsigned int ring, unsigned int number)
{
	return (uint64_t)ring << 20 | number << 16;
}

static void store(uint64_t trb, unsigned int word, uint32_t value)
{
	xt_store32(&memory, trb + 4 * word, value);
}

/* The control word of a TRB of the TD, and the Link TRB before it, where there is one */
static void store_control(unsigned int ring, unsigned int i, uint32_t value)
{
	if (i == PLACES) {
		store(segment(ring, 0) + 16 * PLACES, 0, (uint32_t)segment(ring, 1));
		store(segment(ring, 0) + 16 * PLACES, 3, 0x1811);
	}
	store(segment(ring, i / PLACES) + 16 * (uint64_t)(i % PLACES), 3, value);
}

int main(int argc, char **argv)
{
	const uint16_t trbs[2] = { PLACES + 1, PLACES + 1 };
	uint64_t bases[2];
	unsigned int ring, i;

	if (argc != 2 || xt_open(argv[1], 32))
		return 1;
	for (i = 0; i < TRBS; i++)
		td[i][3] = i + 1 < TRBS ? 0x411 : 0x421;
	for (ring = 2; ring < 4; ring++) {
		bases[0] = segment(ring, 0);
		bases[1] = segment(ring, 1);
		xt_ring_segments(ring, "xfer", 2, bases, trbs);
	}
	xt_submit(2, td[0], TRBS);
	for (i = TRBS; i-- > 0;)
		store_control(2, i, td[i][3]);
	for (i = 0; i < TRBS; i++) {
		xt_submit_block(3, td[i][0], td[i][1], td[i][2], td[i][3]);
		store_control(3, i, td[i][3] ^ (i == 0));
	}
	store_control(3, 0, td[0][3]);
	return xt_close();
}
