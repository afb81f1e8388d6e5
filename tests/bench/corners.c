/* The calls of xhci_bench.h before the start, where nothing comes, and where the run is over. What they answer goes to standard error */
#include <stdint.h>
#include <stdio.h>
#include <string.h>

void over(const char *line);
static uint32_t memory[1 << 18];

#define XHCI_TRACE_HERE
#define XB_WORD(bus) ((bus) < sizeof(memory) ? &memory[(bus) / 4] : 0)
#define XB_OVER(line) over(line)
#include "xhci_bench.h"

#if XT_CONTROLLERS > 1
#define AT &xt_states[0],
#define ALONE &xt_states[0]
#define REG(name, value) xt_reg(&xt_states[0], name, value, (void)0)
#define USBSTS(read) xb_usbsts(&xt_states[0], read)
#else
#define AT
#define ALONE
#define REG(name, value) xt_reg(name, value, (void)0)
#define USBSTS(read) xb_usbsts(read)
#endif

void over(const char *line)
{
	fprintf(stderr, "over: %.*s\n", (int)strcspn(line, "\n"), line);
}

static void tell(const char *where, int waited)
{
	fprintf(stderr, "%s %d, halted %u\n", where, waited, (unsigned int)USBSTS((uint32_t)5));
}

static void set_up(void)
{
	xt_ring(AT 0, "cmd", 0x10000, 16);
	xt_ring(AT 1, "evt", 0x20000, 16);
	xt_store32(AT &memory[0x40000 / 4], 0x40000, 0x20000);
	xt_store32(AT &memory[0x40008 / 4], 0x40008, 16);
	REG("config", 8);
	REG("dcbaap", 0x50000);
	REG("crcr", 0x10001);
	REG("erstsz", 1);
	REG("erdp", 0x20000);
	REG("erstba", 0x40000);
}

int main(void)
{
	if (xt_open(AT "/dev/null", 32))
		return 1;
	set_up();
	tell("early", xb_wait(ALONE));
	REG("usbcmd", 1);
	xb_poll(ALONE);
	tell("idle", xb_wait(ALONE));
	xt_event(AT 0x10000, 0, 0x01000000, 0x8401); /* which was never posted */
	xb_poll(ALONE);
	tell("behind", xb_wait(ALONE));
	return xt_close(ALONE) ? 1 : 0;
}
