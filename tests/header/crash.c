/* A driver that dies: crash HOW PATH. HOW 0: behind its last row; 1: within a hook's store, where a handler writes what was gathered */
#define _POSIX_C_SOURCE 200809L
#include <signal.h>
#include <unistd.h>

#define XHCI_TRACE_HERE
#include "xhci_trace.h"

static volatile uint32_t memory;
static volatile uint32_t *volatile nowhere;

static void on_fault(int number)
{
	(void)number;
	xt_flush_unlocked();
	_exit(3);
}

int main(int argc, char **argv)
{
	if (argc != 3 || xt_open(argv[2], 32))
		return 1;
	xt_ring(0, "cmd", 0x10000, 16);
	xt_ring(1, "evt", 0x20000, 16);
	xt_store32(&memory, 0x30000, 1);
	xt_reg("config", 8, memory = 2);
	xt_store32(&memory, 0x30000, 3);
	xt_doorbell(0, 0, memory = 4);
	xt_store32(&memory, 0x30000, 5);
	if (argv[1][0] == '0')
		raise(SIGKILL);
	signal(SIGSEGV, on_fault);
	xt_store32(nowhere, 0x30004, 6);
	return 0;
}
