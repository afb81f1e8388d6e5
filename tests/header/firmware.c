/* The header where there is no library: text goes out by a function, and the lock counts. Each hook is called once, and wrongly too */
static void put_text(const char *text);
static int depth, locked;

#define XT_PRINT(text) put_text(text)
#define XT_LOCKED(...) do { depth++; locked += depth == 1; __VA_ARGS__; depth--; } while (0)
#define XT_HOLD 256
#define XT_TRBS 3
#define XHCI_TRACE_HERE
#include "xhci_trace.h"

char firmware_log[4096];
static unsigned int length;

static void put_text(const char *text)
{
	for (; *text && length < sizeof(firmware_log) - 1; text++)
		firmware_log[length++] = depth == 1 ? *text : '!';
}

union firmware_memory { volatile uint32_t word[4]; volatile uint64_t pair[2]; } firmware_memory;
volatile uint32_t firmware_register;

int firmware_main(int how);

int firmware_main(int how)
{
	static const uint32_t td[2][4] = { { 1, 2, 3, 0x411 }, { 4, 5, 6, 0x421 } };
	static const unsigned char bytes[8] = { 0x44, 0x33, 0x22, 0x11, 0x88, 0x77, 0x66, 0x55 };
	unsigned int i, before;

	xt_begin(32);
	xt_ring(0, "cmd", 0x10000, 16);
	xt_store64(&firmware_memory.pair[0], 0x30000, 0x1122334455667788u);
	xt_ring(2, "xfer", 0x30000, 4);
	xt_reg_half("erdp", 1, 0x12, firmware_register = 1);
	xt_reg("iman", 3, firmware_register = 2);
	xt_reg_half("erdp", 0, 0x345678, firmware_register = 3);
	xt_reg_half("crcr", 0, 0x10001, firmware_register = 4);
	xt_reg_half("crcr", 1, 0, firmware_register = 5);
	xt_submit(2, td[0], 2);
	xt_submit_block(2, 1, 2, 3, 0x411);
	xt_store32(&firmware_memory.word[2], 0x30008, 7);
	xt_doorbell(1, 1, firmware_register = 6);
	if (how == 1) /* more rows than there is room for */
		for (i = 0; i < 10; i++)
			xt_store32(&firmware_memory.word[2], 0x30008, i);
	if (how == 2) /* another ring in between */
		xt_submit_block(3, 0, 0, 0, 0x410);
	if (how == 4) /* more TRBs than there is room for */
		for (i = 0; i < 10; i++)
			xt_submit_block(2, 0, 0, 0, 0x410);
	xt_submit_block(2, 4, 5, 6, 0x421);
	if (how == 3) { /* a half twice */
		xt_reg_half("erdp", 0, 1, firmware_register = 7);
		xt_reg_half("erdp", 0, 2, firmware_register = 8);
	}
	xt_event(0x30000, 0, 0x01000000, 0x01018001);
	xt_withdraw(2, 0x123456789u);
	xt_zero32(0x30020, 2);
	xt_copy32(0x30028, bytes, 2);
	xt_free(2);
	xt_ring(3, "xfer", 0x30000, 4);
	xt_reg("usbcmd", 2, firmware_register = 9);
	xt_usbsts(1); /* not started */
	xt_reg("usbcmd", 1, before = length);
	if (before != length) /* the row is there before the store */
		return -1;
	xt_usbsts(0x18);
	xt_reg("usbcmd", 5, firmware_register = 11);
	xt_reg("usbcmd", 4, firmware_register = 12);
	xt_usbsts(0x10); /* it goes on for a while */
	xt_usbsts(0x19);
	xt_usbsts(0x19);
	xt_free(0);
	xt_ring(5, "cmd", 0x10000, 16);
	xt_reg("usbcmd", 0x100, firmware_register = 12);
	xt_usbsts(0x101); /* it saves, which says nothing */
	xt_usbsts(1);
	xt_reg("usbcmd", 0x200, firmware_register = 12);
	xt_usbsts(0x201); /* it restores */
	xt_usbsts(0x401); /* in vain */
	xt_usbsts(0x401);
	xt_usbsts(9); /* or not */
	xt_usbsts(9);
	xt_reg("usbcmd", 1, firmware_register = 12);
	xt_usbsts(1); /* as it can't be, once */
	xt_usbsts(1);
	xt_reg("usbcmd", 0, firmware_register = 12);
	xt_usbsts(1);
	xt_reg("usbcmd", 2, firmware_register = 12);
	xt_free(5);
	xt_ring(6, "evt", 0x20000, 16);
	xt_doorbell(0, 0, firmware_register = 13);
	xt_flush();
	firmware_log[length] = 0;
	return depth == 0 ? locked : -1;
}
