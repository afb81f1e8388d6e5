/* SPDX-License-Identifier: MIT */
/* Toy xHCI controllers, in the driver's own process. Each sees 1 MB of memory of its own, as behind an IOMMU */
#ifndef TOY_CONTROLLER_H
#define TOY_CONTROLLER_H

#include <stdint.h>

/* The controller's words are little-endian */
#ifndef XT_BIG_ENDIAN
#if defined(__BYTE_ORDER__) && defined(__ORDER_BIG_ENDIAN__) && __BYTE_ORDER__ == __ORDER_BIG_ENDIAN__
#define XT_BIG_ENDIAN 1
#else
#define XT_BIG_ENDIAN 0
#endif
#endif

#define MEMORY_BYTES (1u << 20)

union toy_memory {
	volatile uint32_t word[MEMORY_BYTES / 4];
	volatile uint64_t pair[MEMORY_BYTES / 8];
};

static inline uint32_t le32(uint32_t value)
{
	if (!XT_BIG_ENDIAN)
		return value;
	return value << 24 | (value & 0xff00) << 8 | (value >> 8 & 0xff00) | value >> 24;
}

enum hc_register { HC_USBCMD, HC_CONFIG, HC_CRCR, HC_DCBAAP, HC_ERSTSZ, HC_ERSTBA, HC_ERDP, HC_REGISTERS };

struct dequeue {
	uint64_t trb;
	uint32_t cycle;
};

struct toy {
	union toy_memory memory;
	struct dequeue commands, endpoints[32];
	uint64_t registers[HC_REGISTERS];
	unsigned int posted;
	unsigned int looks;	/* at its USBSTS, since it was stopped */
};

#ifndef XHCI_BENCH
void hc_write(struct toy *hc, enum hc_register reg, uint64_t value);
void hc_write_half(struct toy *hc, enum hc_register reg, unsigned int high, uint32_t value);
void hc_doorbell(struct toy *hc, unsigned int slot, unsigned int target);
uint32_t hc_status(struct toy *hc);
#else /* the bench is told by the rows: these stores have nothing to do */
static inline void hc_write(struct toy *hc, enum hc_register reg, uint64_t value)
{
	(void)hc, (void)reg, (void)value;
}

static inline void hc_write_half(struct toy *hc, enum hc_register reg, unsigned int high, uint32_t value)
{
	(void)hc, (void)reg, (void)high, (void)value;
}

static inline void hc_doorbell(struct toy *hc, unsigned int slot, unsigned int target)
{
	(void)hc, (void)slot, (void)target;
}
#endif

#endif
