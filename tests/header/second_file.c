/* Another file of the same driver: the header's state stands in threads.c */
#include "threads.h"

void store_from_second_file(volatile uint32_t *word, uint64_t bus, uint32_t value)
{
	xt_store32(word, bus, value);
}
