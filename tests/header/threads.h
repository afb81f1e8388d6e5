/* The rows of all threads go to one text; a thread lets others run between a row and its store, which the lock has to bear */
#include <stdint.h>

void put_text(const char *text);
void store_from_second_file(volatile uint32_t *word, uint64_t bus, uint32_t value);

#define XT_PRINT(text) put_text(text)
#include "xhci_trace.h"
