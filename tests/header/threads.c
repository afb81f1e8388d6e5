/* Four threads store to the same words by the header's hooks. Prints the trace, and then each word as it stands in memory */
#define _POSIX_C_SOURCE 200809L
#include <pthread.h>
#include <sched.h>
#include <stdio.h>
#include <string.h>

#define XHCI_TRACE_HERE
#include "threads.h"

#define WORDS 256
#define THREADS 4

static char trace[1 << 20];
static unsigned int length;
static pthread_barrier_t barrier;	/* all go to the same word at once */

static union {
	volatile uint32_t word[WORDS];
	volatile uint64_t pair[WORDS / 2];
} memory;

void put_text(const char *text)
{
	unsigned int bytes = (unsigned int)strlen(text);

	memcpy(trace + __atomic_fetch_add(&length, bytes, __ATOMIC_SEQ_CST), text, bytes);
	sched_yield();
}

static void *store_all(void *number)
{
	uint32_t value = (uint32_t)(uintptr_t)number << 24, i;

	for (i = 0; i < WORDS; i++, value++) {
		pthread_barrier_wait(&barrier);
		if (i % 4 == 0)
			xt_store64(&memory.pair[i / 2], 0x1000 + 4 * i, (uint64_t)value << 32 | value);
		else if (i % 4 == 2)
			xt_store32(&memory.word[i], 0x1000 + 4 * i, value);
		else if (i % 4 == 3)
			store_from_second_file(&memory.word[i], 0x1000 + 4 * i, value);
	}
	return 0;
}

int main(void)
{
	pthread_t threads[THREADS];
	uintptr_t i;

	xt_begin(64);
	pthread_barrier_init(&barrier, 0, THREADS);
	for (i = 0; i < THREADS; i++)
		pthread_create(&threads[i], 0, store_all, (void *)(i + 1));
	for (i = 0; i < THREADS; i++)
		pthread_join(threads[i], 0);
	xt_flush();
	fputs(trace, stdout);
	for (i = 0; i < WORDS; i++)
		printf("%016x %08x\n", 0x1000 + 4 * (unsigned int)i, memory.word[i]);
	return 0;
}
