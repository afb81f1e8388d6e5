/* What a store takes by the header's hook, beside one whose row goes to a line-buffered file: speed PATH. Nanoseconds of both, the least of nine tries in turns, and the calls that wrote the header's rows */
#define _POSIX_C_SOURCE 200809L
#include <stdio.h>
#include <time.h>

#define XHCI_TRACE_HERE
#include "xhci_trace.h"

#define STORES 20000
#define TRIES 9

static volatile uint32_t memory[64];

static double now(void)
{
	struct timespec time;

	clock_gettime(CLOCK_MONOTONIC, &time);
	return 1e9 * (double)time.tv_sec + (double)time.tv_nsec;
}

/* How often this process has called write(), where the system tells; else 0 */
static unsigned long writes(void)
{
	char line[64];
	unsigned long calls = 0;
	FILE *file = fopen("/proc/self/io", "r");

	while (file && fgets(line, sizeof(line), file))
		sscanf(line, "syscw: %lu", &calls);
	if (file)
		fclose(file);
	return calls;
}

static void by_header(void)
{
	uint32_t i;

	for (i = 0; i < STORES; i++)
		xt_store32(&memory[i % 64], 0x30000 + 4 * (i % 64), i);
}

static void by_lines(FILE *file)
{
	char row[32];
	uint32_t i;

	for (i = 0; i < STORES; i++) {
		char *end = xt_hex(xt_word(row, "w "), 0x30000 + 4 * (i % 64), 16);

		end = xt_word(xt_hex(xt_word(end, " "), i, 8), "\n");
		*end = 0;
		fputs(row, file);
		memory[i % 64] = xt_le32(i);
	}
}

int main(int argc, char **argv)
{
	double least[2] = { 1e18, 1e18 }, from;
	unsigned long calls = 0;
	FILE *lines;
	int i;

	if (argc != 2 || xt_open(argv[1], 32))
		return 1;
	lines = fopen(argv[1], "a");
	setvbuf(lines, 0, _IOLBF, BUFSIZ);
	for (i = 0; i < TRIES; i++) {
		calls = writes();
		from = now();
		by_header();
		from = now() - from;
		calls = writes() - calls;
		least[0] = from < least[0] ? from : least[0];
		from = now();
		by_lines(lines);
		from = now() - from;
		least[1] = from < least[1] ? from : least[1];
	}
	fclose(lines);
	printf("%.1f %.1f %lu\n", least[0] / STORES, least[1] / STORES, calls);
	return xt_close();
}
