/* SPDX-License-Identifier: MIT */
/*
 * xhci_bench.h - with it an xHCI driver runs live against `xhcitrace bench`, where a proved model of the controller answers it. It is
 * xhci_trace.h and three calls more. C99 or C++11, with stdio.
 *
 *	#define XHCI_BENCH		without it this is xhci_trace.h: xb_poll() is nothing, xb_wait() is 1, xb_usbsts(read) is the read
 *	#define XHCI_TRACE_HERE		in exactly one file of the driver, as for xhci_trace.h
 *	#define XB_WORD(bus) (&memory[(bus) / 4])	in each file: where the driver has the word at a bus address; 0 where it has none there
 *	#include "xhci_bench.h"		in place of xhci_trace.h
 *
 *	xb_poll()	before the driver looks at memory that the controller writes: the Event Ring, a Device Context
 *	xb_wait()	in place of waiting for an interrupt. 1: an event may have come; 0: none will come before the driver does something
 *	xb_usbsts(read)	in place of each read of USBSTS, which is its argument: xt_usbsts(xb_usbsts(readl(&regs->usbsts))), say. HCHalted alone
 *
 * The driver is the bench's other half: its standard output is the bench's input, and the other way round (tools/bench does that). The rows
 * of xhci_trace.h go to standard output; each stands there before its store is made, and all are out when an answer is asked for. So the
 * driver prints nothing else there. The registers and doorbells are the rows alone: their stores have nothing to do on the bench.
 *
 * What the controller writes is in the driver's memory behind these calls, in the order of its writes and little-endian, and nowhere else:
 * a driver that doesn't ask sees nothing. Before the start there is nothing to ask for, and HCHalted is 1.
 *
 * Behind Run/Stop 0 the controller halts when it likes, but in the end: xb_usbsts() answers it. What else xt_usbsts() tells isn't possible.
 *
 * The run may be over before the driver is: harm was done, or a row isn't one. The line that says so is given, once, to
 *
 *	#define XB_OVER(line) exit(0)	what is done then; the text is empty where standard input has ended
 *
 * Where it comes back the bench is gone: xb_wait() answers 0 from then on, HCHalted is 1, and no row is made.
 *
 * xt_open(path, 32) and xt_close() stand for xt_begin and the last flush, so that one source is traced and benched. A process has one
 * trace, of as many runs of the controller as it likes: a second xt_open is a bad line. Of several controllers (XT_CONTROLLERS) one alone
 * is on the bench: only its hooks may be called, and XB_WORD may use its state by the name xt.
 */
#ifndef XHCI_BENCH_H
#define XHCI_BENCH_H

#ifdef XHCI_BENCH

#ifdef XHCI_TRACE_H
#error "include xhci_bench.h in place of xhci_trace.h"
#endif
#ifndef XB_WORD
#error "define XB_WORD(bus): where the driver has the word at a bus address"
#endif

#include <stdio.h>
#include <stdlib.h>

#ifndef XHCI_TRACE
#define XHCI_TRACE
#endif
#undef XT_PRINT
#define XT_PRINT(text) fputs(text, stdout)
#undef XT_AT_ONCE
#define XT_AT_ONCE 1

#ifndef XB_OVER
#define XB_OVER(line) exit(0)
#endif

#include "xhci_trace.h"

#define XB_LINE 256	/* bytes of a line of the bench, at most */

enum xb_answer { XB_IS_OVER, XB_IS_IDLE, XB_IS_HALTED, XB_IS_DONE };

static inline uint64_t xb_number(const char *digits, int count)
{
	uint64_t value = 0;

	for (; count; count--, digits++)
		value = value << 4 | (uint64_t)(*digits <= '9' ? *digits - '0' : *digits - 'a' + 10);
	return value;
}

/* "w 0000000000020000 00030000": a word that the controller wrote */
static inline void xb_take(struct xt_state *xt, const char *line)
{
	volatile uint32_t *word = XB_WORD(xb_number(line + 2, 16));

	(void)xt;
	if (!word)
		fprintf(stderr, "xhci_bench.h: the controller writes at %.16s, where XB_WORD has no memory\n", line + 2);
	else
		*word = xt_le32((uint32_t)xb_number(line + 19, 8));
}

/* Reads an answer. Where the run is over its last line stays in `line` */
static inline enum xb_answer xb_hear(struct xt_state *xt, char *line)
{
	while (fgets(line, XB_LINE, stdin)) {
		if (xt_is(line, ".\n"))
			return XB_IS_DONE;
		if (xt_is(line, "idle\n"))
			return XB_IS_IDLE;
		if (xt_is(line, "halted\n"))
			return XB_IS_HALTED;
		if (line[0] != 'w' || line[1] != ' ')
			return XB_IS_OVER;
		xb_take(xt, line);
	}
	line[0] = 0;
	return XB_IS_OVER;
}

/* Called under the lock. Behind the end nothing may be said: nobody hears it, and a signal ends who speaks into such a pipe */
static inline enum xb_answer xb_ask(struct xt_state *xt, const char *question, char *line)
{
	enum xb_answer answer;

	xt_give_out(xt);
	fputs(question, stdout);
	fflush(stdout);
	answer = xb_hear(xt, line);
	if (answer == XB_IS_OVER) {
		xt->on = 0;
		xt->started = 0;
	}
	return answer;
}

static inline int xb_look(struct xt_state *xt, const char *question)
{
	enum xb_answer answer;
	char line[XB_LINE];

	if (!xt->started)
		return 0;
	XT_LOCKED_BY(xt, answer = xb_ask(xt, question, line));
	if (answer == XB_IS_OVER)
		XB_OVER(line);
	return answer == XB_IS_DONE;
}

static inline void xb_poll(XT_ALONE)
{
	xb_look(XT_SELF, "?\n");
}

static inline int xb_wait(XT_ALONE)
{
	return xb_look(XT_SELF, "wait\n");
}

/* HCHalted is bit 0 */
static inline uint32_t xb_status(XT_ALONE)
{
	return !xb_look(XT_SELF, "usbsts\n");
}

static inline int xt_open(XT_FIRST const char *path, unsigned int context_bytes)
{
	(void)path;
	XT_LOCKED_BY(XT_SELF, xt_head(XT_SELF, context_bytes));
	return 0;
}

static inline int xt_close(XT_ALONE)
{
	XT_LOCKED_BY(XT_SELF, xt_give_out(XT_SELF));
	return fflush(stdout) ? -1 : 0;
}

#else /* no bench: the driver's controller does what it does by itself */

#include "xhci_trace.h"

static inline void xb_poll(XT_ALONE)
{
	XT_UNUSED;
}

static inline int xb_wait(XT_ALONE)
{
	XT_UNUSED;
	return 1;
}

#endif

#if defined(XHCI_BENCH) && XT_CONTROLLERS > 1
#define xb_usbsts(xt, read) xb_status(xt)
#elif defined(XHCI_BENCH)
#define xb_usbsts(read) xb_status()
#elif XT_CONTROLLERS > 1
#define xb_usbsts(xt, read) ((void)(xt), (read))
#else
#define xb_usbsts(read) (read)
#endif

#endif
