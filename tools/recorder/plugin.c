/*
 * A TCG plugin for QEMU: writes into QEMU's own log what the guest's CPU stores where an xHCI controller may look, beside QEMU's
 * trace lines of that controller. A page is watched from the moment a register, a command, a context or a Link names it, until none
 * does; a history of recent stores tells what was written there before. Arguments: ram=FILE, the guest's memory, which begins at the
 * physical address base=N and of which all beyond low=N bytes lies at 4 GB; log=FILE, QEMU's log; history=N, the stores that are
 * remembered.
 *
 * DC ZVA of aarch64 clears a block of memory by a function of QEMU that no plugin sees. That one is executed is seen, not where: before
 * the next store to a watched page, register or read event each block that was cleared since is told as stores of 0.
 *
 * Lines, all numbers in hex; SEQ counts stores, stores to the device, and loads of events and of USBSTS, in the order in which the CPU
 * made them:
 *   xr w SEQ ADDR WORD      a store has left this word; one that was remembered comes later in the log than its SEQ says
 *   xr v SEQ ADDR WORD      the word as it was found
 *   xr p SEQ ADDR KNOWN     the page at ADDR is watched from here on; stores are known from KNOWN on
 *   xr d SEQ ADDR SIZE      a store to a register; the trace lines of what QEMU did for it stand before
 *   xr e SEQ ADDR W W W W   a load has found the event at ADDR
 *   xr r SEQ ADDR SIZE      a load of USBSTS; QEMU's own line of it, with the value, stands before
 *   xr end SEQ LINES        the end of the recording; how many of these lines there are
 */
#include <fcntl.h>
#include <inttypes.h>
#include <stdbool.h>
#include <stdio.h>
#include <stdlib.h>
#include <string.h>
#include <sys/mman.h>
#include <sys/stat.h>
#include <unistd.h>

/* QEMU's plugin interface after its documentation (docs/devel/tcg-plugins): no Debian package ships the header */
typedef uint64_t qemu_plugin_id_t;
typedef uint32_t qemu_plugin_meminfo_t;
struct qemu_plugin_tb;
struct qemu_plugin_insn;
struct qemu_plugin_hwaddr;
enum qemu_plugin_cb_flags { QEMU_PLUGIN_CB_NO_REGS };
enum qemu_plugin_mem_rw { QEMU_PLUGIN_MEM_R = 1, QEMU_PLUGIN_MEM_W, QEMU_PLUGIN_MEM_RW };
enum qemu_plugin_mem_value_type { VALUE_U8, VALUE_U16, VALUE_U32, VALUE_U64, VALUE_U128 };
typedef struct {
    enum qemu_plugin_mem_value_type type;
    union { uint8_t u8; uint16_t u16; uint32_t u32; uint64_t u64; struct { uint64_t low, high; } u128; } data;
} qemu_plugin_mem_value;
typedef struct {
    const char *target_name;
    struct { int min, cur; } version;
    bool system_emulation;
    union { struct { int smp_vcpus, max_vcpus; } system; };
} qemu_info_t;
typedef void (*tb_trans_cb)(qemu_plugin_id_t id, struct qemu_plugin_tb *tb);
typedef void (*mem_cb)(unsigned int cpu, qemu_plugin_meminfo_t info, uint64_t vaddr, void *data);
typedef void (*udata_cb)(qemu_plugin_id_t id, void *data);
typedef void (*insn_cb)(unsigned int cpu, void *data);
void qemu_plugin_register_vcpu_tb_trans_cb(qemu_plugin_id_t id, tb_trans_cb cb);
void qemu_plugin_register_vcpu_mem_cb(struct qemu_plugin_insn *insn, mem_cb cb, enum qemu_plugin_cb_flags flags,
                                      enum qemu_plugin_mem_rw rw, void *data);
void qemu_plugin_register_vcpu_insn_exec_cb(struct qemu_plugin_insn *insn, insn_cb cb, enum qemu_plugin_cb_flags flags, void *data);
/* up to version 2 of the interface it has the first argument alone, and returns where the instruction stands; from 3 on its size */
uintptr_t qemu_plugin_insn_data(const struct qemu_plugin_insn *insn, void *to, size_t size);
void qemu_plugin_register_atexit_cb(qemu_plugin_id_t id, udata_cb cb, void *data);
size_t qemu_plugin_tb_n_insns(const struct qemu_plugin_tb *tb);
struct qemu_plugin_insn *qemu_plugin_tb_get_insn(const struct qemu_plugin_tb *tb, size_t idx);
unsigned int qemu_plugin_mem_size_shift(qemu_plugin_meminfo_t info);
bool qemu_plugin_mem_is_store(qemu_plugin_meminfo_t info);
struct qemu_plugin_hwaddr *qemu_plugin_get_hwaddr(qemu_plugin_meminfo_t info, uint64_t vaddr);
bool qemu_plugin_hwaddr_is_io(const struct qemu_plugin_hwaddr *hw);
uint64_t qemu_plugin_hwaddr_phys_addr(const struct qemu_plugin_hwaddr *hw);
void qemu_plugin_outs(const char *text);
/* there from 9.2 on: the value that was moved */
__attribute__((weak)) qemu_plugin_mem_value qemu_plugin_mem_get_value(qemu_plugin_meminfo_t info);
/* there up to 8.2, whose interface is version 1 */
__attribute__((weak)) int qemu_plugin_n_vcpus(void);

__attribute__((visibility("default"))) int qemu_plugin_version = 1;

__attribute__((constructor)) static void choose_version(void)
{
    if (!qemu_plugin_n_vcpus)
        qemu_plugin_version = 2;
}

/* QEMU's layout of the controller's registers: 16 KB, the capabilities first; devices below 1 MB are others */
enum { REGISTERS = 0x4000, CAPABILITIES = 0x40, STATUS = 0x44, DOORBELLS_END = 0x3000, DEVICES = 0x100000 };
enum { PAGE = 4096, BLOCK = 16, AHEAD = 1024, DCBAA = 2048, SEGMENTS = 64, BOUNDARY = 0x10000 };
enum { LINK = 6, DISABLE_SLOT = 10, ADDRESS_DEVICE, CONFIGURE_ENDPOINT, EVALUATE_CONTEXT, SET_TR_DEQUEUE = 16, RESET_DEVICE };
enum { COMMAND_COMPLETION = 33, SUCCESS = 1 };
enum { CLEARED = 64, MOST_INSN = 16 }; /* bytes that DC ZVA clears, or a multiple of it; bytes of an instruction */
#define DC_ZVA 0xd50b7420u             /* but for the five low bits, which name a register */
enum { DECONFIGURE = 1 << 9 }; /* of Configure Endpoint: it has no input context */
#define HIGH 0x100000000ull    /* where memory beyond the first block lies */
#define NO_PLACE UINT64_MAX

struct store { uint64_t seq; uint32_t at, word; }; /* at: the address by 4 */

static const uint8_t *ram;
static uint64_t ram_size, ram_base, ram_low = UINT64_MAX, seq;
static bool *watched, *before;      /* by page of the file; before: what was watched, while pages are swept */
static uint64_t *until;             /* by page: all stores up to this one are in the log already */
static uint32_t **known;            /* by page of the file that is watched: the words that the log has; NULL where nothing clears unseen */
static uint64_t cleared;            /* the last DC ZVA behind which no one has looked yet; 0: none */
static struct store *history;       /* a ring; next counts all stores ever remembered */
static uint64_t history_size = 1 << 22, next;
static FILE *log_file;
static uint32_t oper[16], runtime[16]; /* operational registers; those of interrupter 0 at 8 and up */
static uint32_t context_size = 32;
static struct { uint64_t base; uint32_t count, at; uint8_t cycle; } events; /* the place that is read next */
static unsigned writes;             /* trace lines of register writes since the last store to a device */
static uint64_t registers;          /* the controller's registers begin here */
static uint64_t lines;              /* how many were written */

/* The slots in use: the device context, the last input context, where the ring of each endpoint was when it was named */
static struct slot { uint64_t context, input, rings[32]; } slots[256];
/* The command that was fetched last, and what its success makes of its slot */
static struct { uint64_t at; uint32_t slot; bool lets_go; struct slot then; } command;
static uint64_t sweep_at;           /* the command at whose completion, when it is read, pages are let go; 0: none */

/* Where a word of the guest's memory stands in the file */
static uint64_t place_of(uint64_t at)
{
    uint64_t place = at - ram_base;
    if (at >= HIGH && ram_low < ram_size)
        place = at - HIGH + ram_low;
    else if (at < ram_base || place >= ram_low)
        return NO_PLACE;
    return place + 4 <= ram_size ? place : NO_PLACE;
}

/*
 * The physical address of a word of memory. Some versions of QEMU, 7.2 among them, tell its place in the file instead: an address
 * below 4 GB behind the first block can't be anything else
 */
static uint64_t ram_address(struct qemu_plugin_hwaddr *hw)
{
    uint64_t at = qemu_plugin_hwaddr_phys_addr(hw);
    return at >= ram_low && at < HIGH && ram_low < ram_size ? at - ram_low + HIGH : at;
}

static uint32_t word_at(uint64_t at)
{
    uint32_t w = 0;
    if (place_of(at) != NO_PLACE)
        memcpy(&w, ram + place_of(at), 4);
    return w;
}

static uint64_t long_at(uint64_t at) { return word_at(at) | (uint64_t)word_at(at + 4) << 32; }

static void put_line(const char *line)
{
    lines++;
    qemu_plugin_outs(line);
}

static void say(char kind, uint64_t when, uint64_t at, uint64_t value)
{
    char line[80];
    snprintf(line, sizeof line, "xr %c %" PRIx64 " %" PRIx64 " %" PRIx64 "\n", kind, when, at, value);
    put_line(line);
}

static bool is_clear(const uint32_t *words, uint64_t at, uint64_t but, unsigned size)
{
    for (unsigned i = 0; i < CLEARED; i += 4)
        if (words[i / 4] && !(at + i >= but && at + i < but + size))
            return false;
    return true;
}

/* A block that was cleared since the log has told of it, but for the `size` bytes at `but`, which were stored after that */
static void see_cleared_block(uint32_t *had, uint64_t place, uint64_t at, uint64_t but, unsigned size)
{
    if (is_clear(had, at, but, size) || !is_clear((const uint32_t *)(ram + place), at, but, size))
        return;
    for (unsigned i = 0; i < CLEARED; i += 4) {
        if (had[i / 4])
            say('w', cleared, at + i, 0);
        had[i / 4] = 0;
    }
}

static uint64_t address_of(uint64_t place)
{
    return place < ram_low || ram_low >= ram_size ? place + ram_base : place - ram_low + HIGH;
}

/* What DC ZVA has cleared in watched pages */
static void see_cleared(uint64_t but, unsigned size)
{
    for (uint64_t page = 0; cleared && page < ram_size / PAGE; page++)
        for (unsigned i = 0; watched[page] && i < PAGE; i += CLEARED)
            see_cleared_block(known[page] + i / 4, page * PAGE + i, address_of(page * PAGE + i), but, size);
    cleared = 0;
}

/* The log has the page's words as they are; or, of one that is let go, no more */
static void keep_known(uint64_t page, bool is_watched)
{
    if (!known)
        return;
    free(known[page]);
    known[page] = is_watched ? malloc(PAGE) : NULL;
    if (is_watched && !known[page])
        abort();
    if (is_watched)
        memcpy(known[page], ram + page * PAGE, PAGE);
}

/* A page that wasn't watched: the stores to it that are remembered and aren't in the log, and what stands there */
static void watch_page(uint64_t page)
{
    bool told[PAGE / 4] = { false };
    uint64_t place = place_of(page) / PAGE;
    if (place_of(page) == NO_PLACE || watched[place])
        return;
    watched[place] = true;
    if (before && before[place])
        return;
    uint64_t oldest = next > history_size ? next - history_size : 0, known = oldest ? history[oldest % history_size].seq : 0;
    say('p', seq, page, known > until[place] ? known : 0);
    for (uint64_t i = oldest; i < next; i++) {
        const struct store *s = &history[i % history_size];
        if (s->at / (PAGE / 4) == page / PAGE && s->seq > until[place]) {
            say('w', s->seq, s->at * (uint64_t)4, s->word);
            told[s->at % (PAGE / 4)] = true;
        }
    }
    for (uint64_t at = page; at < page + PAGE; at += 4)
        if (word_at(at) || told[at % PAGE / 4])
            say('v', seq, at, word_at(at));
    keep_known(place, true);
}

static bool watched_at(uint64_t at) { return place_of(at) == NO_PLACE || watched[place_of(at) / PAGE]; }

static void watch(uint64_t at, uint64_t bytes)
{
    for (uint64_t page = at & ~(uint64_t)(PAGE - 1); page < at + bytes && place_of(page) != NO_PLACE; page += PAGE)
        watch_page(page);
}

/* What stands in an area now: another device may have written there since the last store */
static void say_found(uint64_t at, uint64_t bytes)
{
    for (uint64_t end = at + bytes; !before && at < end && place_of(at) != NO_PLACE; at += 4)
        say('v', seq, at, word_at(at));
}

static bool is_link(uint64_t at) { return word_at(at + 12) >> 10 == LINK && long_at(at); }

/* How much of a segment is watched that has no Link yet: while pages are swept, all that was watched of it */
static uint64_t ahead(uint64_t at, uint64_t end)
{
    uint64_t bytes = AHEAD;
    while (before && at + bytes < end && place_of(at + bytes) != NO_PLACE && before[place_of(at + bytes) / PAGE])
        bytes += PAGE;
    return bytes;
}

/*
 * A ring from this block to its Link, if that is written, and on through all segments to which Links lead. A page may have been
 * watched for something else, so that ends nothing; but what stands there need not be told again, except of a ring that is named.
 */
static void watch_ring(uint64_t first, bool named)
{
    uint64_t at = first;
    for (int segment = 0; segment < SEGMENTS; segment++) {
        uint64_t end = (at | (BOUNDARY - 1)) + 1, link = at;
        while (link < end && !is_link(link))
            link += BLOCK;
        uint64_t bytes = link == end ? ahead(at, end) : link + BLOCK - at;
        bool known = !(named && at == first) && watched_at(at) && watched_at(at + bytes - 1);
        watch(at, bytes);
        if (!known)
            say_found(at, bytes);
        if (link == end)
            break;
        at = long_at(link) & ~(uint64_t)(BLOCK - 1);
        if (at == first)
            break;
    }
}

static uint64_t command_ring(void) { return (oper[6] & ~63u) | (uint64_t)oper[7] << 32; }
static uint64_t dcbaa(void) { return (oper[12] & ~63u) | (uint64_t)oper[13] << 32; }
static uint64_t segment_table(void) { return (runtime[12] & ~63u) | (uint64_t)runtime[13] << 32; }

static void watch_named(uint64_t ring)
{
    if (ring)
        watch_ring(ring, true);
}

/* Pages that nothing names any more are let go: what is stored there is other use of the memory */
static void sweep(void)
{
    size_t pages = ram_size / PAGE + 1;
    before = watched;
    watched = calloc(pages, sizeof *watched);
    if (!watched)
        abort();
    watch_named(command_ring());
    if (dcbaa())
        watch(dcbaa(), DCBAA);
    if (events.count) {
        watch(segment_table(), BLOCK);
        watch(events.base, events.count * BLOCK);
    }
    for (int i = 0; i < 256; i++) {
        if (slots[i].context)
            watch(slots[i].context, 32 * context_size);
        if (slots[i].input)
            watch(slots[i].input, 33 * context_size);
        for (int index = 1; index < 32; index++)
            watch_named(slots[i].rings[index]);
    }
    for (size_t page = 0; page < pages; page++)
        if (before[page] && !watched[page]) {
            until[page] = seq;
            keep_known(page, false);
        }
    free(before);
    before = NULL;
    sweep_at = 0;
}

/* HCRST, or a reset of the machine: nothing is named any more */
static void forget_all(void)
{
    memset(slots, 0, sizeof slots);
    memset(oper, 0, sizeof oper);
    memset(runtime, 0, sizeof runtime);
    events.count = 0;
    command.at = 0;
    sweep();
}

static void watch_input_context(uint64_t at)
{
    watch(at, 33 * context_size);
    say_found(at, 33 * context_size);
    for (int i = 1; i <= 31; i++)
        if (word_at(at + 4) >> i & 1)
            watch_ring(long_at(at + (i + 1) * context_size + 8) & ~(uint64_t)15, true);
}

/* The rings that a command takes from its slot, and those that its input context gives it */
static void change_rings(uint32_t type, uint64_t input, bool drops_all)
{
    uint32_t dropped = input ? word_at(input) : 0, added = input ? word_at(input + 4) : 0;
    if (type == ADDRESS_DEVICE)
        dropped = 0, added = 2;
    if (type == RESET_DEVICE || drops_all)
        dropped = ~3u;
    for (int i = 1; i <= 31 && type != EVALUATE_CONTEXT; i++) {
        if (dropped >> i & 1)
            command.then.rings[i] = 0;
        if (added >> i & 1)
            command.then.rings[i] = long_at(input + (i + 1) * context_size + 8) & ~(uint64_t)15;
    }
    command.lets_go = dropped != 0;
}

static void follow_command(uint64_t at, uint32_t type, uint64_t pointer, uint32_t control)
{
    bool drops_all = type == CONFIGURE_ENDPOINT && control & DECONFIGURE;
    bool has_input = type >= ADDRESS_DEVICE && type <= EVALUATE_CONTEXT && !drops_all;
    command.at = at;
    command.slot = control >> 24;
    command.then = slots[command.slot];
    command.lets_go = false;
    if (type == ADDRESS_DEVICE) {
        command.then.context = long_at(dcbaa() + 8 * command.slot);
        watch(command.then.context, 32 * context_size);
    }
    if (has_input) {
        slots[command.slot].input = command.then.input = pointer;
        watch_input_context(pointer);
    }
    if (type == DISABLE_SLOT) {
        memset(&command.then, 0, sizeof command.then);
        command.lets_go = true;
    } else if (has_input || drops_all || type == RESET_DEVICE) {
        change_rings(type, has_input ? pointer : 0, drops_all);
    }
}

static void follow_fetch(uint64_t at, uint64_t pointer, uint32_t control)
{
    uint32_t type = control >> 10 & 63;
    watch(at, AHEAD);
    if (type == LINK || type == SET_TR_DEQUEUE)
        watch_ring(pointer & ~(uint64_t)15, true);
    if (type >= DISABLE_SLOT && type <= RESET_DEVICE)
        follow_command(at, type, pointer & ~(uint64_t)15, control);
}

/* What a command lets go is the driver's again when it reads that the command has ended */
static void follow_completion(uint64_t pointer, uint32_t code)
{
    if (!command.at || pointer != command.at)
        return;
    if (code == SUCCESS) {
        slots[command.slot] = command.then;
        if (command.lets_go)
            sweep_at = command.at;
    }
    command.at = 0;
}

static void follow_event_ring(void)
{
    uint64_t table = segment_table();
    watch(table, BLOCK);
    events.base = long_at(table) & ~(uint64_t)63;
    events.count = word_at(table + 8) & 0xffff;
    events.at = 0;
    events.cycle = 1;
    watch(events.base, events.count * BLOCK);
    say_found(events.base, events.count * BLOCK);
}

static void follow_line(const char *line)
{
    unsigned off, value, control, status;
    uint64_t at, pointer;
    writes += strstr(line, "_write ") != NULL;
    if (sscanf(line, "usb_xhci_oper_write off %x, val %x", &off, &value) == 2 && off < 64) {
        oper[off / 4] = value;
        if (off == 0x18 || off == 0x1c)
            watch_ring(command_ring(), true);
        if (off == 0x30 || off == 0x34)
            watch(dcbaa(), DCBAA);
    } else if (sscanf(line, "usb_xhci_runtime_write off %x, val %x", &off, &value) == 2 && off < 64) {
        runtime[off / 4] = value;
        if (off == 0x30 || off == 0x34)
            follow_event_ring();
    } else if (sscanf(line, "usb_xhci_fetch_trb addr %" SCNx64 ", %*[^,], p %" SCNx64 ", s %*x, c %x", &at, &pointer, &control) == 3) {
        follow_fetch(at, pointer, control);
    } else if (sscanf(line, "usb_xhci_queue_event v 0, %*[^p]p %" SCNx64 ", s %x, c %x", &pointer, &status, &control) == 3) {
        if ((control >> 10 & 63) == COMMAND_COMPLETION)
            follow_completion(pointer, status >> 24);
    } else if (!strncmp(line, "usb_xhci_reset", 14)) {
        forget_all();
    } else if (sscanf(line, "usb_xhci_cap_read off %x, ret %x", &off, &value) == 2 && off == 0x10) {
        context_size = value & 4 ? 64 : 32;
    }
}

/* What QEMU has written to its log since the last time */
static void follow_log(void)
{
    static char line[512];
    for (;;) {
        long start = ftell(log_file);
        if (!fgets(line, sizeof line, log_file))
            break;
        if (!strchr(line, '\n')) {
            fseek(log_file, start, SEEK_SET);
            break;
        }
        if (!strncmp(line, "usb_xhci_", 9))
            follow_line(line);
    }
    clearerr(log_file);
}

/* The word at `at` as it was moved, where QEMU tells that; else what stands in memory now */
static uint32_t moved_word(qemu_plugin_meminfo_t info, uint64_t phys, uint64_t at, unsigned size)
{
    if (!qemu_plugin_mem_get_value || at < phys || at + 4 > phys + size || size > 8)
        return word_at(at);
    qemu_plugin_mem_value v = qemu_plugin_mem_get_value(info);
    return v.type == VALUE_U32 ? v.data.u32 : v.type == VALUE_U64 ? v.data.u64 >> 8 * (at - phys) : word_at(at);
}

/* A store to any device: it was to the controller where QEMU has just told of a register write */
static void device_stored(uint64_t phys, unsigned size)
{
    writes = 0;
    see_cleared(0, 0);
    follow_log();
    if (writes)
        registers = phys & ~(uint64_t)(REGISTERS - 1);
    if (writes || (registers && phys - registers >= CAPABILITIES && phys - registers < DOORBELLS_END))
        say('d', seq, phys, size);
}

static void stored(uint64_t at, uint32_t word)
{
    struct store s = { seq, at / 4, word };
    history[next++ % history_size] = s;
    if (!watched_at(at))
        return;
    if (known)
        known[place_of(at) / PAGE][at % PAGE / 4] = word;
    say('w', seq, at, word);
    uint64_t block = at & ~(uint64_t)(BLOCK - 1);
    if (is_link(block))
        watch_ring(long_at(block) & ~(uint64_t)(BLOCK - 1), false);
}

/* A store, or the part of it that lies in one page: pages side by side may be apart in memory */
static void stored_part(qemu_plugin_meminfo_t info, uint64_t vaddr, unsigned size, bool whole)
{
    struct qemu_plugin_hwaddr *hw = qemu_plugin_get_hwaddr(info, vaddr);
    if (!hw)
        return;
    uint64_t phys = qemu_plugin_hwaddr_phys_addr(hw);
    if (qemu_plugin_hwaddr_is_io(hw)) {
        if (phys >= DEVICES)
            device_stored(phys, size);
        return;
    }
    phys = ram_address(hw);
    if (cleared && watched_at(phys))
        see_cleared(phys & ~(uint64_t)3, size + phys % 4);
    for (uint64_t at = phys & ~(uint64_t)3; at < phys + size && place_of(at) != NO_PLACE; at += 4)
        stored(at, whole ? moved_word(info, phys, at, size) : word_at(at));
}

/* A load of the next event's Cycle bit, by the place in the page alone: few loads go further */
static bool may_read_event(uint64_t vaddr, unsigned size)
{
    uint64_t wanted = (events.base + events.at * BLOCK + 12) % PAGE, from = vaddr % PAGE;
    return events.count && from <= wanted && wanted < from + size;
}

static void loaded(qemu_plugin_meminfo_t info, uint64_t vaddr, unsigned size)
{
    struct qemu_plugin_hwaddr *hw = qemu_plugin_get_hwaddr(info, vaddr);
    uint64_t place = events.base + events.at * BLOCK, wanted = place + 12;
    if (!hw || qemu_plugin_hwaddr_is_io(hw))
        return;
    uint64_t phys = ram_address(hw);
    if (phys > wanted || wanted >= phys + size || (moved_word(info, phys, wanted, size) & 1) != events.cycle)
        return;
    see_cleared(0, 0);
    char line[128];
    snprintf(line, sizeof line, "xr e %" PRIx64 " %" PRIx64 " %x %x %x %x\n", ++seq, place,
             word_at(place), word_at(place + 4), word_at(place + 8), word_at(wanted));
    put_line(line);
    if (++events.at == events.count) {
        events.at = 0;
        events.cycle ^= 1;
    }
    if (sweep_at && (word_at(wanted) >> 10 & 63) == COMMAND_COMPLETION && long_at(place) == sweep_at)
        sweep();
}

/* A load of USBSTS, by the place in the page alone */
static bool may_read_status(uint64_t vaddr, unsigned size)
{
    uint64_t from = vaddr % PAGE;
    return registers && from <= STATUS && STATUS < from + size;
}

static void status_loaded(qemu_plugin_meminfo_t info, uint64_t vaddr, unsigned size)
{
    struct qemu_plugin_hwaddr *hw = qemu_plugin_get_hwaddr(info, vaddr);
    if (!hw || !qemu_plugin_hwaddr_is_io(hw))
        return;
    uint64_t phys = qemu_plugin_hwaddr_phys_addr(hw);
    if (phys > registers + STATUS || registers + STATUS >= phys + size)
        return;
    see_cleared(0, 0);
    say('r', ++seq, phys, size);
}

static void moved(unsigned int cpu, qemu_plugin_meminfo_t info, uint64_t vaddr, void *data)
{
    unsigned size = 1u << qemu_plugin_mem_size_shift(info);
    if (!qemu_plugin_mem_is_store(info)) {
        if (may_read_event(vaddr, size))
            loaded(info, vaddr, size);
        if (may_read_status(vaddr, size))
            status_loaded(info, vaddr, size);
        return;
    }
    unsigned first = PAGE - vaddr % PAGE;
    seq++;
    stored_part(info, vaddr, size < first ? size : first, size <= first);
    if (size > first)
        stored_part(info, vaddr + first, size - first, false);
}

static bool is_dc_zva(const struct qemu_plugin_insn *insn)
{
    unsigned char copied[MOST_INSN] = { 0 };
    uint32_t word;
    uintptr_t got = qemu_plugin_insn_data(insn, copied, sizeof copied);
    memcpy(&word, got > sizeof copied ? (const void *)got : copied, sizeof word);
    return (word & ~31u) == DC_ZVA;
}

/* Called before DC ZVA clears */
static void clears(unsigned int cpu, void *data) { cleared = ++seq; }

static void translated(qemu_plugin_id_t id, struct qemu_plugin_tb *tb)
{
    for (size_t i = 0; i < qemu_plugin_tb_n_insns(tb); i++) {
        struct qemu_plugin_insn *insn = qemu_plugin_tb_get_insn(tb, i);
        qemu_plugin_register_vcpu_mem_cb(insn, moved, QEMU_PLUGIN_CB_NO_REGS, QEMU_PLUGIN_MEM_RW, NULL);
        if (known && is_dc_zva(insn))
            qemu_plugin_register_vcpu_insn_exec_cb(insn, clears, QEMU_PLUGIN_CB_NO_REGS, NULL);
    }
}

static void ended(qemu_plugin_id_t id, void *data)
{
    char line[60];
    see_cleared(0, 0);
    snprintf(line, sizeof line, "xr end %" PRIx64 " %" PRIx64 "\n", seq, lines + 1);
    put_line(line);
}

static bool map_ram(const char *path)
{
    struct stat st;
    int fd = open(path, O_RDONLY);
    if (fd < 0 || fstat(fd, &st))
        return false;
    ram_size = st.st_size;
    ram = mmap(NULL, ram_size, PROT_READ, MAP_SHARED, fd, 0);
    close(fd);
    return ram != MAP_FAILED;
}

static int refuse(const char *why)
{
    fprintf(stderr, "xrecord: %s\n", why);
    return 1;
}

__attribute__((visibility("default"))) int qemu_plugin_install(qemu_plugin_id_t id, const qemu_info_t *info, int argc, char **argv)
{
    for (int i = 0; i < argc; i++) {
        if (!strncmp(argv[i], "ram=", 4) && !map_ram(argv[i] + 4))
            return refuse("the file of the guest's memory can't be mapped");
        if (!strncmp(argv[i], "log=", 4))
            log_file = fopen(argv[i] + 4, "r");
        if (!strncmp(argv[i], "base=", 5))
            ram_base = strtoull(argv[i] + 5, NULL, 0);
        if (!strncmp(argv[i], "low=", 4))
            ram_low = strtoull(argv[i] + 4, NULL, 0);
        if (!strncmp(argv[i], "history=", 8))
            history_size = strtoull(argv[i] + 8, NULL, 0);
    }
    if (!info->system_emulation || info->system.max_vcpus != 1)
        return refuse("a machine of exactly one CPU is needed");
    if (!ram || !log_file || !history_size)
        return refuse("ram=FILE and log=FILE are needed");
    watched = calloc(ram_size / PAGE + 1, sizeof *watched);
    until = calloc(ram_size / PAGE + 1, sizeof *until);
    history = calloc(history_size, sizeof *history);
    bool may_clear = !strcmp(info->target_name, "aarch64");
    known = may_clear ? calloc(ram_size / PAGE + 1, sizeof *known) : NULL;
    if (!watched || !until || !history || (may_clear && !known))
        return refuse("no memory for the history of stores");
    qemu_plugin_register_vcpu_tb_trans_cb(id, translated);
    qemu_plugin_register_atexit_cb(id, ended, NULL);
    return 0;
}
