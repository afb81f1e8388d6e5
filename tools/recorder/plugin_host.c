/*
 * Stands in for QEMU in the plugin's tests: plugin_host PLUGIN RAM LOG SCRIPT. The script's lines, numbers in hex:
 *   map VPAGE PPAGE          the page of virtual addresses lies there in memory, or, from 100000000 on, in a device
 *   store VADDR SIZE VALUE   the CPU stores
 *   load VADDR SIZE VALUE    the CPU has loaded this value
 *   dma ADDR WORD            another device writes
 *   clear VADDR              the CPU clears 64 bytes by DC ZVA, of which a plugin sees only that it is executed
 *   anything else            is a line of QEMU's log
 * Built with VALUES it offers qemu_plugin_mem_get_value, as QEMU does from 9.2 on, and no qemu_plugin_n_vcpus.
 */
#include <dlfcn.h>
#include <fcntl.h>
#include <inttypes.h>
#include <stdbool.h>
#include <stdio.h>
#include <stdlib.h>
#include <string.h>
#include <sys/mman.h>
#include <unistd.h>

enum { PAGE = 4096, PAGES = 64, STORE = 8 };
#define DEVICE 0x100000000ull

struct info { const char *target; struct { int min, cur; } version; bool system; struct { int smp, max; } cpus; };
struct value { int type; union { uint8_t u8; uint16_t u16; uint32_t u32; uint64_t u64; struct { uint64_t low, high; } both; } data; };
typedef void (*translated)(uint64_t id, void *block);
typedef void (*moved)(unsigned cpu, uint32_t info, uint64_t vaddr, void *data);
typedef void (*ended)(uint64_t id, void *data);
typedef void (*executed)(unsigned cpu, void *data);

static uint64_t ram_pages[PAGES], current, place;
static uint8_t *ram;
static FILE *log_file;
static moved on_move;
static executed on_clear;
static ended on_end;

void qemu_plugin_register_vcpu_mem_cb(void *insn, moved cb, int flags, int rw, void *data) { on_move = cb; }
void qemu_plugin_register_atexit_cb(uint64_t id, ended cb, void *data) { on_end = cb; }
void qemu_plugin_register_vcpu_tb_trans_cb(uint64_t id, translated cb) { cb(id, NULL); }
void qemu_plugin_register_vcpu_insn_exec_cb(void *insn, executed cb, int flags, void *data) { on_clear = cb; }
size_t qemu_plugin_tb_n_insns(const void *block) { return 1; }
void *qemu_plugin_tb_get_insn(const void *block, size_t i) { return NULL; }

/* The one instruction there is: dc zva, x3 */
#ifdef VALUES
size_t qemu_plugin_insn_data(const void *insn, void *to, size_t size)
{
    memcpy(to, "\x23\x74\x0b\xd5", 4);
    return 4;
}
#else
const void *qemu_plugin_insn_data(const void *insn) { return "\x23\x74\x0b\xd5"; }
#endif

unsigned qemu_plugin_mem_size_shift(uint32_t info) { return info & 7; }
bool qemu_plugin_mem_is_store(uint32_t info) { return info & STORE; }
bool qemu_plugin_hwaddr_is_io(const void *hw) { return *(const uint64_t *)hw >= DEVICE; }
uint64_t qemu_plugin_hwaddr_phys_addr(const void *hw) { return *(const uint64_t *)hw % DEVICE; }

void *qemu_plugin_get_hwaddr(uint32_t info, uint64_t vaddr)
{
    place = ram_pages[vaddr / PAGE % PAGES] + vaddr % PAGE;
    return &place;
}

void qemu_plugin_outs(const char *text)
{
    fputs(text, log_file);
    fflush(log_file);
}

#ifdef VALUES
struct value qemu_plugin_mem_get_value(uint32_t info)
{
    struct value v = { .type = info & 7, .data.u64 = current };
    return v;
}
#else
int qemu_plugin_n_vcpus(void) { return 1; }
#endif

static void move(bool is_store, uint64_t vaddr, unsigned size, uint64_t value)
{
    current = value;
    for (unsigned i = 0; is_store && i < size; i++) {
        uint64_t at = ram_pages[(vaddr + i) / PAGE % PAGES] + (vaddr + i) % PAGE;
        if (at < DEVICE)
            ram[at] = value >> 8 * i;
    }
    on_move(0, __builtin_ctz(size) | (is_store ? STORE : 0), vaddr, NULL);
}

static void follow(const char *line)
{
    uint64_t a, b, c;
    if (sscanf(line, "map %" SCNx64 " %" SCNx64, &a, &b) == 2)
        ram_pages[a / PAGE % PAGES] = b;
    else if (sscanf(line, "store %" SCNx64 " %" SCNx64 " %" SCNx64, &a, &b, &c) == 3)
        move(true, a, b, c);
    else if (sscanf(line, "load %" SCNx64 " %" SCNx64 " %" SCNx64, &a, &b, &c) == 3)
        move(false, a, b, c);
    else if (sscanf(line, "dma %" SCNx64 " %" SCNx64, &a, &b) == 2)
        memcpy(ram + a, &b, 4);
    else if (sscanf(line, "clear %" SCNx64, &a) == 1) {
        on_clear(0, NULL);
        memset(ram + ram_pages[a / PAGE % PAGES] + a % PAGE, 0, 64);
    } else
        qemu_plugin_outs(line);
}

int main(int argc, char **argv)
{
    static char line[512], from[512], to[512];
    char *arguments[] = { from, to, "history=6" };
    if (argc != 5)
        return 2;
    int fd = open(argv[2], O_RDWR);
    ram = mmap(NULL, PAGES * PAGE, PROT_READ | PROT_WRITE, MAP_SHARED, fd, 0);
    log_file = fopen(argv[3], "w");
    void *plugin = dlopen(argv[1], RTLD_NOW);
    FILE *script = fopen(argv[4], "r");
    if (ram == MAP_FAILED || !log_file || !plugin || !script)
        return 2;
    int (*install)(uint64_t, const struct info *, int, char **) = dlsym(plugin, "qemu_plugin_install");
    struct info info = { "aarch64", { 0, 1 }, true, { 1, 1 } };
    snprintf(from, sizeof from, "ram=%s", argv[2]);
    snprintf(to, sizeof to, "log=%s", argv[3]);
    for (uint64_t i = 0; i < PAGES; i++)
        ram_pages[i] = i * PAGE;
    if (install(1, &info, 3, arguments))
        return 3;
    fprintf(log_file, "version %d\n", *(int *)dlsym(plugin, "qemu_plugin_version"));
    while (fgets(line, sizeof line, script))
        if (line[0] != '#')
            follow(line);
    on_end(1, NULL);
    return 0;
}
