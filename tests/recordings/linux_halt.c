/* In the guest of the Linux recordings: takes the disk from its driver and sends it through usbfs what it must refuse. The device stalls, so the
   bulk OUT endpoint halts; the halt is cleared, as usb-storage does after a stall, and a right command follows. So it goes round by round, and
   the bulk IN endpoint's halt is cleared too, where nothing halted. Then the disk is read until the IN ring's first segment is nearly full, and
   the halt is cleared behind each further command, over the Link. */
#include <fcntl.h>
#include <linux/usbdevice_fs.h>
#include <stdio.h>
#include <string.h>
#include <sys/ioctl.h>
#include <unistd.h>

enum { OUT = 0x02, IN = 0x81, ROUNDS = 6, READS = 12, LAST = 16, BYTES = 1 << 20 };

static unsigned char blocks[BYTES];

static int bulk(int device, unsigned endpoint, void *data, unsigned length)
{
    struct usbdevfs_bulktransfer transfer = {endpoint, length, 2000, data};
    return ioctl(device, USBDEVFS_BULK, &transfer);
}

/* A command of six or ten bytes, the data that it reads, and its status */
static int ask(int device, unsigned char operation, unsigned length)
{
    unsigned char status[13], command[31] = {'U', 'S', 'B', 'C', 1, 0, 0, 0, length, length >> 8, length >> 16, 0, 0x80, 0, 10, operation};
    command[22] = length >> 17; /* in blocks of 512 bytes */
    command[23] = length >> 9;
    if (bulk(device, OUT, command, sizeof command) < 0 || (length && bulk(device, IN, blocks, length) < 0))
        return -1;
    return bulk(device, IN, status, sizeof status);
}

int main(int count, char **words)
{
    int device = open(words[count - 1], O_RDWR);
    struct usbdevfs_ioctl from_driver = {0, USBDEVFS_DISCONNECT, NULL};
    unsigned interface = 0, out = OUT, in = IN;
    unsigned char nonsense[31];

    if (device < 0 || ioctl(device, USBDEVFS_IOCTL, &from_driver) < 0 || ioctl(device, USBDEVFS_CLAIMINTERFACE, &interface) < 0) {
        perror(words[count - 1]);
        return 1;
    }
    memset(nonsense, 'x', sizeof nonsense);
    for (int round = 0; round < ROUNDS; round++) {
        int before = ask(device, 0, 0), refused = bulk(device, OUT, nonsense, sizeof nonsense);
        int cleared = ioctl(device, USBDEVFS_CLEAR_HALT, &out), other = ioctl(device, USBDEVFS_CLEAR_HALT, &in);
        printf("round %d: %d %d %d %d %d\n", round, before, refused, cleared, other, ask(device, 0, 0));
    }
    for (int i = 0; i < READS; i++)
        printf("read %d: %d\n", i, ask(device, 0x28, BYTES));
    for (int i = 0; i < LAST; i++) {
        int asked = ask(device, 0, 0), cleared = ioctl(device, USBDEVFS_CLEAR_HALT, &in);
        printf("last %d: %d %d\n", i, asked, cleared);
    }
    return 0;
}
