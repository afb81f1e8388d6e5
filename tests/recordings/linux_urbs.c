/* In the guest of the Linux recordings: takes an interface of a device from its driver and does through usbfs what drivers seldom do.
     urbs cancel NODE  a keyboard: queues transfers and takes some back while they are under way, the one that the controller is at too
     urbs grow NODE    a disk: queues more TRBs than the endpoint's ring has room for
     urbs fill NODE ENQUEUE BEHIND  a keyboard: queues more than its ring has room for when all transfers before a Link are done, and so many behind
                       it; ENQUEUE is the file in which the driver tells where it is in the ring
     urbs break NODE ORDER  a disk or a serial adapter: the same, and takes the transfers back in this order while they are under way
     urbs reset NODE   resets the device, whose drivers keep it */
#include <fcntl.h>
#include <linux/usbdevice_fs.h>
#include <stdio.h>
#include <stdlib.h>
#include <string.h>
#include <sys/ioctl.h>
#include <unistd.h>

enum { IN = 0x81, OUT = 0x02, QUEUE = 6, REPORT = 8, TWO_TRBS = 2 << 16, SET_IDLE = 10, PARTS = 3, PART = 3 << 20, SEGMENT = 256,
       ROOM = 4, SLOW = 250 };

static int device;

/* The process has the interface, and its driver, where it has one, has not */
static int take(void)
{
    struct usbdevfs_ioctl from_driver = {0, USBDEVFS_DISCONNECT, NULL};
    unsigned interface = 0;

    ioctl(device, USBDEVFS_IOCTL, &from_driver);
    return ioctl(device, USBDEVFS_CLAIMINTERFACE, &interface);
}

static struct usbdevfs_urb *submit(unsigned char type, unsigned char endpoint, void *data, int length)
{
    struct usbdevfs_urb *urb = calloc(1, sizeof *urb);
    urb->type = type;
    urb->endpoint = endpoint;
    urb->buffer = data;
    urb->buffer_length = length;
    if (ioctl(device, USBDEVFS_SUBMITURB, urb) < 0)
        perror("submit");
    return urb;
}

/* Waits for one transfer that is over, as done or as taken back */
static void reap(void)
{
    struct usbdevfs_urb *urb;
    if (ioctl(device, USBDEVFS_REAPURB, &urb) < 0)
        perror("reap");
    else
        printf("status %d, %d bytes\n", urb->status, urb->actual_length);
}

/* With a rate above 0 the keyboard reports every so many times 4 ms, with 0 only where a key is pressed */
static void set_idle(int rate)
{
    struct usbdevfs_ctrltransfer request = {0x21, SET_IDLE, rate << 8, 0, 0, 1000, NULL};
    ioctl(device, USBDEVFS_CONTROL, &request);
}

/* Of six transfers, every second one with room for two TRBs, those in `order` are taken back, one after the other; then reports come for the
   others. Behind a stop QEMU goes on with the next transfer: where the one at which it was isn't taken back at once, all are */
static void take_back(const char *order)
{
    static unsigned char reports[QUEUE][TWO_TRBS];
    struct usbdevfs_urb *urbs[QUEUE];

    set_idle(0);
    for (int i = 0; i < QUEUE; i++)
        urbs[i] = submit(USBDEVFS_URB_TYPE_INTERRUPT, IN, reports[i], i % 2 ? TWO_TRBS : REPORT);
    for (; *order; order++) {
        usleep(20000);
        ioctl(device, USBDEVFS_DISCARDURB, urbs[*order - '0']);
    }
    set_idle(5);
    for (int i = 0; i < QUEUE; i++)
        reap();
}

static void cancel(void)
{
    take_back("0");
    take_back("01");
    take_back("401523");
    take_back("012345");
    take_back("543210");
}

/* Reads three parts, all queued at once, of which the second lies over a Link; or takes them back in this order */
static void read_parts(const char *order)
{
    struct usbdevfs_urb *urbs[PARTS];
    static unsigned char parts[PARTS][PART], status[13];
    unsigned length = PARTS * PART, blocks = length / 512;
    unsigned char command[31] = {'U', 'S', 'B', 'C', 1, 0, 0, 0, length, length >> 8, length >> 16, length >> 24, 0x80, 0, 10,
                                 0x28, 0, 0, 0, 0, 0, 0, blocks >> 8, blocks};
    submit(USBDEVFS_URB_TYPE_BULK, OUT, command, sizeof command);
    for (int i = 0; i < PARTS; i++)
        urbs[i] = submit(USBDEVFS_URB_TYPE_BULK, IN, parts[i], PART);
    for (const char *which = order; *which; which++) {
        usleep(20000);
        ioctl(device, USBDEVFS_DISCARDURB, urbs[*which - '0']);
    }
    for (int i = 0; i < PARTS + 1; i++)
        reap();
    if (*order)
        return;
    submit(USBDEVFS_URB_TYPE_BULK, IN, status, sizeof status);
    reap();
}

/* How many TRBs come before the next Link */
static int up_to_link(const char *enqueue)
{
    unsigned long long at = 0;
    FILE *file = fopen(enqueue, "r");

    if (!file || fscanf(file, "%llx", &at) != 1)
        perror(enqueue);
    if (file)
        fclose(file);
    return SEGMENT - 1 - at / 16 % SEGMENT;
}

/* Queues transfers of one TRB each */
static void queue(int transfers)
{
    static unsigned char reports[2 * SEGMENT][REPORT];

    for (int i = 0; i < transfers; i++)
        submit(USBDEVFS_URB_TYPE_INTERRUPT, IN, reports[i], REPORT);
}

static void reap_all(int transfers)
{
    while (transfers--)
        reap();
}

/* Nearly all transfers of two segments are queued; when those before the first one's Link are done, and so many behind it, so many more that the
   segment before that Link is full again, and the ring grows there */
static void fill(const char *enqueue, int behind)
{
    int before = up_to_link(enqueue), segment = SEGMENT - 1;

    printf("%d TRBs up to the Link\n", before);
    queue(before + segment - ROOM);
    set_idle(1);
    reap_all(before - 2);
    set_idle(SLOW);
    reap_all(2 + behind);
    queue(ROOM + segment + ROOM);
    set_idle(1);
    reap_all(segment + segment + ROOM - behind);
}

int main(int count, char **words)
{
    const char *what = count > 2 ? words[1] : "";

    device = count > 2 ? open(words[2], O_RDWR) : -1;
    if (!strcmp(what, "reset")) {
        if (ioctl(device, USBDEVFS_RESET) < 0)
            perror("reset");
    } else if (device < 0 || take()) {
        perror(what);
    } else if (!strcmp(what, "cancel")) {
        cancel();
    } else if (!strcmp(what, "grow")) {
        read_parts(""); /* the ring grows */
        read_parts(""); /* and goes round */
    } else if (!strcmp(what, "fill") && count > 4) {
        fill(words[3], atoi(words[4]));
    } else if (!strcmp(what, "break") && count > 3) {
        read_parts(words[3]);
    }
    return 0;
}
