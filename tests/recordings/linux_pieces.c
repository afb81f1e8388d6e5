/* In the guest of the Linux recordings: read_pieces DISK TIMES reads the first 4 MB of a disk at once, so many times, past the page cache, into
   pages of which no two that follow each other lie so in the machine's memory: each is a piece of its own, to which a TRB leads. */
#define _GNU_SOURCE
#include <fcntl.h>
#include <stdio.h>
#include <stdlib.h>
#include <sys/mman.h>
#include <unistd.h>

enum { PAGE = 4096, PAGES = 1024 };

/* Memory comes in its order where pages are first written to: here every second page, then those between them */
static char *scattered(void)
{
    char *pages = mmap(NULL, PAGES * PAGE, PROT_READ | PROT_WRITE, MAP_PRIVATE | MAP_ANONYMOUS, -1, 0);

    if (pages == MAP_FAILED || madvise(pages, PAGES * PAGE, MADV_NOHUGEPAGE))
        return NULL;
    for (int first = 0; first < 2; first++)
        for (int i = first; i < PAGES; i += 2)
            pages[i * PAGE] = 1;
    return pages;
}

int main(int count, char **words)
{
    int disk = count > 2 ? open(words[1], O_RDONLY | O_DIRECT) : -1;
    char *pages = scattered();

    if (disk < 0 || !pages) {
        perror("read_pieces");
        return 1;
    }
    for (int times = atoi(words[2]); times > 0; times--)
        printf("%zd bytes\n", pread(disk, pages, PAGES * PAGE, 0));
    return 0;
}
