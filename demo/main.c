// ./run's program. Its one argument is the image file that it makes.
#include <signal.h>
#include <stdio.h>
#include <string.h>
#include <unistd.h>
#include "demo.h"

static void ends(int sig)
{
    const char *text = sig == SIGALRM ? "\nFAILED: the device doesn't come back\n" : "\nFAILED: a byte outside the lent slices was touched\n";
    if (write(1, text, strlen(text)) < 0) _exit(2);
    _exit(1);
}

int main(int count, char **arguments)
{
    if (count != 2) return fprintf(stderr, "usage: %s NEW-IMAGE-FILE\n", arguments[0]), 2;
    signal(SIGSEGV, ends), signal(SIGBUS, ends), signal(SIGALRM, ends);
    make_world(arguments[1]);
    printf("The disk image: a page of the host's own, our disk of %d sectors, the neighbour's of %d.\n", SECTORS,
           (IMAGE - OURS_END) / HD_SECTOR_BYTES);
    printf("For each line every byte of the image and of guest memory is compared with what it should be; for the noise at the end\n"
           "every byte outside our disk and the guest's memory.\n");
    honest_guest();
    attacks_on_rings();
    racing_guest();
    attacks_on_set_up();
    spoilt_words();
    noisy_guest();
    if (failed) printf("\n%u of %u lines FAILED\n", failed, shown);
    else printf("\n%u lines, all as promised\n", shown);
    return failed != 0;
}
