// The output: a line for each thing shown.
#include <stdio.h>
#include <unistd.h>
#include "demo.h"

enum { PATIENCE = 600 };  // seconds for a line; after that SIGALRM says that the device doesn't come back

unsigned shown, failed;

void title(const char *text)
{
    printf("\n%s\n", text);
    alarm(PATIENCE);
}

void show(const char *name, const char *deed, const char *answered, const char *problem)
{
    shown++;
    failed += problem != NULL;
    printf("  %-25s %-66s %-33s ", name, deed, answered);
    if (problem) printf("FAILED: %s\n", problem);
    else printf("neighbour untouched\n");
    fflush(stdout);
    alarm(PATIENCE);
}
