#include <stdarg.h>
#include <stdio.h>
#include "log.h"

void say(const char *who, const char *format, ...)
{
    char text[1024];
    va_list list;
    va_start(list, format);
    vsnprintf(text, sizeof text, format, list);
    va_end(list);
    fprintf(stderr, "hostiledisk-vhost: %s%s%s\n", who ? who : "", who ? ": " : "", text);
}
