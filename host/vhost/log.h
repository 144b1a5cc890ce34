// One line for each thing that a person should know, on standard error.
#ifndef VHOST_LOG_H
#define VHOST_LOG_H

__attribute__((format(printf, 2, 3))) void say(const char *who, const char *format, ...);  // who: a disk's socket, or NULL

#endif
