/* SPDX-License-Identifier: MIT */
/* How much memory a process has. */
#ifndef RESIDENT_H
#define RESIDENT_H

#include <stdint.h>
#include <stdio.h>
#include <stdlib.h>
#include <string.h>

/* The octets of memory of this process, now (VmRSS) or at most (VmHWM); 0 if the system does not
   say. */
static inline uint64_t resident(const char *field)
{
    char line[256];
    uint64_t octets = 0;
    FILE *status = fopen("/proc/self/status", "r");
    if (status == NULL)
        return 0;
    while (fgets(line, sizeof line, status) != NULL)
        if (strncmp(line, field, strlen(field)) == 0)
            octets = 1024 * (uint64_t)strtoul(line + strlen(field) + 1, NULL, 10);
    fclose(status);
    return octets;
}

#endif
