/* SPDX-License-Identifier: MIT */
/* options.h: the command line. */
#pragma once

#include "answers.h"
#include "clients.h"
#include "fetch.h"

enum { MOST_THREADS = 64 };

struct options {
    bool is_quiet;
    uint64_t seconds, threads, octets;
    struct identity identity;
    size_t listeners, upstreams;
    union address listener[MOST_LISTENERS], upstream[MOST_UPSTREAMS];
};

/* Reads the command line. If it is wrong, or asks for help or the version, the process ends. */
void read_options(int argc, char **argv, struct options *options);
