/* SPDX-License-Identifier: MIT */
/* shares.h: clients, and the memory that the forwarder keeps for each of them: queries that wait
   for a fetch, messages that arrive for them over TCP, and replies that are not sent yet. All
   clients together have a bound, and one client may have no more than is left for the others: half
   of the bound if it is alone, and a third if another client takes as much. Any thread may make any
   call. */
#pragma once

#include <stdatomic.h>
#include <stdint.h>

#include "addresses.h"

/* A client is an IPv4 address or an IPv6 /64. A hash gives it a number below CLIENTS. */
enum { CLIENTS = 1 << 16 };

extern uint64_t most_shared; /* the bound in octets, set before any thread starts */
extern _Atomic uint64_t shared_octets;

unsigned client_at(const union address *address);

/* Allocates memory of a client's share. Returns NULL if the share is spent or malloc fails. */
void *take_share(unsigned client, size_t size);
void give_back(unsigned client, void *memory, size_t size);
