/* SPDX-License-Identifier: MIT */
#include "shares.h"

#include <stdlib.h>

#include "answers.h"

uint64_t most_shared;
_Atomic uint64_t shared_octets;
static _Atomic uint64_t octets_of[CLIENTS];

/* The address becomes a name, because names are hashed under a secret seed. The hash ignores the
   case of letters, so each octet of the address becomes two octets of the name, neither of which is
   a letter. Otherwise 192.0.2.65 and 192.0.2.97 would be one client. */
unsigned client_at(const union address *address)
{
    bool is_six = address->family == AF_INET6;
    const uint8_t *octets =
        is_six ? address->six.sin6_addr.s6_addr : (const uint8_t *)&address->four.sin_addr.s_addr;
    uint8_t name[18] = {is_six ? 16 : 8}; /* the size of the only label */
    for (size_t i = 0; i < name[0]; i++)
        name[1 + i] = i % 2 == 0 ? octets[i / 2] >> 4 : octets[i / 2] & 15;
    return (unsigned)(hash_of(name, name[0] + 2u) % CLIENTS);
}

/* The octets are counted before the bound is checked, so the bound holds even if several threads
   take octets at once. */
void *take_share(unsigned client, size_t size)
{
    uint64_t own = atomic_fetch_add(&octets_of[client], size) + size;
    uint64_t all = atomic_fetch_add(&shared_octets, size) + size;
    bool is_spent = all > most_shared || own > most_shared - all;
    void *memory = is_spent ? NULL : malloc(size);
    if (memory == NULL)
        give_back(client, NULL, size);
    return memory;
}

void give_back(unsigned client, void *memory, size_t size)
{
    octets_of[client] -= size;
    shared_octets -= size;
    free(memory);
}
