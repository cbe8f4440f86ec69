/* SPDX-License-Identifier: MIT */
/* The version of the library that a program is linked with. It is not written in Rattle:
   bin/build-c links it together with the proved functions. */
#include "rrcache_shelf.h"

uint32_t rrc_version(void)
{
    return RRCACHE_VERSION;
}
