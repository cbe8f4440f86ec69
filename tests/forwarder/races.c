/* SPDX-License-Identifier: MIT */
/* races.c: what ThreadSanitizer is not to tell of, in a program that is compiled for it. It sees no
   count of owners in the library, which is atomic and decides who frees data last: that may be
   another thread than the one that reads them. */
const char *__tsan_default_suppressions(void);

const char *__tsan_default_suppressions(void)
{
    return "race_top:free$\n";
}
