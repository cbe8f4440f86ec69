/* SPDX-License-Identifier: MIT */
/* watched.h: reports the locks of lib/ to helgrind, because helgrind knows only the locks of
   pthreads. The test that runs under helgrind defines WATCHED. Otherwise nothing is reported. */
#ifndef WATCHED_H
#define WATCHED_H

#ifdef WATCHED
#include <valgrind/helgrind.h>
#define WATCH_TAKEN(lock, writes) ANNOTATE_RWLOCK_ACQUIRED((lock), (writes))
#define WATCH_LEFT(lock)          ANNOTATE_RWLOCK_RELEASED((lock), 0)
/* For numbers that threads share without a lock: each access to them is atomic. */
#define WATCH_NO(numbers, size) VALGRIND_HG_DISABLE_CHECKING((numbers), (size))
#else
#define WATCH_TAKEN(lock, writes) ((void)0)
#define WATCH_LEFT(lock)          ((void)0)
#define WATCH_NO(numbers, size)   ((void)0)
#endif

#endif
