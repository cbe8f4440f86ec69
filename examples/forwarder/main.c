/* SPDX-License-Identifier: MIT */
/* A DNS forwarder over UDP and TCP, IPv4 and IPv6, as an example of the C library. README.md
   has the path of a query, and `--help` lists the options.

   main.c       threads, each of which polls all listening sockets, and what is done with a query
   options.c    the command line
   clients.c    the sockets of clients: queries come in, replies go out
   addresses.h  addresses of both families
   dns.c        messages: queries are read, replies are written, responses are judged
   answers.c    the cache: what is answered from it, and what is stored
   fetch.c      queries to upstreams, and the clients that wait for them
   shares.c     the memory that each client may have kept for it
   counters.c   what is counted, and the line that is logged every minute */
#include <fcntl.h>
#include <malloc.h>
#include <signal.h>
#include <stdio.h>
#include <stdlib.h>
#include <sys/resource.h>
#include <unistd.h>

#include "answers.h"
#include "clients.h"
#include "fetch.h"
#include "options.h"

enum { BURST = 64, TICK_MS = 50, TRIM_OCTETS = 1 << 17, LEAST_SHARED = 1 << 20 };
enum { STACK_OCTETS = 1 << 21 }; /* of a thread */
/* The places of each thread, if there are enough descriptors. Each thread has one more descriptor
   for a connection that has no place yet. The other descriptors are for standard input, output and
   error, and for what the C library opens. */
enum { MOST_FETCHES = 200, MOST_CONNECTIONS = 64, LEAST_PLACES = 4, OTHER_DESCRIPTORS = 6 };

struct worker {
    pthread_t thread;
    struct fetcher fetcher;
    struct clients clients;
    struct pollfd *polled; /* listeners, connections and fetches */
};

static struct worker workers[MOST_THREADS];
static atomic_bool is_over;

/* ---- Queries. */

/* Answers a question from the cache, or lets the query wait for a fetch if RD is set. If that fetch
   ended after the look-up, the question is fetched again. If a query may not wait and gets no stale
   answer, it tries once more, because malloc may have failed. */
static void answer(struct worker *worker, const struct asker *asker)
{
    const struct question *question = &asker->query.question;
    struct reply reply;
    bool wants_fetch = asker->query.flags[0] & 1;
    enum rrcache_kind kind =
        look_up(question, wants_fetch ? RRCACHE_STALE_IF_FAILED : RRCACHE_NO_STALE, &reply);
    if (kind == RRCACHE_MISS && wants_fetch) {
        if (await_fetch(&worker->fetcher, asker))
            return;
        kind = look_up(question, RRCACHE_STALE_NOW, &reply);
        if (kind == RRCACHE_MISS && await_fetch(&worker->fetcher, asker))
            return;
    }
    bool is_refused = !wants_fetch && (kind == RRCACHE_MISS || kind == RRCACHE_FAILED);
    if (is_refused)
        refuse(&reply, REFUSED);
    send_reply(asker, &reply, is_refused ? TURNED_AWAY : counter_of(kind));
}

static void take(struct worker *worker, struct asker *asker, const uint8_t *octets, size_t size)
{
    struct reply reply;
    struct question *question = &asker->query.question;
    enum rcode rcode = read_query(octets, size, &asker->query);
    count(QUERIES, 1);
    if (rcode == NOERROR && question->class == RRCACHE_IN) {
        question->hash = hash_of(question->name, question->size);
        answer(worker, asker);
        return;
    }
    refuse(&reply, rcode);
    if (rcode == NOERROR)
        identify(question, &reply);
    send_reply(asker, &reply, TURNED_AWAY);
}

static void take_datagrams(struct worker *worker, int sock)
{
    uint8_t octets[MOST_QUERY];
    struct asker asker;
    size_t size;
    for (int i = 0; i < BURST && take_datagram(sock, octets, &size, &asker); i++)
        if (size != 0)
            take(worker, &asker, octets, size);
}

static void take_messages(struct worker *worker, size_t place)
{
    uint8_t octets[MOST_QUERY];
    struct asker asker;
    size_t size;
    while ((size = take_message(&worker->clients, place, octets, &asker)) != 0)
        take(worker, &asker, octets, size);
}

/* ---- Threads. */

/* Waits until something can be done. If poll fails, for example because the limit of descriptors
   was lowered, everything is tried at intervals. */
static void wait_for_work(struct worker *worker, size_t size)
{
    if (poll(worker->polled, size, TICK_MS) >= 0 || errno == EINTR)
        return;
    for (size_t i = 0; i < size; i++)
        if (worker->polled[i].fd >= 0)
            worker->polled[i].revents = worker->polled[i].events;
    nanosleep(&(struct timespec){.tv_nsec = TICK_MS * 1000000L}, NULL);
}

/* Does what can be done. Fetches come first, because clients may wait for them. */
static void work_once(struct worker *worker)
{
    size_t connections = worker->clients.places;
    struct pollfd *of_fetches = worker->polled + listener_count + connections;
    poll_clients(&worker->clients, worker->polled, milliseconds());
    poll_fetches(&worker->fetcher, of_fetches);
    wait_for_work(worker, listener_count + connections + worker->fetcher.places);
    uint64_t now = milliseconds();
    tend_fetches(&worker->fetcher, of_fetches, now);
    tend_connections(&worker->clients, worker->polled, now);
    for (size_t i = 0; i < listener_count; i += 2)
        if (worker->polled[i].revents != 0)
            take_datagrams(worker, worker->polled[i].fd);
    for (size_t i = 0; i < connections; i++)
        take_messages(worker, i);
}

/* Works until the process ends. The thread itself ends its fetches, because the stack of the main
   thread may be too small for a reply. Other threads may still run then, as when a fetch ends at
   any other time. */
static void *work(void *of_thread)
{
    struct worker *worker = of_thread;
    while (!is_over)
        work_once(worker);
    free_fetcher(&worker->fetcher);
    return NULL;
}

static bool make_worker(struct worker *worker, size_t descriptors)
{
    size_t connections = descriptors / 4;
    if (connections > MOST_CONNECTIONS)
        connections = MOST_CONNECTIONS;
    size_t fetches = descriptors - connections - 1;
    if (fetches > MOST_FETCHES)
        fetches = MOST_FETCHES;
    worker->polled = calloc(listener_count + connections + fetches, sizeof *worker->polled);
    return worker->polled != NULL && make_clients(&worker->clients, connections)
           && make_fetcher(&worker->fetcher, fetches);
}

/* Starts a thread. The size of its stack does not depend on the limit of the process (`ulimit -s`),
   which may be too small for some replies. */
static bool begin(struct worker *worker)
{
    pthread_attr_t attributes;
    if (pthread_attr_init(&attributes) != 0)
        return false;
    bool has_begun = pthread_attr_setstacksize(&attributes, STACK_OCTETS) == 0
                     && pthread_create(&worker->thread, &attributes, work, worker) == 0;
    pthread_attr_destroy(&attributes);
    return has_begun;
}

/* Starts the threads, or as many of them as there are descriptors and memory for, and returns the
   number of threads started. */
static size_t start(size_t threads)
{
    struct rlimit limit;
    size_t others = OTHER_DESCRIPTORS + listener_count, started = 0;
    if (getrlimit(RLIMIT_NOFILE, &limit) != 0 || limit.rlim_cur < others + LEAST_PLACES) {
        errno = EMFILE;
        return 0;
    }
    size_t left = limit.rlim_cur - others;
    if (threads > left / LEAST_PLACES)
        threads = left / LEAST_PLACES;
    while (started < threads && make_worker(&workers[started], left / threads)
           && begin(&workers[started]))
        started++;
    return started;
}

/* Ends the threads. Each of them sends its last replies on connections of any thread, so no
   connection is freed before all threads have ended. */
static void stop(size_t started)
{
    is_over = true;
    for (size_t i = 0; i < started; i++)
        pthread_join(workers[i].thread, NULL);
    for (size_t i = 0; i < started; i++) {
        free_clients(&workers[i].clients);
        free(workers[i].polled);
    }
}

/* ---- The process. */

/* Sweeps the cache once a second, and prints counters, until a signal ends the process. */
static void keep_house(const sigset_t *signals, const struct options *options)
{
    uint64_t logged = milliseconds();
    for (int signal = -1; signal != SIGTERM && signal != SIGINT;) {
        struct rrcache_swept swept;
        signal = sigtimedwait(signals, NULL, &(struct timespec){.tv_sec = 1});
        rrcache_sweep_all(cache, 0, UINT64_MAX, &swept);
        if (signal == SIGUSR1)
            print_counters();
        uint64_t seconds = (milliseconds() - logged) / 1000;
        if (options->is_quiet || seconds < options->seconds)
            continue;
        log_counters(seconds);
        logged = milliseconds();
    }
}

/* Blocks the signals for which the process waits, in all threads that start later. */
static bool block_signals(sigset_t *signals)
{
    signal(SIGPIPE, SIG_IGN); /* the reader of standard output or error may be gone */
    sigemptyset(signals);
    sigaddset(signals, SIGUSR1);
    sigaddset(signals, SIGTERM);
    sigaddset(signals, SIGINT);
    return pthread_sigmask(SIG_BLOCK, signals, NULL) == 0;
}

/* Opens standard input, output and error if they are closed. Otherwise sockets would get their
   numbers, and the lines of the log would be sent to a client. */
static bool open_standard_files(void)
{
    bool is_open = true;
    for (int file = 0; file <= STDERR_FILENO && is_open; file++)
        is_open = fcntl(file, F_GETFD) >= 0 || open("/dev/null", O_RDWR) == file;
    return is_open;
}

int main(int argc, char **argv)
{
    struct options options;
    sigset_t signals;
    size_t started = 0;
    read_options(argc, argv, &options);
    mallopt(M_TRIM_THRESHOLD, TRIM_OCTETS); /* otherwise this threshold grows, and freed memory is
                                               kept */
    set_upstreams(options.upstream, options.upstreams);
    most_shared = options.octets / 4 < LEAST_SHARED ? LEAST_SHARED : options.octets / 4;
    if (open_standard_files() && block_signals(&signals)
        && open_cache(options.octets, &options.identity)
        && open_listeners(options.listener, options.listeners))
        started = start(options.threads);
    if (started == 0) {
        perror("forwarder");
        return 1;
    }
    for (size_t i = 0; i < options.listeners; i++)
        printf("port %u\n", ntohs(options.listener[i].port));
    fflush(stdout);
    keep_house(&signals, &options);
    stop(started);
    print_counters();
    rrcache_close(cache);
    return 0;
}
