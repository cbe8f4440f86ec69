/* SPDX-License-Identifier: MIT */
#include "options.h"

#include <getopt.h>
#include <netdb.h>
#include <sched.h>
#include <stdio.h>
#include <stdlib.h>

enum { MINUTE = 60, DAY = 86400, MOST_TEXT = 255, MOST_HOST = 64 };
/* Options that have no letter. */
enum { LISTEN = 256, CACHE_OCTETS, VERSION_TEXT, IDENTITY };

static const uint64_t MEBIBYTE = UINT64_C(1) << 20, MOST_OCTETS = UINT64_C(1) << 46;
static const char USAGE[] =
    "usage: forwarder [OPTION ..] ADDRESS PORT UPSTREAM PORT [UPSTREAM PORT ..]\n"
    "       forwarder --help | --version\n"
    "\n"
    "A DNS forwarder over UDP and TCP. Clients ask it at ADDRESS and PORT (0: a free one),\n"
    "and it asks the upstreams, at most 8, which are resolvers. Addresses are numeric, of\n"
    "IPv4 or IPv6. Who may ask it is for a firewall to say.\n"
    "\n"
    "  --listen ADDRESS@PORT   listens there too, at 8 addresses at most\n"
    "  --octets COUNT          the most memory for what is cached, from 1M on (64M): K, M\n"
    "                          and G stand for KiB, MiB and GiB. Plan for 2.6 times as much\n"
    "                          memory, and a quarter more for what waits for answers\n"
    "  -t, --threads COUNT     so many threads, 1 to 64 (one for each processor)\n"
    "  -l, --log SECONDS       a line on standard error each so many seconds (60)\n"
    "  -q, --quiet             no such line\n"
    "  --version-text TEXT     what version.bind and version.server, of class CH and type\n"
    "                          TXT, are answered with (by default REFUSED)\n"
    "  --identity TEXT         the same of id.server and hostname.bind\n"
    "  -h, --help              prints this\n"
    "  -V, --version           prints the version\n"
    "\n"
    "Standard output has a line `port NUMBER` for each address that it listens on, ADDRESS\n"
    "first. On SIGUSR1, and at its end, all counters are printed there. SIGTERM and SIGINT\n"
    "end it.\n";
static const struct option LONG_OPTIONS[] = {
    {"help", no_argument, NULL, 'h'},
    {"version", no_argument, NULL, 'V'},
    {"quiet", no_argument, NULL, 'q'},
    {"log", required_argument, NULL, 'l'},
    {"threads", required_argument, NULL, 't'},
    {"listen", required_argument, NULL, LISTEN},
    {"octets", required_argument, NULL, CACHE_OCTETS},
    {"version-text", required_argument, NULL, VERSION_TEXT},
    {"identity", required_argument, NULL, IDENTITY},
    {0}};

/* Reads a number in a range. A unit may follow it. Each unit is 1,024 times the one before it. */
static bool read_number(const char *word, const char *units, uint64_t least, uint64_t most,
                        uint64_t *number)
{
    char *behind;
    *number = strtoull(word, &behind, 10);
    const char *unit = *behind == 0 ? NULL : strchr(units, *behind);
    unsigned shift = unit == NULL ? 0 : 10 * (unsigned)(unit - units + 1);
    bool is_whole = *word >= '0' && *word <= '9' && behind[unit != NULL] == 0;
    bool fits = *number <= most >> shift;
    *number <<= shift;
    return is_whole && fits && *number >= least;
}

static bool read_text(const char *word, const char **text)
{
    *text = word;
    return strlen(word) <= MOST_TEXT;
}

static bool read_address(const char *host, const char *port, union address *address)
{
    static const struct addrinfo numeric = {.ai_flags = AI_NUMERICHOST | AI_NUMERICSERV,
                                            .ai_socktype = SOCK_DGRAM};
    struct addrinfo *found = NULL;
    uint64_t number;
    *address = (union address){0};
    if (!read_number(port, "", 0, UINT16_MAX, &number)
        || getaddrinfo(host, port, &numeric, &found) != 0)
        return false;
    bool fits = found->ai_addrlen <= sizeof *address;
    if (fits)
        memcpy(address, found->ai_addr, found->ai_addrlen);
    freeaddrinfo(found);
    return fits;
}

/* Reads one more address to listen on, ADDRESS@PORT. */
static bool read_listener(const char *word, struct options *options)
{
    char host[MOST_HOST] = {0};
    const char *at = strrchr(word, '@');
    if (at == NULL || (size_t)(at - word) >= sizeof host || options->listeners == MOST_LISTENERS)
        return false;
    memcpy(host, word, (size_t)(at - word));
    return read_address(host, at + 1, &options->listener[options->listeners++]);
}

static bool take_option(int option, struct options *options)
{
    uint32_t version = rrcache_version();
    switch (option) {
    case 'h':
        fputs(USAGE, stdout);
        exit(0);
    case 'V':
        printf("forwarder %u.%u.%u\n", version >> 16, version >> 8 & 255, version & 255);
        exit(0);
    case 'q':
        options->is_quiet = true;
        return true;
    case 'l':
        return read_number(optarg, "", 1, DAY, &options->seconds);
    case 't':
        return read_number(optarg, "", 1, MOST_THREADS, &options->threads);
    case LISTEN:
        return read_listener(optarg, options);
    case CACHE_OCTETS:
        return read_number(optarg, "KMG", MEBIBYTE, MOST_OCTETS, &options->octets);
    case VERSION_TEXT:
        return read_text(optarg, &options->identity.version);
    case IDENTITY:
        return read_text(optarg, &options->identity.name);
    default:
        return false;
    }
}

/* Reads one more upstream. What is sent to no port, or to all addresses, has no answer. */
static bool read_upstream(const char *host, const char *port, struct options *options)
{
    union address *address = &options->upstream[options->upstreams++];
    if (!read_address(host, port, address) || address->port == 0)
        return false;
    return address->family == AF_INET6 ? !IN6_IS_ADDR_UNSPECIFIED(&address->six.sin6_addr)
                                       : address->four.sin_addr.s_addr != INADDR_ANY;
}

/* Reads pairs of an address and a port: where the forwarder listens, and the upstreams. */
static bool read_pairs(int count, char **words, struct options *options)
{
    if (count < 4 || count % 2 != 0 || count / 2 - 1 > MOST_UPSTREAMS
        || !read_address(words[0], words[1], &options->listener[0]))
        return false;
    for (int i = 2; i < count; i += 2)
        if (!read_upstream(words[i], words[i + 1], options))
            return false;
    return true;
}

void read_options(int argc, char **argv, struct options *options)
{
    cpu_set_t set;
    bool is_good = true;
    *options = (struct options){.seconds = MINUTE, .octets = 64 * MEBIBYTE};
    options->listeners = 1; /* the first of the pairs */
    options->threads = sched_getaffinity(0, sizeof set, &set) == 0 ? (uint64_t)CPU_COUNT(&set) : 1;
    if (options->threads > MOST_THREADS)
        options->threads = MOST_THREADS;
    for (int option;
         is_good && (option = getopt_long(argc, argv, "hqVl:t:", LONG_OPTIONS, NULL)) != -1;)
        is_good = take_option(option, options);
    if (is_good && read_pairs(argc - optind, argv + optind, options))
        return;
    fputs(USAGE, stderr);
    exit(2);
}
