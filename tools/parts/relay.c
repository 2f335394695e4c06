/* A bad or long network between UDP sockets on loopback: `relay SEED LOSS REPEAT DELAY [WAY] < pairs`, each
   line of standard input `FROM TO PLAIN`, two ports, and 1 where no packet of several datagrams goes that way, as
   a node that is built by the formats alone reads and sends none. What comes in at port FROM goes out to port
   TO: LOSS of 100 datagrams not at all, REPEAT of 100 twice, and each after WAY milliseconds, or none, and 0 to DELAY more, so
   that datagrams overtake one another. It prints `ready`, and runs until SIGTERM; then it prints a line `FROM came
   DATAGRAMS bytes BYTES` for each pair, and how many came in all, were lost, repeated and sent. */
#include <arpa/inet.h>
#include <poll.h>
#include <signal.h>
#include <stdint.h>
#include <stdio.h>
#include <stdlib.h>
#include <string.h>
#include <sys/socket.h>
#include <time.h>
#include <unistd.h>

enum { LONGEST = 65536, PAIRS = 128, WAITING = 16384, PACKET = 3 /* its first byte */ };

struct datagram { double due; int pair; size_t length; char *bytes; };

static int sockets[PAIRS], plain[PAIRS], pairs;
static struct sockaddr_in targets[PAIRS];
static struct datagram heap[WAITING]; /* the least due time at 0 */
static int waiting;
static long came, lost, repeated, sent, came_by[PAIRS], bytes_by[PAIRS];
static int ports[PAIRS];
static uint64_t state;
static volatile sig_atomic_t ended;

static void end(int signal) { (void)signal; ended = 1; }

static double now(void) {
    struct timespec t;
    clock_gettime(CLOCK_MONOTONIC, &t);
    return t.tv_sec * 1e3 + t.tv_nsec / 1e6;
}

/* splitmix64 (Steele, Lea, Flood 2014): 0 to below - 1 */
static uint64_t random_below(uint64_t below) {
    uint64_t z = state += 0x9e3779b97f4a7c15u;
    z = (z ^ z >> 30) * 0xbf58476d1ce4e5b9u;
    z = (z ^ z >> 27) * 0x94d049bb133111ebu;
    return (z ^ z >> 31) % below;
}

static void swap(int a, int b) { struct datagram d = heap[a]; heap[a] = heap[b]; heap[b] = d; }

static void put(int pair, const char *bytes, size_t length, int way, int delay) {
    struct datagram d = {now() + way + random_below(delay + 1), pair, length, malloc(length + 1)};
    if (!d.bytes || waiting == WAITING) { free(d.bytes); lost++; return; }
    memcpy(d.bytes, bytes, length);
    heap[waiting] = d;
    for (int at = waiting++; at && heap[at].due < heap[(at - 1) / 2].due; at = (at - 1) / 2) swap(at, (at - 1) / 2);
}

static void send_first(void) {
    struct datagram d = heap[0];
    heap[0] = heap[--waiting];
    for (int at = 0, less; (less = 2 * at + 1) < waiting; at = less) {
        if (less + 1 < waiting && heap[less + 1].due < heap[less].due) less++;
        if (heap[at].due <= heap[less].due) break;
        swap(at, less);
    }
    if (sendto(sockets[d.pair], d.bytes, d.length, 0, (struct sockaddr *)&targets[d.pair], sizeof targets[d.pair]) >= 0) sent++;
    free(d.bytes);
}

static struct sockaddr_in at(int port) {
    struct sockaddr_in a = {.sin_family = AF_INET, .sin_port = htons(port), .sin_addr = {htonl(INADDR_LOOPBACK)}};
    return a;
}

int main(int count, char **words) {
    if (count != 5 && count != 6) {
        fputs("usage: relay SEED LOSS REPEAT DELAY [WAY] < pairs\n", stderr);
        return 2;
    }
    state = strtoull(words[1], 0, 10);
    const uint64_t loss = strtoull(words[2], 0, 10), repeat = strtoull(words[3], 0, 10);
    const int delay = atoi(words[4]), way = count == 6 ? atoi(words[5]) : 0;
    for (int from, to, is_plain; scanf("%d %d %d", &from, &to, &is_plain) == 3; pairs++) {
        const struct sockaddr_in here = at(from);
        if (pairs == PAIRS) { fputs("relay: too many pairs\n", stderr); return 1; }
        ports[pairs] = from;
        targets[pairs] = at(to);
        plain[pairs] = is_plain;
        sockets[pairs] = socket(AF_INET, SOCK_DGRAM | SOCK_NONBLOCK, 0);
        if (sockets[pairs] < 0 || bind(sockets[pairs], (const struct sockaddr *)&here, sizeof here) < 0) { perror("relay: bind"); return 1; }
    }
    signal(SIGTERM, end);
    signal(SIGINT, end);
    puts("ready");
    fflush(stdout);
    while (!ended) {
        static char bytes[LONGEST];
        struct pollfd ready[PAIRS];
        for (int i = 0; i < pairs; i++) ready[i] = (struct pollfd){sockets[i], POLLIN, 0};
        double wait = waiting ? heap[0].due - now() : 100;
        poll(ready, pairs, wait <= 0 ? 0 : (int)wait + 1);
        for (int i = 0; i < pairs; i++)
            for (ssize_t length; ready[i].revents & POLLIN && (length = recv(sockets[i], bytes, sizeof bytes, 0)) >= 0;) {
                came++;
                came_by[i]++;
                bytes_by[i] += length;
                const int is_read = !plain[i] || length == 0 || bytes[0] != PACKET;
                if (random_below(100) < loss || !is_read) { lost++; continue; }
                put(i, bytes, length, way, delay);
                if (random_below(100) < repeat) { repeated++; put(i, bytes, length, way, delay); }
            }
        while (waiting && heap[0].due <= now()) send_first();
    }
    for (int i = 0; i < pairs; i++) printf("%d came %ld bytes %ld\n", ports[i], came_by[i], bytes_by[i]);
    printf("came %ld lost %ld repeated %ld sent %ld\n", came, lost, repeated, sent);
    return 0;
}
