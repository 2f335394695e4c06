/* Clients of HTTP servers, many in one process, each with one connection and one request at a time:

     clients [--kept] pages PATH SECONDS CLIENTS HOST:PORT..       a page, again and again
     clients [--kept] [--at-once] commits EDITOR SECONDS CLIENTS HOST:PORT..
                                                                   a command is posted, and then its receipt asked for until it is known; it is
                                                                   posted again where the server may have lost it: one that ended, or took a second
     clients [--kept] puts WORD SECONDS CLIENTS HOST:PORT..        etcd's: a value of as many bytes, by its HTTP gateway, each under a key of its own
     clients [--kept] fill EDITOR COUNT CLIENTS HOST:PORT..        so many commands, each posted until it is taken
     clients [--kept] burst EDITOR COUNT 0 HOST:PORT..             so many commands at each server at once, until each receipt stands at every server

   The clients take the servers in turn. Each request has a fresh connection; with --kept it goes over the one before, while the server lets that stay.
   With --at-once the post of a command and the question for its receipt go out in one write, on one connection, so that a commit may take one round
   trip. Only a receipt that is not there yet is asked for again, by itself.
   It prints one line, and fails where a server answers what it should not, or something is not done two minutes after it began, or after the time was up. */
#define _GNU_SOURCE
#include <arpa/inet.h>
#include <errno.h>
#include <math.h>
#include <netinet/tcp.h>
#include <poll.h>
#include <stdbool.h>
#include <stdio.h>
#include <stdlib.h>
#include <string.h>
#include <sys/socket.h>
#include <time.h>
#include <unistd.h>

enum { CLIENTS = 1024, LOOKERS = 8, BYTES = 81 };
enum kind { PAGES, COMMITS, PUTS, FILL, LOOK };

static const double ASKS_AGAIN = 0.0005, POSTS_AGAIN = 0.01, LOOKS_AGAIN = 0.02, LOST = 1, LONGEST = 60; /* seconds */

struct client {
    const struct sockaddr_in *host;
    int place, socket;     /* the socket is -1 where no connection is open */
    bool used, asks;       /* the connection has had an answer; the command is posted, and its receipt asked for */
    bool both;             /* the answer to the post is awaited, and after it that to the question for the receipt */
    long number;           /* of the command, or whatever it is at */
    double began, posted;  /* when that began, and when it was last taken */
    double due;            /* when the next request goes out: 0 while one is under way */
    char out[512];
    size_t size, sent;     /* of the request */
    char head[2048];
    long came, length;     /* of the answer: bytes that came, and all of it, once its head is there */
    int status;
    double pause;          /* until the post is made again, if the first answer of two says that it was not taken; else 0 */
    bool last;             /* the answer says that it is the connection's last */
};

static enum kind kind;
static bool kept, at_once;
static const char *word;
static struct sockaddr_in hosts[CLIENTS];
static int host_count;
static struct client clients[CLIENTS];
static int active;
static long next, count, opened, missing;
static double start, end;
static double *times;
static long done, room;

static double now(void) {
    struct timespec t;
    clock_gettime(CLOCK_MONOTONIC, &t);
    return t.tv_sec + t.tv_nsec / 1e9;
}

static void fail(const char *what, int status) {
    fprintf(stderr, "clients: %s (%d)\n", what, status);
    exit(1);
}

/* ---- what a client does: one thing after another, each by a request or more */

/* goes on to the next thing, if there is one */
static bool begins(struct client *c) {
    if (kind == LOOK) c->number += c->number ? LOOKERS : c->place / host_count + 1;
    else c->number = ++next;
    c->asks = kind == LOOK;
    c->began = c->due = now();
    return kind == FILL || kind == LOOK ? c->number <= count : c->due < end;
}

static void write_question(struct client *c) {
    c->size += sprintf(c->out + c->size, "GET /_ticket/%.20s/%ld HTTP/1.1\r\nHost: a\r\n%s\r\n", word, c->number, kept ? "" : "Connection: close\r\n");
}

static void write_request(struct client *c) {
    c->both = at_once && kind == COMMITS && !c->asks;
    c->size = 0;
    const char *close = kept || c->both ? "" : "Connection: close\r\n";
    const char *text = "put data d\n{\"text\":\"xxxxxxxxxxxxxxxxxxxxxxxxxxxxxxxxxxxxxxxxxxxxxxxxxxxxxxxxxxx\"}";
    char body[256];
    if (kind == PAGES) c->size = sprintf(c->out, "GET %.200s HTTP/1.1\r\nHost: a\r\n%s\r\n", word, close);
    else if (c->asks) write_question(c);
    else if (kind == PUTS) { /* twelve digits are the base64 of nine bytes, and four letters that of three */
        const int length = sprintf(body, "{\"key\":\"%012ld\",\"value\":\"%0*d\"}", c->number, BYTES / 3 * 4, 0);
        c->size = sprintf(c->out, "POST /v3/kv/put HTTP/1.1\r\nHost: a\r\n%sContent-Length: %d\r\n\r\n%s", close, length, body);
    } else c->size = sprintf(c->out, "POST /_submit/%.20s/%ld HTTP/1.1\r\nHost: a\r\n%sContent-Length: %zu\r\n\r\n%s", word, c->number, close, strlen(text), text);
    if (c->both) write_question(c);
    c->sent = 0;
    c->came = c->length = 0;
}

/* what an answer means: how long until the next request for the same thing, or less than nothing where it is done */
static double understood(struct client *c) {
    const bool ok = c->status == 200;
    if (kind == PAGES || kind == PUTS) { if (!ok) fail("a request was not answered with 200", c->status); return -1; }
    if (c->asks && kind == LOOK && !ok && now() - start > LONGEST) { missing++; return -1; }
    if (c->asks && ok) return -1;
    if (kind == LOOK) return LOOKS_AGAIN;
    if (c->asks) { c->asks = now() - c->posted < LOST; return ASKS_AGAIN; }
    if (c->status == 503) return POSTS_AGAIN;
    if (!ok && c->status != 202) fail("a command was not taken", c->status);
    c->asks = true;
    c->posted = now();
    return kind == FILL ? -1 : 0;
}

static void note(double seconds) {
    if (done == room && !(times = realloc(times, (room = 2 * room + 1024) * sizeof *times))) fail("out of memory", 0);
    times[done++] = seconds;
}

/* goes on behind something that is done */
static void go_on(struct client *c) {
    if (begins(c)) return;
    if (c->socket >= 0) close(c->socket);
    c->socket = -1;
    c->due = INFINITY;
    active--;
}

/* ---- its connection */

static void drop(struct client *c) {
    close(c->socket);
    c->socket = -1;
}

static void finish(struct client *c) {
    const double pause = c->pause > 0 ? c->pause : understood(c), t = now();
    c->pause = 0;
    c->used = true;
    if (!kept || c->last) drop(c);
    c->due = t + pause;
    if (pause < 0) { note(t - c->began); go_on(c); }
}

/* The answer to the post is there, and that to the question for the receipt comes after it. If the post was not taken, the second answer is of no use. */
static void go_on_to_second(struct client *c) {
    c->pause = understood(c);
    c->used = true;
    c->both = false;
    c->came = c->length = 0;
}

/* the connection failed, or ended within an answer. One that stayed may have been closed meanwhile: a fresh one is opened at once. */
static void broken(struct client *c, int why) {
    const bool again = c->used && !c->came;
    drop(c);
    c->pause = 0;
    if (kind == COMMITS && !again) c->asks = false;
    if (!again && (kind == PAGES || kind == PUTS)) fail("a connection failed", why);
    c->due = again ? now() : now() + POSTS_AGAIN;
}

static void send_rest(struct client *c) {
    const ssize_t n = send(c->socket, c->out + c->sent, c->size - c->sent, MSG_NOSIGNAL);
    if (n >= 0) c->sent += n;
    else if (errno != EAGAIN) broken(c, errno);
}

static void send_request(struct client *c) {
    const int one = 1;
    write_request(c);
    c->due = 0;
    if (c->socket < 0) {
        c->socket = socket(AF_INET, SOCK_STREAM | SOCK_NONBLOCK, 0);
        if (c->socket < 0) fail("no socket", errno);
        setsockopt(c->socket, IPPROTO_TCP, TCP_NODELAY, &one, sizeof one);
        c->used = false;
        opened++;
        if (connect(c->socket, (const struct sockaddr *)c->host, sizeof *c->host) < 0 && errno != EINPROGRESS) { broken(c, errno); return; }
    }
    send_rest(c);
}

/* the head of an answer, once it is whole */
static void read_head(struct client *c) {
    char *behind = strstr(c->head, "\r\n\r\n"), *field;
    if (!behind) { if (c->came >= (long)sizeof c->head - 1) fail("the head of an answer is too long", 0); return; }
    *behind = 0;
    field = strcasestr(c->head, "\r\nContent-Length:");
    c->status = atoi(c->head + 9);
    c->last = strcasestr(c->head, "\r\nConnection: close");
    c->length = behind + 4 - c->head + (field ? atol(field + 17) : 0);
}

static bool is_whole(const struct client *c) { return c->length && c->came == c->length; }

/* takes in what is of the present answer: how many of these bytes */
static long take(struct client *c, const char *bytes, long n) {
    if (!c->length) {
        const long free = sizeof c->head - 1 - c->came, taken = n < free ? n : free, before = c->came;
        memcpy(c->head + before, bytes, taken);
        c->head[before + taken] = 0;
        c->came += taken;
        read_head(c);
        c->came = before;
    }
    const long rest = c->length - c->came, taken = c->both && c->length && rest < n ? rest : n;
    c->came += taken;
    return taken;
}

static void receive(struct client *c) {
    static char bytes[65536];
    const ssize_t n = recv(c->socket, bytes, sizeof bytes, 0);
    if (n < 0) { if (errno != EAGAIN) broken(c, errno); return; }
    for (long at = 0; at < n;) {
        at += take(c, bytes + at, n - at);
        if (c->both && is_whole(c)) { if (c->last) c->both = false; else go_on_to_second(c); }
    }
    /* whole, and where the server closes the connection closed by it, so that no port of a client waits */
    if (is_whole(c) && (n == 0 || (kept && !c->last))) finish(c);
    else if (n == 0) broken(c, 0);
}

/* so many clients, until each has nothing more to do */
static void run(enum kind what, int many) {
    static struct pollfd ready[CLIENTS];
    kind = what;
    next = 0;
    active = many;
    for (int i = 0; i < many; i++) {
        clients[i] = (struct client){.host = &hosts[i % host_count], .place = i, .socket = -1};
        go_on(&clients[i]);
    }
    while (active) {
        const double t = now();
        double wait = 1;
        for (int i = 0; i < many; i++) {
            struct client *c = &clients[i];
            if (isfinite(c->due) && t - (c->began > end ? c->began : end) > 2 * LONGEST) fail("something took two minutes", 0);
            if (c->due <= t && c->due) send_request(c);
            if (c->due && c->due - t < wait) wait = c->due > t ? c->due - t : 0;
            ready[i] = (struct pollfd){c->due ? -1 : c->socket, c->sent < c->size ? POLLOUT : POLLIN, 0};
        }
        const struct timespec time = {wait >= 1, wait < 1 ? (long)(wait * 1e9) : 0};
        ppoll(ready, many, &time, 0);
        for (int i = 0; i < many; i++)
            if (ready[i].revents) { if (clients[i].sent < clients[i].size) send_rest(&clients[i]); else receive(&clients[i]); }
    }
}

/* ---- figures */

static int less(const void *a, const void *b) { return (*(double *)a > *(double *)b) - (*(double *)a < *(double *)b); }

static double at(double part) {
    const long place = done * part;
    return times[place < done ? place : done - 1] * 1e3;
}

static void print_figures(void) {
    const double took = now() - start;
    if (!done) fail("nothing was done", 0);
    qsort(times, done, sizeof *times, less);
    printf("%.0f a second, p50 %.2f ms, p99 %.2f ms; %ld in %.1f s over %ld connections\n", done / took, at(0.5), at(0.99), done, took, opened);
}

static void burst(void) {
    const long each = count;
    if ((count = each * host_count) > CLIENTS) fail("too many posts", 0);
    run(FILL, count);
    const double posted = now() - start;
    run(LOOK, LOOKERS * host_count);
    printf("%ld commands posted after %.2f s, ", count, posted);
    if (missing) printf("%ld receipts missing after %.2f s\n", missing, now() - start);
    else printf("known everywhere after %.2f s\n", now() - start);
}

static struct sockaddr_in address(char *text) {
    char *colon = strrchr(text, ':');
    struct sockaddr_in a = {.sin_family = AF_INET};
    if (!colon) fail(text, 0);
    *colon = 0;
    a.sin_port = htons(atoi(colon + 1));
    if (inet_pton(AF_INET, text, &a.sin_addr) != 1) fail(text, 0);
    return a;
}

int main(int words, char **w) {
    for (; words > 1 && w[1][0] == '-'; w++, words--) {
        if (!strcmp(w[1], "--kept")) kept = true;
        else if (!strcmp(w[1], "--at-once")) at_once = true;
        else fail(w[1], 0);
    }
    if (words < 6) { fputs("usage: clients [--kept] [--at-once] pages|commits|puts|fill|burst WORD SECONDS|COUNT CLIENTS HOST:PORT..\n", stderr); return 2; }
    const int many = atoi(w[4]);
    word = w[2];
    host_count = words - 5;
    if (many > CLIENTS || host_count > CLIENTS / LOOKERS) fail("too many clients", many);
    for (int i = 0; i < host_count; i++) hosts[i] = address(w[5 + i]);
    start = now();
    count = atol(w[3]);
    end = start + atof(w[3]);
    if (!strcmp(w[1], "burst")) { burst(); return 0; }
    if (!strcmp(w[1], "pages")) run(PAGES, many);
    else if (!strcmp(w[1], "commits")) run(COMMITS, many);
    else if (!strcmp(w[1], "puts")) run(PUTS, many);
    else if (!strcmp(w[1], "fill")) run(FILL, many);
    else fail(w[1], 0);
    print_figures();
    return 0;
}
