/* Hostile input for the built programs: `fuzz SEED SECONDS SITERENDER SITESIM SITED FOLDER`; tools/storms/fuzz starts it.
   Case k of a seed is the same whenever it is run. Each kind of input has its turn: commands (templates and data among them), schedules, record files,
   requests, datagrams. A case fails where a program ends by a signal, takes longer than 10 seconds, wants more memory than its bound, or answers
   something that it has no name for, or where a node refuses the record that it wrote itself; its input is then kept in FOLDER. The bound is 256 MB of
   addresses, or MEGABYTES if set; 0 is none. The last line is `N passed, M failed`. */
#define _GNU_SOURCE
#include <arpa/inet.h>
#include <errno.h>
#include <fcntl.h>
#include <poll.h>
#include <signal.h>
#include <stdint.h>
#include <stdio.h>
#include <stdlib.h>
#include <string.h>
#include <sys/prctl.h>
#include <sys/resource.h>
#include <sys/socket.h>
#include <sys/stat.h>
#include <sys/wait.h>
#include <time.h>
#include <unistd.h>

enum { ROOM = 1 << 20, SECONDS = 10 };

static uint64_t seed, state;
static char input[ROOM], out[ROOM], err[ROOM];
static size_t length, out_length, err_length;
static rlim_t megabytes = 256;
static const char *siterender, *sitesim, *sited, *folder;

/* ---- chance */

/* splitmix64 (Steele, Lea, Flood 2014): 0 to below - 1 */
static uint64_t chance(uint64_t below) {
    uint64_t z = state += 0x9e3779b97f4a7c15u;
    z = (z ^ z >> 30) * 0xbf58476d1ce4e5b9u;
    z = (z ^ z >> 27) * 0x94d049bb133111ebu;
    return (z ^ z >> 31) % below;
}

static void add(const void *bytes, size_t count) {
    if (count > ROOM - length) count = ROOM - length;
    memcpy(input + length, bytes, count);
    length += count;
}

static void text(const char *s) { add(s, strlen(s)); }

static void many(const char *s, size_t times) { while (times--) text(s); }

#define SOME(words) words[chance(sizeof words / sizeof *words)]

/* so many times out of ten */
static int mostly(unsigned tenths) { return chance(10) < tenths; }

static size_t some_length(void) {
    static const size_t edges[] = {0, 1, 7, 63, 64, 65, 127, 128, 129, 200, 201, 4096, 8192, 32740, 32768, 32769, 40000, 40001, 60000};
    return mostly(3) ? SOME(edges) : chance(40);
}

static const char *some_number(void) {
    static const char *const numbers[] = {"0", "1", "2", "3", "9", "10", "01", "-1", "+1", "255", "256", "1000000", "1000001", "4294967295", "4294967296", "18446744073709551615", "18446744073709551616", "99999999999999999999999999", "0x1", "1e3", "", " "};
    return mostly(6) ? numbers[1 + chance(4)] : SOME(numbers);
}

/* changes some bytes of the input from a place on */
static void spoil(size_t from, unsigned times) {
    while (times-- && length > from) {
        const size_t at = from + chance(length - from);
        switch (chance(5)) {
        case 0: input[at] = (char)chance(256); break;
        case 1: input[at] ^= (char)(1 << chance(8)); break;
        case 2: memmove(input + at, input + at + 1, length - at - 1); length--; break;
        case 3: length = at; break;
        case 4: {
            size_t count = chance(64) + 1;
            if (count > length - at) count = length - at;
            if (count > ROOM - length) return;
            memmove(input + at + count, input + at, length - at);
            length += count;
        }
        }
    }
}

/* ---- running a program */

static int keeps(const char *kind, uint64_t number, const char *why) {
    char name[4096];
    snprintf(name, sizeof name, "%s/%s.%llu", folder, kind, (unsigned long long)number);
    FILE *file = fopen(name, "wb");
    if (file) { fwrite(input, 1, length, file); fclose(file); }
    printf("FAILED %s, case %llu: %s; input in %s\n", kind, (unsigned long long)number, why, name);
    return 0;
}

static double now(void) {
    struct timespec t;
    clock_gettime(CLOCK_MONOTONIC, &t);
    return t.tv_sec + t.tv_nsec / 1e9;
}

static void bounded(void) {
    const struct rlimit memory = {megabytes << 20, megabytes << 20}, none = {0, 0};
    if (megabytes) setrlimit(RLIMIT_AS, &memory);
    setrlimit(RLIMIT_CORE, &none);
}

/* starts a program with pipes: its number, and its three ends */
static pid_t started(char *const words[], int ends[3]) {
    int in[2], o[2], e[2];
    if (pipe2(in, O_CLOEXEC) || pipe2(o, O_CLOEXEC) || pipe2(e, O_CLOEXEC)) { perror("fuzz: pipe"); exit(2); }
    const pid_t pid = fork();
    if (pid < 0) { perror("fuzz: fork"); exit(2); }
    if (!pid) {
        dup2(in[0], 0); dup2(o[1], 1); dup2(e[1], 2);
        signal(SIGPIPE, SIG_DFL);
        prctl(PR_SET_PDEATHSIG, SIGKILL);
        bounded();
        execv(words[0], words);
        _exit(127);
    }
    close(in[0]); close(o[1]); close(e[1]);
    ends[0] = in[1]; ends[1] = o[0]; ends[2] = e[0];
    for (int i = 0; i < 3; i++) fcntl(ends[i], F_SETFL, O_NONBLOCK);
    return pid;
}

static int drain(int fd, char *room, size_t *count) {
    char rest[4096];
    for (;;) {
        const size_t left = ROOM - 1 - *count;
        const ssize_t n = left ? read(fd, room + *count, left) : read(fd, rest, sizeof rest);
        if (n > 0) { if (left) *count += n; continue; }
        return n < 0 && errno == EAGAIN;
    }
}

/* the status of a run over the input (without `feeds` it gets none), -1 for a signal and -2 where it took too long */
static int status_of(char *const words[], int feeds) {
    int ends[3], open[3] = {1, 1, 1}, status;
    size_t fed = feeds ? 0 : length;
    const pid_t pid = started(words, ends);
    const double last = now() + SECONDS;
    out_length = err_length = 0;
    while (open[1] || open[2]) {
        struct pollfd p[3] = {{open[0] ? ends[0] : -1, POLLOUT, 0}, {open[1] ? ends[1] : -1, POLLIN, 0}, {open[2] ? ends[2] : -1, POLLIN, 0}};
        if (now() > last) { kill(pid, SIGKILL); waitpid(pid, &status, 0); for (int i = 0; i < 3; i++) if (open[i]) close(ends[i]); return -2; }
        poll(p, 3, 1000);
        if (open[0] && p[0].revents) {
            const ssize_t n = fed < length ? write(ends[0], input + fed, length - fed) : 0;
            if (n > 0) fed += n;
            if (fed == length || (n < 0 && errno != EAGAIN)) { close(ends[0]); open[0] = 0; }
        }
        if (open[1] && p[1].revents && !drain(ends[1], out, &out_length)) { close(ends[1]); open[1] = 0; }
        if (open[2] && p[2].revents && !drain(ends[2], err, &err_length)) { close(ends[2]); open[2] = 0; }
    }
    if (open[0]) close(ends[0]);
    waitpid(pid, &status, 0);
    out[out_length] = err[err_length] = 0;
    return WIFEXITED(status) ? WEXITSTATUS(status) : -1;
}

/* ---- commands for siterender */

static void some_template(void) {
    static const char *const pieces[] = {"{{", "}}", "{{#", "{{/", "{{^", "{{>", "{{&", "{{{", "}}}", "{{=", "=}}", "{{!", "{{a}}", "{{#l}}", "{{/l}}", "{{.}}", "{{a.b}}", "{{>p}}", "  {{>p}}\n", "{{=<% %>=}}", "<%a%>", "<%={{ }}=%>", ".", "a", "l", "b.c", " ", "\t", "\n", "\r\n", "\r", "<", "&", "\"", "\xc3\xa9", "\xff", "-", "=", "|", "}", "{"};
    for (size_t left = chance(30); left; left--) text(SOME(pieces));
    if (mostly(1)) many(mostly(5) ? "{{#l}}" : "{{>p}}", chance(70));
    if (mostly(1)) many(mostly(5) ? "x" : "\n", some_length());
}

static void some_data(void) {
    static const char *const pieces[] = {"{", "}", "[", "]", ",", ":", "\"a\"", "\"l\":", "\"a\":", "1", "-0", "-1", "1.5", "1e999", "1E2", "true", "false", "null", "\"", "\\", "\\u0000", "\\ud800", "\\udc00", "\"\\u00e9\"", "9223372036854775807", "18446744073709551616", " ", "\n", "\xff", "nul", "[1,2,3]", "{\"a\":{\"b\":1}}"};
    if (mostly(4)) { text("{\"a\":\"<x>\",\"l\":["); for (size_t n = chance(60); n; n--) text(n > 1 ? "1," : "{\"a\":2}"); text("]}"); }
    else for (size_t left = chance(20); left; left--) text(SOME(pieces));
    if (mostly(1)) { const size_t depth = 100 + chance(60); many("[", depth); if (mostly(7)) many("]", depth); }
}

static void some_command(void) {
    static const char *const heads[] = {"put template ", "put partial ", "put data ", "remove template ", "remove partial ", "remove data ", "remove route ", "put route ", "release", "put ", "remove", " put template ", "PUT data "};
    static const char *const names[] = {"t", "p", "d", "a/b", "A-Z_0.9", "", " ", "t t", "/", "/x", "/_a", "/@1", "/\x7f", "nnnnnnnnnnnnnnnnnnnnnnnnnnnnnnnnnnnnnnnnnnnnnnnnnnnnnnnnnnnnnnnnn"};
    const unsigned kind = chance(14);
    if (kind < 3) { text("put template t\n"); some_template(); }
    else if (kind < 5) { text("put partial p\n"); some_template(); }
    else if (kind < 8) { text("put data d\n"); some_data(); }
    else if (kind < 9) text("put route / t d\n");
    else if (kind < 11) text("release\n");
    else { text(SOME(heads)); text(SOME(names)); if (mostly(3)) text(SOME(names)); text("\n"); if (mostly(3)) some_template(); }
}

/* a command behind a line with its ticket and length; now and then another length */
static void framed(const char *before) {
    char line[128];
    const size_t at = length;
    static char body[ROOM];
    some_command();
    if (mostly(1)) spoil(at, 1 + chance(3));
    const size_t count = length - at;
    memcpy(body, input + at, count);
    length = at;
    snprintf(line, sizeof line, "%s%d %d %zu\n", before, mostly(9) ? 1 : (int)chance(3), (int)chance(1000), mostly(9) ? count : count + chance(3));
    text(line);
    add(body, count);
}

/* nothing, or one line that names a record */
static int is_why(const char *rest) { return !*rest || (!strncmp(rest, "record ", 7) && strchr(rest, '\n') == rest + strlen(rest) - 1); }

/* the line that a program says of a fault: PREFIX, digits, and one of these; a server may say why behind it */
static int is_line(const char *prefix, const char *const *ends, size_t count) {
    const char *rest = err;
    const size_t front = strlen(prefix);
    if (!strncmp(err, prefix, front)) { rest = err + front; rest += strspn(rest, "0123456789"); }
    for (size_t i = 0; i < count; i++) {
        const size_t n = strlen(ends[i]);
        if (!strncmp(rest, ends[i], n) && (ends[i][n - 1] != '\n' || is_why(rest + n))) return 1;
    }
    return 0;
}

/* a line of a server that is none of a fault (docs/OPERATING.md) */
static int is_note(const char *line) {
    static const char *const notes[] = {"opened: ", "caught up to instance ", "no majority heard for ", "a majority is heard again, ", "datagrams that are no message: ",
        "silent connections closed for ", "all 64 connections wait "};
    for (size_t i = 0; i < sizeof notes / sizeof *notes; i++) if (!strncmp(line, notes[i], strlen(notes[i]))) return 1;
    return !strncmp(line, "node ", 5) && line[5] >= '1' && line[5] <= '9';
}

/* what a server said but those at the front of it: its length */
static size_t without_notes(char *said, size_t count) {
    const char *rest = said;
    said[count] = 0;
    for (const char *end; is_note(rest) && (end = strchr(rest, '\n')); rest = end + 1) {}
    count -= (size_t)(rest - said);
    memmove(said, rest, count + 1);
    return count;
}

static const char *judged(int status, const char *prefix, const char *const *ends, size_t count, int prints_with_one) {
    if (status == -1) return "a signal";
    if (status == -2) return "more than 10 seconds";
    if (strstr(err, "out of memory")) return "more memory than its bound";
    if (status == 0) return err_length ? "status 0 with a fault" : 0;
    if (status != 1) return "another status";
    if (!err_length) return prints_with_one ? 0 : "no line of a fault";
    return is_line(prefix, ends, count) ? 0 : "another line than those of faults";
}

static const char *commands(void) {
    static const char *const lines[] = {": framing\n", ": 1 TooLong\n", ": 2 Form\n", ": 3 Name\n", ": 4 Path\n", ": 5 Template ", ": 6 Data 1 NotJson\n", ": 6 Data 2 NotWhole\n", "no release\n"};
    char *const words[] = {(char *)siterender, "/", 0};
    if (mostly(5)) text("1 2000 20\nput data d\n{\"a\":\"<\"}1 2001 16\nput route / t d\n");
    for (size_t left = 1 + chance(12); left; left--) framed("");
    if (mostly(8)) text("1 3000 8\nrelease\n");
    if (mostly(1)) spoil(0, 1 + chance(4));
    return judged(status_of(words, 1), "input ", lines, sizeof lines / sizeof *lines, 1);
}

/* ---- schedules for sitesim */

static const char *schedules(void) {
    static const char *const lines[] = {": bad line\n", ": bad event\n"};
    static const char *const events[] = {"tick", "ask", "restart", "show"};
    char name[4096], line[256];
    snprintf(name, sizeof name, "%s/schedule", folder);
    char *const words[] = {(char *)sitesim, name, 0};
    const int nodes = mostly(9) ? 1 + (int)chance(9) : (int)chance(300);
    snprintf(line, sizeof line, "nodes %d\n", nodes);
    text(line);
    for (size_t left = chance(60); left; left--) {
        const int p = mostly(9) ? 1 + (int)chance(nodes ? nodes : 1) : (int)chance(12);
        switch (chance(9)) {
        case 0: snprintf(line, sizeof line, "submit %d ", p); framed(line); text("\n"); break;
        case 1: text(chance(4) ? "settle\n" : "trace\n"); break;
        case 2: snprintf(line, sizeof line, "deliver %d %d\n", p, (int)chance(40)); text(line); break;
        case 3: snprintf(line, sizeof line, "arm %d %d\n", p, (int)chance(12)); text(line); break;
        case 4: snprintf(line, sizeof line, "crash %d %d\nrestart %d\n", p, (int)chance(256), p); text(line); break;
        case 5: snprintf(line, sizeof line, "get %d %s /\n", p, some_number()); text(line); break;
        case 6: snprintf(line, sizeof line, "replace %d %d\n", p, 63 + (int)chance(80)); text(line); break;
        default: snprintf(line, sizeof line, "%s %d\n", SOME(events), p); text(line);
        }
    }
    if (mostly(1)) spoil(0, 1 + chance(4));
    FILE *file = fopen(name, "wb");
    if (!file || fwrite(input, 1, length, file) != length || fclose(file)) { perror("fuzz: schedule"); exit(2); }
    return judged(status_of(words, 0), "line ", lines, sizeof lines / sizeof *lines, 0);
}

/* ---- a node that runs */

static char record[4096], old[ROOM];
static size_t old_length;
static int http_port, udp_port;
static pid_t node;
static int node_ends[3];
static char said[ROOM]; /* what it said but its notes */
static size_t said_length;
static unsigned long ended; /* how many nodes ended by a fault that forged messages account for */
static unsigned long sent, reopened; /* datagrams; nodes that were started again over their record */

static int free_port(int kind) {
    struct sockaddr_in a = {.sin_family = AF_INET, .sin_addr = {htonl(INADDR_LOOPBACK)}};
    socklen_t n = sizeof a;
    const int s = socket(AF_INET, kind, 0);
    if (s < 0 || bind(s, (struct sockaddr *)&a, sizeof a) || getsockname(s, (struct sockaddr *)&a, &n)) { perror("fuzz: bind"); exit(2); }
    close(s);
    return ntohs(a.sin_port);
}

static void end_node(void) {
    if (!node) return;
    kill(node, SIGKILL);
    waitpid(node, 0, 0);
    for (int i = 0; i < 3; i++) close(node_ends[i]);
    node = 0;
}

/* reads what the node said: it waits where nobody does */
static void hear_node(void) {
    drain(node_ends[2], said, &said_length);
    said_length = without_notes(said, said_length);
}

/* starts a node over the record that is there, or over a new one: whether it is ready */
static int opens_node(void) {
    char http[64], own[64], other[64];
    http_port = free_port(SOCK_STREAM);
    udp_port = free_port(SOCK_DGRAM);
    snprintf(http, sizeof http, "127.0.0.1:%d", http_port);
    snprintf(own, sizeof own, "127.0.0.1:%d", udp_port);
    snprintf(other, sizeof other, "127.0.0.1:%d", free_port(SOCK_DGRAM));
    char *const words[] = {(char *)sited, "--id", "1", "--record", record, "--http", http, "--rounds", "4294967295", "--format", own, other, other, 0};
    node = started(words, node_ends);
    said_length = 0;
    char line[64] = "";
    for (int k = 0; k < 1000 && read(node_ends[1], line, sizeof line - 1) <= 0; k++) usleep(10000);
    return !strncmp(line, "node 1 ready", 12);
}

static void start_node(void) {
    unlink(record);
    if (!opens_node()) { fprintf(stderr, "fuzz: sited does not start\n"); exit(2); }
}

/* the node runs, or it ended by a fault that forged messages account for, be it within so many milliseconds; then another one is started */
static const char *node_stands(int patience) {
    static const char *const lines[] = {"node: 7 RoundsUsedUp\n", "node: 8 Conflict\n"};
    int status;
    hear_node();
    while (waitpid(node, &status, WNOHANG) == 0) {
        if (patience-- <= 0) return 0;
        usleep(1000);
    }
    ended++;
    hear_node();
    memcpy(err, said, said_length + 1);
    err_length = said_length;
    for (int i = 0; i < 3; i++) close(node_ends[i]);
    node = 0;
    const char *why = judged(WIFEXITED(status) ? WEXITSTATUS(status) : -1, "-", lines, 2, 0);
    start_node();
    return why;
}

/* what comes back on a connection of its own; -1 where nobody answers */
static ssize_t answer(void) {
    const struct sockaddr_in to = {.sin_family = AF_INET, .sin_port = htons(http_port), .sin_addr = {htonl(INADDR_LOOPBACK)}};
    const struct timeval patience = {SECONDS, 0};
    const int s = socket(AF_INET, SOCK_STREAM | SOCK_CLOEXEC, 0);
    out_length = 0;
    setsockopt(s, SOL_SOCKET, SO_RCVTIMEO, &patience, sizeof patience);
    setsockopt(s, SOL_SOCKET, SO_SNDTIMEO, &patience, sizeof patience);
    if (connect(s, (const struct sockaddr *)&to, sizeof to)) { close(s); return -1; }
    for (size_t fed = 0; fed < length;) {
        const size_t piece = mostly(7) ? length - fed : 1 + chance(length - fed);
        const ssize_t n = send(s, input + fed, piece, MSG_NOSIGNAL);
        if (n <= 0) break;
        fed += n;
    }
    shutdown(s, SHUT_WR);
    for (ssize_t n; out_length < ROOM - 1;) {
        n = recv(s, out + out_length, ROOM - 1 - out_length, 0);
        if (n > 0) { out_length += n; continue; }
        if (n < 0 && errno == EAGAIN) { close(s); return -1; }
        break;
    }
    close(s);
    out[out_length] = 0;
    return out_length;
}

/* ---- requests */

/* one whole response at this place, and nothing behind the last one; *at goes on behind it */
static const char *well_answered_at(char **at) {
    static const char *const firsts[] = {"200 OK", "202 Accepted", "301 Moved Permanently", "400 Bad Request", "404 Not Found", "405 Method Not Allowed", "413 Content Too Large", "414 URI Too Long", "422 Unprocessable Content", "431 Request Header Fields Too Large", "500 Internal Server Error", "501 Not Implemented", "503 Service Unavailable"};
    static const char *const closing[] = {"400", "413", "414", "431", "501"};
    char *const here = *at, *const end = out + out_length;
    if (strncmp(here, "HTTP/1.1 ", 9)) return "no status line";
    size_t k = 0;
    for (; k < sizeof firsts / sizeof *firsts; k++) { const size_t n = strlen(firsts[k]); if (!strncmp(here + 9, firsts[k], n) && !strncmp(here + 9 + n, "\r\n", 2)) break; }
    if (k == sizeof firsts / sizeof *firsts) return "another status";
    char *body = memmem(here, end - here, "\r\n\r\n", 4), *said = strstr(here, "\r\nContent-Length: "), *closes = strstr(here, "\r\nConnection: close\r\n");
    if (!body || !said || said > body) return "a head that is not whole";
    const int last = closes && closes < body + 2;
    for (k = 0; k < sizeof closing / sizeof *closing; k++) if (!last && !strncmp(here + 9, closing[k], 3)) return "a connection that stays behind a refusal";
    body += 4;
    const size_t rest = end - body, size = strtoul(said + 18, 0, 10);
    /* to HEAD there is no body */
    *at = !rest || !strncmp(body, "HTTP/1.1 ", 9) ? body : rest < size ? 0 : body + size;
    if (!*at || (last && *at < end)) return "a body of another length";
    return 0;
}

static const char *well_answered(void) {
    const char *why = 0;
    for (char *at = out; !why && at && at < out + out_length;) why = well_answered_at(&at);
    return why;
}

static void some_body(void) {
    static const char *const sizes[] = {"0", "1", "5", "a", "ffffffffffffffff", "10000000000000000", "9c40", "9c41", "", "5;x=y", "0x5", "-1", " 5"};
    if (mostly(5)) { some_command(); return; }
    for (size_t left = chance(5); left; left--) { text(SOME(sizes)); text(mostly(9) ? "\r\n" : "\n"); text("hello"); text(mostly(9) ? "\r\n" : ""); }
    if (mostly(5)) text("0\r\n\r\n");
}

static const char *requests(void) {
    static const char *const methods[] = {"GET", "HEAD", "POST", "PUT", "get", "", "G\x01T", "OPTIONS"};
    static const char *const targets[] = {"/", "/@1/", "/@0/", "/@01/", "/_newest", "/_submit/1/1", "/_submit/4294967295/18446744073709551615", "/_submit/1", "/_ticket/1/1", "*", "http://a/x?y", "http://", "a:80", "/%", "/%2", "/%41%ff", "/a#b", "/\xc3\xa9", "//", "", "/_", "/@", "/?"};
    static const char *const versions[] = {"HTTP/1.1", "HTTP/1.0", "HTTP/2.0", "HTTP/1.", "", "HTTP/1.1 x"};
    static const char *const fields[] = {"Host: a", "Host: b", "Host:", "Content-Length: 5", "Content-Length: 40001", "Content-Length: 5, 5", "Content-Length: +5", "Content-Length: 99999999999999999999", "Transfer-Encoding: chunked", "Transfer-Encoding: gzip, chunked", "Transfer-Encoding: \"chunked\"", "Transfer-Encoding: ,", "Connection: close", "Expect: 100-continue", "X: y", " folded", "no colon", "\x01: y", "X:\xff"};
    char number[64];
    text(mostly(8) ? methods[chance(3)] : SOME(methods));
    text(" ");
    if (mostly(1)) { text("/"); many("a", some_length()); } else if (mostly(2)) { text("/_submit/7/"); text(some_number()); } else text(SOME(targets));
    text(" ");
    text(mostly(9) ? versions[0] : SOME(versions));
    text(mostly(9) ? "\r\n" : "\n");
    if (mostly(8)) text("Host: a\r\n");
    for (size_t left = mostly(1) ? chance(80) : chance(4); left; left--) { text(SOME(fields)); if (mostly(1)) many("v", some_length()); text(mostly(9) ? "\r\n" : "\n"); }
    if (mostly(4)) { snprintf(number, sizeof number, "Content-Length: %zu\r\n", some_length()); text(number); }
    text("\r\n");
    some_body();
    if (mostly(2)) spoil(0, 1 + chance(4));
    const unsigned long before = ended;
    const char *why = answer() < 0 ? "no answer within 10 seconds" : well_answered(), *stands = node_stands(why ? 2000 : 0);
    return stands ? stands : ended > before ? 0 : why;
}

/* ---- datagrams */

static void number_of(uint64_t value, int bytes) { while (bytes--) { const char byte = (char)(value >> 8 * bytes); add(&byte, 1); } }

/* in this batch an instance has one value, so that no two are told of it */
static int alike;

static uint64_t edge(uint64_t below) {
    static const uint64_t edges[] = {0, 1, 2, 3, 255, 256, 1000000, 1000001, 4294967294u, 4294967295u};
    return mostly(8) ? 1 + chance(below) : SOME(edges);
}

static void ballot(void) { number_of(edge(4), 4); number_of(mostly(9) ? 1 + chance(3) : chance(256), 1); }

static void value(uint64_t instance) {
    const size_t at = length;
    const uint64_t kept = state;
    if (alike) state = seed ^ instance << 32;
    number_of(0, 4);
    if (mostly(8)) { number_of(chance(3), 4); number_of(alike ? instance : chance(50), 8); some_command(); }
    else many("z", some_length());
    if (alike) state = kept;
    const size_t count = length - at - 4;
    for (int i = 0; i < 4; i++) input[at + i] = (char)((mostly(9) ? count : count + 1) >> 8 * (3 - i));
}

static void datagram(void) {
    const int kind = mostly(9) ? 1 + (int)chance(7) : (int)chance(256);
    const uint64_t instance = edge(alike ? 60 : 4);
    const int spans = kind == 1 && chance(2);
    number_of(mostly(9) ? 1 + (uint64_t)spans : chance(256), 1);
    number_of(kind, 1);
    number_of(mostly(9) ? 1 + chance(3) : chance(256), 1);
    number_of(instance, 4);
    if (kind != 6 && kind != 7) ballot();
    if (kind == 2) { const int prior = mostly(5); number_of(prior, 1); if (prior) { ballot(); value(instance); } }
    if (kind == 5) ballot();
    if (spans) { static const uint64_t counts[] = {0, 1, 63, 64, 65, 255}; number_of(mostly(8) ? 2 + chance(20) : SOME(counts), 1); }
    if (kind == 3 || kind == 4 || kind == 7) value(instance);
    if (mostly(alike ? 0 : 2)) spoil(0, 1 + chance(3));
}

/* a packet of some of them, each behind its length, and now and then a wrong one */
static void packet(void) {
    number_of(mostly(9) ? 3 : chance(256), 1);
    for (uint64_t many = chance(9); many; many--) {
        const size_t front = length;
        number_of(0, 4);
        datagram();
        const size_t size = (length > front + 4 ? length - front - 4 : 0) + !mostly(9);
        for (int k = 0; k < 4 && front + k < length; k++) input[front + k] = (char)(size >> 8 * (3 - k));
    }
}

static const char *datagrams(void) {
    const struct sockaddr_in to = {.sin_family = AF_INET, .sin_port = htons(udp_port), .sin_addr = {htonl(INADDR_LOOPBACK)}};
    const int s = socket(AF_INET, SOCK_DGRAM | SOCK_CLOEXEC, 0);
    alike = mostly(7);
    for (int k = 0; k < 50; k++) {
        length = 0;
        if (mostly(6)) datagram(); else packet();
        if (sendto(s, input, length < 65000 ? length : 65000, 0, (const struct sockaddr *)&to, sizeof to) >= 0) sent++;
    }
    close(s);
    length = 0;
    text("GET /_newest HTTP/1.1\r\nHost: a\r\n\r\n");
    const unsigned long before = ended;
    const char *why = answer() < 0 ? "no answer within 10 seconds" : well_answered(), *stands = node_stands(why ? 2000 : 0);
    if (stands || ended > before) return stands;
    if (why || chance(5)) return why;
    end_node();
    reopened++;
    if (opens_node()) return 0;
    end_node();
    start_node();
    return "its own record is refused";
}

/* ---- record files */

static const char *records(void) {
    /* the last where a spoiled round is the greatest, and the lap lasts for longer than the patience */
    static const char *const lines[] = {"record: 1 Device\n", "record: 3 NotARecord\n", "record: 4 WrongNode\n", "record: 6 Damaged\n", "node: 7 RoundsUsedUp\n"};
    char name[4096];
    snprintf(name, sizeof name, "%s/record.spoiled", folder);
    char *const words[] = {(char *)sited, "--id", "1", "--record", name, "--http", "127.0.0.1:0", "--rounds", "1", "127.0.0.1:0", "127.0.0.1:9", "127.0.0.1:9", 0};
    add(old, old_length);
    spoil(mostly(5) ? 10 : 0, 1 + chance(4));
    FILE *file = fopen(name, "wb");
    if (!file || fwrite(input, 1, length, file) != length || fclose(file)) { perror("fuzz: record"); exit(2); }
    const int status = status_of(words, 0);
    err_length = without_notes(err, err_length);
    const char *why = judged(status, "-", lines, sizeof lines / sizeof *lines, 0);
    if (!why && !err_length && strcmp(out, "node 1 ready\nrounds done\n")) return "prints something else";
    return why;
}

/* a record to spoil: that of a node which heard datagrams */
static void make_record(void) {
    start_node();
    for (int k = 0; k < 20; k++) datagrams();
    FILE *file = fopen(record, "rb");
    old_length = file ? fread(old, 1, 20000, file) : 0;
    if (file) fclose(file);
}

int main(int count, char **words) {
    /* of a hundred cases, so many below `until` */
    static const struct { const char *name; const char *(*run)(void); unsigned until; } kinds[] = {{"commands", commands, 40}, {"schedules", schedules, 60}, {"records", records, 80}, {"requests", requests, 98}, {"datagrams", datagrams, 100}};
    enum { KINDS = sizeof kinds / sizeof *kinds };
    unsigned long passed[KINDS] = {0}, failed = 0, all = 0;
    if (count != 7) { fputs("usage: fuzz SEED SECONDS SITERENDER SITESIM SITED FOLDER\n", stderr); return 2; }
        const double end = now() + atof(words[2]);
    siterender = words[3]; sitesim = words[4]; sited = words[5]; folder = words[6];
    if (getenv("MEGABYTES")) megabytes = strtoull(getenv("MEGABYTES"), 0, 10);
    signal(SIGPIPE, SIG_IGN);
    snprintf(record, sizeof record, "%s/record", folder);
    state = seed = strtoull(words[1], 0, 10);
    make_record();
    for (uint64_t k = 0; now() < end && failed < 20; k++) {
        int kind = 0;
        state = seed * 1000003 + k;
        length = 0;
        for (const unsigned at = chance(100); at >= kinds[kind].until;) kind++;
        const char *why = kinds[kind].run();
        if (why) { failed++; keeps(kinds[kind].name, k, why); } else passed[kind]++;
    }
    end_node();
    printf("%lu datagrams ended %lu nodes; %lu were started again over their record\n", sent, ended, reopened);
    for (int i = 0; i < KINDS; i++) { printf("ok     %s: %lu\n", kinds[i].name, passed[i]); all += passed[i]; }
    printf("%lu passed, %lu failed\n", all, failed);
    return failed != 0;
}
