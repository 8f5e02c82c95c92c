// Clients of the server for load generators: WebSocket messages over blocking sockets on loopback.
#define _GNU_SOURCE
#include <arpa/inet.h>
#include <errno.h>
#include <netinet/tcp.h>
#include <stdbool.h>
#include <stdint.h>
#include <stdio.h>
#include <stdlib.h>
#include <string.h>
#include <sys/epoll.h>
#include <sys/resource.h>
#include <sys/socket.h>
#include <time.h>
#include <unistd.h>

enum { MOST_CLIENTS = 1024, LONGEST_MESSAGE = 60 * 1024, INPUT_SIZE = 128 * 1024, SECOND = 1000000000 };
enum { PATIENCE = 60 };  // seconds for an answer: a bound for a server that is unproved, or a busy machine

typedef struct {
    const char *start;
    size_t length;
} Text;

typedef struct {
    int socket;
    char source[32];
    size_t start, end;  // the part of the input that is not parsed
    char input[INPUT_SIZE];
} Link;

typedef struct {
    uint64_t *nanos;
    size_t count, room;
} Samples;

static int port;

static void die(const char *what) {
    perror(what);
    exit(1);
}

static void refuse(const char *what, Text text) {
    fprintf(stderr, "%s: %.*s\n", what, (int)text.length, text.start);
    exit(1);
}

static uint64_t now(void) {
    struct timespec time;
    clock_gettime(CLOCK_MONOTONIC, &time);
    return (uint64_t)time.tv_sec * SECOND + time.tv_nsec;
}

// Messages

static void send_bytes(Link *link, const void *bytes, size_t length) {
    for (size_t sent = 0; sent < length;) {
        ssize_t taken = send(link->socket, (const char *)bytes + sent, length - sent, MSG_NOSIGNAL);
        if (taken <= 0) die("send");
        sent += taken;
    }
}

static void send_text(Link *link, Text text) {
    static const unsigned char mask[4] = {0x5a, 0xc3, 0x17, 0x99};
    static _Thread_local unsigned char frame[LONGEST_MESSAGE + 8];
    size_t at = 0;
    frame[at++] = 0x81;
    if (text.length < 126) {
        frame[at++] = 0x80 | text.length;
    } else {
        frame[at++] = 0x80 | 126;
        frame[at++] = text.length >> 8;
        frame[at++] = text.length & 0xff;
    }
    memcpy(frame + at, mask, sizeof mask);
    at += sizeof mask;
    for (size_t i = 0; i < text.length; i++) frame[at + i] = text.start[i] ^ mask[i % sizeof mask];
    send_bytes(link, frame, at + text.length);
}

#define SEND(link, ...)                                              \
    do {                                                             \
        char message[LONGEST_MESSAGE];                               \
        int length = snprintf(message, sizeof message, __VA_ARGS__); \
        send_text(link, (Text){message, length});                    \
    } while (0)

// Reads input, and waits if there is none. Earlier messages are invalid afterwards.
static void receive(Link *link) {
    memmove(link->input, link->input + link->start, link->end - link->start);
    link->end -= link->start;
    link->start = 0;
    ssize_t got = recv(link->socket, link->input + link->end, INPUT_SIZE - link->end, 0);
    if (got == 0) refuse("the connection ended", (Text){link->source, strlen(link->source)});
    if (got < 0) die("recv");
    link->end += got;
}

// Returns the next message of the input. Each is one frame: neither program sends fragments.
static bool next_text(Link *link, Text *text) {
    const unsigned char *frame = (unsigned char *)link->input + link->start;
    size_t there = link->end - link->start, header = 2;
    if (there < header) return false;
    size_t length = frame[1];
    if (length == 126) {
        header = 4;
        if (there < header) return false;
        length = (size_t)frame[2] << 8 | frame[3];
    }
    if (frame[0] != 0x81 || length > INPUT_SIZE / 2) refuse("no short text", (Text){(char *)frame, there});
    if (there < header + length) return false;
    *text = (Text){(char *)frame + header, length};
    link->start += header + length;
    return true;
}

// Whether the text contains a part. A value has no part with quotes as `"a":`, since its own are escaped.
static bool has(Text text, const char *part) {
    return memmem(text.start, text.length, part, strlen(part)) != NULL;
}

// Waits for a message with this member, and skips all others.
static Text await_text(Link *link, const char *member) {
    Text text;
    for (;;) {
        while (next_text(link, &text)) {
            if (has(text, "\"error\":{")) refuse("refused", text);
            if (has(text, member)) return text;
        }
        receive(link);
    }
}

// Returns the first number after a name, or 0 if the name is absent.
static unsigned long long number_after(Text text, const char *name) {
    const char *found = memmem(text.start, text.length, name, strlen(name));
    unsigned long long number = 0;
    if (found)
        for (const char *digit = found + strlen(name); *digit >= '0' && *digit <= '9'; digit++) number = number * 10 + (*digit - '0');
    return number;
}

// Connections

static void open_connection(Link *link) {
    static const char request[] =
        "GET / HTTP/1.1\r\nHost: localhost\r\nUpgrade: websocket\r\nConnection: Upgrade\r\n"
        "Sec-WebSocket-Key: dGhlIHNhbXBsZSBub25jZQ==\r\nSec-WebSocket-Version: 13\r\n\r\n";
    static const char answer[] = "s3pPLMBiTxaQ9kYGzzhZRbK+xOo=";
    struct sockaddr_in address = {.sin_family = AF_INET, .sin_port = htons(port), .sin_addr.s_addr = htonl(INADDR_LOOPBACK)};
    link->socket = socket(AF_INET, SOCK_STREAM, 0);
    if (link->socket < 0 || connect(link->socket, (struct sockaddr *)&address, sizeof address) < 0) die("connect");
    setsockopt(link->socket, IPPROTO_TCP, TCP_NODELAY, &(int){1}, sizeof(int));
    struct timeval patience = {.tv_sec = PATIENCE};
    setsockopt(link->socket, SOL_SOCKET, SO_SNDTIMEO, &patience, sizeof patience);
    setsockopt(link->socket, SOL_SOCKET, SO_RCVTIMEO, &patience, sizeof patience);
    link->start = link->end = 0;
    send_bytes(link, request, strlen(request));
    const char *end;
    do {
        receive(link);
        end = memmem(link->input, link->end, "\r\n\r\n", 4);
    } while (!end);
    if (!memmem(link->input, end - link->input, answer, strlen(answer))) refuse("no handshake", (Text){link->input, link->end});
    link->start = end + 4 - link->input;
}

static void open_session(Link *link) {
    await_text(link, "\"a\":\"init\"");
    SEND(link, "{\"a\":\"hs\",\"id\":\"%s\",\"protocol\":1,\"protocolMinor\":1}", link->source);
    await_text(link, "\"a\":\"hs\"");
}

// The link is the first member of its owner.
static void watch(int queue, Link *link) {
    struct epoll_event event = {.events = EPOLLIN, .data.ptr = link};
    if (epoll_ctl(queue, EPOLL_CTL_ADD, link->socket, &event) < 0) die("epoll_ctl");
}

// Waits for input until the time comes, and passes each message on. Returns whether there was input.
static bool hear_input(int queue, uint64_t until, void (*hear)(Link *, Text)) {
    struct epoll_event events[64];
    uint64_t time = now(), nanos = until > time ? until - time : 0;
    int ready = epoll_pwait2(queue, events, 64, &(struct timespec){nanos / SECOND, nanos % SECOND}, NULL);
    if (ready < 0) die("epoll_pwait2");
    for (int i = 0; i < ready; i++) {
        Link *link = events[i].data.ptr;
        Text text;
        receive(link);
        while (next_text(link, &text)) hear(link, text);
    }
    return ready > 0;
}

static void hear_answers(int queue, void (*hear)(Link *, Text)) {
    if (hear_input(queue, now() + (uint64_t)PATIENCE * SECOND, hear)) return;
    errno = ETIMEDOUT;
    die("no answer");
}

// Figures

static void add_sample(Samples *samples, uint64_t nanos) {
    if (samples->count == samples->room) {
        samples->room = samples->room ? samples->room * 2 : 65536;
        samples->nanos = realloc(samples->nanos, samples->room * sizeof *samples->nanos);
        if (!samples->nanos) die("realloc");
    }
    samples->nanos[samples->count++] = nanos;
}

static int compare(const void *a, const void *b) {
    uint64_t left = *(const uint64_t *)a, right = *(const uint64_t *)b;
    return (left > right) - (left < right);
}

// Prints the times in microseconds, as a member of a JSON object.
static void print_times(const char *name, Samples *samples) {
    if (samples->count == 0) return;
    qsort(samples->nanos, samples->count, sizeof *samples->nanos, compare);
    printf(",\"%s\":{\"count\":%zu", name, samples->count);
    static const struct { const char *name; int thousandths; } parts[] = {{"median", 500}, {"slow", 990}, {"slowest", 999}};
    for (int i = 0; i < 3; i++) printf(",\"%s\":%.1f", parts[i].name, samples->nanos[samples->count * parts[i].thousandths / 1000] / 1e3);
    printf(",\"most\":%.1f}", samples->nanos[samples->count - 1] / 1e3);
}

static double processor_seconds(void) {
    struct rusage used;
    getrusage(RUSAGE_SELF, &used);
    return used.ru_utime.tv_sec + used.ru_stime.tv_sec + (used.ru_utime.tv_usec + used.ru_stime.tv_usec) / 1e6;
}
