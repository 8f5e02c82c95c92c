// The least that a server's sockets cost: one thread and one epoll queue write each text that a client sends, unread, to all
// clients. Only for bench/fanout: it expects the handshake of bench/websocket.h and short frames. It prints its port.
//
//     broadcast 127.0.0.1:0
#define _GNU_SOURCE
#include <arpa/inet.h>
#include <errno.h>
#include <netinet/tcp.h>
#include <stdbool.h>
#include <stdio.h>
#include <stdlib.h>
#include <string.h>
#include <sys/epoll.h>
#include <sys/resource.h>
#include <sys/socket.h>
#include <unistd.h>

enum { MOST_CLIENTS = 16384, INPUT_SIZE = 64 * 1024, LONGEST_TEXT = 65535 };

typedef struct {
    int socket;
    bool is_open;  // the handshake is complete
    int place;     // in `clients`
    size_t length;
    unsigned char input[INPUT_SIZE];
} Client;

static Client *clients[MOST_CLIENTS];
static int client_count;

static void die(const char *what) {
    perror(what);
    exit(1);
}

static void write_all(int socket, const void *bytes, size_t length) {
    for (size_t sent = 0; sent < length;) {
        ssize_t taken = send(socket, (const char *)bytes + sent, length - sent, MSG_NOSIGNAL);
        if (taken <= 0) return;
        sent += taken;
    }
}

static void consume(Client *client, size_t count) {
    memmove(client->input, client->input + count, client->length - count);
    client->length -= count;
}

static bool shake_hands(Client *client) {
    static const char answer[] =
        "HTTP/1.1 101 Switching Protocols\r\nUpgrade: websocket\r\nConnection: Upgrade\r\n"
        "Sec-WebSocket-Accept: s3pPLMBiTxaQ9kYGzzhZRbK+xOo=\r\n\r\n";
    const unsigned char *end = memmem(client->input, client->length, "\r\n\r\n", 4);
    if (!end) return false;
    write_all(client->socket, answer, strlen(answer));
    consume(client, end + 4 - client->input);
    return client->is_open = true;
}

static void broadcast(const unsigned char *text, const unsigned char *mask, size_t length) {
    static unsigned char frame[LONGEST_TEXT + 4];
    size_t header = length < 126 ? 2 : 4;
    frame[0] = 0x81;
    frame[1] = length < 126 ? length : 126;
    if (header == 4) {
        frame[2] = length >> 8;
        frame[3] = length & 0xff;
    }
    for (size_t i = 0; i < length; i++) frame[header + i] = text[i] ^ mask[i % 4];
    for (int i = 0; i < client_count; i++)
        if (clients[i]->is_open) write_all(clients[i]->socket, frame, header + length);
}

// Broadcasts the first frame of the input. Returns whether it was complete.
static bool take_frame(Client *client) {
    const unsigned char *input = client->input;
    if (client->length < 6) return false;
    size_t header = 2, length = input[1] & 127;
    if (length == 126) {
        header = 4;
        length = (size_t)input[2] << 8 | input[3];
    }
    if (client->length < header + 4 + length) return false;
    if ((input[0] & 15) == 1) broadcast(input + header + 4, input + header, length);
    consume(client, header + 4 + length);
    return true;
}

static void accept_client(int queue, int listener) {
    int socket = accept(listener, NULL, NULL);
    if (socket < 0 || client_count == MOST_CLIENTS) die("accept");
    setsockopt(socket, IPPROTO_TCP, TCP_NODELAY, &(int){1}, sizeof(int));
    Client *client = calloc(1, sizeof *client);
    if (!client) die("calloc");
    client->socket = socket;
    client->place = client_count;
    clients[client_count++] = client;
    struct epoll_event event = {.events = EPOLLIN, .data.ptr = client};
    if (epoll_ctl(queue, EPOLL_CTL_ADD, socket, &event) < 0) die("epoll_ctl");
}

static void forget(Client *client) {
    close(client->socket);
    Client *last = clients[--client_count];
    last->place = client->place;
    clients[client->place] = last;
    free(client);
}

static void serve(Client *client) {
    ssize_t got = recv(client->socket, client->input + client->length, INPUT_SIZE - client->length, 0);
    if (got <= 0) {
        forget(client);
        return;
    }
    client->length += got;
    if (!client->is_open && !shake_hands(client)) return;
    while (take_frame(client)) {}
}

int main(void) {
    struct rlimit files;
    getrlimit(RLIMIT_NOFILE, &files);
    files.rlim_cur = files.rlim_max;
    setrlimit(RLIMIT_NOFILE, &files);
    int listener = socket(AF_INET, SOCK_STREAM, 0), queue = epoll_create1(0);
    struct sockaddr_in address = {.sin_family = AF_INET, .sin_addr.s_addr = htonl(INADDR_LOOPBACK)};
    socklen_t size = sizeof address;
    if (bind(listener, (struct sockaddr *)&address, size) < 0 || listen(listener, 1024) < 0) die("listen");
    getsockname(listener, (struct sockaddr *)&address, &size);
    printf("listening 127.0.0.1:%d\n", ntohs(address.sin_port));
    fflush(stdout);
    struct epoll_event event = {.events = EPOLLIN}, events[64];
    if (epoll_ctl(queue, EPOLL_CTL_ADD, listener, &event) < 0) die("epoll_ctl");
    for (;;) {
        int ready = epoll_wait(queue, events, 64, -1);
        if (ready < 0 && errno != EINTR) die("epoll_wait");
        for (int i = 0; i < ready; i++) {
            Client *client = events[i].data.ptr;
            if (client) serve(client);
            else accept_client(queue, listener);
        }
    }
}
