// One writer and its subscribers on loopback, in one thread. It prints its figures as one line of JSON.
//
//     fanout PORT [-n SUBSCRIBERS] [-e EDITS] [-w WINDOW] [-k KEY] [-b]
//
// The writer increments one number EDITS times, with at most WINDOW operations in flight. `shown` counts from the time at
// which an operation is sent until the last subscriber has it. With -b the server broadcasts each text to all clients and
// reads nothing of it (bench/broadcast.c, bench/broadcast.mjs): the texts are those that a subscriber receives otherwise.
#include "websocket.h"

typedef struct {
    Link link;
} Subscriber;

static int subscribers = 63, edits = 4000, window = 1;
static const char *key = "k";
static bool is_bare;

static Link writer;
static Subscriber *all;
static Samples shown;
static uint64_t *sent_at;
static int *missing;  // the number of subscribers that don't have the operation yet
static int sent, acknowledged;
static uint64_t delivered;

static void submit(int edit) {
    sent_at[edit] = now();
    missing[edit] = subscribers;
    SEND(&writer,
        "{\"a\":\"op\",\"c\":\"fan\",\"d\":\"%s\",\"v\":%d,\"seq\":%d,\"src\":\"%s\",\"op\":[{\"p\":[\"n\"],\"na\":1}]}", key,
        edit + 1, edit + 2, writer.source);
}

static void submit_window(void) {
    while (sent < edits && sent - acknowledged < window) submit(sent++);
}

// A message of the server that has stored or broadcast an operation.
static void hear(Link *link, Text text) {
    if (has(text, "\"error\":{")) refuse("refused", text);
    if (link == &writer) {
        acknowledged++;
        return;
    }
    if (!has(text, "\"a\":\"op\"")) return;
    int edit = (int)number_after(text, "\"v\":") - 1;
    if (edit < 0 || edit >= sent) refuse("no such operation", text);
    delivered++;
    if (--missing[edit] == 0) add_sample(&shown, now() - sent_at[edit]);
}

static void open_link(Link *link, const char *role, int number) {
    snprintf(link->source, sizeof link->source, "%s-%s-%d", key, role, number);
    open_connection(link);
    if (!is_bare) open_session(link);
}

static void subscribe(Link *link) {
    SEND(link, "{\"a\":\"s\",\"c\":\"fan\",\"d\":\"%s\"}", key);
    await_text(link, "\"a\":\"s\"");
}

static void prepare(int queue) {
    open_link(&writer, "w", 0);
    if (!is_bare) {
        SEND(&writer,
            "{\"a\":\"op\",\"c\":\"fan\",\"d\":\"%s\",\"v\":0,\"seq\":1,\"src\":\"%s\",\"create\":{\"type\":"
            "\"http://sharejs.org/types/JSONv0\",\"data\":{\"n\":0}}}",
            key, writer.source);
        await_text(&writer, "\"a\":\"op\"");
    }
    watch(queue, &writer);
    for (int i = 0; i < subscribers; i++) {
        open_link(&all[i].link, "s", i);
        if (!is_bare) subscribe(&all[i].link);
        watch(queue, &all[i].link);
    }
}

static void read_arguments(int count, char **words) {
    int option;
    while ((option = getopt(count, words, "n:e:w:k:b")) != -1) {
        if (option == 'n') subscribers = atoi(optarg);
        else if (option == 'e') edits = atoi(optarg);
        else if (option == 'w') window = atoi(optarg);
        else if (option == 'k') key = optarg;
        else if (option == 'b') is_bare = true;
        else exit(2);
    }
    if (optind + 1 != count || subscribers < 1 || edits < 1 || window < 1) {
        fprintf(stderr, "usage: fanout PORT [-n SUBSCRIBERS] [-e EDITS] [-w WINDOW] [-k KEY] [-b]\n");
        exit(2);
    }
    port = atoi(words[optind]);
}

int main(int count, char **words) {
    read_arguments(count, words);
    all = calloc(subscribers, sizeof *all);
    sent_at = calloc(edits, sizeof *sent_at);
    missing = calloc(edits, sizeof *missing);
    if (!all || !sent_at || !missing) die("calloc");
    int queue = epoll_create1(0);
    if (queue < 0) die("epoll_create1");
    prepare(queue);
    printf("ready\n");
    fflush(stdout);
    getchar();
    double processor = processor_seconds();
    uint64_t start = now(), total = (uint64_t)subscribers * edits;
    while (delivered < total) {
        submit_window();
        hear_answers(queue, hear);
    }
    double seconds = (now() - start) / 1e9;
    printf("{\"edits\":%d,\"delivered\":%lu,\"seconds\":%.3f,\"processor\":%.3f", edits, delivered, seconds,
        processor_seconds() - processor);
    print_times("shown", &shown);
    printf("}\n");
    return 0;
}
