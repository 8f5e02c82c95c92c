// A load generator for the server and for the program that only echoes: clients on loopback, all in one thread, each with
// one operation in flight. It prints its figures as one line of JSON.
//
//     sockets MODE PORT [-c CLIENTS] [-s SECONDS] [-w SECONDS_TO_WARM_UP] [-n OPERATIONS] [-k KEY]
//
//     echo         each client sends the text of an edit and waits until it comes back
//     own          each client edits a document of its own
//     one          all clients edit one document
//     subscribed   the same, and each is subscribed to it
//     shards       each of at most 8 clients edits a long text of its own, in a shard of its own
//     shard        the same, and all texts are in one shard
//     fan          all clients are subscribed to one document, and the first one edits it
//     idle         the clients stay connected until standard input ends; the line is printed once all are connected
//     listening    the same, each subscribed to one document
//
// An edit adds 1 to a number at the version that the client has seen. An edit of a long text also inserts a character
// after the text and deletes it, some times over. The run ends after SECONDS, or after OPERATIONS if that is earlier. At
// the end the documents must have grown by the acknowledged operations.
#include "websocket.h"

enum { SHARDS = 8, LONG_TEXT = 40000, PAIRS = 8 };

enum Mode { ECHO, OWN, ONE, SUBSCRIBED, FAN, IDLE, LISTENING, OWN_SHARD, ONE_SHARD, MODES };
static const char *const mode_names[] = {"echo", "own", "one", "subscribed", "fan", "idle", "listening", "shards", "shard"};

typedef struct {
    Link link;
    char document[64];
    size_t prefix;               // length of `{"a":"op","c":"b","d":DOCUMENT,`
    unsigned long long version;  // the version after the last one seen
    unsigned long long edits;    // number of edits sent
    uint64_t sent;               // time of the last one
} Client;

static enum Mode mode;
static int client_count = 1;
static double seconds = 1, warm_up = 0;
static unsigned long long most_edits = ~0ULL;
static const char *key = "k";

static Client clients[MOST_CLIENTS];
static Samples acknowledged, fanned;
static uint64_t measured_from, measured_until, last_measured;
static unsigned long long submitted, in_flight;
static int yet_to_hear;  // clients that have not received the last edit of mode fan

// Returns the document's number; the client has then seen its current version.
static unsigned long long fetch(Client *client) {
    SEND(&client->link, "{\"a\":\"f\",\"c\":\"b\",\"d\":\"%s\"}", client->document);
    Text text = await_text(&client->link, "\"a\":\"f\"");
    client->version = number_after(text, "\"v\":");
    return number_after(text, "\"n\":");
}

static bool is_long(void) {
    return mode == OWN_SHARD || mode == ONE_SHARD;
}

static bool has_own_document(void) {
    return mode == OWN || is_long();
}

// The data of a create.
static const char *first_data(void) {
    static char text[LONG_TEXT + 1], data[LONG_TEXT + 32];
    if (!is_long()) return "{\"n\":0}";
    memset(text, 'a', LONG_TEXT);
    snprintf(data, sizeof data, "{\"n\":0,\"t\":\"%s\"}", text);
    return data;
}

static void create_if_absent(Client *client) {
    fetch(client);
    if (client->version > 0) return;
    SEND(&client->link,
         "{\"a\":\"op\",\"c\":\"b\",\"d\":\"%s\",\"v\":null,\"src\":\"%s\",\"seq\":0,"
         "\"create\":{\"type\":\"http://sharejs.org/types/JSONv0\",\"data\":%s}}",
         client->document, client->link.source, first_data());
    await_text(&client->link, "\"a\":\"op\"");
    client->version = 1;
}

static void subscribe(Client *client) {
    SEND(&client->link, "{\"a\":\"s\",\"c\":\"b\",\"d\":\"%s\"}", client->document);
    client->version = number_after(await_text(&client->link, "\"a\":\"s\""), "\"v\":");
}

static void open_client(int number) {
    Client *client = &clients[number];
    snprintf(client->link.source, sizeof client->link.source, "u%d-%d", getpid(), number);
    // A shard's number is the sum of the bytes of both names, modulo 8.
    if (is_long())
        snprintf(client->document, sizeof client->document, "%s-%d%d", key, number, mode == ONE_SHARD ? SHARDS - 1 - number : 0);
    else if (mode == OWN)
        snprintf(client->document, sizeof client->document, "%s-%d", key, number);
    else
        snprintf(client->document, sizeof client->document, "%s", key);
    client->prefix = strlen("{\"a\":\"op\",\"c\":\"b\",\"d\":\"\",") + strlen(client->document);
    open_connection(&client->link);
    if (mode == ECHO || mode == IDLE) return;
    open_session(&client->link);
    create_if_absent(client);
    if (mode == SUBSCRIBED || mode == FAN || mode == LISTENING) subscribe(client);
}

// Returns the sum of the numbers of all documents.
static unsigned long long total(void) {
    unsigned long long sum = 0;
    for (int i = 0; i < (has_own_document() ? client_count : 1); i++) sum += fetch(&clients[i]);
    return sum;
}

// Operations

// The further components of an edit.
static const char *more_components(void) {
    static char text[PAIRS * 64];
    if (is_long() && !*text)
        for (int i = 0; i < PAIRS; i++)
            sprintf(text + strlen(text), ",{\"p\":[\"t\",%d],\"si\":\"x\"},{\"p\":[\"t\",%d],\"sd\":\"x\"}", LONG_TEXT, LONG_TEXT);
    return text;
}

static void submit(Client *client) {
    client->edits++;
    submitted++;
    in_flight++;
    yet_to_hear = client_count - 1;
    client->sent = now();
    SEND(&client->link, "{\"a\":\"op\",\"c\":\"b\",\"d\":\"%s\",\"v\":%llu,\"src\":\"%s\",\"seq\":%llu,\"op\":[{\"p\":[\"n\"],\"na\":1}%s]}",
         client->document, client->version, client->link.source, client->edits, more_components());
}

// Records the time since the client's last edit, if it is measured.
static void sample(Samples *samples, Client *since, uint64_t time) {
    if (time < measured_from || time > measured_until) return;
    add_sample(samples, time - since->sent);
    last_measured = time;
}

static void go_on(Client *client, uint64_t time) {
    if (time < measured_until && submitted < most_edits) submit(client);
}

static void hear_acknowledgement(Client *client, Text text) {
    uint64_t time = now();
    in_flight--;
    sample(&acknowledged, client, time);
    if (mode != ECHO) client->version = number_after(text, "\"v\":") + 1;
    if (mode != FAN || yet_to_hear == 0) go_on(client, time);
}

static void hear_operation(Client *client, Text text) {
    unsigned long long after = number_after(text, "\"v\":") + 1;
    if (client->version < after) client->version = after;
    if (mode == FAN && --yet_to_hear == 0) {
        uint64_t time = now();
        sample(&fanned, &clients[0], time);
        if (in_flight == 0) go_on(&clients[0], time);
    }
}

static void hear(Link *link, Text text) {
    Client *client = (Client *)link;
    if (mode == ECHO) {
        hear_acknowledgement(client, text);
        return;
    }
    // Members are sorted by name, and an acknowledgement has no content.
    const char *member = text.length > client->prefix + 2 ? text.start + client->prefix : "";
    if (strncmp(member, "\"seq", 4) == 0)
        hear_acknowledgement(client, text);
    else if (strncmp(member, "\"op", 3) == 0)
        hear_operation(client, text);
    else
        refuse("unexpected", text);
}

static void run(void) {
    int queue = epoll_create1(0);
    for (int i = 0; i < client_count; i++) watch(queue, &clients[i].link);
    measured_from = now() + warm_up * SECOND;
    measured_until = measured_from + seconds * SECOND;
    for (int i = 0; i < (mode == FAN ? 1 : client_count); i++) submit(&clients[i]);
    while (in_flight > 0 || (mode == FAN && yet_to_hear > 0)) hear_answers(queue, hear);
}

static void print_report(void) {
    double measured = last_measured > measured_from ? (last_measured - measured_from) / 1e9 : 0;
    printf("{\"mode\":\"%s\",\"clients\":%d,\"submitted\":%llu,\"processor\":%.3f", mode_names[mode], client_count, submitted, processor_seconds());
    if (measured > 0) printf(",\"seconds\":%.3f,\"rate\":%.1f", measured, acknowledged.count / measured);
    print_times("acknowledged", &acknowledged);
    print_times("fanned", &fanned);
    printf("}\n");
    fflush(stdout);
}

static void read_arguments(int count, char **words) {
    for (int option; (option = getopt(count, words, "c:s:w:n:k:")) != -1;) {
        if (option == 'c') client_count = atoi(optarg);
        else if (option == 's') seconds = atof(optarg);
        else if (option == 'w') warm_up = atof(optarg);
        else if (option == 'n') most_edits = strtoull(optarg, NULL, 10);
        else if (option == 'k') key = optarg;
        else exit(2);
    }
    for (mode = ECHO; optind < count && mode < MODES && strcmp(words[optind], mode_names[mode]) != 0;) mode++;
    if (count != optind + 2 || mode == MODES || client_count < 1 || client_count > (is_long() ? SHARDS : MOST_CLIENTS)) {
        fprintf(stderr, "sockets MODE PORT [-c CLIENTS] [-s SECONDS] [-w SECONDS_TO_WARM_UP] [-n OPERATIONS] [-k KEY]\n");
        exit(2);
    }
    port = atoi(words[optind + 1]);
}

int main(int count, char **words) {
    read_arguments(count, words);
    for (int i = 0; i < client_count; i++) open_client(i);
    if (mode == IDLE || mode == LISTENING) {
        print_report();
        while (getchar() != EOF) {}
        return 0;
    }
    unsigned long long before = mode == ECHO ? 0 : total();
    run();
    if (mode != ECHO && total() - before != submitted) {
        fprintf(stderr, "the documents grew by %llu, not by %llu\n", total() - before, submitted);
        return 1;
    }
    print_report();
    return 0;
}
