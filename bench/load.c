// A load of operations at a fixed rate, by clients on loopback in one thread. It prints its figures as one line of JSON.
//
//     load SCENARIO PORT [-c CLIENTS] [-r RATE] [-s SECONDS] [-w SECONDS_TO_WARM_UP] [-d DOCUMENTS] [-k KEY]
//
//     count      the clients increment one number
//     documents  the clients increment the number of each of DOCUMENTS documents, in turn
//     groups     each client increments the number of its document, client n of document n modulo DOCUMENTS, and is subscribed to it
//     text       the clients type into one text, each at a place of its own; all are subscribed to it
//     board      the clients vote for, rename, move and replace cards of one board; all are subscribed to it
//     storm      all clients lose their connections to one document at once, while MISSED operations are stored, and
//                connect again at once; this is repeated for SECONDS
//
// The loop is open: operation n is due at n / RATE seconds at client n modulo CLIENTS. A client sends an operation when it is
// due, or when the one before is acknowledged, as a client has at most one in flight for each document. A latency counts
// from the time at which the operation is due: `acknowledged` to its acknowledgement, `shown` until another subscriber has
// it, `late` until the generator notices it. In the storm it counts from the first connection: `client` until a client has
// the document again, `all` until all have. The run fails if an operation isn't stored exactly once.
#include "websocket.h"

#include <pthread.h>
#include <sys/prctl.h>

enum { LENGTH = 10000, CARDS = 100, MISSED = 100, RETRY = 1000 };  // characters, cards, operations, microseconds

enum Scenario { COUNT, DOCUMENTS, GROUPS, TEXT, BOARD, STORM, SCENARIOS };
static const char *const scenario_names[] = {"count", "documents", "groups", "text", "board", "storm"};

typedef struct {
    Link link;
    unsigned long long version;  // the version after the last one received
    unsigned long long due;      // number of edits that are due
    unsigned long long edits;    // number of edits sent
    unsigned long long stored;   // number of edits acknowledged
    int refusals;                // times that the server had no free place
    uint64_t took;               // until the document is received again
} Client;

static enum Scenario scenario;
static int client_count = 64, document_count = 1;
static double rate = 1000, seconds = 1, warm_up = 0;
static const char *key = "k";
static char own_sources[32];  // the prefix of the sources of all clients

static Client clients[MOST_CLIENTS];
static Samples acknowledged, shown, late, each, all;
static uint64_t began;
static unsigned long long due, sent, in_flight, refusals;

static bool is_subscribed(void) {
    return scenario != COUNT && scenario != DOCUMENTS;
}

// Documents

static const char *name_of(int document) {
    static _Thread_local char name[64];
    snprintf(name, sizeof name, "%s-%d", key, document);
    return name;
}

static const char *board_data(void) {
    static char data[LONGEST_MESSAGE / 2];
    int length = sprintf(data, "{\"columns\":[\"new\",\"open\",\"done\"],\"cards\":{");
    for (int card = 0; card < CARDS + client_count; card++)
        length += sprintf(data + length, "%s\"c%d\":{\"column\":0,\"rank\":\"m\",\"title\":\"what is to be done\",\"votes\":0}",
                          card ? "," : "", card);
    sprintf(data + length, "}}");
    return data;
}

static const char *first_data(void) {
    static char text[LENGTH + 3];
    if (scenario == BOARD) return board_data();
    if (scenario != TEXT) return "{\"n\":0}";
    memset(text, 'a', LENGTH + 2);
    text[0] = text[LENGTH + 1] = '"';
    return text;
}

// Returns the document of a client's next operation.
static int document_of(const Client *client) {
    unsigned long long number = client - clients;
    return (scenario == DOCUMENTS ? client->edits * client_count + number : number) % document_count;
}

// Creates all documents, as numbers 1 to DOCUMENTS of the first client.
static void create(void) {
    Link *link = &clients[0].link;
    const char *data = first_data();
    for (int document = 0; document < document_count; document++) {
        SEND(link,
             "{\"a\":\"op\",\"c\":\"b\",\"d\":\"%s\",\"v\":0,\"seq\":%d,"
             "\"create\":{\"type\":\"http://sharejs.org/types/JSONv0\",\"data\":%s}}",
             name_of(document), document + 1, data);
        await_text(link, "\"a\":\"op\"");
    }
}

static unsigned long long version_of(int document) {
    SEND(&clients[0].link, "{\"a\":\"f\",\"c\":\"b\",\"d\":\"%s\"}", name_of(document));
    return number_after(await_text(&clients[0].link, "\"a\":\"f\""), "\"v\":");
}

static void open_client(int number) {
    Client *client = &clients[number];
    snprintf(client->link.source, sizeof client->link.source, "u%d-%d", getpid(), number);
    open_connection(&client->link);
    open_session(&client->link);
    if (number == 0) create();
    client->version = 1;
    if (!is_subscribed()) return;
    SEND(&client->link, "{\"a\":\"s\",\"c\":\"b\",\"d\":\"%s\"}", name_of(document_of(client)));
    await_text(&client->link, "\"a\":\"s\"");
}

// Operations

// Writes the components of a client's next edit.
static void write_edit(char *text, size_t size, const Client *client) {
    unsigned long long edit = client->edits;
    int number = client - clients, card = (edit * 7 + number) % CARDS;
    if (scenario == TEXT)
        snprintf(text, size, "{\"p\":[%llu],\"si\":\"x\"}", (number * (LENGTH / client_count) + edit) % LENGTH);
    else if (scenario != BOARD)
        snprintf(text, size, "{\"p\":[\"n\"],\"na\":1}");
    else if (edit % 4 == 0)
        snprintf(text, size, "{\"p\":[\"cards\",\"c%d\",\"votes\"],\"na\":1}", card);
    else if (edit % 4 == 1)
        snprintf(text, size, "{\"p\":[\"cards\",\"c%d\",\"title\",0],\"si\":\"x\"}", card);
    else if (edit % 4 == 2)
        snprintf(text, size, "{\"p\":[\"cards\",\"c%d\",\"column\"],\"od\":0,\"oi\":%llu},{\"p\":[\"cards\",\"c%d\",\"rank\"],\"od\":\"m\",\"oi\":\"n\"}",
                 card, edit % 3, card);
    else
        snprintf(text, size, "{\"p\":[\"cards\",\"c%d\"],\"od\":null,\"oi\":{\"column\":1,\"rank\":\"a\",\"title\":\"another card\",\"votes\":0}}",
                 CARDS + number);
}

// Sends a client's next operation. With several documents it has no base version: the current one is meant.
static void submit(Client *client) {
    char edit[256], base[32] = "";
    int document = document_of(client);
    write_edit(edit, sizeof edit, client);
    if (scenario != DOCUMENTS) snprintf(base, sizeof base, "\"v\":%llu,", client->version);
    client->edits++;
    SEND(&client->link, "{\"a\":\"op\",\"c\":\"b\",\"d\":\"%s\",%s\"seq\":%llu,\"op\":[%s]}", name_of(document), base,
         document_count + client->edits, edit);
    in_flight++;
    sent++;
}

// Sends what is due, if nothing of the document is in flight.
static void submit_due(Client *client) {
    while (client->edits < client->due && (scenario == DOCUMENTS || client->edits == client->stored)) submit(client);
}

// The time at which an operation is due.
static uint64_t due_at(unsigned long long operation) {
    return began + (uint64_t)(operation / rate * SECOND);
}

// Records the time since an operation was due.
static void sample(Samples *samples, unsigned long long operation) {
    uint64_t from = due_at(operation);
    if (from >= began + warm_up * SECOND) add_sample(samples, now() - from);
}

// Receives an operation of another client, or an acknowledgement.
static void hear(Link *link, Text text) {
    Client *client = (Client *)link;
    if (has(text, "\"error\":{")) refuse("refused", text);
    unsigned long long version = number_after(text, "\"v\":"), author = number_after(text, own_sources);
    unsigned long long operation = (number_after(text, "\"seq\":") - document_count - 1) * client_count + author;
    bool is_new = version >= client->version;
    if (is_new) client->version = version + 1;
    if (has(text, "\"op\":[")) {
        if (is_subscribed() && is_new) sample(&shown, operation);
        return;
    }
    in_flight--;
    client->stored++;
    sample(&acknowledged, operation);
    submit_due(client);
}

// Returns whether each client has all edits of its document.
static bool has_all(void) {
    unsigned long long versions[document_count];
    for (int document = 0; document < document_count; document++) versions[document] = 1;
    for (int i = 0; i < client_count; i++) versions[i % document_count] += clients[i].edits;
    for (int i = 0; i < client_count; i++)
        if (clients[i].version < versions[i % document_count]) return false;
    return true;
}

// Receives until each operation is due, and then until all are acknowledged and shown.
static void run(void) {
    unsigned long long total = (warm_up + seconds) * rate + 1;
    int queue = epoll_create1(0);
    for (int i = 0; i < client_count; i++) watch(queue, &clients[i].link);
    began = now();
    while (due < total) {
        for (; due < total && due_at(due) <= now(); due++) {
            Client *client = &clients[due % client_count];
            sample(&late, due);
            client->due++;
            submit_due(client);
        }
        hear_input(queue, due < total ? due_at(due) : 0, hear);
    }
    while (sent < due || in_flight > 0 || (is_subscribed() && !has_all())) hear_answers(queue, hear);
    close(queue);
}

// The storm

static pthread_barrier_t start;

// Connects until the server has a free place: its first message is then a text.
static void enter(Client *client) {
    for (client->refusals = 0;; client->refusals++) {
        open_connection(&client->link);
        if (client->link.start == client->link.end) receive(&client->link);
        if ((unsigned char)client->link.input[client->link.start] == 0x81) break;
        close(client->link.socket);
        usleep(RETRY);
    }
    open_session(&client->link);
}

static void *reconnect(void *argument) {
    Client *client = argument;
    pthread_barrier_wait(&start);
    enter(client);
    SEND(&client->link, "{\"a\":\"s\",\"c\":\"b\",\"d\":\"%s\",\"v\":%llu}", name_of(0), client->version);
    bool is_answered = false;
    for (Text text; !is_answered || client->version < sent + 1;)
        if (!next_text(&client->link, &text)) receive(&client->link);
        else if (has(text, "\"a\":\"op\"")) client->version = number_after(text, "\"v\":") + 1;
        else if (has(text, "\"a\":\"s\"")) is_answered = true;
        else refuse("unexpected", text);
    client->took = now() - began;
    return NULL;
}

// Stores the operations that the others miss, one after the other.
static void store_missed(Client *client) {
    for (int i = 0; i < MISSED; i++) {
        submit(client);
        client->version = number_after(await_text(&client->link, "\"seq\":"), "\"v\":") + 1;
    }
}

static void storm_once(void) {
    pthread_t threads[MOST_CLIENTS];
    uint64_t longest = 0;
    for (int i = client_count; i-- > 0; close(clients[i].link.socket))
        if (i == 0) store_missed(&clients[0]);
    pthread_barrier_init(&start, NULL, client_count + 1);
    for (int i = 0; i < client_count; i++)
        if (pthread_create(&threads[i], NULL, reconnect, &clients[i])) die("pthread_create");
    began = now();
    pthread_barrier_wait(&start);
    for (int i = 0; i < client_count; i++) {
        pthread_join(threads[i], NULL);
        add_sample(&each, clients[i].took);
        refusals += clients[i].refusals;
        if (clients[i].took > longest) longest = clients[i].took;
    }
    add_sample(&all, longest);
    pthread_barrier_destroy(&start);
}

static void storm(void) {
    for (uint64_t end = now() + seconds * SECOND; now() < end;) storm_once();
}

// Figures

static void print_report(void) {
    printf("{\"scenario\":\"%s\",\"clients\":%d,\"documents\":%d,\"submitted\":%llu,\"processor\":%.3f,\"refusals\":%llu",
           scenario_names[scenario], client_count, document_count, sent + document_count, processor_seconds(), refusals);
    print_times("acknowledged", &acknowledged);
    print_times("shown", &shown);
    print_times("late", &late);
    print_times("client", &each);
    print_times("all", &all);
    printf("}\n");
}

static void read_arguments(int count, char **words) {
    for (int option; (option = getopt(count, words, "c:r:s:w:d:k:")) != -1;) {
        if (option == 'c') client_count = atoi(optarg);
        else if (option == 'r') rate = atof(optarg);
        else if (option == 's') seconds = atof(optarg);
        else if (option == 'w') warm_up = atof(optarg);
        else if (option == 'd') document_count = atoi(optarg);
        else if (option == 'k') key = optarg;
        else exit(2);
    }
    for (scenario = COUNT; optind < count && scenario < SCENARIOS && strcmp(words[optind], scenario_names[scenario]) != 0;) scenario++;
    bool is_right = count == optind + 2 && scenario < SCENARIOS && client_count > 0 && client_count <= MOST_CLIENTS && rate > 0;
    if (!is_right || document_count < 1 || (document_count > 1 && scenario != DOCUMENTS && scenario != GROUPS)) {
        fprintf(stderr, "load SCENARIO PORT [-c CLIENTS] [-r RATE] [-s SECONDS] [-w SECONDS_TO_WARM_UP] [-d DOCUMENTS] [-k KEY]\n");
        exit(2);
    }
    port = atoi(words[optind + 1]);
}

int main(int count, char **words) {
    read_arguments(count, words);
    prctl(PR_SET_TIMERSLACK, 1);  // nanoseconds
    snprintf(own_sources, sizeof own_sources, "\"src\":\"u%d-", getpid());
    for (int i = 0; i < client_count; i++) open_client(i);
    if (scenario == STORM) storm();
    else run();
    unsigned long long stored = 0;
    for (int document = 0; document < document_count; document++) stored += version_of(document) - 1;
    if (stored != sent) {
        fprintf(stderr, "%llu operations are stored, and not %llu\n", stored, sent);
        return 1;
    }
    print_report();
    return 0;
}
