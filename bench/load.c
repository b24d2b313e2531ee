/* load PATH ASK CONNECTIONS DEPTH SECONDS [VERSION [BESIDE]]: prints how many asks a second a server on a Unix socket
 * answers, how many microseconds the replies took that half of all, and 99 of a hundred, came within, and how many asks
 * a second it answers those beside. ASK is echo, read, update or add (ADD and UNLINK in turn); or redis-read,
 * redis-update, memcached-read or memcached-update, for those servers. Each connection has a thread, which sends DEPTH
 * asks with one write, reads their replies, and goes on so for SECONDS. VERSION is that of the frames, 1 or 2; 1
 * without it. In version 2 the tags of a connection are 1, 2, 3 and so on. BESIDE further connections, none without it,
 * ask the same with 64 asks a write, for as long as the others do; the first three figures are of the others alone. */
#include <pthread.h>
#include <stdatomic.h>
#include <stdbool.h>
#include <stdint.h>
#include <stdio.h>
#include <stdlib.h>
#include <string.h>
#include <sys/socket.h>
#include <sys/un.h>
#include <time.h>
#include <unistd.h>

enum { UPDATE = 2, UNLINK = 9, READ = 11, HELLO = 256, ADD = 262 };
enum { KEYS = 64, PAYLOAD = 32, USER_KEYRING = -4, MOST_TIMES = 1 << 18, DEPTH_BESIDE = 64 };

struct client {
    pthread_t thread;
    int number, socket;
    bool is_beside;
    unsigned depth;
    uint32_t context, keys[KEYS], added[1024];
    unsigned sent;
    uint64_t asked, answered; /* the last tags */
    uint8_t out[1 << 17], in[1 << 17];
    size_t out_length, frame, in_start, in_end;
    double asks_a_second;
    float *times; /* from a write until its last reply, in microseconds: the last ones, at most MOST_TIMES */
    size_t timed;
};

static const char *path, *ask;
static unsigned version = 1;
static double seconds;
static pthread_barrier_t all_are_ready;
static atomic_bool is_over;

static void fail(const char *why) {
    fprintf(stderr, "load: %s\n", why);
    exit(1);
}

static double now(void) {
    struct timespec time;
    clock_gettime(CLOCK_MONOTONIC, &time);
    return (double)time.tv_sec + (double)time.tv_nsec / 1e9;
}

/* Frames: little-endian numbers, as on the machines that this is for. */

static void put(struct client *client, const void *bytes, size_t length) {
    memcpy(client->out + client->out_length, bytes, length);
    client->out_length += length;
}

static void put16(struct client *client, uint16_t number) { put(client, &number, 2); }
static void put32(struct client *client, uint32_t number) { put(client, &number, 4); }
static void put64(struct client *client, uint64_t number) { put(client, &number, 8); }

static void put_text(struct client *client, const char *text) {
    put16(client, (uint16_t)strlen(text));
    put(client, text, strlen(text));
}

static void put_payload(struct client *client) {
    char payload[PAYLOAD];
    memset(payload, 'p', sizeof payload);
    put32(client, PAYLOAD);
    put(client, payload, sizeof payload);
}

static void begin(struct client *client, uint16_t operation) {
    client->frame = client->out_length;
    put32(client, 0);
    put16(client, (uint16_t)version);
    put16(client, operation);
    put32(client, client->context);
    if (version == 2) put64(client, ++client->asked);
}

static void end(struct client *client) {
    uint32_t length = (uint32_t)(client->out_length - client->frame - 4);
    memcpy(client->out + client->frame, &length, 4);
}

static void put_add(struct client *client, const char *kind, unsigned number) {
    char description[32];
    snprintf(description, sizeof description, "%s%u", kind, number);
    begin(client, ADD);
    put_text(client, "user");
    put_text(client, description);
    put_payload(client);
    put32(client, (uint32_t)USER_KEYRING);
    end(client);
}

static void send_all(struct client *client) {
    size_t sent = 0;
    while (sent < client->out_length) {
        ssize_t took = write(client->socket, client->out + sent, client->out_length - sent);
        if (took <= 0) fail("the server takes no bytes");
        sent += (size_t)took;
    }
    client->out_length = 0;
}

/* The number that a reply begins its answer with, if it has one. It is an accepted one, with the tag that is next. */
static uint32_t number_of(struct client *client, const uint8_t *reply, uint32_t length) {
    uint32_t status, number = 0, head = version == 2 ? 16 : 8;
    uint64_t tag = ++client->answered;
    if (length + 4 < head) fail("a reply is too short");
    memcpy(&status, reply + 4, 4);
    if (version == 2) memcpy(&tag, reply + 8, 8);
    if (status != 0) fail("an ask was refused");
    if (tag != client->answered) fail("a reply has another tag than its ask");
    if (length >= head) memcpy(&number, reply + head, 4);
    return number;
}

/* The next reply's number; an echo has none. */
static uint32_t receive(struct client *client) {
    for (;;) {
        size_t there = client->in_end - client->in_start;
        const uint8_t *reply = client->in + client->in_start;
        uint32_t length = 0;
        if (there >= 4) memcpy(&length, reply, 4);
        if (there >= 4 && there >= 4 + (size_t)length) {
            client->in_start += 4 + (size_t)length;
            return strcmp(ask, "echo") ? number_of(client, reply, length) : 0;
        }
        memmove(client->in, reply, there);
        client->in_start = 0;
        client->in_end = there;
        ssize_t got = read(client->socket, client->in + there, sizeof client->in - there);
        if (got <= 0) fail("the server has ended the connection");
        client->in_end += (size_t)got;
    }
}

/* The commands of redis and of memcached, whose replies have one length each. */

static int is_redis, is_memcached;

static void put_words(struct client *client, const char *form, unsigned key) {
    char payload[PAYLOAD + 1], text[256];
    memset(payload, 'p', PAYLOAD);
    payload[PAYLOAD] = 0;
    int length = snprintf(text, sizeof text, form, client->number, key, payload);
    put(client, text, (size_t)length);
}

static void put_set(struct client *client, unsigned key) {
    put_words(client, is_redis ? "*3\r\n$3\r\nSET\r\n$6\r\n%04d%02u\r\n$32\r\n%s\r\n"
                                 : "set %04d%02u 0 0 32\r\n%s\r\n", key);
}

static void put_get(struct client *client, unsigned key) {
    put_words(client, is_redis ? "*2\r\n$3\r\nGET\r\n$6\r\n%04d%02u\r\n" : "get %04d%02u\r\n", key);
}

/* Takes so many replies, which are to begin so and to have this length each. */
static void receive_words(struct client *client, const char *front, size_t length, unsigned replies) {
    for (size_t left = length * replies, there = 0; left > 0; left -= there) {
        ssize_t got = read(client->socket, client->in, left < sizeof client->in ? left : sizeof client->in);
        if (got <= 0) fail("the server has ended the connection");
        if (left == length * replies && memcmp(client->in, front, strlen(front)) != 0) fail("an ask was refused");
        there = (size_t)got;
    }
}

static void receive_sets(struct client *client, unsigned replies) {
    receive_words(client, is_redis ? "+" : "S", strlen(is_redis ? "+OK\r\n" : "STORED\r\n"), replies);
}

static void receive_gets(struct client *client, unsigned replies) {
    size_t around = strlen(is_redis ? "$32\r\n\r\n" : "VALUE 000000 0 32\r\n\r\nEND\r\n");
    receive_words(client, is_redis ? "$" : "V", around + PAYLOAD, replies);
}

static void ask_words_once(struct client *client) {
    int updates = strstr(ask, "update") != NULL;
    for (unsigned i = 0; i < client->depth; i++) {
        (updates ? put_set : put_get)(client, (client->sent + i) % KEYS);
    }
    send_all(client);
    (updates ? receive_sets : receive_gets)(client, client->depth);
    client->sent += client->depth;
}

/* A context of a uid of its own, with keys in its user keyring; or keys of its own names. */
static void set_up(struct client *client) {
    if (is_redis || is_memcached) {
        for (unsigned key = 0; key < KEYS; key++) put_set(client, key);
        send_all(client);
        receive_sets(client, KEYS);
        return;
    }
    begin(client, HELLO);
    put32(client, 1000 + (uint32_t)client->number);
    put32(client, 1000);
    put32(client, 0);
    end(client);
    send_all(client);
    client->context = receive(client);
    for (unsigned key = 0; key < KEYS; key++) {
        put_add(client, "key", key);
        send_all(client);
        client->keys[key] = receive(client);
    }
}

/* Sends as many asks as the depth says, and takes their replies. */
static void ask_once(struct client *client) {
    unsigned depth = client->depth;
    int adds = !strcmp(ask, "add") && client->sent / depth % 2 == 0;
    int unlinks = !strcmp(ask, "add") && !adds;
    for (unsigned i = 0; i < depth; i++) {
        uint32_t key = client->keys[(client->sent + i) % KEYS];
        if (adds) {
            put_add(client, "new", i);
        } else if (unlinks) {
            begin(client, UNLINK);
            put32(client, client->added[i]);
            put32(client, (uint32_t)USER_KEYRING);
            end(client);
        } else if (!strcmp(ask, "update")) {
            begin(client, UPDATE);
            put32(client, key);
            put_payload(client);
            end(client);
        } else {
            begin(client, READ);
            put32(client, key);
            end(client);
        }
    }
    send_all(client);
    for (unsigned i = 0; i < depth; i++) {
        uint32_t number = receive(client);
        if (adds) client->added[i] = number;
    }
    client->sent += depth;
}

static void *run(void *given) {
    struct client *client = given;
    struct sockaddr_un address = {.sun_family = AF_UNIX};
    strncpy(address.sun_path, path, sizeof address.sun_path - 1);
    client->socket = socket(AF_UNIX, SOCK_STREAM, 0);
    if (connect(client->socket, (struct sockaddr *)&address, sizeof address) != 0) fail("nobody listens");
    if (strcmp(ask, "echo") != 0) set_up(client);
    pthread_barrier_wait(&all_are_ready);
    double start = now(), spent = 0;
    while (client->is_beside ? !is_over : spent < seconds) {
        double before = spent;
        (is_redis || is_memcached ? ask_words_once : ask_once)(client);
        spent = now() - start;
        client->times[client->timed++ % MOST_TIMES] = (float)((spent - before) * 1e6);
    }
    client->asks_a_second = client->sent / spent;
    close(client->socket);
    return NULL;
}

static int compare(const void *one, const void *other) {
    float a = *(const float *)one, b = *(const float *)other;
    return (a > b) - (a < b);
}

/* All times of all clients, sorted; how many they are. */
static float *all_times(struct client *clients, unsigned connections, size_t *count) {
    float *all = malloc(sizeof *all * MOST_TIMES * connections);
    *count = 0;
    for (unsigned i = 0; i < connections; i++) {
        size_t timed = clients[i].timed < MOST_TIMES ? clients[i].timed : MOST_TIMES;
        memcpy(all + *count, clients[i].times, timed * sizeof *all);
        *count += timed;
    }
    qsort(all, *count, sizeof *all, compare);
    return all;
}

int main(int count, char **words) {
    if (count < 6 || count > 8) fail("usage: load PATH echo|read|update|add CONNECTIONS DEPTH SECONDS [1|2 [BESIDE]]");
    path = words[1];
    ask = words[2];
    unsigned connections = (unsigned)atoi(words[3]);
    unsigned depth = (unsigned)atoi(words[4]);
    seconds = atof(words[5]);
    if (count > 6) version = (unsigned)atoi(words[6]);
    unsigned all = connections + (count > 7 ? (unsigned)atoi(words[7]) : 0);
    if (version != 1 && version != 2) fail("frames have version 1 or 2");
    is_redis = !strncmp(ask, "redis-", 6);
    is_memcached = !strncmp(ask, "memcached-", 10);
    if (connections < 1 || depth < 1 || depth > 1024) fail("1 connection or more, and a depth of 1 to 1024");
    pthread_barrier_init(&all_are_ready, NULL, all);
    struct client *clients = calloc(all, sizeof *clients);
    for (unsigned i = 0; i < all; i++) {
        clients[i].number = (int)i;
        clients[i].is_beside = i >= connections;
        clients[i].depth = i < connections ? depth : DEPTH_BESIDE;
        clients[i].times = malloc(sizeof(float) * MOST_TIMES);
        if (pthread_create(&clients[i].thread, NULL, run, &clients[i]) != 0) fail("no thread");
    }
    double asks_a_second = 0, beside = 0;
    for (unsigned i = 0; i < all; i++) {
        if (i == connections) is_over = true;
        pthread_join(clients[i].thread, NULL);
        if (i < connections) asks_a_second += clients[i].asks_a_second;
        else beside += clients[i].asks_a_second;
    }
    size_t timed;
    float *times = all_times(clients, connections, &timed);
    printf("%.0f %.1f %.1f %.0f\n", asks_a_second, (double)times[timed / 2], (double)times[timed * 99 / 100], beside);
    return 0;
}
