/* peer echo|map PATH: servers on a Unix socket to measure the daemon beside. echo sends back what it reads. map speaks
 * the frames of HELLO, ADD, UPDATE, READ and UNLINK, of both versions, and keeps nothing but payloads, in a hash map
 * under one mutex: no rights, no keyrings, no clock. Both have a thread for each connection. */
#include <pthread.h>
#include <stdint.h>
#include <stdio.h>
#include <stdlib.h>
#include <string.h>
#include <sys/socket.h>
#include <sys/un.h>
#include <unistd.h>

enum { UPDATE = 2, UNLINK = 9, READ = 11, HELLO = 256, ADD = 262, ENOKEY_NUMBER = 126, BUCKETS = 1 << 16 };

struct key {
    struct key *next;
    uint32_t serial, length;
    uint8_t *payload;
};

static pthread_mutex_t mutex = PTHREAD_MUTEX_INITIALIZER;
static struct key *buckets[BUCKETS];
static uint32_t last_serial = 2, last_context;
static int is_echo;

static void write_all(int end, const uint8_t *bytes, size_t length) {
    while (length > 0) {
        ssize_t took = send(end, bytes, length, MSG_NOSIGNAL);
        if (took <= 0) return;
        bytes += took;
        length -= (size_t)took;
    }
}

static uint32_t number_at(const uint8_t *bytes) {
    uint32_t number;
    memcpy(&number, bytes, 4);
    return number;
}

static struct key **place_of(uint32_t serial) {
    struct key **place = &buckets[serial % BUCKETS];
    while (*place && (*place)->serial != serial) place = &(*place)->next;
    return place;
}

/* A payload in a body, behind its length. */
static void keep(struct key *key, const uint8_t *blob) {
    free(key->payload);
    key->length = number_at(blob);
    key->payload = malloc(key->length);
    memcpy(key->payload, blob + 4, key->length);
}

/* The answer to an ask, and its status. Answers how long it is. */
static uint32_t serve(uint16_t operation, const uint8_t *body, uint8_t *answer, uint32_t *status) {
    uint32_t length = 0;
    if (operation == HELLO) {
        last_context += 1;
        memcpy(answer, &last_context, 4);
        length = 4;
    } else if (operation == ADD) {
        struct key *key = calloc(1, sizeof *key);
        body += 2 + (body[0] | body[1] << 8);
        body += 2 + (body[0] | body[1] << 8);
        keep(key, body);
        key->serial = last_serial += 1;
        key->next = buckets[key->serial % BUCKETS];
        buckets[key->serial % BUCKETS] = key;
        memcpy(answer, &key->serial, 4);
        length = 4;
    } else {
        struct key **place = place_of(number_at(body)), *key = *place;
        if (!key) {
            *status = ENOKEY_NUMBER;
        } else if (operation == READ) {
            memcpy(answer, key->payload, key->length);
            length = key->length;
        } else if (operation == UPDATE) {
            keep(key, body + 4);
        } else if (operation == UNLINK) {
            *place = key->next;
            free(key->payload);
            free(key);
        }
    }
    return length;
}

/* The reply to the ask of a frame, in its version: length, status, the tag of version 2, answer. Answers how long all
 * of it is. */
static size_t reply_to(const uint8_t *frame, uint8_t *reply) {
    size_t tag = frame[4] == 2 ? 8 : 0;
    uint16_t operation = (uint16_t)(frame[6] | frame[7] << 8);
    uint32_t status = 0;
    pthread_mutex_lock(&mutex);
    uint32_t length = 4 + (uint32_t)tag + serve(operation, frame + 12 + tag, reply + 8 + tag, &status);
    pthread_mutex_unlock(&mutex);
    memcpy(reply, &length, 4);
    memcpy(reply + 4, &status, 4);
    memcpy(reply + 8, frame + 12, tag);
    return 4 + (size_t)length;
}

static void *serve_connection(void *given) {
    int end = (int)(intptr_t)given;
    size_t there = 0, room = 1 << 17;
    uint8_t *in = malloc(room), *out = malloc(2 * room);
    for (;;) {
        ssize_t got = read(end, in + there, is_echo ? 4096 : room - there);
        if (got <= 0) break;
        if (is_echo) {
            write_all(end, in, (size_t)got);
            continue;
        }
        size_t from = 0, written = 0;
        there += (size_t)got;
        while (there - from >= 12 && there - from >= 4 + (size_t)number_at(in + from)) {
            written += reply_to(in + from, out + written);
            from += 4 + (size_t)number_at(in + from);
            if (written > room / 2) {
                write_all(end, out, written);
                written = 0;
            }
        }
        write_all(end, out, written);
        there -= from;
        memmove(in, in + from, there);
    }
    close(end);
    free(in);
    free(out);
    return NULL;
}

int main(int count, char **words) {
    if (count != 3) return 2;
    is_echo = !strcmp(words[1], "echo");
    struct sockaddr_un address = {.sun_family = AF_UNIX};
    strncpy(address.sun_path, words[2], sizeof address.sun_path - 1);
    int listener = socket(AF_UNIX, SOCK_STREAM, 0);
    if (bind(listener, (struct sockaddr *)&address, sizeof address) != 0 || listen(listener, 128) != 0) return 3;
    printf("listening %s\n", words[2]);
    fflush(stdout);
    for (;;) {
        pthread_t thread;
        int end = accept(listener, NULL, NULL);
        if (end < 0 || pthread_create(&thread, NULL, serve_connection, (void *)(intptr_t)end) != 0) return 1;
        pthread_detach(thread);
    }
}
