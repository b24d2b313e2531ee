/* way.c: see guard.h. */
#include "guard.h"

bool may_be_again(void) {
    switch (errno) {
    case EINTR: return true;
    case EAGAIN:
    case EMFILE:
    case ENFILE:
    case ENOBUFS:
    case ENOMEM: poll(NULL, 0, PAUSE); return true;
    default: return false;
    }
}

void begin_way(struct way *way, int from, int to) {
    way->from = from;
    way->to = to;
    way->there = way->passed = way->given = way->looked_at = way->untaken = 0;
    way->is_looked_at = way->is_over = false;
}

static size_t least(size_t one, size_t other) { return one < other ? one : other; }

/* A byte out of band can't be looked at: it is dropped where no other has come. */
bool bring(struct way *way, bool looks) {
    uint8_t *place = way->bytes + way->there;
    size_t room = sizeof way->bytes - way->there;
    ssize_t got = recv(way->from, place, room, MSG_DONTWAIT | (looks ? MSG_PEEK : 0));
    way->is_looked_at = looks && got > 0;
    if (looks && got < 0 && errno == EAGAIN) got = recv(way->from, place, room, MSG_DONTWAIT);
    if (got <= 0) {
        if (got == 0 || (errno != EAGAIN && !may_be_again())) way->is_over = true;
        return false;
    }
    size_t known = least((size_t)got, way->untaken);
    way->there += (size_t)got;
    way->untaken -= known;
    if (!way->is_looked_at) way->looked_at -= least((size_t)got, way->looked_at);
    drop_front(way->bytes, &way->there, known);
    return (size_t)got > known;
}

bool take(struct way *way) {
    bool has_more = false;
    while (way->looked_at > 0 && !way->is_over) {
        size_t before = way->looked_at;
        has_more = bring(way, false) || has_more;
        if (way->looked_at == before) poll(NULL, 0, PAUSE);
    }
    return has_more;
}

/* What was looked at goes on from the first byte that wasn't given. */
bool give(struct way *way) {
    while (way->given < way->passed) {
        ssize_t sent = send(way->to, way->bytes + way->given, way->passed - way->given, MSG_DONTWAIT);
        if (sent >= 0) {
            way->given += (size_t)sent;
        } else if (errno == EAGAIN) {
            return false;
        } else if (!may_be_again()) {
            way->is_over = true;
            break;
        }
    }
    if (way->is_looked_at) {
        way->looked_at = way->there;
        way->untaken = way->passed;
    }
    drop_front(way->bytes, &way->there, way->is_looked_at ? way->there : way->passed);
    way->passed = way->given = 0;
    return true;
}

bool is_done(const struct way *way) { return way->is_over && way->passed == 0; }

void end_way(struct way *way) {
    ssize_t got = way->from >= 0 ? recv(way->from, way->bytes, sizeof way->bytes, MSG_DONTWAIT) : 0;
    if (got > (ssize_t)way->there) way->there = (size_t)got;
    drop_front(way->bytes, &way->there, way->there);
}
