/* notes MODE [WORD ..]: pipes of notes, by pipe2(2), ioctl(2) and keyctl(2). Records and errors are those of
 * watch_queue.rst, linux/watch_queue.h, linux/keyctl.h and keyctl_watch_key(3). */
#define _GNU_SOURCE
#include <grp.h>
#include <poll.h>
#include <sys/ioctl.h>
#include <sys/mman.h>
#include <sys/resource.h>

#include "calls.h"

enum { NOTES = O_EXCL, SET_SIZE = 0x5760, SET_FILTER, ROOM = 433, PATIENCE = 20000, UID = 20000, HAS_NOTES = 0x04 };
enum { OPEN_TO_USER = 0x3f3f0000, OTHERS_MAY_VIEW = 1, POSSESSOR_MAY_READ = 0x02000000, ALL_OF_POSSESSOR = 0x3f000000 };
enum { UPDATED = 1, LINKED, UNLINKED, CLEARED, REVOKED, INVALIDATED, SETATTR };

/* ---- Calls ---- */

static long make(int *ends, int flags) { return syscall(SYS_pipe2, ends, NOTES | flags); }
static long watch(long key, int end, int id) {
    return keyctl(KEYCTL_WATCH_KEY, (unsigned long)key, (unsigned long)end, (unsigned long)(long)id, 0);
}
static long add(const char *name) { return add_key("user", name, "x", 1, KEY_SPEC_SESSION_KEYRING); }
static long update(long key) { return keyctl(KEYCTL_UPDATE, (unsigned long)key, (unsigned long)"y", 1, 0); }

/* One that doesn't wait, of this capacity; the number of its reader. */
static int make_pipe(unsigned capacity) {
    int ends[2];
    if (make(ends, O_NONBLOCK) < 0 || ioctl(ends[0], SET_SIZE, capacity) < 0) return -1;
    close(ends[1]);
    return ends[0];
}

struct note {
    int length;
    unsigned type, subtype, id, key, other;
};

/* Reads one: of length 0 at the end, -1 where there is none. */
static struct note read_note(int end) {
    uint32_t at[ROOM / 4 + 1] = { 0 };
    ssize_t length = read(end, at, ROOM);
    return (struct note){ (int)length, at[0] & 0xffffff, at[0] >> 24, at[1] >> 8 & 0xff, at[2], at[3] };
}

static bool is_note(int end, unsigned subtype, long key, long other) {
    struct note note = read_note(end);
    return note.length == 16 && note.type == 1 && note.subtype == subtype && note.id == 7 && note.key == key &&
           note.other == other;
}

static bool is_removal(int end, long key) {
    struct note note = read_note(end);
    return note.length == 16 && note.type == 0 && note.subtype == 0 && note.key == key && note.other == 0;
}

static bool is_empty(int end) { return refused(read_note(end).length, EAGAIN); }

static bool comes(int end) {
    struct pollfd wait = { .fd = end, .events = POLLIN };
    return poll(&wait, 1, PATIENCE) == 1;
}

static bool is_loss(const struct note *note) { return note->type == 0 && note->subtype == 1 && note->length == 8; }

/* How many updates have come and come, until none does for a second; how many losses; and how many records else. */
static void count(int end, int *updates, int *losses, int *others) {
    struct pollfd wait = { .fd = end, .events = POLLIN };
    *updates = *losses = *others = 0;
    while (poll(&wait, 1, 1000) == 1) {
        struct note note = read_note(end);
        if (note.length <= 0) return;
        ++*(note.type == 1 && note.subtype == UPDATED ? updates : is_loss(&note) ? losses : others);
    }
}

static int count_numbers(void) {
    int numbers = 0;
    for (int i = 0; i < 1024; i++) numbers += fcntl(i, F_GETFD) >= 0;
    return numbers;
}

static void become(int uid) {
    gid_t group = (gid_t)uid;
    if (setgroups(0, NULL) < 0 || setresgid(group, group, group) < 0) _exit(2);
    if (setresuid((uid_t)uid, (uid_t)uid, (uid_t)uid) < 0) _exit(2);
}

/* ---- What is answered ---- */

static void try_making(void) {
    int ends[2] = { -7, -7 }, before = count_numbers();
    void *page = mmap(NULL, 4096, PROT_READ, MAP_PRIVATE | MAP_ANONYMOUS, -1, 0);
    check("an unknown flag", refused(make(ends, O_APPEND), EINVAL));
    check("no address", refused(make(NULL, 0), EFAULT));
    check("one that can't be written to", refused(make(page, 0), EFAULT));
    check("they leave nothing", count_numbers() == before && ends[0] == -7);
    check("one is made", make(ends, O_NONBLOCK | O_CLOEXEC) == 0 && count_numbers() == before + 2);
    check("it is closed by execve(2)", fcntl(ends[0], F_GETFD) == FD_CLOEXEC && fcntl(ends[1], F_GETFD) == FD_CLOEXEC);
    check("it doesn't wait", is_empty(ends[0]) && is_empty(ends[1]));
    check("nobody writes to it", write(ends[1], "x", 1) < 0 && write(ends[0], "x", 1) < 0 && is_empty(ends[0]));
    check("an ordinary pipe", (close(ends[0]), close(ends[1]), pipe2(ends, O_CLOEXEC)) == 0 &&
                                  write(ends[1], "x", 1) == 1);
    check("its size", refused(ioctl(ends[0], SET_SIZE, 8), ENODEV) && refused(ioctl(ends[0], SET_FILTER, 0), ENODEV));
    check("a watch by it", refused(watch(add("k"), ends[0], 7), EINVAL));
    close(ends[0]);
    close(ends[1]);
}

static void try_size_and_filter(int null) {
    uint32_t filter[2 + 11 * 17] = { 1, 0, 1, 0, 0, 1 << UPDATED };
    int ends[2];
    if (!check("a pipe", make(ends, O_NONBLOCK) == 0)) return;
    check("no records", refused(ioctl(ends[0], SET_SIZE, 0), EINVAL));
    check("too many", refused(ioctl(ends[0], SET_SIZE, 513), EINVAL));
    check("its size, by either number", ioctl(ends[1], SET_SIZE, 512) == 0);
    check("once more", refused(ioctl(ends[0], SET_SIZE, 8), EBUSY));
    check("of a file", refused(ioctl(null, SET_SIZE, 8), ENOTTY) && refused(ioctl(null, SET_FILTER, filter), ENOTTY));
    check("of none", refused(ioctl(999, SET_SIZE, 8), EBADF));
    check("other requests go on", ioctl(ends[0], FIONREAD, &filter[7]) == 0 && filter[7] == 0);
    check("a filter", ioctl(ends[0], SET_FILTER, filter) == 0);
    check("an address that isn't there", refused(ioctl(ends[0], SET_FILTER, 16), EFAULT));
    check("no entry", (filter[0] = 0, refused(ioctl(ends[0], SET_FILTER, filter), EINVAL)));
    check("too many entries", (filter[0] = 17, refused(ioctl(ends[0], SET_FILTER, filter), EINVAL)));
    check("what is reserved", (filter[0] = filter[1] = 1, refused(ioctl(ends[0], SET_FILTER, filter), EINVAL)));
    check("by the length", (filter[1] = 0, filter[4] = 1, refused(ioctl(ends[0], SET_FILTER, filter), EINVAL)));
    check("beyond its mask", (filter[3] = 0x100, filter[4] = 0, refused(ioctl(ends[0], SET_FILTER, filter), EINVAL)));
    long key = add("filtered");
    check("a watch", watch(key, ends[0], 7) == 0);
    keyctl(KEYCTL_SETPERM, (unsigned long)key, OPEN_TO_USER, 0, 0);
    check("what its filter leaves out isn't told", update(key) == 0 && is_note(ends[0], UPDATED, key, 0));
    check("nothing else is", is_empty(ends[0]));
    check("without it", ioctl(ends[0], SET_FILTER, 0) == 0);
    keyctl(KEYCTL_SETPERM, (unsigned long)key, OPEN_TO_USER, 0, 0);
    check("all is", is_note(ends[0], SETATTR, key, 0));
    close(ends[0]);
    close(ends[1]);
}

static void try_watching(int null) {
    int end = make_pipe(8);
    long key = add("watched"), unseen = add("unseen"), alone = add("of its possessor alone");
    keyctl(KEYCTL_SETPERM, (unsigned long)unseen, POSSESSOR_MAY_READ, 0, 0);
    check("an id above", refused(watch(key, end, 256), EINVAL) && refused(watch(key, end, -2), EINVAL));
    check("no key", refused(watch(99999, end, 7), ENOKEY) && refused(watch(99999, null, 7), ENOKEY));
    check("one that may not be viewed", refused(watch(unseen, end, 7), EACCES));
    check("the same before a file", refused(watch(unseen, null, 7), EACCES));
    check("one that only its possessor may view, which the kernel has watched",
          keyctl(KEYCTL_SETPERM, (unsigned long)alone, ALL_OF_POSSESSOR, 0, 0) == 0 &&
              refused(watch(alone, end, 7), EACCES));
    check("by a file, and by none", refused(watch(key, null, 7), EINVAL) && refused(watch(key, 999, 7), EINVAL));
    check("what isn't watched", refused(watch(key, end, -1), EBADSLT));
    check("it is set", watch(key, end, 7) == 0);
    check("and once more", refused(watch(key, end, 8), EBUSY));
    check("by another number", watch(unseen, dup(end), 7) < 0 && refused(watch(key, dup(end), 7), EBUSY));
    check("it is taken away", watch(key, end, -1) == 0 && is_removal(end, key));
    check("and once more", refused(watch(key, end, -1), EBADSLT));
    check("and is told no more", update(key) == 0 && is_empty(end));
    check("it is set again", watch(key, end, 7) == 0 && update(key) == 0 && is_note(end, UPDATED, key, 0));
    int before = add("dropped") > 0 ? make_pipe(8) : -1;
    long dropped = add("dropped");
    check("a key that is dropped", watch(dropped, before, 7) == 0 &&
                                       keyctl(KEYCTL_UNLINK, (unsigned long)dropped, -3ul, 0, 0) == 0);
    check("is removed", comes(before) && is_removal(before, dropped));
    close(before);
    close(end);
}

/* Each is there when the call has returned. */
static void try_notes(void) {
    int end = make_pipe(64), count = -1;
    long session = ring_of(KEY_SPEC_SESSION_KEYRING, 0), process = ring_of(KEY_SPEC_PROCESS_KEYRING, 1);
    unsigned long ring = (unsigned long)add_key("keyring", "ring", NULL, 0, KEY_SPEC_SESSION_KEYRING);
    check("keyrings are watched, by an id and by a serial",
          watch(KEY_SPEC_SESSION_KEYRING, end, 7) == 0 && watch(process, end, 7) == 0 &&
              watch((long)ring, end, 7) == 0);
    unsigned long key = (unsigned long)add("told");
    check("a key is told", watch((long)key, end, 7) == 0);
    check("linked", is_note(end, LINKED, session, (long)key));
    check("updated, by its name", add("told") == (long)key && is_note(end, UPDATED, (long)key, 0));
    check("linked, to a serial", keyctl(KEYCTL_LINK, key, ring, 0, 0) == 0 &&
                                     is_note(end, LINKED, (long)ring, (long)key));
    check("moved", keyctl(KEYCTL_MOVE, key, -3ul, -2ul, 0) == 0 && is_note(end, UNLINKED, session, (long)key) &&
                       is_note(end, LINKED, process, (long)key));
    check("found", keyctl(KEYCTL_SEARCH, ring, (unsigned long)"user", (unsigned long)"told", -3ul) == (long)key &&
                       is_note(end, LINKED, session, (long)key));
    check("without a keyring to put it in", find(KEY_SPEC_SESSION_KEYRING, "told") == (long)key && is_empty(end));
    check("its timeout", keyctl(KEYCTL_SET_TIMEOUT, key, 100, 0, 0) == 0 && is_note(end, SETATTR, (long)key, 0));
    check("its owner", keyctl(KEYCTL_CHOWN, key, getuid(), -1ul, 0) < 0 || is_note(end, SETATTR, (long)key, 0));
    check("cleared", keyctl(KEYCTL_CLEAR, ring, 0, 0, 0) == 0 && is_note(end, CLEARED, (long)ring, 0));
    check("unlinked", keyctl(KEYCTL_UNLINK, key, -2ul, 0, 0) == 0 && is_note(end, UNLINKED, process, (long)key));
    check("as many bytes as one has", keyctl(KEYCTL_REVOKE, key, 0, 0, 0) == 0 && ioctl(end, FIONREAD, &count) == 0 &&
                                          count == 16);
    check("revoked", is_note(end, REVOKED, (long)key, 0));
    key = (unsigned long)add("invalid");
    check("linked again", is_note(end, LINKED, session, (long)key) && watch((long)key, end, 7) == 0);
    check("invalidated", keyctl(KEYCTL_INVALIDATE, key, 0, 0, 0) == 0 && is_note(end, INVALIDATED, (long)key, 0));
    close(end);
}

static void try_children(void) {
    int end = make_pipe(64), gates[2];
    long key = add("shared");
    char byte;
    if (pipe(gates) < 0 || watch(key, end, 7) < 0) exit(2);
    if (fork() == 0) {
        close(gates[1]);
        bool is_told = read(gates[0], &byte, 1) == 0 && is_note(end, UPDATED, key, 0);
        _exit(is_told && watch(add("of a child"), end, 7) == 0 && watch(key, end, -1) == 0 ? 0 : 1);
    }
    close(end);
    check("others change it", update(key) == 0);
    close(gates[0]);
    close(gates[1]);
    int status;
    check("a child has the pipe when its parent has closed it", wait(&status) > 0 && status == 0);
}

static int answer_all(void) {
    unsigned char known[2] = { 0 };
    int null = open("/", O_RDONLY);
    check("it is told to be there", keyctl(KEYCTL_CAPABILITIES, (unsigned long)known, 2, 0, 0) == 2 &&
                                        known[1] == HAS_NOTES);
    try_making();
    try_size_and_filter(null);
    try_watching(null);
    try_notes();
    try_children();
    return conclude("notes");
}

/* Where it isn't told to be there a program does without. */
static int have_none(void) {
    unsigned char known[2] = { 0xff, 0xff };
    bool is_told = keyctl(KEYCTL_CAPABILITIES, (unsigned long)known, 2, 0, 0) == 2 && known[1] & HAS_NOTES;
    printf("%s, %s\n", is_told ? "told" : "not told", watch(add("k"), 0, 7) < 0 ? strerrorname_np(errno) : "watched");
    return 0;
}

/* ---- What nobody may ---- */

/* Another program of the uid has the same way to it, by /proc. */
static int forge(void) {
    char path[64], room[CMSG_SPACE(sizeof(int))] = "";
    int end = make_pipe(8);
    struct iovec byte = { "x", 1 };
    struct msghdr message = { .msg_iov = &byte, .msg_iovlen = 1, .msg_control = room, .msg_controllen = sizeof room };
    struct cmsghdr *head = CMSG_FIRSTHDR(&message);
    *head = (struct cmsghdr){ CMSG_LEN(sizeof end), SOL_SOCKET, SCM_RIGHTS };
    memcpy(CMSG_DATA(head), &end, sizeof end);
    snprintf(path, sizeof path, "/proc/self/fd/%d", end);
    bool is_opened = open(path, O_WRONLY | O_NONBLOCK) >= 0 || open(path, O_RDWR | O_NONBLOCK) >= 0;
    printf("%s, %s, %s\n", is_opened ? "opened for writing" : "not opened",
           write(end, "x", 1) < 0 ? "not written" : "written",
           sendmsg(end, &message, MSG_NOSIGNAL) < 0 ? "nothing sent" : "sent");
    return 0;
}

/* As many numbers are left as the mode says. */
static int make_few(int left) {
    int ends[2] = { -7, -7 };
    for (int i = 3; i < 1024; i++) close(i);
    struct rlimit limit = { (rlim_t)(3 + left), 1024 };
    if (setrlimit(RLIMIT_NOFILE, &limit) < 0) return 2;
    long made = make(ends, 0);
    int error = errno;
    printf("%s, %d more, %s\n", made == 0 ? "made" : strerrorname_np(error), count_numbers() - 3,
           ends[0] == -7 && ends[1] == -7 ? "nothing told" : "told");
    return 0;
}

/* Users who take what they get, one after the other: who gets nothing at all? */
static int take_all(int users) {
    int left_out = 0, most = 0, said[2], gates[2], got;
    if (pipe(said) < 0 || pipe(gates) < 0) return 2;
    for (int user = 0; user < users; user++) {
        if (fork() == 0) {
            int mine = 0;
            become(UID + user);
            while (mine < 100 && make_pipe(1) >= 0) mine++;
            close(gates[1]);
            if (write(said[1], &mine, sizeof mine) < 0 || read(gates[0], &got, 1) != 0) _exit(2);
            _exit(0);
        }
        if (read(said[0], &got, sizeof got) != sizeof got) return 2;
        left_out += got == 0;
        most = got > most ? got : most;
    }
    close(gates[1]);
    while (wait(NULL) > 0) continue;
    printf("%d at most, %d left out\n", most, left_out);
    return 0;
}

/* ---- Many ---- */

/* A process keyring is kept here, while another process of the session has 16 queues read for each of its updates. */
static int wear(int updates) {
    enum { PIPES = 16 };
    long ring = ring_of(KEY_SPEC_PROCESS_KEYRING, 1);
    pid_t child = fork();
    if (child == 0) {
        int ends[PIPES], wrong = 0, more[3];
        long key = add("worn");
        for (int i = 0; i < PIPES; i++) wrong += (ends[i] = make_pipe(512)) < 0 || watch(key, ends[i], 7) < 0;
        for (int i = 0; i < updates; i++) {
            usleep(20000); /* queues are polled meanwhile, and their connection is worn */
            wrong += update(key) < 0;
            for (int j = 0; j < PIPES; j++) wrong += !is_note(ends[j], UPDATED, key, 0);
        }
        for (int i = 0; i < PIPES; i++, wrong += more[0] + more[1] + more[2])
            count(ends[i], &more[0], &more[1], &more[2]);
        _exit(wrong == 0 ? 0 : 1);
    }
    int status = status_of(child);
    printf("notes %s, the process keyring %s\n", status == 0 ? "right" : "wrong",
           ring_of(KEY_SPEC_PROCESS_KEYRING, 0) == ring ? "kept" : "lost");
    return 0;
}

/* A user watches its key by a pipe of root's, updates it, and waits until all have. */
static void watch_as(int user, int end, int said, int gate) {
    become(UID + user);
    long key = add_key("user", "own", "x", 1, KEY_SPEC_USER_KEYRING), set = watch(key, end, user);
    for (int i = 0; i < 3 && set == 0; i++) set = update(key);
    if (write(said, &set, sizeof set) < 0 || read(gate, &set, 1) != 0) _exit(2);
    _exit(0);
}

/* Who asks on another connection than who has set a watch sees that, and takes it away. */
static bool is_shared(int end, long key) {
    pid_t child = fork();
    if (child == 0) {
        become(UID + 999);
        bool is_seen = refused(watch(key, end, 8), EBUSY);
        _exit(is_seen && watch(key, end, -1) == 0 ? 0 : 1);
    }
    return status_of(child) == 0;
}

static int watch_together(int users) {
    int end = make_pipe(500), said[2], gates[2], set = 0, seen[256] = { 0 }, updates = 0, others = 0;
    long key = add("open to all"), answer;
    keyctl(KEYCTL_SETPERM, (unsigned long)key, OPEN_TO_USER | OTHERS_MAY_VIEW, 0, 0);
    if (pipe(said) < 0 || pipe(gates) < 0 || watch(key, end, 255) < 0) return 2;
    for (int user = 0; user < users; user++) {
        if (fork() == 0) {
            close(gates[1]);
            watch_as(user, end, said[1], gates[0]);
        }
        set += read(said[0], &answer, sizeof answer) == sizeof answer && answer == 0;
    }
    bool is_seen = is_shared(end, key);
    for (struct note note; (note = read_note(end)).length > 0;) {
        if (note.type == 1 && note.subtype == UPDATED) seen[note.id]++, updates++;
        else others += !(note.type == 0 && note.key == key);
    }
    for (int user = 0; user < users; user++) others += seen[user] != 3;
    close(gates[1]);
    while (wait(NULL) > 0) continue;
    printf("%d watches, %d updates, %d wrong, %s\n", set, updates, others, is_seen ? "one for all" : "each its own");
    return 0;
}

/* Updates another key so often, beside so many pipes, while `file` isn't there. */
static int stand_beside(int pipes, const char *file, int updates) {
    long watched = add("watched"), other = add("other");
    for (int i = 0; i < pipes; i++)
        if (watch(watched, make_pipe(8), 7) < 0) return 2;
    puts("ready");
    fflush(stdout);
    while (access(file, F_OK) < 0) usleep(1000);
    for (int i = 0; i < updates; i++)
        if (update(other) < 0) return 2;
    puts("done");
    return 0;
}

/* Whoever reads late finds what there was room for, a loss, and then what came after. */
static int fill(void) {
    int end = make_pipe(100), updates, losses, others;
    long key = add("often");
    if (watch(key, end, 7) < 0) return 2;
    for (int i = 0; i < 2000; i++)
        if (update(key) < 0) return 2;
    for (int i = 0; i < 15; i++)
        if (watch(key, make_pipe(512), 7) < 0) return 2;
    for (int i = 0; i < 20; i++) /* others wear the connection more than once meanwhile */
        if (usleep(100000) < 0 || update(key) < 0) return 2;
    count(end, &updates, &losses, &others);
    bool is_later = update(key) == 0 && is_note(end, UPDATED, key, 0);
    printf("%s, %s, %d other, then %s\n", updates >= 100 && updates < 2000 ? "some" : "none or all",
           losses > 0 ? "a loss" : "no loss", others, is_later ? "on" : "nothing");
    return 0;
}

/* ---- One that lasts ---- */

static int reads(long id) {
    static const char *const names[] = { "instantiated", "updated", "linked", "unlinked", "cleared", "revoked",
                                         "invalidated", "setattr" };
    int ends[2];
    if (make(ends, 0) < 0 || ioctl(ends[0], SET_SIZE, 64) < 0 || watch(id, ends[0], 7) < 0) return perror("watch"), 1;
    puts("watches");
    for (struct note note; fflush(stdout), (note = read_note(ends[0])).length > 0;)
        puts(note.type == 1 && note.subtype <= SETATTR ? names[note.subtype] : note.subtype == 0 ? "removed" : "lost");
    puts("end");
    return 0;
}

static _Noreturn void make_often(void) {
    for (int ends[2];; close(ends[0]), close(ends[1])) {
        if (make(ends, 0) < 0 || ioctl(ends[0], SET_SIZE, 8) < 0) continue;
        watch(KEY_SPEC_SESSION_KEYRING, ends[0], 7);
        keyctl(KEYCTL_SET_TIMEOUT, -3ul, 0, 0, 0);
    }
}

static int numbers[3];
static bool is_over;
static void *change_number(void *unused) {
    while (!__atomic_load_n(&is_over, __ATOMIC_RELAXED)) dup2(numbers[0], numbers[2]), dup2(numbers[1], numbers[2]);
    return unused;
}

/* A number that another thread changes is the one or the other. */
static int race(int rounds) {
    int set = 0, refused_ones = 0, other = 0;
    long key = add("raced");
    pthread_t thread;
    numbers[0] = open("/dev/null", O_RDONLY);
    numbers[1] = make_pipe(8);
    numbers[2] = dup(numbers[0]);
    if (pthread_create(&thread, NULL, change_number, NULL) != 0) return 2;
    for (int i = 0; i < rounds; i++) {
        long answer = watch(key, numbers[2], 7);
        if (answer == 0) set++, other += watch(key, numbers[1], -1) < 0;
        else if (errno == EINVAL) refused_ones++; else other++;
    }
    __atomic_store_n(&is_over, true, __ATOMIC_RELAXED);
    pthread_join(thread, NULL);
    printf("%s, %d other\n", set > 0 && refused_ones > 0 ? "both" : "one", other);
    return 0;
}

/* What a file of FUSE is isn't looked at, whose server would not answer. */
static int name_file(const char *path) {
    int file = open(path, O_RDONLY);
    long key = add("k");
    bool is_none = file >= 0 && refused(ioctl(file, SET_SIZE, 8), ENOTTY) && refused(watch(key, file, 7), EINVAL);
    return puts(is_none ? "none" : "otherwise") < 0;
}

int main(int count, char **words) {
    const char *mode = count > 1 ? words[1] : "", *word = count > 2 ? words[2] : "";
    int many = atoi(word);
    if (strcmp(mode, "answers") == 0) return answer_all();
    if (strcmp(mode, "none") == 0) return have_none();
    if (strcmp(mode, "forge") == 0) return forge();
    if (strcmp(mode, "few") == 0) return make_few(many);
    if (strcmp(mode, "users") == 0) return take_all(many);
    if (strcmp(mode, "wear") == 0) return wear(many);
    if (strcmp(mode, "together") == 0) return watch_together(many);
    if (strcmp(mode, "beside") == 0 && count > 4) return stand_beside(many, words[3], atoi(words[4]));
    if (strcmp(mode, "fill") == 0) return fill();
    if (strcmp(mode, "reads") == 0) return reads(many);
    if (strcmp(mode, "often") == 0) make_often();
    if (strcmp(mode, "adds") == 0) return add_key("user", "k", "x", 1, KEY_SPEC_USER_KEYRING) < 0;
    if (strcmp(mode, "race") == 0) return race(many);
    if (strcmp(mode, "file") == 0) return name_file(word);
    return 2;
}
