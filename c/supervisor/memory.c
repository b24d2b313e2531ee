/* memory.c: reads a thread's memory by its number, where the thread itself may read; and writes by /proc/PID/mem, which
 * stays bound to that memory, and writes also where the thread itself may not. So where that is to go is looked at
 * first. */
#include "proc.h"

#include <linux/types.h>
#include <sys/ioctl.h>
#include <sys/uio.h>

enum { PAGE = 4096, SHORT = 256 };

int memory_open(struct memory *memory, pid_t thread) {
    memory->file = proc_open_file(thread, "mem", O_RDWR);
    memory->maps = memory->file < 0 ? -1 : proc_open_file(thread, "maps", O_RDONLY);
    if (memory->maps >= 0) return 0;
    memory_close(memory);
    return -1;
}

void memory_close(struct memory *memory) {
    close_one(&memory->file);
    close_one(&memory->maps);
}

int memory_watch(pid_t thread) { return proc_open_file(thread, "pagemap", O_RDONLY); }

/* Of memory that nobody has any more the kernel reads nothing, and calls that no error; of other it refuses half an
 * entry before it takes the lock of the memory, which its program may hold for as long as it likes. */
bool memory_is_gone(int watched) {
    char byte;
    return pread(watched, &byte, 1, 0) == 0;
}

/* Where a file's server doesn't answer, its reader can be killed, and the thread itself isn't held up. */
static ssize_t read_part(pid_t thread, void *to, unsigned long from, size_t length) {
    const struct iovec here = { to, length }, there = { (void *)from, length };
    return process_vm_readv(thread, &here, 1, &there, 1, 0);
}

bool memory_read(pid_t thread, void *to, unsigned long from, size_t length) {
    ssize_t got = read_part(thread, to, from, length);
    if (got >= 0 && (size_t)got < length) errno = EFAULT;
    return got == (ssize_t)length;
}

/* Up to the end of a page at a time, as the next may not be there; first a few bytes, as most texts are short. Nothing
 * stays of what was read behind the text, nor of one that can't be read. */
bool memory_read_text(pid_t thread, char *to, unsigned long from, size_t max) {
    size_t length = 0;
    while (length < max) {
        size_t wanted = PAGE - (from + length) % PAGE;
        if (wanted > max - length) wanted = max - length;
        if (length == 0 && wanted > SHORT) wanted = SHORT;
        ssize_t got = read_part(thread, to + length, from + length, wanted);
        if (got <= 0) return explicit_bzero(to, length), false;
        char *next = to + length, *end = memchr(next, '\0', (size_t)got);
        if (end) {
            explicit_bzero(end, (size_t)(next + got - end));
            return true;
        }
        length += (size_t)got;
    }
    to[length] = '\0';
    return true;
}

/* ---- Writing ---- */

/* PROCMAP_QUERY of linux/fs.h, which came with Linux 6.11. */
struct mapping_query {
    __u64 size, query_flags, query_addr, vma_start, vma_end, vma_flags, vma_page_size, vma_offset, inode;
    __u32 dev_major, dev_minor, vma_name_size, build_id_size;
    __u64 vma_name_addr, build_id_addr;
};
#define MAPPING_QUERY _IOWR('f', 17, struct mapping_query)
enum { MAPPING_IS_WRITABLE = 2 };

enum answer { NO, YES, UNKNOWN };

static enum answer is_writable_in(int maps, unsigned long at, unsigned long end) {
    while (at < end) {
        struct mapping_query query = { .size = sizeof query, .query_addr = at };
        if (KEYRETAIN_OLD_KERNEL) return UNKNOWN;
        if (ioctl(maps, MAPPING_QUERY, &query) < 0) return errno == ENOENT ? NO : UNKNOWN;
        if (!(query.vma_flags & MAPPING_IS_WRITABLE) || query.vma_end <= at) return NO;
        at = query.vma_end;
    }
    return YES;
}

/* Before, it is told in lines, in the order of addresses; from the first on, also where they were read before. */
static bool is_writable_in_lines(int file, unsigned long at, unsigned long end) {
    int other = lseek(file, 0, SEEK_SET) < 0 ? -1 : dup(file);
    FILE *maps = other < 0 ? NULL : fdopen(other, "r");
    unsigned long start, stop;
    char *line = NULL, writable;
    size_t room = 0;
    if (!maps) return close_one(&other), false;
    while (at < end && getline(&line, &room, maps) > 0) {
        if (sscanf(line, "%lx-%lx %*c%c", &start, &stop, &writable) != 3 || at < start || at >= stop) continue;
        if (writable != 'w') break;
        at = stop;
    }
    free(line);
    fclose(maps);
    return at >= end;
}

/* What is looked at and written to was opened while the thread waited. So it is that thread's memory, whatever is
 * executed meanwhile, and whoever has its number. */
bool memory_write(const struct memory *memory, unsigned long to, const void *from, size_t length) {
    const unsigned long end = to + length;
    enum answer answer = end < to ? NO : is_writable_in(memory->maps, to, end);
    bool is_writable = answer == UNKNOWN ? is_writable_in_lines(memory->maps, to, end) : answer == YES;
    return is_writable && pwrite(memory->file, from, length, (off_t)to) == (ssize_t)length;
}
