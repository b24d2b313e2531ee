// contexts apart|beside|within: contexts of a kernel, each a thread, that make system calls by lines. Context N has the
// socket FIRST + N, gets one line in a message, and answers each by one: what the call returned, or its error below 0,
// and behind that the bytes that it put out, in hexadecimal. Context 0 begins in a PID namespace, with which all others
// end, where `apart` is said in a user namespace too, whose maps are written before it gets its first line; and where
// `within` is said, as it is.
//
//   add|request|keyctl|pipe2|ioctl|read WORD ..
//                                the system call; a word is nNUMBER, sTEXT or bBYTES in hexadecimal, z (null), o, a
//                                place for bytes put out and its size, or p, a place alone
//   thread N, fork N             a thread, or a process, that is context N
//   exec, exit                   execve(2) of this program, which goes on as this context; the end of the thread
//   user UID GID [GROUP ..]      another user for good
//   fill COUNT RING              adds so many keys f0, f1 .. to a keyring
//   settle                       waits until each processor has left what it was at: membarrier(2)
#define _GNU_SOURCE
#include <errno.h>
#include <grp.h>
#include <linux/membarrier.h>
#include <pthread.h>
#include <sched.h>
#include <signal.h>
#include <stdint.h>
#include <stdio.h>
#include <stdlib.h>
#include <string.h>
#include <sys/prctl.h>
#include <sys/socket.h>
#include <sys/syscall.h>
#include <sys/wait.h>
#include <unistd.h>

enum { FIRST = 3, LINE = 1 << 17, OUT = 1 << 16, WORDS = 40 };

static const char *path;

static int digit(char it) { return it <= '9' ? it - '0' : it - 'a' + 10; }

// text becomes the bytes that it has in hexadecimal, with a null byte behind.
static char *bytes_of(char *text) {
  char *to = text;
  for (char *from = text; from[0] && from[1]; from += 2)
    *to++ = (char)(digit(from[0]) << 4 | digit(from[1]));
  *to = 0;
  return text;
}

static void answer(int context, long value, const char *out, long length) {
  static __thread char text[2 * OUT + 32];
  int end = sprintf(text, "%ld", value);
  if (out)
    text[end++] = ' ';
  for (long i = 0; out && i < length && i < OUT; i++)
    end += sprintf(text + end, "%02x", (unsigned char)out[i]);
  if (send(FIRST + context, text, (size_t)end, MSG_NOSIGNAL) < 0)
    _exit(1);
}

static void call(int context, long number, char **words, int count) {
  static __thread char out[OUT];
  long values[WORDS] = {0};
  int given = 0, puts = 0;
  for (int i = 0; i < count && given < 5; i++) {
    char *word = words[i] + 1;
    if (words[i][0] == 'n')
      values[given++] = atol(word);
    else if (words[i][0] == 'o')
      values[given++] = (long)out, values[given++] = OUT, puts = 1;
    else if (words[i][0] == 'p')
      values[given++] = (long)out;
    else
      values[given++] = words[i][0] == 'z' ? 0 : (long)bytes_of(word);
  }
  errno = 0;
  long value = syscall(number, values[0], values[1], values[2], values[3], values[4]);
  answer(context, value < 0 ? -errno : value, puts && value >= 0 ? out : NULL, value);
}

static int user(char **words, int count) {
  gid_t groups[WORDS];
  for (int i = 2; i < count; i++)
    groups[i - 2] = (gid_t)strtoul(words[i], NULL, 10);
  long uid = (long)strtoul(words[0], NULL, 10), gid = (long)strtoul(words[1], NULL, 10);
  if (syscall(SYS_setgroups, (long)count - 2, groups) && count > 2)
    return -errno;
  if (syscall(SYS_setresgid, gid, gid, gid) || syscall(SYS_setresuid, uid, uid, uid))
    return -errno;
  return 0;
}

static long fill(long count, long ring) {
  for (long i = 0; i < count; i++) {
    char name[24];
    sprintf(name, "f%ld", i);
    if (syscall(SYS_add_key, "user", name, "v", 1L, ring) < 0)
      return -errno;
  }
  return 0;
}

static void *serve(void *number);

static int start_thread(long context) {
  pthread_t thread;
  int failed = pthread_create(&thread, NULL, serve, (void *)context);
  return failed ? -failed : pthread_detach(thread);
}

static _Noreturn void execute(int context) {
  char text[16];
  sprintf(text, "%d", context);
  execl(path, path, text, (char *)NULL);
  _exit(1);
}

// What isn't a call. Returns the context that this thread is then: a child's is its own.
static int control(int context, char **words, int count) {
  int other = count > 1 ? atoi(words[1]) : 0;
  long value = 0;
  if (!strcmp(words[0], "fork")) {
    value = fork();
    if (!value)
      return other;
  } else if (!strcmp(words[0], "thread")) {
    value = start_thread(other);
  } else if (!strcmp(words[0], "user")) {
    value = user(words + 1, count - 1);
  } else if (!strcmp(words[0], "fill") && count > 2) {
    value = fill(atol(words[1]), atol(words[2]));
  } else if (!strcmp(words[0], "settle")) {
    value = syscall(SYS_membarrier, MEMBARRIER_CMD_GLOBAL, 0, 0);
  } else if (!strcmp(words[0], "exec")) {
    execute(context);
  } else if (strcmp(words[0], "exit")) {
    value = -ENOSYS;
  }
  answer(context, value, NULL, 0);
  if (!strcmp(words[0], "exit"))
    syscall(SYS_exit, 0);
  return context;
}

static long call_number(const char *name) {
  static const struct {
    const char *name;
    long number;
  } calls[] = {{"add", SYS_add_key}, {"request", SYS_request_key}, {"keyctl", SYS_keyctl},
               {"pipe2", SYS_pipe2}, {"ioctl", SYS_ioctl}, {"read", SYS_read}};
  for (size_t i = 0; i < sizeof calls / sizeof *calls; i++)
    if (!strcmp(name, calls[i].name))
      return calls[i].number;
  return -1;
}

static void *serve(void *number) {
  static __thread char line[LINE];
  int context = (int)(intptr_t)number;
  for (;;) {
    ssize_t length = recv(FIRST + context, line, sizeof line - 1, 0);
    if (length <= 0)
      _exit(length < 0);
    line[length] = 0;
    char *words[WORDS], *rest = line;
    int count = 0;
    while (count < WORDS && (words[count] = strsep(&rest, " ")))
      count++;
    long number_of_call = call_number(words[0]);
    if (number_of_call >= 0)
      call(context, number_of_call, words + 1, count - 1);
    else
      context = control(context, words, count);
  }
  return NULL;
}

int main(int count, char **words) {
  path = words[0];
  signal(SIGCHLD, SIG_IGN);
  if (count == 2 && words[1][0] >= '0' && words[1][0] <= '9') {
    answer(atoi(words[1]), 0, NULL, 0); // of `exec`
    serve((void *)(intptr_t)atoi(words[1]));
  }
  if (count == 2 && strcmp(words[1], "within")) {
    signal(SIGCHLD, SIG_DFL);
    if (unshare(CLONE_NEWPID | (strcmp(words[1], "apart") ? 0 : CLONE_NEWUSER)))
      return 1;
    answer(0, getpid(), NULL, 0); // the maps are written now
    char go;
    if (recv(FIRST, &go, 1, 0) != 1)
      return 1;
    pid_t child = fork();
    if (child) {
      waitpid(child, NULL, 0);
      return child < 0;
    }
    prctl(PR_SET_PDEATHSIG, SIGKILL);
    signal(SIGCHLD, SIG_IGN);
  }
  answer(0, 0, NULL, 0);
  serve(NULL);
}
