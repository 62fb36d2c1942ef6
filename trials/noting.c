/* Notes the calls by which a program is seen from outside, for trials/told: a library that is
   loaded before libc, whose functions it stands in front of.

   NOTING_FILE names the file that the notes are added to. A note is written by one call of the
   system, so that a kill loses none that was made. What comes in is noted behind its call, what
   goes out before it, and what came of that behind it: so of two notes the one that may be the
   cause stands at the earlier moment, through all processes of a machine, which share the
   monotonic clock. Behind the note with the number in NOTING_LAST, counted from 1, the program
   kills itself. */
#define _GNU_SOURCE
#include <errno.h>
#include <fcntl.h>
#include <netinet/in.h>
#include <signal.h>
#include <stdarg.h>
#include <stdint.h>
#include <stdlib.h>
#include <string.h>
#include <sys/socket.h>
#include <sys/syscall.h>
#include <sys/uio.h>
#include <time.h>
#include <unistd.h>

/* trials/noted.py has the same numbers. */
enum call { STARTED = 1, OPENED, CONNECTED, ACCEPTED, CAME, GOES, SYNCS, CLOSES, RETURNED };

struct note {
    uint64_t moment;
    int64_t value;
    uint32_t thread, size;
    int32_t file;
    uint32_t call;
};

/* What a descriptor is of: a socket, a journal or a sink, or something that isn't noted. */
enum kind { OTHER, SOCKET, FILE_OF_RELAY };

static int notes = -1;
/* How many notes there are, and which of them is the last; 0 where none is to be. */
static unsigned long count, last;
static unsigned char kinds[1 << 16];
static __thread uint32_t thread;

static void note(enum call call, int file, int64_t value, const void *bytes, size_t size) {
    if (notes < 0) return;
    int kept = errno;
    struct timespec now;
    clock_gettime(CLOCK_MONOTONIC, &now);
    if (!thread) thread = (uint32_t)syscall(SYS_gettid);
    uint64_t moment = (uint64_t)now.tv_sec * 1000000000u + (uint64_t)now.tv_nsec;
    struct note head = {moment, value, thread, (uint32_t)size, file, call};
    struct iovec parts[2] = {{&head, sizeof head}, {(void *)bytes, size}};
    /* A recording with a hole tells nothing. */
    if (syscall(SYS_writev, notes, parts, 2) != (long)(sizeof head + size)) abort();
    if (__atomic_add_fetch(&count, 1, __ATOMIC_SEQ_CST) == last) kill(getpid(), SIGKILL);
    errno = kept;
}

__attribute__((constructor)) static void begin(void) {
    const char *path = getenv("NOTING_FILE"), *number = getenv("NOTING_LAST");
    if (!path) return;
    if (number) last = strtoul(number, NULL, 10);
    int how = O_WRONLY | O_CREAT | O_APPEND | O_CLOEXEC;
    int made = (int)syscall(SYS_openat, AT_FDCWD, path, how, 0644);
    if (made < 0) abort();
    /* Away from the numbers that the program's own files get. */
    notes = fcntl(made, F_DUPFD_CLOEXEC, 900);
    if (notes < 0) notes = made;
    else syscall(SYS_close, made);
    note(STARTED, -1, getpid(), NULL, 0);
}

static enum kind kind_of(int file) {
    return file >= 0 && file < (int)sizeof kinds ? kinds[file] : OTHER;
}

static void set_kind(int file, enum kind kind) {
    if (file >= 0 && file < (int)sizeof kinds) kinds[file] = kind;
}

static int ends_with(const char *path, const char *end) {
    size_t all = strlen(path), some = strlen(end);
    return all >= some && strcmp(path + all - some, end) == 0;
}

static int opened(int file, const char *path, int flags) {
    if (file < 0 || (flags & O_ACCMODE) == O_RDONLY) return file;
    if (!ends_with(path, ".journal") && !ends_with(path, ".sink")) return file;
    set_kind(file, FILE_OF_RELAY);
    note(OPENED, file, flags, path, strlen(path));
    return file;
}

int openat(int folder, const char *path, int flags, ...) {
    va_list more;
    va_start(more, flags);
    mode_t mode = va_arg(more, mode_t);
    va_end(more);
    return opened((int)syscall(SYS_openat, folder, path, flags, mode), path, flags);
}

int open(const char *path, int flags, ...) {
    va_list more;
    va_start(more, flags);
    mode_t mode = va_arg(more, mode_t);
    va_end(more);
    return opened((int)syscall(SYS_openat, AT_FDCWD, path, flags, mode), path, flags);
}

int open64(const char *path, int flags, ...) {
    va_list more;
    va_start(more, flags);
    mode_t mode = va_arg(more, mode_t);
    va_end(more);
    return opened((int)syscall(SYS_openat, AT_FDCWD, path, flags, mode), path, flags);
}

/* Both ends of a connection: the address here, and then the other one. */
static void note_ends(enum call call, int file) {
    struct sockaddr_in ends[2];
    socklen_t sizes[2] = {sizeof ends[0], sizeof ends[1]};
    memset(ends, 0, sizeof ends);
    syscall(SYS_getsockname, file, &ends[0], &sizes[0]);
    syscall(SYS_getpeername, file, &ends[1], &sizes[1]);
    set_kind(file, SOCKET);
    note(call, file, 0, ends, sizeof ends);
}

int connect(int file, const struct sockaddr *other, socklen_t size) {
    int answer = (int)syscall(SYS_connect, file, other, size);
    /* An address of no family breaks a connection off. */
    if (other->sa_family != AF_INET || (answer < 0 && errno != EINPROGRESS)) return answer;
    int kept = errno;
    struct sockaddr_in ends[2];
    socklen_t sized = sizeof ends[0];
    memset(ends, 0, sizeof ends);
    syscall(SYS_getsockname, file, &ends[0], &sized);
    memcpy(&ends[1], other, size < sizeof ends[1] ? size : sizeof ends[1]);
    set_kind(file, SOCKET);
    note(CONNECTED, file, 0, ends, sizeof ends);
    errno = kept;
    return answer;
}

int accept4(int listener, struct sockaddr *other, socklen_t *size, int flags) {
    int file = (int)syscall(SYS_accept4, listener, other, size, flags);
    if (file >= 0) note_ends(ACCEPTED, file);
    return file;
}

int accept(int listener, struct sockaddr *other, socklen_t *size) {
    return accept4(listener, other, size, 0);
}

static ssize_t came(int file, const void *bytes, ssize_t count) {
    if (count > 0 && kind_of(file) == SOCKET) note(CAME, file, count, bytes, (size_t)count);
    return count;
}

ssize_t read(int file, void *bytes, size_t size) {
    return came(file, bytes, syscall(SYS_read, file, bytes, size));
}

ssize_t recvfrom(int file, void *bytes, size_t size, int flags, struct sockaddr *other,
                 socklen_t *length) {
    ssize_t count = syscall(SYS_recvfrom, file, bytes, size, flags, other, length);
    return flags & MSG_PEEK ? count : came(file, bytes, count);
}

ssize_t recv(int file, void *bytes, size_t size, int flags) {
    return recvfrom(file, bytes, size, flags, NULL, NULL);
}

static ssize_t returned(int file, ssize_t count) {
    if (kind_of(file) != OTHER) note(RETURNED, file, count, NULL, 0);
    return count;
}

static void goes(int file, const void *bytes, size_t size) {
    if (kind_of(file) != OTHER) note(GOES, file, 0, bytes, size);
}

ssize_t write(int file, const void *bytes, size_t size) {
    goes(file, bytes, size);
    return returned(file, syscall(SYS_write, file, bytes, size));
}

ssize_t sendto(int file, const void *bytes, size_t size, int flags, const struct sockaddr *other,
               socklen_t length) {
    goes(file, bytes, size);
    return returned(file, syscall(SYS_sendto, file, bytes, size, flags, other, length));
}

ssize_t send(int file, const void *bytes, size_t size, int flags) {
    return sendto(file, bytes, size, flags, NULL, 0);
}

static int synced(int file, long number) {
    if (kind_of(file) != OTHER) note(SYNCS, file, 0, NULL, 0);
    return (int)returned(file, syscall(number, file));
}

int fsync(int file) { return synced(file, SYS_fsync); }

int fdatasync(int file) { return synced(file, SYS_fdatasync); }

int close(int file) {
    if (kind_of(file) != OTHER) note(CLOSES, file, 0, NULL, 0);
    set_kind(file, OTHER);
    return (int)syscall(SYS_close, file);
}
