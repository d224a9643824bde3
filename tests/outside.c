/* What a process has outside itself, in memory: loaded before the C library into zk_shell, it makes each run of it the same, and lets each part
 * fail in turn, of which no file, no network and no clock of a system can be asked.
 *
 *   OUTSIDE_REFUSED FILE   each request for memory is refused in turn, in a copy of the process that goes on from there to its end. Of each copy
 *                          FILE has a line `STATUS PRINTED TOLD` (how many bytes), and the bytes
 *   OUTSIDE_LARGEST COUNT  each request for more bytes than so many is refused
 *   OUTSIDE_PIECE COUNT    a read of standard input brings at most so many bytes
 *   OUTSIDE_READ COUNT     standard input fails after so many bytes, as it does at its end
 *   OUTSIDE_WRITTEN COUNT  standard output fails once, after so many bytes
 *   OUTSIDE_TABLE FILE     what is found at addresses, in the order in which they are dialled: `dial ADDRESS` where a partner is there, with a line
 *                          `DUE ANSWER MS` for each frame that is due to it, in hex with `-` for none, and after how many milliseconds the answer
 *                          comes; `down ADDRESS` where none is. A partner that has answered all closes, and others are not there. Or lines
 *                          `NAME NUMBER` of the plan of tree_server.c. A line `# ..` is a remark
 *   OUTSIDE_LEFT COUNT     the first connection to a partner passes so many bytes, sent and received together, and fails then
 *
 * No connection is made while the one before is held. */
#define _GNU_SOURCE
#include "outside.h"

#include <arpa/inet.h>
#include <errno.h>
#include <fcntl.h>
#include <limits.h>
#include <poll.h>
#include <signal.h>
#include <stdio.h>
#include <stdlib.h>
#include <string.h>
#include <sys/mman.h>
#include <sys/prctl.h>
#include <sys/syscall.h>
#include <sys/wait.h>
#include <time.h>
#include <unistd.h>

enum { ROOM = 1 << 21 };

/* What a stream was given. */
struct written {
    long count;
    uint8_t bytes[ROOM];
};

/* Printed and told. A copy of the process goes on with them, and its original takes up what it had itself. */
static struct written *out;

/* What is dialled, the connection that is held, and how long a read of it waits. */
static struct server server;
static int held = -1;
static long wait_ms;
long now_ms;

/* How many bytes a request for memory may be for, how many a read of standard input brings, and after how many that and standard output fail. */
static long largest, piece, read_left, write_left;

/* Whether requests for memory are refused, and where what came of that is reported. */
static bool is_refusing;
static int reports;

void *__libc_malloc(size_t size);
void *__libc_realloc(void *block, size_t size);

static long number_of(const char *name, long otherwise)
{
    const char *word = getenv(name);
    return word ? strtol(word, NULL, 10) : otherwise;
}

/* Whether this request for memory is refused: in the copy it is, and the original goes on after the copy's end. */
static bool is_refused(size_t size)
{
    if (!is_refusing) {
        return largest && size > (size_t)largest;
    }
    is_refusing = false;
    long printed = out[0].count, told = out[1].count;
    pid_t copy = fork();
    if (copy == 0) {
        prctl(PR_SET_PDEATHSIG, SIGKILL); /* it ends with the original, also where it would not end by itself */
        return true;
    }
    int status = -1;
    waitpid(copy, &status, 0);
    dprintf(reports, "%d %ld %ld\n", WIFEXITED(status) ? WEXITSTATUS(status) : -1, out[0].count, out[1].count);
    for (int stream = 0; stream < 2; stream++) {
        (void)!syscall(SYS_write, reports, out[stream].bytes, out[stream].count);
    }
    out[0].count = printed;
    out[1].count = told;
    is_refusing = true;
    return false;
}

void *malloc(size_t size)
{
    return is_refused(size) ? NULL : __libc_malloc(size);
}

void *realloc(void *block, size_t size)
{
    return is_refused(size) ? NULL : __libc_realloc(block, size);
}

/* Writes what was printed and told, at the end of the original. */
static void end(int status, void *unused)
{
    (void)status, (void)unused;
    if (server.tells_moment) {
        dprintf(2, "%ld ms", now_ms);
    }
    for (int stream = 0; is_refusing && stream < 2; stream++) {
        (void)!syscall(SYS_write, stream + 1, out[stream].bytes, out[stream].count);
    }
}

static void read_table(const char *name)
{
    char *text = NULL, first[4096], second[8192];
    size_t room = 0;
    bool has_plan = false;
    FILE *file = name ? fopen(name, "r") : NULL;
    while (file && getline(&text, &room, file) > 0) {
        long number = 0;
        sscanf(text, "%4095s %8191s %ld", first, second, &number);
        bool is_plan = read_plan(first, strtol(second, NULL, 10));
        has_plan |= is_plan;
        if (!is_plan && *first != '#') {
            read_partner(first, second, number);
        }
    }
    server = has_plan ? tree_server() : partners(number_of("OUTSIDE_LEFT", LONG_MAX));
}

__attribute__((constructor)) static void begin(void)
{
    out = mmap(NULL, 2 * sizeof *out, PROT_READ | PROT_WRITE, MAP_SHARED | MAP_ANONYMOUS, -1, 0);
    largest = number_of("OUTSIDE_LARGEST", LONG_MAX);
    piece = number_of("OUTSIDE_PIECE", LONG_MAX);
    read_left = number_of("OUTSIDE_READ", LONG_MAX);
    write_left = number_of("OUTSIDE_WRITTEN", LONG_MAX);
    const char *refused = getenv("OUTSIDE_REFUSED");
    read_table(getenv("OUTSIDE_TABLE"));
    on_exit(end, NULL);
    reports = refused ? open(refused, O_WRONLY | O_APPEND) : -1;
    is_refusing = refused;
}

static ssize_t fails(int fault)
{
    errno = fault;
    return -1;
}

/* Of standard input, which is a file: a copy has read as far as its original. */
ssize_t read(int file, void *bytes, size_t room)
{
    static off_t place;
    if (file != 0) {
        return syscall(SYS_read, file, bytes, room);
    }
    long most = (long)room < piece ? (long)room : piece;
    most = most < read_left ? most : read_left;
    if (most == 0) {
        return fails(EIO);
    }
    ssize_t count = pread(0, bytes, (size_t)most, place);
    place += count > 0 ? count : 0;
    read_left -= read_left == LONG_MAX ? 0 : count;
    return count == 0 && read_left != LONG_MAX ? fails(EIO) : count;
}

int clock_gettime(clockid_t clock, struct timespec *now)
{
    (void)clock;
    *now = (struct timespec){now_ms / 1000, now_ms % 1000 * 1000000};
    return 0;
}

/* What a server does takes memory that is none of the program's. */
static bool leave(void)
{
    bool was_refusing = is_refusing;
    is_refusing = false;
    return was_refusing;
}

static ssize_t answer(ssize_t done, bool was_refusing)
{
    is_refusing = was_refusing;
    return done < 0 ? fails((int)-done) : done;
}

static void pass(long ms)
{
    bool was_refusing = leave();
    server.pass(ms);
    answer(0, was_refusing);
}

ssize_t write(int file, const void *bytes, size_t count)
{
    if (file == 1 && write_left != LONG_MAX) {
        count = (long)count < write_left ? count : (size_t)write_left;
        write_left = count ? write_left - (long)count : LONG_MAX;
        if (count == 0) {
            return fails(EPIPE);
        }
    }
    for (long end = now_ms + server.write_ms; file == 1 && now_ms < end;) {
        pass(end - now_ms);
    }
    if (reports < 0 || file < 1 || file > 2) {
        return syscall(SYS_write, file, bytes, count);
    }
    struct written *to = &out[file - 1];
    count = count < (size_t)(ROOM - to->count) ? count : (size_t)(ROOM - to->count);
    memcpy(to->bytes + to->count, bytes, count);
    to->count += (long)count;
    return (ssize_t)count;
}

ssize_t __write(int file, const void *bytes, size_t count)
{
    return write(file, bytes, count);
}

int nanosleep(const struct timespec *wanted, struct timespec *left)
{
    (void)left;
    pass(wanted->tv_sec * 1000 + wanted->tv_nsec / 1000000);
    return 0;
}

int socket(int domain, int type, int protocol)
{
    (void)domain, (void)type, (void)protocol;
    return open("/dev/null", O_RDWR | O_CLOEXEC);
}

int close(int file)
{
    held = file == held ? -1 : held;
    return (int)syscall(SYS_close, file);
}

int connect(int file, __CONST_SOCKADDR_ARG to, socklen_t length)
{
    char name[32], host[INET_ADDRSTRLEN] = "";
    inet_ntop(AF_INET, &to.__sockaddr_in__->sin_addr, host, length);
    snprintf(name, sizeof name, "%s:%d", host, ntohs(to.__sockaddr_in__->sin_port));
    if (held >= 0) {
        return (int)fails(EINVAL);
    }
    bool was_refusing = leave();
    int done = (int)answer(server.dial(name), was_refusing);
    held = done < 0 ? -1 : file;
    return done;
}

/* Whether a connection is made in time: none is that was not made at once. */
int poll(struct pollfd *files, nfds_t count, int ms)
{
    (void)files, (void)count;
    pass(ms);
    return 0;
}

int setsockopt(int file, int level, int name, const void *value, socklen_t length)
{
    (void)file, (void)level, (void)length;
    if (name == SO_RCVTIMEO) {
        const struct timeval *wait = value;
        wait_ms = wait->tv_sec * 1000 + wait->tv_usec / 1000;
        return server.is_patient() ? 0 : (int)fails(EDOM);
    }
    return 0;
}

int ioctl(int file, unsigned long request, ...)
{
    (void)file, (void)request;
    return 0;
}

ssize_t recv(int file, void *bytes, size_t room, int flags)
{
    (void)file, (void)flags;
    bool was_refusing = leave();
    return answer(server.receive(bytes, room, wait_ms), was_refusing);
}

ssize_t send(int file, const void *bytes, size_t count, int flags)
{
    (void)file, (void)flags;
    bool was_refusing = leave();
    return answer(server.give(bytes, count), was_refusing);
}
