/* Preloaded before a program, this library makes chosen calls on sockets, files and threads fail, and records what the program
 * does. Records are written to the descriptor TOLD. The library allocates no memory itself.
 *
 * Which calls fail:
 * - FAIL_CALL is the name of a call: listen, connect, accept, recv, send, read, write, thread, or another one below. A read or
 *   a write is a call on a file or stream, and a recv or a send is a call on a socket.
 * - FAIL_NUMBER is the number of the first call that fails, from 1. FAIL_LAST is that of the last (default: only the first).
 * - FAIL_ERROR is the number of the error (default: the one given at the call). If it is 0, a recv or a read returns 0 bytes,
 *   and a send or a write takes none.
 * - A close that fails has closed the descriptor, as on Linux. Under the name "unclosed" a close of a socket fails and leaves
 *   it open.
 * - A listen under the name "stranger" succeeds, but somebody else then connects first. A connect under the name "namesake"
 *   succeeds, but somebody else connects first, from another address of this machine and the same port.
 * - A poll under the name "hangup" succeeds and reports that the connection has ended, although its socket has no error. Under
 *   the name "getsockopt" it does so too, and then the call that asks for the error fails.
 *
 * How calls behave:
 * - With SHORT each recv, read and send moves one byte. With WHOLE each recv waits for all the bytes that it asks for.
 * - With OFFERS=K (0 or 1) each answer that is sent in one call goes out with only its first K offers.
 * - With PROCESSORS=N the program sees N processors, at most 64, whatever a cgroup allows.
 *
 * Records:
 * - 'x': a call failed.
 * - 'T': a text for the user (a forest, a report, an error) was written to a socket, or a socket was read as a file.
 * - 'A': a socket listens on more than the loopback address.
 * - 'J': the program ended, and a thread that it started wasn't joined. With JOINED, 'j' for each thread that was joined.
 * - With COUNTED, 'R' for each read that asks for 64 KiB, 'r' for each other read, and 'w' for each write.
 * - STARTED=N says that the first N threads that the first thread starts are workers. Then 'w' for each thread that a worker
 *   started, directly or not, 's' for each other thread, and at the end as many 'a' as threads of the latter kind existed at
 *   the same time.
 * - With GREETED, 'H' for each send of a hello.
 * - With PEAK, the digits of the program's peak memory in KiB. */
#define _GNU_SOURCE
#include <arpa/inet.h>
#include <dlfcn.h>
#include <errno.h>
#include <fcntl.h>
#include <netinet/in.h>
#include <poll.h>
#include <pthread.h>
#include <sched.h>
#include <stdarg.h>
#include <stdatomic.h>
#include <stdlib.h>
#include <string.h>
#include <sys/ioctl.h>
#include <sys/socket.h>
#include <sys/stat.h>
#include <unistd.h>

#define NO_ERROR_CHOSEN 0xffffffffUL

static const char *chosen = "";
static unsigned long first, last, chosen_error;
static atomic_ulong counted, started, joined, most_unjoined;
static unsigned long most_offers;
static int told = -1, is_short, is_whole, is_counted, tells_started, tells_hellos, processors;
static _Thread_local int is_hung_up;

/* a thread that was started: what it runs, and the number, from 1, of the first thread's child that it descends from */
struct start {
    void *(*run)(void *);
    void *with;
    unsigned long line;
};

enum { STARTS = 1 << 14 };
static struct start starts[STARTS];
static unsigned long workers;
static atomic_ulong placed, lines;
static _Thread_local unsigned long line;

static unsigned long number(const char *name, unsigned long otherwise) {
    const char *text = getenv(name);
    return text ? strtoul(text, 0, 10) : otherwise;
}

__attribute__((constructor)) static void begin(void) {
    told = (int)number("TOLD", (unsigned long)-1);
    first = number("FAIL_NUMBER", 0);
    last = number("FAIL_LAST", first);
    is_short = getenv("SHORT") != 0;
    is_whole = getenv("WHOLE") != 0;
    most_offers = number("OFFERS", (unsigned long)-1);
    is_counted = getenv("COUNTED") != 0;
    tells_started = getenv("STARTED") != 0;
    workers = number("STARTED", 0);
    tells_hellos = getenv("GREETED") != 0;
    processors = (int)number("PROCESSORS", 0);
    chosen_error = number("FAIL_ERROR", NO_ERROR_CHOSEN);
    chosen = getenv("FAIL_CALL") ? getenv("FAIL_CALL") : chosen;
}

#define REAL(name) ((__typeof__(&name))dlsym(RTLD_NEXT, #name))

static void tell(const char *what) {
    if (told >= 0 && REAL(write)(told, what, 1) < 0) {
        REAL(_exit)(99);
    }
}

/* whether this call is to fail */
static int is_chosen(const char *name) {
    if (!first || strcmp(name, chosen)) {
        return 0;
    }
    unsigned long at = atomic_fetch_add(&counted, 1) + 1;
    return at >= first && at <= last;
}

/* makes a call fail, with the chosen error or the usual one in `errno` */
static int fail(int usual) {
    tell("x");
    errno = chosen_error == NO_ERROR_CHOSEN ? usual : (int)chosen_error;
    return 1;
}

static int fails(const char *name, int usual) { return is_chosen(name) && fail(usual); }

/* the result of a failing recv, send, read or write */
static ssize_t failed(void) { return errno ? -1 : 0; }

static int is_socket(int fd) {
    struct stat it;
    int before = errno, answer = !fstat(fd, &it) && S_ISSOCK(it.st_mode);
    errno = before;
    return answer;
}

/* frames begin with a small number, and texts for the user with a letter */
static void look(int fd, const void *bytes, size_t count) {
    if (count && *(const unsigned char *)bytes >= 'A' && is_socket(fd)) {
        tell("T");
    }
}

static size_t at_most(size_t count) { return is_short && count ? 1 : count; }

int socket(int domain, int type, int protocol) {
    return fails("socket", EMFILE) ? -1 : REAL(socket)(domain, type, protocol);
}

int bind(int fd, const struct sockaddr *name, socklen_t size) {
    return fails("bind", EADDRINUSE) ? -1 : REAL(bind)(fd, name, size);
}

int open(const char *path, int flags, ...) {
    va_list more;
    va_start(more, flags);
    mode_t mode = flags & O_CREAT ? va_arg(more, mode_t) : 0;
    va_end(more);
    if (processors && !strcmp(path, "/sys/fs/cgroup/cpu.max")) {
        errno = ENOENT;
        return -1;
    }
    return fails("open", EACCES) ? -1 : REAL(open)(path, flags, mode);
}

int close(int fd) {
    if (is_socket(fd) && fails("unclosed", EIO)) {
        return -1;
    }
    int is_failing = fails("close", EIO), error = errno, answer = REAL(close)(fd);
    if (is_failing) {
        errno = error;
        answer = -1;
    }
    return answer;
}

/* sets whether calls on a socket block */
int ioctl(int fd, unsigned long request, ...) {
    va_list more;
    va_start(more, request);
    void *with = va_arg(more, void *);
    va_end(more);
    return fails("ioctl", ENOMEM) ? -1 : REAL(ioctl)(fd, request, with);
}

int poll(struct pollfd *asked, nfds_t count, int milliseconds) {
    if (fails("poll", ENOMEM)) {
        return -1;
    }
    int answer = REAL(poll)(asked, count, milliseconds);
    is_hung_up = answer > 0 && is_chosen("getsockopt");
    if (is_hung_up || (answer > 0 && fails("hangup", 0))) {
        asked->revents |= POLLHUP;
    }
    return answer;
}

/* the error of a connection */
int getsockopt(int fd, int level, int option, void *value, socklen_t *size) {
    return is_hung_up && fail(ENOBUFS) ? -1 : REAL(getsockopt)(fd, level, option, value, size);
}

/* connects to a listener before anybody else does, and stays */
static void visit(int listener) {
    struct sockaddr_storage name;
    socklen_t size = sizeof name;
    int stranger = REAL(socket)(AF_INET, SOCK_STREAM | SOCK_CLOEXEC, 0);
    if (stranger < 0 || REAL(getsockname)(listener, (struct sockaddr *)&name, &size) ||
        REAL(connect)(stranger, (struct sockaddr *)&name, size)) {
        REAL(_exit)(98);
    }
}

/* whether processes of other machines could connect to a listener */
static int is_open_to_others(int listener) {
    struct sockaddr_in name;
    socklen_t size = sizeof name;
    return REAL(getsockname)(listener, (struct sockaddr *)&name, &size) || name.sin_family != AF_INET ||
           name.sin_addr.s_addr != htonl(INADDR_LOOPBACK);
}

int listen(int fd, int backlog) {
    if (fails("listen", EADDRINUSE)) {
        return -1;
    }
    int answer = REAL(listen)(fd, backlog);
    if (!answer && is_open_to_others(fd)) {
        tell("A");
    }
    if (!answer && fails("stranger", 0)) {
        visit(fd);
    }
    return answer;
}

int getsockname(int fd, struct sockaddr *name, socklen_t *size) {
    return fails("getsockname", ENOBUFS) ? -1 : REAL(getsockname)(fd, name, size);
}

int setsockopt(int fd, int level, int option, const void *value, socklen_t size) {
    const char *name = level == IPPROTO_TCP ? "nodelay" : "setsockopt";
    return fails(name, ENOBUFS) ? -1 : REAL(setsockopt)(fd, level, option, value, size);
}

/* binds a socket to a port, and first connects from the same port of another address */
static void overtake(int fd, const struct sockaddr *name, socklen_t size) {
    struct sockaddr_in own = {.sin_family = AF_INET, .sin_addr.s_addr = htonl(INADDR_LOOPBACK)};
    socklen_t room = sizeof own;
    int stranger = REAL(socket)(AF_INET, SOCK_STREAM | SOCK_CLOEXEC, 0);
    if (stranger < 0 || REAL(bind)(fd, (struct sockaddr *)&own, room) || REAL(getsockname)(fd, (struct sockaddr *)&own, &room)) {
        REAL(_exit)(98);
    }
    own.sin_addr.s_addr = htonl(INADDR_LOOPBACK + 1);
    if (REAL(bind)(stranger, (struct sockaddr *)&own, room) || REAL(connect)(stranger, name, size)) {
        REAL(_exit)(98);
    }
}

int connect(int fd, const struct sockaddr *name, socklen_t size) {
    if (fails("namesake", 0)) {
        overtake(fd, name, size);
    }
    return fails("connect", ECONNREFUSED) ? -1 : REAL(connect)(fd, name, size);
}

int accept(int fd, struct sockaddr *name, socklen_t *size) {
    return fails("accept", ECONNABORTED) ? -1 : REAL(accept)(fd, name, size);
}

int accept4(int fd, struct sockaddr *name, socklen_t *size, int flags) {
    return fails("accept", ECONNABORTED) ? -1 : REAL(accept4)(fd, name, size, flags);
}

int shutdown(int fd, int how) { return fails("shutdown", ENOTCONN) ? -1 : REAL(shutdown)(fd, how); }

ssize_t recv(int fd, void *into, size_t count, int flags) {
    return fails("recv", ECONNRESET) ? failed() : REAL(recv)(fd, into, at_most(count), is_whole ? flags | MSG_WAITALL : flags);
}

/* the offsets of an answer's fields */
enum { HEAD = 5, OFFERS = 17, OFFER = 8 };

static size_t field(const unsigned char *at) {
    return (size_t)at[0] << 24 | (size_t)at[1] << 16 | (size_t)at[2] << 8 | at[3];
}

/* whether these bytes are a whole answer with too many offers */
static int is_too_long(const unsigned char *bytes, size_t count) {
    return count >= OFFERS && bytes[0] == 4 && field(bytes + 1) == count - HEAD && field(bytes + OFFERS - 4) > most_offers;
}

/* sends it shorter, but returns that all of it was sent */
static ssize_t send_shorter(int fd, const unsigned char *bytes, size_t count, int flags) {
    unsigned char answer[OFFERS + OFFER];
    size_t size = OFFERS + OFFER * most_offers;
    memcpy(answer, bytes, size);
    memcpy(answer + 1, (unsigned char[]){0, 0, 0, (unsigned char)(size - HEAD)}, 4);
    memcpy(answer + OFFERS - 4, (unsigned char[]){0, 0, 0, (unsigned char)most_offers}, 4);
    return REAL(send)(fd, answer, size, flags) == (ssize_t)size ? (ssize_t)count : -1;
}

ssize_t send(int fd, const void *bytes, size_t count, int flags) {
    look(fd, bytes, count);
    if (tells_hellos && count >= 5 && !memcmp(bytes, "\1\0\0\0\6", 5)) {
        tell("H");
    }
    if (is_too_long(bytes, count)) {
        return send_shorter(fd, bytes, count, flags);
    }
    return fails("send", ECONNRESET) ? failed() : REAL(send)(fd, bytes, at_most(count), flags);
}

/* for files and streams; sockets are read by recv and written by send */
ssize_t read(int fd, void *into, size_t count) {
    if (is_socket(fd)) {
        tell("T");
    } else if (fails("read", EIO)) {
        return failed();
    } else if (is_counted) {
        tell(count == 65536 ? "R" : "r");
    }
    return REAL(read)(fd, into, at_most(count));
}

ssize_t write(int fd, const void *bytes, size_t count) {
    look(fd, bytes, count);
    if (!is_socket(fd)) {
        if (fails("write", EIO)) {
            return failed();
        }
        if (is_counted) {
            tell("w");
        }
    }
    return REAL(write)(fd, bytes, count);
}

int sched_getaffinity(pid_t which, size_t size, cpu_set_t *set) {
    if (fails("sched_getaffinity", EINVAL)) {
        return -1;
    }
    if (!processors) {
        return REAL(sched_getaffinity)(which, size, set);
    }
    memset(set, 0, size);
    for (int at = 0; at < processors && at < 64; at++) {
        CPU_SET_S(at, size, set);
    }
    return 0;
}

long sysconf(int name) {
    return processors && name == _SC_NPROCESSORS_ONLN ? processors : REAL(sysconf)(name);
}

/* counts the threads that aren't joined yet, when this one was started */
static void count_unjoined(void) {
    unsigned long unjoined = started - joined, most = most_unjoined;
    while (unjoined > most && !atomic_compare_exchange_weak(&most_unjoined, &most, unjoined)) {
    }
}

static void *begin_thread(void *at) {
    struct start *it = at;
    line = it->line;
    return it->run(it->with);
}

/* the index of the next thread, and whose it is */
static struct start *place(void *(*run)(void *), void *with) {
    unsigned long at = atomic_fetch_add(&placed, 1);
    if (at >= STARTS) {
        REAL(_exit)(97);
    }
    starts[at].run = run;
    starts[at].with = with;
    starts[at].line = line ? line : atomic_fetch_add(&lines, 1) + 1;
    return &starts[at];
}

int pthread_create(pthread_t *made, const pthread_attr_t *how_made, void *(*run)(void *), void *with) {
    struct start *it = place(run, with);
    int answer = fails("thread", EAGAIN) ? errno : REAL(pthread_create)(made, how_made, begin_thread, it);
    if (!answer) {
        started++;
        count_unjoined();
        if (tells_started) {
            tell(line && line <= workers ? "w" : "s");
        }
    }
    return answer;
}

int pthread_join(pthread_t which, void **answered) {
    int answer = REAL(pthread_join)(which, answered);
    joined += !answer;
    return answer;
}

static void tell_peak(void) {
    static char status[1 << 13];
    int fd = REAL(open)("/proc/self/status", O_RDONLY);
    const char *at = REAL(read)(fd, status, sizeof status - 1) > 0 ? strstr(status, "VmHWM:") : 0;
    at = at ? at + strcspn(at, "0123456789") : "";
    if (REAL(write)(told, at, strspn(at, "0123456789")) < 1) {
        REAL(_exit)(96);
    }
}

static void tell_threads(void) {
    for (unsigned long at = 0; getenv("JOINED") && at < joined; at++) {
        tell("j");
    }
    for (unsigned long at = 0; tells_started && at < most_unjoined; at++) {
        tell("a");
    }
    if (joined != started) {
        tell("J");
    }
}

/* the program ends by this call, not by exit or by returning to the C library */
void _exit(int status) {
    tell_threads();
    if (getenv("PEAK")) {
        tell_peak();
    }
    REAL(_exit)(status);
    __builtin_unreachable();
}
