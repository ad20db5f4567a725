/*
 * Stands before the C library in the console (LD_PRELOAD) and notes what is done to the day log, its folder and standard output, a line each, in order.
 * It also makes calls fail as a disk would, and ends the program in the middle of its work. `examples/daylog.py` builds and uses it.
 *
 *   CALLS_LOG     the day log's path, from the root on and with no symbolic link in it
 *   CALLS_NOTES   the file that the notes are added to: CALL ASKED = ANSWER, where CALL is one of the names below
 *   CALLS_RULES   what is done to which call, with commas around each:
 *                 ,CALL N half,     the Nth of them takes only half of its bytes
 *                 ,CALL N fails,    the Nth of them fails, a write as on a full disk
 *                 ,note N killed,   the program is killed where the Nth note would be made; half of a write to the log is done before
 */
#define _GNU_SOURCE
#include <errno.h>
#include <fcntl.h>
#include <signal.h>
#include <stdio.h>
#include <stdlib.h>
#include <string.h>
#include <sys/stat.h>
#include <sys/syscall.h>
#include <unistd.h>

enum { OUT_WRITE, LOG_WRITE, LOG_SYNC, LOG_CUT, LOG_READ, FOLDER_SYNC, CALLS };

static const char *const names[CALLS] = {"out write", "log write", "log sync", "log cut", "log read", "folder sync"};
static long counts[CALLS];
static const char *logged, *rules = "";
static char folder[4096];
static int notes = -1;
static long noted;

/* Reads what is asked for. The notes get a number that the program's own files don't come to. */
__attribute__((constructor)) static void begin(void)
{
    const char *path = getenv("CALLS_NOTES");
    logged = getenv("CALLS_LOG");
    if (getenv("CALLS_RULES"))
        rules = getenv("CALLS_RULES");
    if (logged && strrchr(logged, '/'))
        snprintf(folder, sizeof folder, "%.*s", (int)(strrchr(logged, '/') - logged + 1), logged);
    if (path) {
        int fd = open(path, O_WRONLY | O_CREAT | O_APPEND, 0666);
        notes = fcntl(fd, F_DUPFD_CLOEXEC, 100);
        close(fd);
    }
}

/* Whether a descriptor is that of a path. */
static int is_of(int fd, const char *path)
{
    struct stat a, b;
    return path && fstat(fd, &a) == 0 && stat(path, &b) == 0 && a.st_dev == b.st_dev && a.st_ino == b.st_ino;
}

/* Whether something is to be done to the Nth of such calls. */
static int is_ruled(const char *call, long n, const char *what)
{
    char rule[64];
    snprintf(rule, sizeof rule, ",%s %ld %s,", call, n, what);
    return strstr(rules, rule) != NULL;
}

/* Another call: whether it fails. */
static int fails(int call)
{
    return is_ruled(names[call], ++counts[call], "fails");
}

/* Whether the program ends at the next note. */
static int is_last(void)
{
    return is_ruled("note", ++noted, "killed");
}

static void end(void)
{
    for (;;)
        kill(getpid(), SIGKILL);
}

/* Makes the note of a call, and answers what that does. */
static long note(int call, long asked, long answer)
{
    int before = errno;
    char text[96];
    int n = asked < 0 ? snprintf(text, sizeof text, "%s = %ld\n", names[call], answer)
                      : snprintf(text, sizeof text, "%s %ld = %ld\n", names[call], asked, answer);
    if (notes >= 0 && syscall(SYS_write, notes, text, n) != n)
        abort();
    errno = before;
    return answer;
}

static long failed(int number)
{
    errno = number;
    return -1;
}

ssize_t write(int fd, const void *bytes, size_t n)
{
    int call = fd == STDOUT_FILENO ? OUT_WRITE : LOG_WRITE;
    if (call == LOG_WRITE && !is_of(fd, logged))
        return syscall(SYS_write, fd, bytes, n);
    if (is_last()) {
        if (call == LOG_WRITE)
            syscall(SYS_write, fd, bytes, n / 2);
        end();
    }
    if (fails(call))
        return note(call, (long)n, failed(ENOSPC));
    return note(call, (long)n, syscall(SYS_write, fd, bytes, is_ruled(names[call], counts[call], "half") ? n / 2 : n));
}

ssize_t read(int fd, void *bytes, size_t n)
{
    if (is_of(fd, logged) && fails(LOG_READ))
        return failed(EIO);
    return syscall(SYS_read, fd, bytes, n);
}

/* Either kind of sync. */
static int sync_of(int fd, long number)
{
    int call = is_of(fd, logged) ? LOG_SYNC : FOLDER_SYNC;
    if (call == FOLDER_SYNC && !is_of(fd, folder))
        return (int)syscall(number, fd);
    if (is_last())
        end();
    return (int)note(call, -1, fails(call) ? failed(EIO) : syscall(number, fd));
}

int fdatasync(int fd)
{
    return sync_of(fd, SYS_fdatasync);
}

int fsync(int fd)
{
    return sync_of(fd, SYS_fsync);
}

int ftruncate(int fd, off_t length)
{
    if (!is_of(fd, logged))
        return (int)syscall(SYS_ftruncate, fd, length);
    if (is_last())
        end();
    return (int)note(LOG_CUT, length, fails(LOG_CUT) ? failed(EIO) : syscall(SYS_ftruncate, fd, length));
}
