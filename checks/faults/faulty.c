/*
 * Runs a command, and has one of its system calls fail, or ends the command there, or changes a file.
 *
 *     faulty REPORT [WORD ..] -- COMMAND [ARGUMENT ..]
 *
 *     --fail N ERRNO   call N is not made, and gives this error
 *     --only CALL      the one that fails is the first from N on that has this number of a system call: threads may come in
 *                      another order than in the run before
 *     --signal N SIG   before call N the command gets this signal; SIGKILL goes to all its processes
 *     --do N LINE      before call N a line of shell is run
 *     --below FOLDER   only calls on paths or open files below this folder count
 *     --without WHAT   calls that a file system may not know give the error that says so: tmpfile, exchange, noreplace,
 *                      link or copy
 *     --slow MICROS    each call that counts waits before
 *
 * Calls are counted from 1, over all processes and threads of the command. REPORT gets a line for each that counts: its
 * number, the number of the system call, its first four arguments, and the path that it names; and `failed N` where one
 * fails. At its end it gets `exit STATUS` or `signal NUMBER`. Of this program itself the status is 0, or 2 where it can't do its work.
 */
#define _GNU_SOURCE
#include <errno.h>
#include <fcntl.h>
#include <linux/filter.h>
#include <linux/seccomp.h>
#include <signal.h>
#include <stddef.h>
#include <stdint.h>
#include <stdio.h>
#include <stdlib.h>
#include <string.h>
#include <sys/prctl.h>
#include <sys/ptrace.h>
#include <sys/syscall.h>
#include <sys/user.h>
#include <sys/wait.h>
#include <unistd.h>

enum { MOST_TRACEES = 4096, PATH_ROOM = 4096 };

struct asked {
    long fail_at, only, signal_at, do_at;
    int error, signal, slow;
    const char *line, *below, *report;
    int without_tmpfile, without_exchange, without_noreplace, without_link, without_copy;
};

static struct asked asked;
static pid_t tracees[MOST_TRACEES];
static size_t tracee_count;
static long counted;
static pid_t first;
static FILE *report;

static void stop(const char *what)
{
    fprintf(stderr, "faulty: %s: %s\n", what, strerror(errno));
    exit(2);
}

/* ---- which calls count */

/* Calls that can't fail, or of which a failure says nothing of the command: how a process ends, waits and asks the time. */
static const int LEFT_OUT[] = {
    SYS_exit,         SYS_exit_group, SYS_execve,      SYS_rt_sigreturn,  SYS_futex,         SYS_restart_syscall,
    SYS_set_tid_address, SYS_set_robust_list, SYS_rseq, SYS_arch_prctl,   SYS_sched_yield,   SYS_getpid,
    SYS_gettid,       SYS_getppid,    SYS_getuid,      SYS_geteuid,       SYS_getgid,        SYS_getegid,
    SYS_clock_gettime, SYS_clock_nanosleep, SYS_gettimeofday, SYS_time,
};

enum { LEFT_OUT_COUNT = sizeof LEFT_OUT / sizeof LEFT_OUT[0] };

/* Has the kernel stop at every other call, once: to stop at all calls, and again at their ends, takes twice as long. */
static void filter_calls(void)
{
    struct sock_filter filter[LEFT_OUT_COUNT + 3];
    struct sock_fprog program = {LEFT_OUT_COUNT + 3, filter};
    size_t i;

    filter[0] = (struct sock_filter)BPF_STMT(BPF_LD | BPF_W | BPF_ABS, offsetof(struct seccomp_data, nr));
    for (i = 0; i < LEFT_OUT_COUNT; i++)
        filter[1 + i] = (struct sock_filter)BPF_JUMP(BPF_JMP | BPF_JEQ | BPF_K, (uint32_t)LEFT_OUT[i], (uint8_t)(LEFT_OUT_COUNT - i), 0);
    filter[1 + i] = (struct sock_filter)BPF_STMT(BPF_RET | BPF_K, SECCOMP_RET_TRACE);
    filter[2 + i] = (struct sock_filter)BPF_STMT(BPF_RET | BPF_K, SECCOMP_RET_ALLOW);
    if (prctl(PR_SET_NO_NEW_PRIVS, 1, 0, 0, 0) != 0 || prctl(PR_SET_SECCOMP, SECCOMP_MODE_FILTER, &program) != 0)
        stop("the calls can't be filtered");
}

/* Where a call has its paths: the argument of each, and that of the folder from which it goes, or -1. */
struct paths {
    uint64_t number;
    int path, from, other, other_from;
};

static const struct paths PATHS[] = {
    {SYS_open, 0, -1, -1, -1},          {SYS_openat, 1, 0, -1, -1},       {SYS_openat2, 1, 0, -1, -1},
    {SYS_creat, 0, -1, -1, -1},         {SYS_stat, 0, -1, -1, -1},        {SYS_lstat, 0, -1, -1, -1},
    {SYS_newfstatat, 1, 0, -1, -1},     {SYS_statx, 1, 0, -1, -1},        {SYS_access, 0, -1, -1, -1},
    {SYS_faccessat, 1, 0, -1, -1},      {SYS_faccessat2, 1, 0, -1, -1},   {SYS_readlink, 0, -1, -1, -1},
    {SYS_readlinkat, 1, 0, -1, -1},     {SYS_unlink, 0, -1, -1, -1},      {SYS_unlinkat, 1, 0, -1, -1},
    {SYS_rmdir, 0, -1, -1, -1},         {SYS_mkdir, 0, -1, -1, -1},       {SYS_mkdirat, 1, 0, -1, -1},
    {SYS_rename, 0, -1, 1, -1},         {SYS_renameat, 1, 0, 3, 2},       {SYS_renameat2, 1, 0, 3, 2},
    {SYS_link, 0, -1, 1, -1},           {SYS_linkat, 1, 0, 3, 2},         {SYS_symlink, 1, -1, -1, -1},
    {SYS_symlinkat, 2, 1, -1, -1},      {SYS_chmod, 0, -1, -1, -1},       {SYS_fchmodat, 1, 0, -1, -1},
    {SYS_chown, 0, -1, -1, -1},         {SYS_lchown, 0, -1, -1, -1},      {SYS_fchownat, 1, 0, -1, -1},
    {SYS_utimensat, 1, 0, -1, -1},      {SYS_truncate, 0, -1, -1, -1},    {SYS_chdir, 0, -1, -1, -1},
};

/* Calls whose first argument is an open file, and whose third is one too where `third` says so. */
static int has_file(uint64_t number, int *third)
{
    *third = 0;
    switch (number) {
    case SYS_copy_file_range:
        *third = 1;
        return 1;
    case SYS_read:
    case SYS_write:
    case SYS_readv:
    case SYS_writev:
    case SYS_pread64:
    case SYS_pwrite64:
    case SYS_close:
    case SYS_fstat:
    case SYS_lseek:
    case SYS_fsync:
    case SYS_fdatasync:
    case SYS_ftruncate:
    case SYS_fallocate:
    case SYS_fadvise64:
    case SYS_fchmod:
    case SYS_fchown:
    case SYS_flock:
    case SYS_fcntl:
    case SYS_ioctl:
    case SYS_getdents64:
    case SYS_sendfile:
        return 1;
    default:
        return 0;
    }
}

static const struct paths *paths_of(uint64_t number)
{
    size_t i;

    for (i = 0; i < sizeof PATHS / sizeof PATHS[0]; i++)
        if (PATHS[i].number == number)
            return &PATHS[i];
    return NULL;
}

/* The text at an address of a tracee, as far as there is room. */
static void read_text(pid_t pid, uint64_t address, char *text, size_t room)
{
    size_t len = 0;

    while (len + sizeof(long) < room) {
        long word;
        size_t i;

        errno = 0;
        word = ptrace(PTRACE_PEEKDATA, pid, (void *)(address + len), NULL);
        if (errno != 0)
            break;
        memcpy(text + len, &word, sizeof word);
        for (i = 0; i < sizeof word; i++)
            if (text[len + i] == '\0')
                return;
        len += sizeof word;
    }
    text[len] = '\0';
}

/* Where an open file or the folder of a tracee stands; empty where it has no name. */
static void read_handle(pid_t pid, const char *what, long handle, char *path)
{
    char name[64];
    ssize_t len;

    if (handle >= 0)
        snprintf(name, sizeof name, "/proc/%d/fd/%ld", pid, handle);
    else
        snprintf(name, sizeof name, "/proc/%d/%s", pid, what);
    len = readlink(name, path, PATH_ROOM - 1);
    path[len < 0 ? 0 : len] = '\0';
}

/* The whole path that an argument names. */
static void whole_path(pid_t pid, const uint64_t *args, int path, int from, char *whole)
{
    static char text[PATH_ROOM], folder[PATH_ROOM];
    long handle = from >= 0 ? (long)(int)args[from] : -1;

    read_text(pid, args[path], text, sizeof text);
    if (text[0] == '/') {
        strcpy(whole, text);
        return;
    }
    read_handle(pid, "cwd", handle >= 0 ? handle : -1, folder);
    snprintf(whole, 2 * PATH_ROOM, "%s%s%s", folder, text[0] ? "/" : "", text);
}

static int is_below(const char *path)
{
    size_t len = strlen(asked.below);

    return strncmp(path, asked.below, len) == 0 && (path[len] == '/' || path[len] == '\0');
}

/* Whether a call counts. `path` gets what it names, where it names something. */
static int counts(pid_t pid, const struct __ptrace_syscall_info *info, char *path)
{
    const struct paths *paths = paths_of(info->seccomp.nr);
    int third, found = asked.below == NULL;

    path[0] = '\0';
    if (paths != NULL) {
        if (paths->other >= 0) {
            whole_path(pid, (const uint64_t *)info->seccomp.args, paths->other, paths->other_from, path);
            found = found || is_below(path);
        }
        if (paths->other < 0 || !found)
            whole_path(pid, (const uint64_t *)info->seccomp.args, paths->path, paths->from, path);
    } else if (has_file(info->seccomp.nr, &third)) {
        read_handle(pid, "", (long)(int)info->seccomp.args[0], path);
        if (third && !found && !is_below(path))
            read_handle(pid, "", (long)(int)info->seccomp.args[2], path);
    }
    return found || is_below(path);
}

/* ---- calls that a file system may not know */

static int unknown_call(const struct __ptrace_syscall_info *info)
{
    const uint64_t *args = (const uint64_t *)info->seccomp.args;

    switch (info->seccomp.nr) {
    case SYS_openat:
        return asked.without_tmpfile && (args[2] & O_TMPFILE) == O_TMPFILE ? EOPNOTSUPP : 0;
    case SYS_renameat2:
        if (asked.without_exchange && (args[4] & 2))
            return EINVAL;
        return asked.without_noreplace && (args[4] & 1) ? EINVAL : 0;
    case SYS_link:
    case SYS_linkat:
        return asked.without_link ? EPERM : 0;
    case SYS_copy_file_range:
        return asked.without_copy ? EXDEV : 0;
    default:
        return 0;
    }
}

/* ---- the faults */

static size_t place_of(pid_t pid)
{
    size_t i;

    for (i = 0; i < tracee_count && tracees[i] != pid; i++)
        ;
    return i;
}

static int is_known(pid_t pid)
{
    return place_of(pid) < tracee_count;
}

static void add_tracee(pid_t pid)
{
    if (tracee_count == MOST_TRACEES) {
        errno = EAGAIN;
        stop("too many processes");
    }
    tracees[tracee_count++] = pid;
}

static void forget_tracee(pid_t pid)
{
    if (is_known(pid))
        tracees[place_of(pid)] = tracees[--tracee_count];
}

static void send_signal(int number)
{
    size_t i;

    if (number != SIGKILL) {
        kill(first, number);
        return;
    }
    for (i = 0; i < tracee_count; i++)
        kill(tracees[i], SIGKILL);
}

/* Has a call not be made, and give an error. A call of brk that fails gives the end of the data as it was, which is no
 * error's number: 0 is below all that is asked. */
static void leave_out(pid_t pid, int error)
{
    struct user_regs_struct registers;

    if (ptrace(PTRACE_GETREGS, pid, NULL, &registers) != 0)
        return;
    registers.rax = registers.orig_rax == SYS_brk ? 0 : (unsigned long long)-(long long)error;
    registers.orig_rax = (unsigned long long)-1;
    ptrace(PTRACE_SETREGS, pid, NULL, &registers);
}

static int is_to_fail(uint64_t number)
{
    return asked.fail_at > 0 && counted >= asked.fail_at && (asked.only < 0 || number == (uint64_t)asked.only);
}

static void at_call(pid_t pid, const struct __ptrace_syscall_info *info)
{
    static char path[2 * PATH_ROOM];
    const uint64_t *args = (const uint64_t *)info->seccomp.args;
    int unknown = unknown_call(info);

    if (unknown != 0) {
        leave_out(pid, unknown);
        return;
    }
    if (!counts(pid, info, path))
        return;
    counted++;
    fprintf(report, "%ld %llu %llx %llx %llx %llx %s\n", counted, (unsigned long long)info->seccomp.nr,
            (unsigned long long)args[0], (unsigned long long)args[1], (unsigned long long)args[2],
            (unsigned long long)args[3], path);
    if (asked.slow > 0)
        usleep((useconds_t)asked.slow);
    if (counted == asked.do_at && system(asked.line) != 0)
        stop("the line of shell failed");
    if (counted == asked.signal_at)
        send_signal(asked.signal);
    if (is_to_fail(info->seccomp.nr)) {
        asked.fail_at = 0;
        fprintf(report, "failed %ld\n", counted);
        leave_out(pid, asked.error);
    }
}

/* What a tracee that stopped goes on with: the signal that it is to get, or none. */
static int at_stop(pid_t pid, int status)
{
    struct __ptrace_syscall_info info;

    if (!is_known(pid)) {
        add_tracee(pid);
        return 0;
    }
    if (status >> 16 == 0)
        return WSTOPSIG(status);
    if (status >> 16 == PTRACE_EVENT_SECCOMP && ptrace(PTRACE_GET_SYSCALL_INFO, pid, sizeof info, &info) >= 0)
        at_call(pid, &info);
    return 0;
}

static void follow(void)
{
    int status;
    pid_t pid;

    while ((pid = waitpid(-1, &status, __WALL)) > 0) {
        if (WIFSTOPPED(status)) {
            int signal = at_stop(pid, status);

            ptrace(PTRACE_CONT, pid, NULL, (void *)(long)signal);
            continue;
        }
        forget_tracee(pid);
        if (pid == first && WIFEXITED(status))
            fprintf(report, "exit %d\n", WEXITSTATUS(status));
        else if (pid == first)
            fprintf(report, "signal %d\n", WTERMSIG(status));
    }
}

/* ---- the words */

static void read_without(const char *what)
{
    if (strcmp(what, "tmpfile") == 0)
        asked.without_tmpfile = 1;
    else if (strcmp(what, "exchange") == 0)
        asked.without_exchange = 1;
    else if (strcmp(what, "noreplace") == 0)
        asked.without_noreplace = 1;
    else if (strcmp(what, "link") == 0)
        asked.without_link = 1;
    else if (strcmp(what, "copy") == 0)
        asked.without_copy = 1;
    else {
        errno = EINVAL;
        stop(what);
    }
}

/* Reads the words up to the command, and gives it. */
static char **read_words(int count, char **words)
{
    int at;

    errno = EINVAL;
    if (count < 4)
        stop("usage: faulty REPORT [WORD ..] -- COMMAND ..");
    asked.report = words[1];
    asked.only = -1;
    for (at = 2; at + 1 < count; at++) {
        const char *word = words[at];
        int has_two = at + 2 < count;

        if (strcmp(word, "--") == 0)
            return words + at + 1;
        if (strcmp(word, "--below") == 0) {
            asked.below = words[++at];
        } else if (strcmp(word, "--without") == 0) {
            read_without(words[++at]);
        } else if (strcmp(word, "--slow") == 0) {
            asked.slow = atoi(words[++at]);
        } else if (strcmp(word, "--fail") == 0 && has_two) {
            asked.fail_at = atol(words[++at]);
            asked.error = atoi(words[++at]);
        } else if (strcmp(word, "--only") == 0) {
            asked.only = atol(words[++at]);
        } else if (strcmp(word, "--signal") == 0 && has_two) {
            asked.signal_at = atol(words[++at]);
            asked.signal = atoi(words[++at]);
        } else if (strcmp(word, "--do") == 0 && has_two) {
            asked.do_at = atol(words[++at]);
            asked.line = words[++at];
        } else {
            stop(word);
        }
    }
    stop("no command");
    return NULL;
}

static void run_command(char **command)
{
    ptrace(PTRACE_TRACEME, 0, NULL, NULL);
    raise(SIGSTOP);
    filter_calls();
    execvp(command[0], command);
    stop(command[0]);
}

int main(int count, char **words)
{
    char **command = read_words(count, words);
    long options = PTRACE_O_TRACESECCOMP | PTRACE_O_TRACECLONE | PTRACE_O_TRACEFORK | PTRACE_O_TRACEVFORK |
                   PTRACE_O_TRACEEXEC | PTRACE_O_EXITKILL;
    int status;

    report = fopen(asked.report, "we");
    if (report == NULL)
        stop(asked.report);
    first = fork();
    if (first == 0)
        run_command(command);
    if (first < 0 || waitpid(first, &status, 0) != first || !WIFSTOPPED(status))
        stop("the command can't be begun");
    add_tracee(first);
    if (ptrace(PTRACE_SETOPTIONS, first, NULL, (void *)options) != 0)
        stop("the command can't be followed");
    ptrace(PTRACE_CONT, first, NULL, NULL);
    follow();
    return fclose(report) == 0 ? 0 : 2;
}
