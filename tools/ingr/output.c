#define _XOPEN_SOURCE 700
#include "output.h"
#include <errno.h>
#include <fcntl.h>
#include <signal.h>
#include <stdlib.h>
#include <string.h>
#include <sys/stat.h>
#include <unistd.h>

/* Signals that end a command. */
static const int ending[] = {SIGHUP,  SIGINT,  SIGQUIT, SIGTERM,   SIGPIPE, SIGALRM,
                             SIGXCPU, SIGUSR1, SIGUSR2, SIGVTALRM, SIGPROF, SIGPOLL};

/* The other name of the file that is being written, for the signals. */
static char *volatile unfinished;

static void on_ending_signal(int number)
{
    if (unfinished != NULL)
        unlink(unfinished);
    signal(number, SIG_DFL);
    raise(number);
}

/*
 * Keeps a file that is opened from getting the number of a standard stream that is closed. What is
 * put there can be used the wrong way only, so that reading or writing it fails as before.
 */
static void fill_streams(void)
{
    for (int fd = STDIN_FILENO; fd <= STDERR_FILENO; fd++)
        if (fcntl(fd, F_GETFD) < 0 && open("/dev/null", fd == STDIN_FILENO ? O_WRONLY : O_RDONLY) < 0)
            return;
}

void output_prepare(void)
{
    struct sigaction action, before;
    fill_streams();
    memset(&action, 0, sizeof action);
    action.sa_handler = on_ending_signal;
    sigemptyset(&action.sa_mask);
    for (size_t i = 0; i < sizeof ending / sizeof *ending; i++)
        sigaddset(&action.sa_mask, ending[i]);
    for (size_t i = 0; i < sizeof ending / sizeof *ending; i++)
        /* What whoever started the command had ignored stays ignored. */
        if (sigaction(ending[i], NULL, &before) == 0 && before.sa_handler != SIG_IGN)
            sigaction(ending[i], &action, NULL);
    /* A file that grows past its limit is an error like a full disk. */
    signal(SIGXFSZ, SIG_IGN);
}

/* Holds the signals, or lets them go: no file may have the other name while they do not know it. */
static void hold_signals(int how)
{
    sigset_t set;
    sigemptyset(&set);
    for (size_t i = 0; i < sizeof ending / sizeof *ending; i++)
        sigaddset(&set, ending[i]);
    sigprocmask(how, &set, NULL);
}

/* The bytes of the directory's name in a path, with its slash. */
static size_t directory_size(const char *path)
{
    const char *slash = strrchr(path, '/');
    return slash == NULL ? 0 : (size_t)(slash - path) + 1;
}

/* Makes the other name, beside the target. */
static int open_temporary(struct output *output, struct trouble *trouble)
{
    static const char pattern[] = ".ingr-XXXXXX";
    const size_t directory = directory_size(output->target);
    output->temporary = malloc(directory + sizeof pattern);
    if (output->temporary == NULL)
        return blame_errno(trouble, "cannot be written");
    memcpy(output->temporary, output->target, directory);
    memcpy(output->temporary + directory, pattern, sizeof pattern);
    hold_signals(SIG_BLOCK);
    output->fd = mkstemp(output->temporary);
    if (output->fd >= 0)
        unfinished = output->temporary;
    hold_signals(SIG_UNBLOCK);
    return output->fd >= 0 ? 1 : blame_errno(trouble, "cannot be written");
}

/* Gives the new file the owner and the permissions of the old one, or those of any new file. */
static int set_permissions(const struct output *output, const struct stat *old, struct trouble *trouble)
{
    mode_t mode;
    if (old != NULL) {
        /* Only root can give a file away. To others it is theirs from now on. */
        if (geteuid() == 0 && fchown(output->fd, old->st_uid, old->st_gid) != 0)
            return blame_errno(trouble, "cannot be written");
        mode = old->st_mode & 0777;
    } else {
        const mode_t mask = umask(0);
        umask(mask);
        mode = 0666 & ~mask;
    }
    return fchmod(output->fd, mode) == 0 ? 1 : blame_errno(trouble, "cannot be written");
}

/* Opens what is no regular file, and is written straight: what the name leads to, or standard output. */
static int open_straight(struct output *output, const char *name, struct trouble *trouble)
{
    output->fd = name == NULL ? dup(STDOUT_FILENO) : open(name, O_WRONLY | O_CLOEXEC | O_NOCTTY);
    if (output->fd < 0)
        return blame_errno(trouble, "cannot be written");
    return isatty(output->fd) ? blame(trouble, "is a terminal") : 1;
}

/* Finds where the name leads: a link is followed, as it would be by a shell. */
static int find_target(struct output *output, struct trouble *trouble)
{
    struct stat about;
    const int is_link = lstat(output->name, &about) == 0 && S_ISLNK(about.st_mode);
    output->target = is_link ? realpath(output->name, NULL) : strdup(output->name);
    return output->target != NULL ? 1 : blame_errno(trouble, "cannot be written");
}

static int open_output(struct output *output, struct trouble *trouble)
{
    struct stat old;
    if (strcmp(output->name, "-") == 0)
        return open_straight(output, NULL, trouble);
    const int is_there = stat(output->name, &old) == 0;
    if (!is_there && errno != ENOENT)
        return blame_errno(trouble, "cannot be written");
    if (is_there && S_ISDIR(old.st_mode))
        return blame(trouble, "is a directory");
    if (is_there && !S_ISREG(old.st_mode))
        return open_straight(output, output->name, trouble);
    if (!find_target(output, trouble))
        return 0;
    if (is_there && access(output->target, W_OK) != 0)
        return blame_errno(trouble, "cannot be written");
    return open_temporary(output, trouble) && set_permissions(output, is_there ? &old : NULL, trouble);
}

int output_open(struct output *output, const char *name, struct trouble *trouble)
{
    memset(output, 0, sizeof *output);
    output->name = name;
    output->fd = -1;
    if (open_output(output, trouble))
        return 1;
    output_drop(output);
    return 0;
}

int output_write(struct output *output, const void *bytes, size_t size, struct trouble *trouble)
{
    const char *at = bytes;
    while (size > 0) {
        const ssize_t done = write(output->fd, at, size);
        if (done < 0 && errno == EINTR)
            continue;
        if (done < 0)
            return blame_errno(trouble, "cannot be written");
        at += done;
        size -= (size_t)done;
    }
    return 1;
}

const char *output_so_far(const struct output *output)
{
    return output->target != NULL ? output->temporary : NULL;
}

/* Has the new name of a file last, too. A file system without such a thing does it as well as it can. */
static void flush_directory(const char *path)
{
    const size_t size = directory_size(path);
    char *directory = size == 0 ? strdup(".") : strndup(path, size);
    const int fd = directory == NULL ? -1 : open(directory, O_RDONLY | O_CLOEXEC);
    if (fd >= 0) {
        fsync(fd);
        close(fd);
    }
    free(directory);
}

int output_finish(struct output *output, struct trouble *trouble)
{
    int fine = output->target == NULL || fsync(output->fd) == 0;
    const int fd = output->fd;
    output->fd = -1;
    if (close(fd) != 0)
        fine = 0;
    if (fine && output->target != NULL) {
        hold_signals(SIG_BLOCK);
        fine = rename(output->temporary, output->target) == 0;
        if (fine)
            unfinished = NULL;
        hold_signals(SIG_UNBLOCK);
    }
    if (!fine)
        return blame_errno(trouble, "cannot be written");
    if (output->target != NULL) {
        flush_directory(output->target);
        free(output->temporary);
        output->temporary = NULL;
    }
    return 1;
}

void output_drop(struct output *output)
{
    if (output->fd >= 0)
        close(output->fd);
    if (output->temporary != NULL && unfinished != NULL) {
        unlink(output->temporary);
        unfinished = NULL;
    }
    free(output->temporary);
    free(output->target);
    memset(output, 0, sizeof *output);
    output->fd = -1;
}

int output_store(const char *name,
                 int (*fill)(struct output *output, const void *about, struct trouble *trouble),
                 const void *about)
{
    struct output output;
    struct trouble trouble;
    int fine = output_open(&output, name, &trouble);
    if (fine) {
        fine = fill(&output, about, &trouble) && output_finish(&output, &trouble);
        output_drop(&output);
    }
    if (!fine)
        complain(name, "%s", trouble.text);
    return fine;
}
