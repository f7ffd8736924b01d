#define _DEFAULT_SOURCE
#include "input.h"
#include <errno.h>
#include <fcntl.h>
#include <setjmp.h>
#include <signal.h>
#include <stdlib.h>
#include <string.h>
#include <sys/mman.h>
#include <unistd.h>

/* One byte more than any file that the library takes: of a longer stream no more is read. */
#define MOST_STREAM ((size_t)1 << 31)
/* Memory for a stream is doubled from this on, up to just that. */
#define FIRST_ROOM ((size_t)1 << 16)
/* From this on it is looked whether there is so much memory. */
#define MUCH_MEMORY ((uint64_t)1 << 26)
#define LARGE_PAGE ((uintptr_t)1 << 21)

static sigjmp_buf back;
static volatile sig_atomic_t guarding;

/* A page of a mapped file is gone. Outside of such work that is a fault of the program. */
static void on_bus_error(int number)
{
    if (guarding)
        siglongjmp(back, 1);
    signal(number, SIG_DFL);
    raise(number);
}

/* Runs work(about); answers 0 where a page was gone. */
static int is_done(void (*work)(void *about), void *about)
{
    struct sigaction action;
    memset(&action, 0, sizeof action);
    action.sa_handler = on_bus_error;
    sigemptyset(&action.sa_mask);
    sigaction(SIGBUS, &action, NULL);
    if (sigsetjmp(back, 1) != 0) {
        guarding = 0;
        return 0;
    }
    guarding = 1;
    work(about);
    guarding = 0;
    return 1;
}

/* Reads a stream to its end, into memory that input_close gives back. */
static int read_whole(struct input *input, int fd, struct trouble *trouble)
{
    uint8_t *bytes = NULL;
    size_t room = 0;
    ssize_t got = 1;
    while (got != 0 && input->size < MOST_STREAM) {
        if (input->size == room) {
            room = room == 0 ? FIRST_ROOM : 2 * room;
            uint8_t *more = realloc(bytes, room);
            if (more == NULL)
                return blame(trouble, "needs %s bytes of memory, which cannot be had", grouped(room));
            input->bytes = bytes = more;
        }
        got = read(fd, bytes + input->size, room - input->size);
        if (got > 0)
            input->size += (size_t)got;
        else if (got < 0 && errno != EINTR)
            return blame_errno(trouble, "cannot be read");
    }
    return 1;
}

/* Maps a regular file. One without bytes cannot be mapped, and need not be. */
static int map_whole(struct input *input, int fd, struct trouble *trouble)
{
    input->size = (size_t)input->before.st_size;
    if (input->size > 0) {
        void *bytes = mmap(NULL, input->size, PROT_READ, MAP_PRIVATE, fd, 0);
        if (bytes == MAP_FAILED) {
            input->size = 0;
            return blame_errno(trouble, "cannot be mapped");
        }
        input->bytes = bytes;
    }
    input->fd = fd;
    return 1;
}

/*
 * Opens what the name leads to, and answers -1 where that cannot be. What is no file is opened only
 * where that is wanted, so that a pipe in a directory holds nobody up.
 */
static int open_named(const char *name, int only_files, struct trouble *trouble)
{
    struct stat about;
    int fd = -1;
    if (strcmp(name, "-") == 0)
        return STDIN_FILENO;
    if (stat(name, &about) != 0)
        blame_errno(trouble, "cannot be opened");
    else if (S_ISDIR(about.st_mode))
        blame(trouble, "is a directory");
    else if (only_files && !S_ISREG(about.st_mode))
        blame(trouble, "is neither a file nor a directory");
    else if ((fd = open(name, O_RDONLY | O_CLOEXEC | (S_ISREG(about.st_mode) ? O_NONBLOCK : 0))) < 0)
        blame_errno(trouble, "cannot be opened");
    return fd;
}

int input_open(struct input *input, const char *name, int only_files, struct trouble *trouble)
{
    memset(input, 0, sizeof *input);
    input->name = name;
    input->fd = -1;
    const int fd = open_named(name, only_files, trouble);
    if (fd < 0)
        return 0;
    int fine;
    if (fstat(fd, &input->before) != 0)
        fine = blame_errno(trouble, "cannot be looked at");
    else if (S_ISREG(input->before.st_mode) && lseek(fd, 0, SEEK_CUR) == 0)
        fine = map_whole(input, fd, trouble);
    else if (only_files && !S_ISREG(input->before.st_mode))
        fine = blame(trouble, "is neither a file nor a directory");
    else
        fine = read_whole(input, fd, trouble);
    if (input->fd < 0 && fd != STDIN_FILENO)
        close(fd);
    if (!fine)
        input_close(input);
    return fine;
}

int open_or_complain(struct input *input, const char *name)
{
    struct trouble trouble;
    if (input_open(input, name, 0, &trouble))
        return 1;
    complain(name, "%s", trouble.text);
    return 0;
}

size_t input_copy(const struct input *input, size_t at, void *bytes, size_t size)
{
    if (at >= input->size)
        return 0;
    if (size > input->size - at)
        size = input->size - at;
    if (input->fd < 0) {
        memcpy(bytes, input->bytes + at, size);
        return size;
    }
    size_t done = 0;
    while (done < size) {
        const ssize_t got = pread(input->fd, (uint8_t *)bytes + done, size - done, (off_t)(at + done));
        if (got == 0 || (got < 0 && errno != EINTR))
            break;
        if (got > 0)
            done += (size_t)got;
    }
    return done;
}

int input_unchanged(const struct input *input, struct trouble *trouble)
{
    struct stat now;
    const struct stat *before = &input->before;
    if (input->fd < 0)
        return 1;
    if (fstat(input->fd, &now) != 0)
        return blame_errno(trouble, "cannot be looked at");
    if (now.st_size < before->st_size)
        return blame(trouble, "it became shorter while it was read");
    if (now.st_size != before->st_size || now.st_mtim.tv_sec != before->st_mtim.tv_sec ||
        now.st_mtim.tv_nsec != before->st_mtim.tv_nsec)
        return blame(trouble, "it changed while it was read");
    return 1;
}

int input_ask(const struct input *input, void (*work)(void *about), void *about, struct trouble *trouble)
{
    const int done = is_done(work, about);
    if (!input_unchanged(input, trouble))
        return 0;
    return done ? 1 : blame(trouble, "a part of it cannot be read");
}

void input_close(struct input *input)
{
    if (input->fd >= 0) {
        if (input->size > 0)
            munmap((void *)(uintptr_t)input->bytes, input->size);
        if (input->fd != STDIN_FILENO)
            close(input->fd);
    } else {
        free((void *)(uintptr_t)input->bytes);
    }
    memset(input, 0, sizeof *input);
    input->fd = -1;
}

/* Has the system hand out much memory in large pages, where it can, which takes less time. */
static void use_large_pages(void *memory, size_t bytes)
{
    const uintptr_t start = ((uintptr_t)memory + LARGE_PAGE - 1) / LARGE_PAGE * LARGE_PAGE;
    const size_t skipped = start - (uintptr_t)memory;
    madvise((void *)start, (bytes - skipped) / LARGE_PAGE * LARGE_PAGE, MADV_HUGEPAGE);
}

/* The bytes that can be had without others' being ended for it, as the system says; all where it does not. */
static uint64_t available(void)
{
    unsigned long long kilobytes = 0;
    char line[128];
    FILE *stream = fopen("/proc/meminfo", "r");
    if (stream == NULL)
        return UINT64_MAX;
    int found = 0;
    while (!found && fgets(line, sizeof line, stream) != NULL)
        found = sscanf(line, "MemAvailable: %llu kB", &kilobytes) == 1;
    fclose(stream);
    return found ? (uint64_t)kilobytes * 1024 : UINT64_MAX;
}

int memory_fits(uint64_t bytes, struct trouble *trouble)
{
    /* The system is not asked for little: small sheets are many. */
    const uint64_t limit = bytes < MUCH_MEMORY ? UINT64_MAX : available();
    if (bytes > limit)
        return blame(trouble, "needs %s bytes of memory, %s are available", grouped(bytes), grouped(limit));
    return 1;
}

void *memory_for(uint64_t count, size_t size, struct trouble *trouble)
{
    if (count > SIZE_MAX / size) {
        blame(trouble, "needs more memory than can be counted");
        return NULL;
    }
    const size_t bytes = (size_t)count * size;
    if (!memory_fits(bytes, trouble))
        return NULL;
    void *memory = malloc(bytes > 0 ? bytes : 1);
    if (memory == NULL)
        blame(trouble, "needs %s bytes of memory, which cannot be had", grouped(bytes));
    else if (bytes >= MUCH_MEMORY)
        use_large_pages(memory, bytes);
    return memory;
}
