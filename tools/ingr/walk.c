#define _XOPEN_SOURCE 700
#include "walk.h"
#include <dirent.h>
#include <errno.h>
#include <stdlib.h>
#include <string.h>
#include <sys/stat.h>

/* The entries of a directory. */
struct names {
    char **name;
    size_t count, room;
};

static int no_memory(struct trouble *trouble)
{
    return blame(trouble, "there is no memory for so many names");
}

/* Makes room for one more thing in an array; answers the array, NULL where there is no memory. */
static void *with_room(void *array, size_t count, size_t *room, size_t size)
{
    if (count < *room)
        return array;
    const size_t more = *room == 0 ? 64 : 2 * *room;
    void *longer = more > SIZE_MAX / size ? NULL : realloc(array, more * size);
    if (longer != NULL)
        *room = more;
    return longer;
}

/* Notes a file, or a name that leads to none with the reason. It takes the name. */
static int note(struct walk *walk, char *name, const char *reason, uint64_t bytes, int is_from_walk,
                struct trouble *trouble)
{
    struct found *found =
        name == NULL ? NULL : with_room(walk->found, walk->count, &walk->room, sizeof *found);
    if (found != NULL)
        walk->found = found;
    char *copy = found != NULL && reason != NULL ? strdup(reason) : NULL;
    if (found == NULL || (reason != NULL && copy == NULL)) {
        free(name);
        return no_memory(trouble);
    }
    walk->found[walk->count++] = (struct found){name, copy, bytes, is_from_walk};
    return 1;
}

/* Notes what errno says of a name. */
static int note_errno(struct walk *walk, char *name, int is_from_walk, struct trouble *trouble)
{
    struct trouble reason;
    blame_errno(&reason, "cannot be opened");
    return note(walk, name, reason.text, 0, is_from_walk, trouble);
}

static int by_bytes(const void *left, const void *right)
{
    return strcmp(*(char *const *)left, *(char *const *)right);
}

static void free_names(struct names *names)
{
    for (size_t i = 0; i < names->count; i++)
        free(names->name[i]);
    free(names->name);
}

/* Reads the names of a directory, by the order of their bytes. Answers 0 with errno where that fails. */
static int read_names(struct names *names, const char *directory)
{
    struct dirent *entry = NULL;
    DIR *stream = opendir(directory);
    memset(names, 0, sizeof *names);
    while (stream != NULL && (errno = 0, entry = readdir(stream)) != NULL) {
        if (strcmp(entry->d_name, ".") == 0 || strcmp(entry->d_name, "..") == 0)
            continue;
        char **name = with_room(names->name, names->count, &names->room, sizeof *name);
        if (name == NULL)
            break;
        names->name = name;
        if ((names->name[names->count] = strdup(entry->d_name)) == NULL)
            break;
        names->count++;
    }
    const int fault = errno;
    if (stream != NULL)
        closedir(stream);
    if (stream == NULL || entry != NULL || fault != 0) {
        free_names(names);
        errno = fault;
        return 0;
    }
    if (names->count > 0)
        qsort(names->name, names->count, sizeof *names->name, by_bytes);
    return 1;
}

static char *joined(const char *directory, const char *name)
{
    const size_t size = strlen(directory), more = strlen(name) + 1;
    const int slash = size > 0 && directory[size - 1] != '/';
    char *path = malloc(size + (size_t)slash + more);
    if (path == NULL)
        return NULL;
    memcpy(path, directory, size);
    if (slash)
        path[size] = '/';
    memcpy(path + size + (size_t)slash, name, more);
    return path;
}

static int add_directory(struct walk *walk, char *directory, int is_from_walk, struct trouble *trouble);

/* Adds an entry of a directory. It takes the path. */
static int add_entry(struct walk *walk, char *path, struct trouble *trouble)
{
    struct stat about, target;
    if (path == NULL)
        return no_memory(trouble);
    if (lstat(path, &about) != 0)
        return note_errno(walk, path, 1, trouble);
    if (S_ISDIR(about.st_mode))
        return add_directory(walk, path, 1, trouble);
    if (!S_ISLNK(about.st_mode))
        target = about;
    else if (stat(path, &target) != 0)
        return note_errno(walk, path, 1, trouble);
    if (S_ISDIR(target.st_mode)) {
        /* A link to a directory may lead back to where it is. */
        free(path);
        return 1;
    }
    return note(walk, path, NULL, target.st_size < 0 ? 0 : (uint64_t)target.st_size, 1, trouble);
}

/* Adds all that is in a directory. It takes the name. */
static int add_directory(struct walk *walk, char *directory, int is_from_walk, struct trouble *trouble)
{
    struct names names;
    int fine = 1;
    if (directory == NULL)
        return no_memory(trouble);
    if (!read_names(&names, directory))
        return note_errno(walk, directory, is_from_walk, trouble);
    for (size_t i = 0; fine && i < names.count; i++)
        fine = add_entry(walk, joined(directory, names.name[i]), trouble);
    free_names(&names);
    free(directory);
    return fine;
}

int walk_add(struct walk *walk, const char *name, struct trouble *trouble)
{
    struct stat about;
    const size_t before = walk->count;
    if (strcmp(name, "-") == 0 || stat(name, &about) != 0 || !S_ISDIR(about.st_mode)) {
        const int is_file = strcmp(name, "-") != 0 && stat(name, &about) == 0 && S_ISREG(about.st_mode);
        return note(walk, strdup(name), NULL, is_file ? (uint64_t)about.st_size : 0, 0, trouble);
    }
    if (!add_directory(walk, strdup(name), 0, trouble))
        return 0;
    /* A check that looked at nothing must not look like one that found all good. */
    return walk->count > before || note(walk, strdup(name), "there is no file in it", 0, 0, trouble);
}

void walk_free(struct walk *walk)
{
    for (size_t i = 0; i < walk->count; i++) {
        free(walk->found[i].name);
        free(walk->found[i].reason);
    }
    free(walk->found);
    memset(walk, 0, sizeof *walk);
}
