/* kg: files read whole and saved safely, memory, error messages. */
#define _XOPEN_SOURCE 700

#include <errno.h>
#include <fcntl.h>
#include <signal.h>
#include <stdarg.h>
#include <stdio.h>
#include <stdlib.h>
#include <string.h>
#include <sys/stat.h>
#include <unistd.h>

#include "kg.h"

/* A job has at most 75,366,426 bytes, and reading goes from the first byte on: what stands past MOST_READ changes no answer. */
enum { FIRST_ROOM = 1 << 20, MOST_READ = 1 << 27 };

/* The temporary file that a signal must remove. */
static char *volatile temporary;

enum status fail(const char *format, ...)
{
    va_list values;
    va_start(values, format);
    fputs("kg: ", stderr);
    vfprintf(stderr, format, values);
    fputc('\n', stderr);
    va_end(values);
    return UNUSABLE;
}

/* The system's word for why a file could not be read or written. */
static enum status fail_file(const char *name, int error)
{
    return fail("%s: %s", name, strerror(error));
}

void *room(uint64_t count, size_t size)
{
    void *memory = count > SIZE_MAX ? NULL : calloc(count == 0 ? 1 : (size_t)count, size);
    if (memory == NULL)
        fail("not enough memory");
    return memory;
}

static bool is_dash(const char *name)
{
    return strcmp(name, "-") == 0;
}

const char *shown_name(const char *name)
{
    return is_dash(name) ? "standard input" : name;
}

/* Doubles the room of a file that is being read. */
static bool grow(struct bytes *file, size_t *size)
{
    size_t wanted = *size == 0 ? FIRST_ROOM : *size * 2;
    uint8_t *data = realloc(file->data, wanted);
    if (data == NULL)
        return false;
    file->data = data;
    *size = wanted;
    return true;
}

static enum status read_stream(FILE *in, const char *name, struct bytes *file)
{
    size_t size = 0, got;
    do {
        if (file->length == size && !grow(file, &size))
            return fail("not enough memory");
        got = fread(file->data + file->length, 1, size - file->length, in);
        file->length += got;
    } while (got > 0 && file->length < MOST_READ);
    return ferror(in) ? fail_file(shown_name(name), errno) : DONE;
}

void expect_full_files(void)
{
    signal(SIGXFSZ, SIG_IGN);
}

enum status read_file(const char *name, struct bytes *file)
{
    file->data = NULL;
    file->length = 0;
    if (is_dash(name))
        return read_stream(stdin, name, file);
    FILE *in = fopen(name, "rb");
    if (in == NULL)
        return fail_file(name, errno);
    enum status status = read_stream(in, name, file);
    fclose(in); /* was only read, so nothing can be lost */
    return status;
}

/* The functions from here to save_over answer whether all went well; where not, errno says why. */

static bool write_all(int to, const struct bytes *content)
{
    const uint8_t *at = content->data;
    size_t left = content->length;
    while (left > 0) {
        ssize_t done = write(to, at, left);
        if (done < 0 && errno == EINTR)
            continue;
        if (done < 0)
            return false;
        at += done;
        left -= (size_t)done;
    }
    return true;
}

/* Closes a file that was written well or not; the first failure is the one that is told. */
static bool close_written(int file, bool good)
{
    int error = errno;
    if (close(file) != 0 && good)
        return false;
    errno = error;
    return good;
}

static void remove_and_die(int signal_number)
{
    if (temporary != NULL)
        unlink(temporary);
    signal(signal_number, SIG_DFL);
    raise(signal_number); /* comes when this function ends, and ends the program as if it had not been caught */
}

static const int stopping[] = {SIGHUP, SIGINT, SIGTERM};

/* A run that is stopped while it writes leaves no temporary file behind. */
static void watch_signals(void)
{
    struct sigaction action, old;
    memset(&action, 0, sizeof action);
    action.sa_handler = remove_and_die;
    sigemptyset(&action.sa_mask);
    for (size_t i = 0; i < sizeof stopping / sizeof stopping[0]; i++)
        if (sigaction(stopping[i], NULL, &old) == 0 && old.sa_handler != SIG_IGN)
            sigaction(stopping[i], &action, NULL);
}

/* Signals wait while a temporary file is made or goes, so that none comes between the file and its being noted. */
static void hold_signals(int how)
{
    sigset_t set;
    sigemptyset(&set);
    for (size_t i = 0; i < sizeof stopping / sizeof stopping[0]; i++) sigaddset(&set, stopping[i]);
    sigprocmask(how, &set, NULL);
}

/* The name `name` in the folder of `path`; or null. */
static char *name_beside(const char *path, const char *name)
{
    const char *slash = strrchr(path, '/');
    size_t folder = slash == NULL ? 0 : (size_t)(slash - path) + 1, length = strlen(name) + 1;
    char *made = malloc(folder + length);
    if (made != NULL) {
        memcpy(made, path, folder);
        memcpy(made + folder, name, length);
    }
    return made;
}

/* Makes the new name in the folder of `path` last; where a folder cannot be synced, nothing is lost that could be kept. */
static void sync_folder(const char *path)
{
    char *folder = name_beside(path, ".");
    int opened = folder == NULL ? -1 : open(folder, O_RDONLY | O_DIRECTORY);
    if (opened >= 0) {
        fsync(opened);
        close(opened);
    }
    free(folder);
}

/* Fills the open temporary file `made` and gives it the name `path`, or removes it. */
static bool fill_and_rename(int to, const char *made, const char *path, mode_t mode, const struct bytes *content)
{
    bool good = write_all(to, content) && fchmod(to, mode) == 0 && fsync(to) == 0;
    good = close_written(to, good);
    hold_signals(SIG_BLOCK);
    good = good && rename(made, path) == 0;
    int error = errno;
    if (!good)
        unlink(made);
    temporary = NULL;
    hold_signals(SIG_UNBLOCK);
    if (good)
        sync_folder(path);
    errno = error;
    return good;
}

/* Writes a temporary file beside `path` and renames it, so that at every moment `path` is the old file or the new one. */
static bool replace(const char *path, mode_t mode, const struct bytes *content)
{
    char *made = name_beside(path, ".kg-XXXXXX");
    if (made == NULL)
        return false;
    watch_signals();
    hold_signals(SIG_BLOCK);
    int to = mkstemp(made);
    if (to >= 0)
        temporary = made;
    hold_signals(SIG_UNBLOCK);
    bool good = to >= 0 && fill_and_rename(to, made, path, mode, content);
    int error = errno;
    free(made);
    errno = error;
    return good;
}

/* Devices and pipes cannot be replaced: they are written to as they are. */
static bool write_through(const char *name, const struct bytes *content)
{
    int to = open(name, O_WRONLY);
    return to >= 0 && close_written(to, write_all(to, content));
}

static mode_t mode_of_new_files(void)
{
    mode_t mask = umask(0);
    umask(mask);
    return 0666 & ~mask;
}

/* Saves over something that is there. Behind a link the file itself is replaced; it keeps its mode, and one that may not be
 * written is not replaced either. */
static bool save_over(const char *name, const struct stat *old, const struct bytes *content)
{
    if (S_ISDIR(old->st_mode)) {
        errno = EISDIR;
        return false;
    }
    if (!S_ISREG(old->st_mode))
        return write_through(name, content);
    char *path = access(name, W_OK) == 0 ? realpath(name, NULL) : NULL;
    if (path == NULL)
        return false;
    bool good = replace(path, old->st_mode & 0777, content);
    int error = errno;
    free(path);
    errno = error;
    return good;
}

/* What the link `name` says, from where the link stands; or null. */
static char *link_target(const char *name)
{
    char target[4096];
    ssize_t length = readlink(name, target, sizeof target - 1);
    if (length < 0)
        return NULL;
    target[length] = '\0';
    return target[0] == '/' ? strdup(target) : name_beside(name, target);
}

/* Saves to a name that nothing has: behind a link to nothing the file itself is made. */
static bool save_new(const char *name, const struct bytes *content)
{
    enum { MOST_LINKS = 40 };
    char *path = strdup(name);
    struct stat found;
    for (int links = 0; path != NULL && links < MOST_LINKS && lstat(path, &found) == 0 && S_ISLNK(found.st_mode); links++) {
        char *next = link_target(path);
        free(path);
        path = next;
    }
    bool good = path != NULL && replace(path, mode_of_new_files(), content);
    int error = errno;
    free(path);
    errno = error;
    return good;
}

enum status save_file(const char *name, const struct bytes *content)
{
    struct stat old;
    bool good;
    if (is_dash(name))
        return write_all(STDOUT_FILENO, content) ? DONE : fail_file("standard output", errno);
    if (stat(name, &old) == 0)
        good = save_over(name, &old, content);
    else
        good = errno == ENOENT && save_new(name, content);
    return good ? DONE : fail_file(name, errno);
}
