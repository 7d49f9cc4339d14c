#include "files.h"

#include <errno.h>
#include <stdlib.h>
#include <string.h>

static int is_standard(const char *path)
{
    return strcmp(path, "-") == 0;
}

static int unreadable(const char *name)
{
    tell("%s: cannot be read: %s", name, errno ? strerror(errno) : "no reason is known");
    return UNUSABLE;
}

static int grow(struct file *file, size_t *room)
{
    uint8_t *bytes = realloc(file->bytes, *room * 2);
    if (bytes == NULL)
        return 0;
    file->bytes = bytes;
    *room *= 2;
    return 1;
}

static int read_stream(struct file *file, FILE *from)
{
    size_t room = 1 << 12, got;
    file->len = 0;
    file->more = 0;
    file->bytes = malloc(room);
    if (file->bytes == NULL)
        return 0;
    while ((got = fread(file->bytes + file->len, 1, room - file->len, from)) > 0) {
        file->len += got;
        if (file->len > MOST_FILE) {
            file->len = MOST_FILE;
            file->more = 1;
            return 1;
        }
        if (file->len == room && !grow(file, &room))
            return 0;
    }
    return !ferror(from);
}

int read_file(struct file *file, const char *path)
{
    errno = 0;
    if (is_standard(path)) {
        file->name = "standard input";
        return read_stream(file, stdin) ? DONE : unreadable(file->name);
    }
    file->name = path;
    FILE *from = fopen(path, "rb");
    if (from == NULL)
        return unreadable(path);
    int status = read_stream(file, from) ? DONE : unreadable(path);
    fclose(from);
    return status;
}

int read_files(struct file *first, const char *first_path, struct file *second, const char *second_path)
{
    if (is_standard(first_path) && is_standard(second_path)) {
        tell("standard input can be one of the two files, not both");
        return UNUSABLE;
    }
    int status = read_file(first, first_path);
    return status != DONE ? status : read_file(second, second_path);
}

static int unwritable(const char *path)
{
    tell("%s: cannot be written: %s", path, errno ? strerror(errno) : "no reason is known");
    return UNUSABLE;
}

FILE *open_out(const char *path)
{
    if (path == NULL || is_standard(path))
        return stdout;
    errno = 0;
    FILE *out = fopen(path, "wb");
    if (out == NULL)
        unwritable(path);
    return out;
}

int close_out(FILE *out, const char *path)
{
    errno = 0;
    int failed = ferror(out) != 0;
    failed |= out == stdout ? fflush(out) != 0 : fclose(out) != 0;
    return failed ? unwritable(out == stdout ? "standard output" : path) : DONE;
}

int write_bytes(const char *path, const uint8_t *bytes, size_t len)
{
    FILE *out = open_out(path);
    if (out == NULL)
        return UNUSABLE;
    fwrite(bytes, 1, len, out);
    return close_out(out, path);
}
