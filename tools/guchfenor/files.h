/* Files, whole, in and out; "-" is standard input or output. */
#ifndef FILES_H
#define FILES_H

#include "guchfenor.h"

/* Beyond any sheet, plan or text; of a longer file only so much is read. */
enum { MOST_FILE = 1 << 24 };

struct file {
    const char *name; /* for messages */
    uint8_t *bytes;   /* never NULL, even of an empty file */
    size_t len;
    int more; /* whether it is longer than what was read */
};

/* DONE, or UNUSABLE and it was told. The bytes are the program's until it ends. */
int read_file(struct file *file, const char *path);

/* Two files; standard input can be one of them only. */
int read_files(struct file *first, const char *first_path, struct file *second, const char *second_path);

/* Nothing is opened before there is something to write: a refused call leaves a file as it was. */
int write_bytes(const char *path, const uint8_t *bytes, size_t len);
FILE *open_out(const char *path);
int close_out(FILE *out, const char *path);

#endif
