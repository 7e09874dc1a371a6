/* The output of a command. */
#include "output.h"

#include <errno.h>
#include <stdlib.h>
#include <string.h>
#include <sys/stat.h>
#include <unistd.h>

#include "escape.h"
#include "input.h"

static const char SUFFIX[] = ".XXXXXX";

int output_is_standard(const char *name) { return name == NULL || strcmp(name, "-") == 0; }

/* Says why an output cannot be written. */
static int failed(const char *name, const char *why, FILE *err) {
    fputs("fildwuk: cannot write ", err);
    write_name(err, output_is_standard(name) ? "standard output" : name);
    fprintf(err, ": %s\n", why);
    return 0;
}

/* Whether the output is the regular file that the input is. */
static int is_input(const char *name, const char *input) {
    struct stat written, read;
    if (output_is_standard(name) || stat(name, &written) != 0)
        return 0;
    if ((input_is_standard(input) ? fstat(STDIN_FILENO, &read) : stat(input, &read)) != 0)
        return 0;
    return S_ISREG(read.st_mode) && read.st_dev == written.st_dev && read.st_ino == written.st_ino;
}

/* Whether the folder that a name stands in is there. Answers 0 where it is not, with errno. */
static int has_folder(const char *name) {
    const char *slash = strrchr(name, '/');
    char *folder = slash == NULL ? strdup(".") : strndup(name, slash == name ? 1 : (size_t)(slash - name));
    int there = folder != NULL && access(folder, X_OK) == 0, why = errno;
    free(folder);
    errno = why;
    return there;
}

int output_check(const char *name, const char *input, FILE *err) {
    struct stat there;
    if (is_input(name, input))
        return failed(name, "it is the input", err);
    if (output_is_standard(name))
        return 1;
    if (stat(name, &there) == 0)
        return !S_ISDIR(there.st_mode) || failed(name, strerror(EISDIR), err);
    return has_folder(name) || failed(name, strerror(errno), err);
}

int output_begin(struct output *output, const char *name, const char *input, FILE *err) {
    *output = (struct output){NULL, name, NULL, 0};
    if (is_input(name, input))
        return failed(name, "it is the input", err);
    output->file = open_memstream(&output->bytes, &output->length);
    return output->file != NULL ? 1 : failed(name, strerror(errno), err);
}

/* Writes all bytes. Answers 0 where that fails, with errno. */
static int write_all(int descriptor, const char *bytes, size_t length) {
    while (length > 0) {
        ssize_t written = write(descriptor, bytes, length);
        if (written < 0 && errno != EINTR)
            return 0;
        bytes += written < 0 ? 0 : written;
        length -= written < 0 ? 0 : (size_t)written;
    }
    return 1;
}

/* The rights that a new file gets. */
static mode_t usual_rights(void) {
    mode_t mask = umask(0);
    umask(mask);
    return 0666 & ~mask;
}

/* Writes the bytes to a new file, whose name ends in XXXXXX and is changed, and renames it. Answers 0 where that fails, with errno. */
static int write_renamed(const struct output *output, char *temporary, const char *place, mode_t rights) {
    int descriptor = mkstemp(temporary);
    if (descriptor < 0)
        return 0;
    int done = fchmod(descriptor, rights) == 0 && write_all(descriptor, output->bytes, output->length), why = errno;
    if (close(descriptor) != 0 && done) {
        done = 0;
        why = errno;
    }
    if (done && rename(temporary, place) != 0) {
        done = 0;
        why = errno;
    }
    if (!done)
        unlink(temporary);
    errno = why;
    return done;
}

/* Writes the bytes by way of a temporary file beside the place. Answers 0 where that fails, with errno. */
static int write_beside(const struct output *output, const char *place, mode_t rights) {
    size_t length = strlen(place);
    char *temporary = malloc(length + sizeof SUFFIX);
    if (temporary == NULL)
        return 0;
    memcpy(temporary, place, length);
    memcpy(temporary + length, SUFFIX, sizeof SUFFIX);
    int done = write_renamed(output, temporary, place, rights), why = errno;
    free(temporary);
    errno = why;
    return done;
}

/* Writes over a regular file, symbolic links followed, and keeps its rights. Answers 0 where that fails, with errno. */
static int write_over(const struct output *output, mode_t rights) {
    if (access(output->name, W_OK) != 0)
        return 0;
    char *place = realpath(output->name, NULL);
    int done = place != NULL && write_beside(output, place, rights), why = errno;
    free(place);
    errno = why;
    return done;
}

/* Writes to a device, a pipe, or the missing file that a link names. Answers 0 where that fails, with errno. */
static int write_there(const struct output *output) {
    FILE *file = fopen(output->name, "wb");
    if (file == NULL)
        return 0;
    int done = write_all(fileno(file), output->bytes, output->length), why = errno;
    fclose(file);
    errno = why;
    return done;
}

/* Writes to what the name stands for. Answers 0 where that fails, with errno. */
static int write_named(const struct output *output) {
    struct stat there;
    if (output_is_standard(output->name))
        return write_all(STDOUT_FILENO, output->bytes, output->length);
    if (stat(output->name, &there) != 0)
        return lstat(output->name, &there) == 0 ? write_there(output) : write_beside(output, output->name, usual_rights());
    return S_ISREG(there.st_mode) ? write_over(output, there.st_mode & 07777) : write_there(output);
}

int output_end(struct output *output, FILE *err) {
    int lost = ferror(output->file), done = fclose(output->file) == 0 && !lost;
    if (!done)
        errno = ENOMEM;
    done = done && write_named(output);
    int why = errno;
    free(output->bytes);
    return done ? 1 : failed(output->name, strerror(why), err);
}

void output_drop(struct output *output) {
    fclose(output->file);
    free(output->bytes);
}
