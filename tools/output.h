/* The output of a command: a file, or standard output. What is written is held in memory until its end. A file is then written under a temporary name
 * in its folder and gets its own name last, so that a failure leaves what stood there before; a device or a pipe is written as it is. Use:
 *
 *     struct output output;
 *     if (!output_begin(&output, name, input, err))
 *         return STATUS_FAILED;
 *     .. write to output.file; errors of single writes need not be looked at ..
 *     if (!output_end(&output, err))
 *         return STATUS_FAILED;
 *
 * or output_drop(&output) in place of output_end where the command fails for another reason.
 */
#ifndef OUTPUT_H
#define OUTPUT_H

#include <stddef.h>
#include <stdio.h>

struct output {
    FILE *file;
    const char *name;
    char *bytes;
    size_t length;
};

/* Whether a name stands for standard output: none, or `-`. */
int output_is_standard(const char *name);

/* Whether an output of this name can be begun and is no folder and in a folder that there is; says why where it is not so. Names are as below. */
int output_check(const char *name, const char *input, FILE *err);

/* Begins the output of this name; null and `-` stand for standard output. `input` is the name of the command's input, null and `-` for standard
 * input: a named regular file that is both is refused. Answers 1, or 0 where it fails and says why. */
int output_begin(struct output *output, const char *name, const char *input, FILE *err);

/* Writes it. Answers 1, or 0 where a byte cannot be written; then it says why, and a file is as it was before. */
int output_end(struct output *output, FILE *err);

/* Gives it up. Nothing is written. */
void output_drop(struct output *output);

#endif
