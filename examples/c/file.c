/* Settles a month file from standard input, in parts of any size and in constant memory:
 *
 *   (cd crates/recorder && rt lib)
 *   cc -Iinclude examples/c/file.c crates/recorder/out/librecorder.a -o file
 *   ./file < examples/month.mre
 *
 * It prints the statement, or `R,line,number` where the file is refused. All of it is the library's: the order of the
 * lines, every question and every figure. The exit status is 0 with either. Where the input cannot be read or the
 * output not written it says so on standard error, and the exit status is 1. */
#include <stdio.h>

#include "iolwarch.h"

static iolwarch_workspace work;

static int fail(const char *what)
{
    fprintf(stderr, "file: %s\n", what);
    return 1;
}

int main(void)
{
    uint8_t part[4096];
    size_t length;
    iolwarch_finished end;
    iolwarch_workspace_begin(&work);
    while ((length = fread(part, 1, sizeof part, stdin)) > 0) {
        if (iolwarch_workspace_feed(&work, part, length) != 0) {
            return fail("the workspace was changed between two feeds");
        }
    }
    if (ferror(stdin)) {
        return fail("standard input cannot be read");
    }
    end = iolwarch_workspace_finish(&work);
    if (end.number != 0) {
        return fail("the workspace was changed after the last feed");
    }
    /* Most of the bytes may still be in stdout's buffer: only after fflush is it known that they were written. */
    if (fwrite(work.text, 1, end.length, stdout) != end.length || fflush(stdout) != 0) {
        return fail("standard output cannot be written");
    }
    return 0;
}
