/* The listing program on many inputs. It is linked with the program's own object file, --wrap=main: each input on standard input, four bytes of size and
 * then the bytes, becomes the program's standard input, the program runs from its main on, and what it wrote comes back in the same frame. It keeps nothing
 * between two runs, and one process for all of them spares an emulator the translation of the code for each. */
#define _GNU_SOURCE
#include <stdint.h>
#include <stdio.h>
#include <stdlib.h>
#include <sys/mman.h>
#include <unistd.h>

int __real_main(void);
int __wrap_main(void);

static void die(const char *what)
{
    fprintf(stderr, "listings: %s\n", what);
    exit(2);
}

static uint8_t bytes[1 << 20];

static int file_of(const char *name)
{
    int file = memfd_create(name, 0);
    if (file < 0) die("no file in memory");
    return file;
}

/* The program from its main on, with these files for standard input and output. */
static void run(int in, int out)
{
    int kept_in = dup(0), kept_out = dup(1);
    if (kept_in < 0 || kept_out < 0 || dup2(in, 0) < 0 || dup2(out, 1) < 0) die("no files to run with");
    if (__real_main() != 0) die("the program did not end well");
    if (dup2(kept_in, 0) < 0 || dup2(kept_out, 1) < 0) die("no way back");
    close(kept_in);
    close(kept_out);
}

static uint32_t listed(size_t size)
{
    int in = file_of("in"), out = file_of("out");
    if (write(in, bytes, size) != (ssize_t)size || lseek(in, 0, SEEK_SET) != 0) die("an input is not kept");
    run(in, out);
    off_t wrote = lseek(out, 0, SEEK_END);
    if (wrote < 0 || (size_t)wrote > sizeof bytes || pread(out, bytes, (size_t)wrote, 0) != wrote) die("an output is not kept");
    close(in);
    close(out);
    return (uint32_t)wrote;
}

int __wrap_main(void)
{
    uint8_t head[4];
    size_t got;
    while ((got = fread(head, 1, 4, stdin)) == 4) {
        size_t size = (size_t)head[0] | (size_t)head[1] << 8 | (size_t)head[2] << 16 | (size_t)head[3] << 24;
        if (size > sizeof bytes || fread(bytes, 1, size, stdin) != size) die("an input is cut");
        uint32_t wrote = listed(size);
        for (int i = 0; i < 4; i++)
            head[i] = (uint8_t)(wrote >> 8 * i);
        if (fwrite(head, 1, 4, stdout) != 4 || fwrite(bytes, 1, wrote, stdout) != wrote) die("nobody reads");
    }
    return got == 0 && fflush(stdout) == 0 ? 0 : 2;
}
