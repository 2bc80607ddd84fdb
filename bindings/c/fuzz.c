/* Passes files to the library in memory that is followed by an inaccessible page, so that a read or
 * write past the end stops the program. Standard input: a 32-bit little-endian length and that many
 * bytes, repeated. The last line of the output is the number of files. */
#include "mexaldor.h"

#include <stdio.h>
#include <stdlib.h>
#include <string.h>
#include <sys/mman.h>
#include <unistd.h>

/* Memory that is followed by an inaccessible page. */
struct guarded {
    uint8_t *pages;
    size_t size;
};

static struct guarded guarded(size_t room)
{
    size_t page = (size_t)sysconf(_SC_PAGESIZE);
    struct guarded made = {NULL, (room + page - 1) / page * page};
    made.pages = mmap(NULL, made.size + page, PROT_READ | PROT_WRITE,
                      MAP_PRIVATE | MAP_ANONYMOUS, -1, 0);
    if (made.pages == MAP_FAILED || mprotect(made.pages + made.size, page, PROT_NONE) != 0) {
        perror("mmap");
        exit(1);
    }
    return made;
}

static uint8_t *ending(struct guarded in, size_t length)
{
    return in.pages + in.size - length;
}

static size_t next(uint8_t *to, size_t room)
{
    uint8_t head[4];
    if (fread(head, 1, 4, stdin) != 4) {
        return SIZE_MAX;
    }
    size_t length = head[0] | head[1] << 8 | head[2] << 16 | (size_t)head[3] << 24;
    if (length > room || fread(to, 1, length, stdin) != length) {
        fprintf(stderr, "a broken file\n");
        exit(1);
    }
    return length;
}

static void must(bool holds, const char *what)
{
    if (!holds) {
        fprintf(stderr, "FAILED: %s\n", what);
        abort();
    }
}

int main(void)
{
    const size_t most = 1 << 20;
    const char turn[] = "Orientation=3";
    struct guarded from = guarded(most), to = guarded(most + 1);
    uint8_t *given = malloc(most), *old = malloc(most + 1);
    unsigned long files = 0, read = 0, scrubbed = 0, edited = 0;
    for (size_t length; (length = next(given, most)) != SIZE_MAX; files++) {
        uint8_t *file = ending(from, length), *out = ending(to, length + 1);
        memcpy(file, given, length);
        struct mexaldor_answer answer = mexaldor_read(file, length, files % 2, 100000, out, length + 1);
        read += answer.status <= MEXALDOR_FAULTS;
        answer = mexaldor_scrub(file, length, out, length + 1);
        must(answer.length <= length + 1, "a scrubbed file is longer");
        must(memcmp(file, given, length) == 0, "the file that was given has changed");
        scrubbed += answer.status == MEXALDOR_OK;
        if (answer.status == MEXALDOR_OK && answer.length != 0) {
            uint8_t *again = ending(to, answer.length);
            memcpy(old, out, answer.length);
            uint8_t *whole = ending(from, answer.length);
            memcpy(whole, old, answer.length);
            struct mexaldor_answer second =
                mexaldor_scrub(whole, answer.length, again, answer.length);
            must(second.status == MEXALDOR_OK && second.length == answer.length
                     && memcmp(again, old, answer.length) == 0,
                 "scrubbing twice is not scrubbing once");
        }
        file = ending(from, length);
        memcpy(file, given, length);
        uint32_t status = files % 3 ? mexaldor_erase_gps(file, length)
                                    : mexaldor_set(file, length, turn, sizeof turn - 1);
        edited += status == MEXALDOR_OK;
        must(status == MEXALDOR_OK || memcmp(file, given, length) == 0,
             "a refused edit has changed the file");
    }
    free(old);
    free(given);
    printf("%lu files: %lu read, %lu scrubbed, %lu edited\n", files, read, scrubbed, edited);
    return 0;
}
