/*
 * durable TAPE BOOK: a host that keeps its word. It reads lines `serial kind a b c` (whole numbers, floats by their bits), delivers each into
 * the book, and answers only after the book is on the disk: written to BOOK.new, synced, renamed over BOOK, the folder synced. So it can be
 * killed at any moment: what it answered is in the book, and a message without an answer is sent again. BOOK.new and BOOK.lock are its own.
 *
 * `bindings/c/run durable TAPE BOOK` builds and runs it; with a compiler of your own:
 * cc -I include bindings/c/examples/durable.c target/staticlib/libbanlothek.a -o durable
 */
#define _DEFAULT_SOURCE
#include <errno.h>
#include <fcntl.h>
#include <libgen.h>
#include <stdio.h>
#include <stdlib.h>
#include <string.h>
#include <sys/file.h>
#include <unistd.h>
#include "banlothek.h"

enum { MOST_WORDS = 1048576, MOST_BYTES = 65536, MOST_LINE = 256 };

/* One more of each than there may be, so that a file that is too long is seen. */
static uint64_t tape[MOST_WORDS + 1];
static uint8_t book[MOST_BYTES + 1];
static size_t words, bytes;
static const char *book_name, *new_name, *folder_name;

/* Says what went wrong, and ends: nothing more is answered. */
static void end(const char *what) {
    fprintf(stderr, "%s\n", what);
    exit(1);
}

/* What was renamed in a folder is on the disk when the folder is. */
static int sync_folder(void) {
    int folder = open(folder_name, O_RDONLY);
    return folder >= 0 && fsync(folder) == 0 && close(folder) == 0;
}

/* The book in memory becomes the file: until the rename the old one is whole, after it the new one. A leftover, or a link, is not written into. */
static void store(void) {
    FILE *file = unlink(new_name) == 0 || errno == ENOENT ? fopen(new_name, "wbx") : NULL;
    if (!file || fwrite(book, 1, bytes, file) != bytes || fflush(file) != 0 || fsync(fileno(file)) != 0 || fclose(file) != 0 ||
        rename(new_name, book_name) != 0 || !sync_folder())
        end("unwritten");
}

static char *beside_book(const char *ending) {
    char *name = malloc(strlen(book_name) + strlen(ending) + 1);
    if (!name)
        end("no memory");
    return strcat(strcpy(name, book_name), ending);
}

/* One writer for one book. The lock goes with the process, however that ends; its file stays. It must not get the place of a closed output. */
static void lock(void) {
    int file = open(beside_book(".lock"), O_WRONLY | O_CREAT, 0666);
    if (file < 3 || flock(file, LOCK_EX | LOCK_NB) != 0)
        end(file < 3 ? "unwritten" : "in use");
}

/* The bytes of a file that has fewer than `most`. */
static size_t load(FILE *file, void *to, size_t most, const char *unread) {
    size_t n = file ? fread(to, 1, most, file) : 0;
    if (!file || ferror(file) || n == most)
        end(unread);
    return n;
}

static void load_tape(const char *name) {
    size_t n = load(fopen(name, "rb"), tape, sizeof tape, "unread tape");
    if (n % 8 != 0)
        end("unread tape");
    words = n / 8;
}

/* A book that is missing is made, all zeros; one that can't be read, or a link to none, is left alone. An earlier run may have ended between
 * its rename and the folder's sync: what is answered from here has to be on the disk. */
static void load_book(void) {
    FILE *file = fopen(book_name, "rb");
    if (!file && errno == ENOENT && readlink(book_name, (char *)book, 1) < 0) {
        bytes = MOST_BYTES;
        store();
        return;
    }
    bytes = load(file, book, sizeof book, "unread book");
    if (fsync(fileno(file)) != 0 || !sync_folder())
        end("unwritten");
    fclose(file);
}

/* Five whole numbers, one space between two and a newline after the last; serial and kind have 32 bits. */
static int read_line(const char *at, uint64_t number[5]) {
    for (int i = 0; i < 5; i++) {
        const char *first = at;
        for (number[i] = 0; *at >= '0' && *at <= '9'; at++) {
            uint64_t digit = (uint64_t)(*at - '0');
            if (number[i] > (UINT64_MAX - digit) / 10)
                return 0;
            number[i] = 10 * number[i] + digit;
        }
        if (at == first || *at++ != (i < 4 ? ' ' : '\n'))
            return 0;
    }
    return number[0] <= UINT32_MAX && number[1] <= UINT32_MAX;
}

/* A fresh booking is answered after it is stored. A line that was cut off has no newline, and is none. */
static void serve(const char *line, unsigned long count) {
    uint64_t n[5];
    if (strlen(line) > MOST_LINE || !read_line(line, n)) {
        printf("unread line %lu\n", count);
        return;
    }
    banlothek_answer a = banlothek_deliver(tape, words, book, bytes, (uint32_t)n[0], (uint32_t)n[1], n[2], n[3], n[4]);
    if (!a.refusal && !a.copied)
        store();
    if (a.refusal)
        printf("refused %u\n", a.refusal);
    else
        printf("%s serial %u count %llu used %u\n", a.copied ? "copy" : "booked", (uint32_t)n[0], (unsigned long long)a.count, a.used);
}

int main(int argc, char **argv) {
    if (argc != 3 || !*argv[2])
        end("usage: durable TAPE BOOK");
    if (banlothek_version() != BANLOTHEK_VERSION)
        end("the library is not this header's");
    book_name = realpath(argv[2], NULL); /* a book that is a link stays one: the file behind it is replaced */
    book_name = book_name ? book_name : argv[2];
    new_name = beside_book(".new");
    folder_name = dirname(beside_book(""));
    lock();
    load_tape(argv[1]);
    load_book();
    uint32_t unfit = banlothek_redraw(tape, words, book, bytes).refusal;
    if (unfit)
        end(unfit == BANLOTHEK_REDRAW_DIFFERS ? "unfit: not drawn from this tape" : "unfit: damaged");
    char *line = NULL;
    size_t room = 0;
    for (unsigned long count = 1; !feof(stdin) && getline(&line, &room, stdin) > 0; count++) {
        serve(line, count);
        if (fflush(stdout) != 0 || ferror(stdout))
            end("unwritten answer");
    }
    if (!feof(stdin))
        end("unread input");
    return 0;
}
