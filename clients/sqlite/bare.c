/* Transactions of a device without SQLite, for cost.py.
 *
 *     bare fill WAY FILE             writes each page that `measure` changes
 *     bare measure WAY FILE N COUNT  how long each of COUNT transactions of N pages took, as `commits measure` says it
 *
 * WAY is `lines`: FLASH_SERVE_PROGRAM serves the image FILE, and is given the lines that the VFS makes of a commit; or
 * `calls`: this makes the calls that flash_serve makes for it, mostly one write of N slots, and one sync, on FILE. */

#include "pieces.h"
#include "measuring.h"

#include <fcntl.h>
#include <string.h>
#include <sys/wait.h>

#define PAGES 400
#define PAGE_BYTES 4096
#define SLOTS 1024
#define SLOT_BYTES (PAGE_BYTES + 68)

static int to_device, from_device, bare_file;
static char text[64 + 256 * (2 * PAGE_BYTES + 12)];

static void check(int is_right, const char *what) {
    if (is_right) return;
    perror(what);
    exit(2);
}

static void start_device(const char *image) {
    int to[2], from[2];
    const char *program = getenv("FLASH_SERVE_PROGRAM");
    check(pipe2(to, O_CLOEXEC) == 0 && pipe2(from, O_CLOEXEC) == 0, "pipe");
    if (fork() == 0) {
        dup2(to[0], 0);
        dup2(from[1], 1);
        execl(program ? program : TXFLASH_SERVE, "flash_serve", image, (char *)0);
        _exit(2);
    }
    close(to[0]);
    close(from[1]);
    /* A pipe holds 65536 bytes else, and a transaction of eight pages has more. */
    check(fcntl(to[1], F_SETPIPE_SZ, 1 << 20) >= 0, "pipe");
    to_device = to[1];
    from_device = from[0];
}

/* Hears replies to the end of this one. */
static void hear(const char *last) {
    char said[256];
    size_t heard = 0, length = strlen(last);
    while (heard < length || memcmp(said + heard - length, last, length)) {
        ssize_t came = read(from_device, said + heard, sizeof said - heard);
        check(came > 0 && heard + (size_t)came < sizeof said, "the device");
        heard += (size_t)came;
    }
}

static char *add_page(char *end, int page, const unsigned char *bytes) {
    end = write_word(write_number(write_word(end, " "), (uint32_t)page), "=");
    return write_digits(end, bytes, PAGE_BYTES);
}

static void give_lines(const int *pages, const unsigned char *bytes, int count) {
    char *end = write_word(text, "write 1");
    for (int i = 0; i < count; i++) end = add_page(end, pages[i], bytes);
    end = write_word(end, "\nfinish 1\n");
    for (const char *at = text; at < end;) {
        ssize_t sent = write(to_device, at, (size_t)(end - at));
        check(sent > 0, "the device");
        at += sent;
    }
    hear("done 1\n");
}

/* A device programs one slot behind the other, whatever the pages, and writes them by one call. */
static void make_calls(const unsigned char *bytes, int count) {
    static unsigned char slots[256 * SLOT_BYTES];
    static int next;
    for (int i = 0; i < count; i++) memcpy(slots + i * SLOT_BYTES, bytes, PAGE_BYTES);
    if (next + count > SLOTS) next = 0;
    ssize_t size = (ssize_t)SLOT_BYTES * count;
    check(pwrite(bare_file, slots, (size_t)size, 64 + (off_t)SLOT_BYTES * next) == size, "the file");
    next = (next + count) % SLOTS;
    check(fdatasync(bare_file) == 0, "the file");
}

/* A transaction of drawn pages that differ, in microseconds. */
static double change_pages(int is_device, int count) {
    int pages[256];
    unsigned char bytes[PAGE_BYTES];
    for (int i = 0; i < PAGE_BYTES; i++) bytes[i] = (unsigned char)draw(256);
    for (int i = 0, page = draw(PAGES); i < count; i++) {
        pages[i] = page;
        page = (page + 1 + draw(PAGES / count - 1)) % PAGES;
    }
    double begun = now();
    if (is_device) give_lines(pages, bytes, count);
    else make_calls(bytes, count);
    return now() - begun;
}

static void open_way(int is_device, const char *file) {
    if (is_device) {
        start_device(file);
        hear("serving\n");
    } else {
        bare_file = open(file, O_RDWR | O_CREAT | O_CLOEXEC, 0666);
        check(bare_file >= 0, file);
    }
}

static void fill(int is_device) {
    unsigned char bytes[PAGE_BYTES] = {0};
    for (int page = 0; page < (is_device ? PAGES : SLOTS); page++) {
        if (is_device) give_lines(&page, bytes, 1);
        else make_calls(bytes, 1);
    }
}

static void measure(int is_device, int pages, int count) {
    struct measured all;
    draws = (uint64_t)getpid();
    puts("read 0");
    change_pages(is_device, pages);
    begin_measuring(&all, count);
    for (int i = 0; i < count; i++) add_time(&all, change_pages(is_device, pages));
    end_measuring(&all);
}

int main(int count, char **words) {
    if (count < 4) return 2;
    int is_device = strcmp(words[2], "lines") == 0, status = 0;
    open_way(is_device, words[3]);
    if (count == 6) measure(is_device, atoi(words[4]), atoi(words[5]));
    else fill(is_device);
    if (is_device) {
        close(to_device);
        wait(&status);
    }
    return WIFEXITED(status) ? WEXITSTATUS(status) : 2;
}
