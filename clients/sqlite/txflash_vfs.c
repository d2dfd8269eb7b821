/* A VFS of SQLite over a live device of txflash. Page N of the database is page N - 1 of the device, and a commit is
 * one transaction of it: no file has a journal or a log. README.md says how it is used.
 *
 * SQLite writes the pages of a commit one by one, and then asks for a sync. What it writes waits here until that sync,
 * which hands all of it over at once. A refusal is answered there, while SQLite still has its own journal in memory,
 * and it takes back what it has changed. The size of a database is told by its first page. */

#include <errno.h>
#include <fcntl.h>
#include <signal.h>
#include <spawn.h>
#include <stdarg.h>
#include <stdint.h>
#include <stdio.h>
#include <stdlib.h>
#include <string.h>
#include <sys/socket.h>
#include <sys/wait.h>
#include <unistd.h>

#include "pieces.h"

#ifdef TXFLASH_LINKED
#include <sqlite3.h>
#else
#include <sqlite3ext.h>
SQLITE_EXTENSION_INIT1
#endif

#ifndef TXFLASH_SERVE
#define TXFLASH_SERVE "flash_serve"
#endif

#define VFS_NAME "txflash"
#define NO_LOG "a commit is a transaction of the device and needs no log: leave journal_mode as it is"
#define NO_OTHERS "a commit of several databases is no transaction of the device: commit to each by itself"
#define LARGEST_PAGE 4096
#define LONGEST_REPLY (2 * LARGEST_PAGE + 64)

extern char **environ;

/* A process that serves a device, the socket on which it is asked, and the numbers of the device. */
struct session {
    pid_t process, owner; /* `owner` has started it, and a fork of that has no part in it */
    int line; /* -1 where there is none, or where it has ended */
    size_t heard, taken; /* of the bytes that came, and of those that were replies already */
    char reply[LONGEST_REPLY];
    uint32_t page_bytes, logical, pending;
};

/* An open database. */
struct database {
    sqlite3_file base;
    struct session session;
    unsigned char *first; /* its first page on the device */
    unsigned char *page; /* room for one */
    char *text; /* room for the lines of a transaction */
    sqlite3_uint64 text_bytes; /* of that room */
    unsigned char **waiting; /* of each page of the device what no transaction has taken yet, or 0 */
    uint32_t count; /* how many pages wait */
    int is_again; /* whether some of them may be as they are on the device */
    uint32_t size, kept; /* the pages of the database with those that wait, and on the device */
    const char *journal_mode;
};

/* Says what is wrong and what to do, and answers the code. */
static int tell(int code, const char *format, ...) {
    va_list words;
    va_start(words, format);
    char *text = sqlite3_vmprintf(format, words);
    va_end(words);
    if (text) {
        sqlite3_log(code, "txflash: %s", text);
        fprintf(stderr, "txflash: %s\n", text);
    }
    sqlite3_free(text);
    return code;
}

/* The process */

/* The environment without what names the program: a script that is named there would start itself for ever. */
static char **other_variables(void) {
    size_t count = 0, kept = 0;
    while (environ[count]) count++;
    char **variables = sqlite3_malloc64((count + 1) * sizeof *variables);
    for (size_t i = 0; variables && i < count; i++) {
        if (strncmp(environ[i], "FLASH_SERVE_PROGRAM=", 20)) variables[kept++] = environ[i];
    }
    if (variables) variables[kept] = 0;
    return variables;
}

static int spawn(pid_t *process, const char *program, const char *image, int end) {
    char *words[] = {(char *)program, (char *)image, 0};
    posix_spawn_file_actions_t actions;
    posix_spawnattr_t attributes;
    posix_spawn_file_actions_init(&actions);
    posix_spawnattr_init(&attributes);
    char **variables = other_variables();
    int wrong = variables ? posix_spawn_file_actions_adddup2(&actions, end, 0) : ENOMEM;
    if (!wrong) wrong = posix_spawn_file_actions_adddup2(&actions, end, 1);
    /* In a group of its own it is spared the Ctrl-C of a shell, and ends with its input. */
    if (!wrong) wrong = posix_spawnattr_setflags(&attributes, POSIX_SPAWN_SETPGROUP);
    if (!wrong) wrong = posix_spawnp(process, program, &actions, &attributes, words, variables);
    sqlite3_free(variables);
    posix_spawnattr_destroy(&attributes);
    posix_spawn_file_actions_destroy(&actions);
    return wrong;
}

/* A socket in place of two pipes, since a write to it raises no signal in the program around SQLite. */
static int start_session(struct session *it, const char *program, const char *image) {
    int ends[2];
    it->line = -1;
    if (socketpair(AF_UNIX, SOCK_STREAM | SOCK_CLOEXEC, 0, ends)) {
        return tell(SQLITE_CANTOPEN, "no socket: %s", strerror(errno));
    }
    int wrong = spawn(&it->process, program, image, ends[1]);
    close(ends[1]);
    if (wrong) {
        close(ends[0]);
        return tell(SQLITE_CANTOPEN, "%s cannot be started (%s): build it, or name it in FLASH_SERVE_PROGRAM", program,
                    strerror(wrong));
    }
    it->line = ends[0];
    it->owner = getpid();
    it->heard = it->taken = 0;
    return SQLITE_OK;
}

/* Whether the process has ended, or is another's: a fork lets it go. */
static int is_over(struct session *it) {
    if (it->line >= 0 && it->owner != getpid()) {
        close(it->line);
        it->line = -1;
    }
    return it->line < 0;
}

/* Lets the process end, and answers its status: -1 for a signal, 0 where that is not told, since another has waited. */
static int end_session(struct session *it) {
    int status = -1;
    char rest[512];
    if (is_over(it)) return 0;
    shutdown(it->line, SHUT_WR);
    while (recv(it->line, rest, sizeof rest, 0) > 0) continue;
    close(it->line);
    it->line = -1;
    while (waitpid(it->process, &status, 0) < 0) {
        if (errno != EINTR) return 0;
    }
    return WIFEXITED(status) ? WEXITSTATUS(status) : -1;
}

/* The next reply, which stays until the next call, or 0 where none comes. */
static const char *hear(struct session *it) {
    memmove(it->reply, it->reply + it->taken, it->heard - it->taken);
    it->heard -= it->taken;
    it->taken = 0;
    for (;;) {
        char *end = memchr(it->reply, '\n', it->heard);
        if (end) {
            *end = 0;
            it->taken = (size_t)(end - it->reply) + 1;
            return it->reply;
        }
        if (it->line < 0 || it->heard == sizeof it->reply) return 0;
        ssize_t came = recv(it->line, it->reply + it->heard, sizeof it->reply - it->heard, 0);
        if (came == 0 || (came < 0 && errno != EINTR)) return 0;
        if (came > 0) it->heard += (size_t)came;
    }
}

/* The first reply to a text. It may also be the last word of a process that took not all of that. */
static const char *ask(struct session *it, const char *text, size_t length) {
    while (it->line >= 0 && length) {
        ssize_t sent = send(it->line, text, length, MSG_NOSIGNAL);
        if (sent < 0 && errno != EINTR) break;
        if (sent > 0) text += sent, length -= (size_t)sent;
    }
    return hear(it);
}

static int is_reply(const char *reply, const char *begin) {
    return reply && strncmp(reply, begin, strlen(begin)) == 0;
}

/* The process does not answer as it should: it is over, and the database with it until it is opened again. */
static int lose(struct session *it, const char *reply) {
    if (is_over(it)) return SQLITE_IOERR;
    tell(SQLITE_IOERR, "the process of the device has ended (%.60s): close the database and open it again; a commit "
         "that was in hand is whole or absent", reply ? reply : "no reply");
    kill(it->process, SIGKILL);
    end_session(it);
    return SQLITE_IOERR;
}

/* Pages */

static uint32_t little(const unsigned char *at) {
    return at[0] | (uint32_t)at[1] << 8 | (uint32_t)at[2] << 16 | (uint32_t)at[3] << 24;
}

static uint32_t big(const unsigned char *at) {
    return at[3] | (uint32_t)at[2] << 8 | (uint32_t)at[1] << 16 | (uint32_t)at[0] << 24;
}

/* What the first page of a database says of it: the bytes of a page, and how many pages there are. */
static uint32_t told_page_bytes(const unsigned char *first) {
    uint32_t bytes = (uint32_t)first[16] << 8 | first[17];
    return bytes == 1 ? 65536 : bytes;
}

static uint32_t told_size(const unsigned char *first) {
    return big(first + 28);
}

/* Makes a database with a log one without, since there is no log; whether it was one. */
static int drop_log(unsigned char *first) {
    int has_log = first[18] == 2 || first[19] == 2;
    if (has_log) first[18] = first[19] = 1;
    return has_log;
}

/* Lets the first page count one change more, so that SQLite reads it again, unless it has an exclusive lock. */
static void count_change(unsigned char *first) {
    for (int at = 24; at <= 92; at += 68) {
        for (int i = 3; i >= 0 && ++first[at + i] == 0; i--) continue;
    }
}

/* A page of the device, zeros where it is blank. */
static int load_page(struct session *it, uint32_t page, unsigned char *out, int *is_blank) {
    char line[32], begin[32];
    int length = snprintf(line, sizeof line, "read %u\n", page);
    int prefix = snprintf(begin, sizeof begin, "page %u ", page);
    const char *reply = ask(it, line, (size_t)length);
    *is_blank = is_reply(reply, "blank ");
    if (*is_blank) memset(out, 0, it->page_bytes);
    if (*is_blank || (is_reply(reply, begin) && read_digits(reply + prefix, out, it->page_bytes))) return SQLITE_OK;
    return lose(it, reply);
}

/* The numbers of the device, from the head of its image. */
static int read_numbers(struct session *it, const char *image) {
    unsigned char head[64];
    int file = open(image, O_RDONLY | O_CLOEXEC);
    ssize_t came = file < 0 ? -1 : pread(file, head, sizeof head, 0);
    if (file >= 0) close(file);
    if (came != sizeof head) return tell(SQLITE_CANTOPEN, "%s cannot be read: %s", image, strerror(errno));
    it->page_bytes = little(head + 12);
    it->logical = little(head + 28);
    it->pending = little(head + 32);
    if (it->page_bytes < 512 || it->page_bytes > LARGEST_PAGE || (it->page_bytes & (it->page_bytes - 1))) {
        return tell(SQLITE_CANTOPEN, "the pages of %s have %u bytes, and a database has pages of 512, 1024, 2048 or "
                    "4096: format an image with one of these as PAGE", image, it->page_bytes);
    }
    return SQLITE_OK;
}

/* Says what to do about a process that does not serve the image, by its first line. */
static int not_served(struct session *it, const char *image, const char *reply) {
    static const struct { const char *begin; int code; const char *advice; } lines[] = {
        {"in use", SQLITE_BUSY, "close the connection, session or run that holds it first"},
        {"no file", SQLITE_CANTOPEN, "make an image with ./txflash format"},
        {"bad image", SQLITE_CANTOPEN, "take an image of a device"},
        {"file too long", SQLITE_CANTOPEN, "take an image of a device"},
        {"unsound", SQLITE_CANTOPEN, "take a good copy of it"},
        {"no memory", SQLITE_CANTOPEN, "free some memory"},
        {"desk fault", SQLITE_CANTOPEN, "see that it and its folder may be written, and look at its disk"},
        {"", SQLITE_CANTOPEN, "name flash_serve in FLASH_SERVE_PROGRAM"},
    };
    char said[128];
    int place = 0;
    snprintf(said, sizeof said, "%.100s", reply ? reply : "nothing said");
    int status = end_session(it);
    while (!is_reply(said, lines[place].begin)) place++;
    const char *advice = status < 0 ? "a signal ended it, so try again" : lines[place].advice;
    return tell(lines[place].code, "%s is not served (%s, status %d): %s", image, said, status, advice);
}

static const char *program_of(const char *name) {
    const char *named = sqlite3_uri_parameter(name, "serve");
    if (!named) named = getenv("FLASH_SERVE_PROGRAM");
    if (named && named[0]) return named;
    return access(TXFLASH_SERVE, X_OK) ? "flash_serve" : TXFLASH_SERVE;
}

static int open_session(struct session *it, const char *name) {
    int code = start_session(it, program_of(name), name);
    if (code) return code;
    const char *reply = hear(it);
    if (!reply || strcmp(reply, "serving")) return not_served(it, name, reply);
    return read_numbers(it, name);
}

/* What waits */

static void forget(struct database *it, uint32_t page) {
    if (!it->waiting[page]) return;
    sqlite3_free(it->waiting[page]);
    it->waiting[page] = 0;
    it->count--;
}

/* Forgets what waits from this page on. */
static void cut_off(struct database *it, uint32_t from) {
    for (uint32_t page = from; it->count && page < it->session.logical; page++) forget(it, page);
}

/* Forgets all, so that the database is again what it is on the device. SQLite may write some of that back. */
static void forget_all(struct database *it) {
    if (it->count) it->is_again = 1;
    cut_off(it, 0);
    it->size = it->kept;
}

/* A page as it is on the device, zeros behind the end of the database there. */
static int get_kept(struct database *it, uint32_t page, unsigned char *out) {
    int is_blank;
    if (page > 0 && page < it->kept) return load_page(&it->session, page, out, &is_blank);
    if (page < it->kept) memcpy(out, it->first, it->session.page_bytes);
    else memset(out, 0, it->session.page_bytes);
    return SQLITE_OK;
}

/* Forgets what waits and is on the device already: what a rollback has written back. */
static int drop_unchanged(struct database *it) {
    for (uint32_t page = 0; page < it->kept; page++) {
        if (!it->waiting[page]) continue;
        int code = get_kept(it, page, it->page);
        if (code) return code;
        if (memcmp(it->waiting[page], it->page, it->session.page_bytes) == 0) forget(it, page);
    }
    it->is_again = 0;
    return SQLITE_OK;
}

/* Room for a text of so many bytes, which stays for the next one, or 0. */
static char *text_room(struct database *it, sqlite3_uint64 bytes) {
    if (bytes > it->text_bytes) {
        char *text = sqlite3_realloc64(it->text, bytes);
        if (!text) return 0;
        it->text = text;
        it->text_bytes = bytes;
    }
    return it->text;
}

/* The transaction of all that waits, and its end. Pages that the database has no more are discarded with it, as far as
 * a transaction has room for them. */
static char *transaction_text(struct database *it, uint32_t size, size_t *length) {
    uint32_t bytes = it->session.page_bytes, room = it->session.pending - it->count;
    uint32_t gone = it->kept > size ? it->kept - size : 0;
    if (gone > room) gone = room;
    char *text = text_room(it, 64 + (sqlite3_uint64)it->count * (2 * bytes + 12) + (sqlite3_uint64)gone * 14);
    if (!text) return 0;
    char *end = write_word(text, "write 1");
    for (uint32_t page = 0; page < size; page++) {
        if (!it->waiting[page]) continue;
        end = write_word(write_number(write_word(end, " "), page), "=");
        end = write_digits(end, it->waiting[page], bytes);
    }
    for (uint32_t page = size; page < size + gone; page++) {
        end = write_word(write_number(write_word(end, " "), page), "=~");
    }
    end = write_word(end, "\nfinish 1\n");
    *length = (size_t)(end - text);
    return text;
}

/* Gives both lines of a transaction to the device. Where it refuses the first, nothing of it is there. Nobody arms a
 * fault, so there is no other way that leaves the process alive. */
static int commit(struct session *it, const char *text, size_t length) {
    char refused[64] = "";
    const char *reply = ask(it, text, length);
    if (is_reply(reply, "refused ")) snprintf(refused, sizeof refused, "%.60s", reply);
    else if (!is_reply(reply, "open 1 ")) return lose(it, reply);
    reply = hear(it);
    if (refused[0] && is_reply(reply, "unknown 1")) {
        return tell(SQLITE_FULL, "the device has %s this commit: docs/manual.md says what that means", refused);
    }
    return is_reply(reply, "done 1") ? SQLITE_OK : lose(it, reply);
}

/* Commits all that waits, of a database of this size. */
static int commit_all(struct database *it, uint32_t size) {
    size_t length;
    char *text = transaction_text(it, size, &length);
    return text ? commit(&it->session, text, length) : SQLITE_IOERR_NOMEM;
}

static int other_pages(struct database *it, uint32_t bytes) {
    uint32_t own = it->session.page_bytes;
    return tell(SQLITE_IOERR_WRITE, "SQLite's pages are to have %u bytes, and those of the device have %u: open it "
                "again and give PRAGMA page_size=%u before the first table, or PRAGMA page_size=%u and VACUUM to what "
                "is copied", bytes, own, own, own);
}

/* All that waits, if it is any change, becomes one transaction. It goes on waiting where that is refused. */
static int hand_over(struct database *it) {
    const unsigned char *first = it->waiting[0] ? it->waiting[0] : it->first;
    uint32_t size = told_size(first), bytes = told_page_bytes(first), pending = it->session.pending;
    if (is_over(&it->session)) return SQLITE_IOERR;
    if (it->waiting[0] && bytes != it->session.page_bytes) return other_pages(it, bytes);
    if (it->waiting[0] && (size == 0 || size > it->session.logical)) {
        return tell(SQLITE_CORRUPT, "the first page says %u as the size of the database: write to it by SQLite", size);
    }
    if (it->waiting[0] && drop_log(it->waiting[0])) count_change(it->waiting[0]);
    cut_off(it, size);
    int code = it->is_again || it->count > pending ? drop_unchanged(it) : SQLITE_OK;
    if (code || it->count == 0) return code;
    if (it->count > pending) {
        return tell(SQLITE_FULL, "a commit of %u pages, and a transaction of the device has at most %u: commit less at "
                    "once, or take an image with a greater PENDING, at most 256", it->count, pending);
    }
    code = commit_all(it, size);
    if (code) return code;
    if (it->waiting[0]) memcpy(it->first, it->waiting[0], it->session.page_bytes);
    it->kept = size;
    forget_all(it);
    it->is_again = 0;
    return SQLITE_OK;
}

/* The end of SQLite's first phase of a commit, or of a rollback. `others` names a commit of several databases. */
static int sync_database(struct database *it, const char *others) {
    int code = others && it->count ? tell(SQLITE_ERROR, NO_OTHERS) : hand_over(it);
    if (code) forget_all(it);
    return code;
}

/* The calls of an open database. The image is held by its connection alone, so a lock of SQLite needs nothing. */

static int database_close(sqlite3_file *file) {
    struct database *it = (struct database *)file;
    cut_off(it, 0);
    sqlite3_free(it->waiting);
    sqlite3_free(it->first);
    sqlite3_free(it->page);
    sqlite3_free(it->text);
    int status = end_session(&it->session);
    if (status == 0) return SQLITE_OK;
    return tell(SQLITE_IOERR_CLOSE, "flash_serve ended with status %d: what was committed is there", status);
}

/* SQLite reads whole pages, and parts of the first one. */
static int database_read(sqlite3_file *file, void *to, int amount, sqlite3_int64 offset) {
    struct database *it = (struct database *)file;
    uint32_t bytes = it->session.page_bytes, skipped = (uint32_t)(offset % bytes);
    sqlite3_int64 page = offset / bytes;
    if (is_over(&it->session)) return SQLITE_IOERR_READ;
    if (page >= it->size) {
        memset(to, 0, (size_t)amount);
        return SQLITE_IOERR_SHORT_READ;
    }
    if ((uint32_t)amount > bytes - skipped) return other_pages(it, (uint32_t)amount);
    const unsigned char *from = it->waiting[page] ? it->waiting[page] : it->page;
    int code = it->waiting[page] ? SQLITE_OK : get_kept(it, (uint32_t)page, it->page);
    if (!code) memcpy(to, from + skipped, (size_t)amount);
    return code;
}

static int database_write(sqlite3_file *file, const void *from, int amount, sqlite3_int64 offset) {
    struct database *it = (struct database *)file;
    uint32_t bytes = it->session.page_bytes;
    sqlite3_int64 page = offset / bytes;
    if (is_over(&it->session)) return SQLITE_IOERR_WRITE;
    if ((uint32_t)amount != bytes || offset % bytes) return other_pages(it, (uint32_t)amount);
    if (page >= it->session.logical) {
        return tell(SQLITE_FULL, "the device has %u pages, and the database needs more: remove rows, or take an image "
                    "with a greater LOGICAL", it->session.logical);
    }
    if (it->waiting[page]) {
        it->is_again = 1;
    } else {
        it->waiting[page] = sqlite3_malloc64(bytes);
        if (!it->waiting[page]) return SQLITE_IOERR_NOMEM;
        it->count++;
    }
    memcpy(it->waiting[page], from, bytes);
    if (page >= it->size) it->size = (uint32_t)page + 1;
    return SQLITE_OK;
}

static int database_truncate(sqlite3_file *file, sqlite3_int64 size) {
    struct database *it = (struct database *)file;
    uint32_t bytes = it->session.page_bytes;
    sqlite3_int64 pages = (size + bytes - 1) / bytes;
    if (pages < it->size) it->size = (uint32_t)pages;
    cut_off(it, it->size);
    return SQLITE_OK;
}

/* SQLite calls it after SQLITE_FCNTL_SYNC, which has handed over everything. */
static int database_sync(sqlite3_file *file, int flags) {
    (void)flags;
    return sync_database((struct database *)file, 0);
}

static int database_file_size(sqlite3_file *file, sqlite3_int64 *size) {
    struct database *it = (struct database *)file;
    *size = (sqlite3_int64)it->size * it->session.page_bytes;
    return SQLITE_OK;
}

static int database_lock(sqlite3_file *file, int level) {
    (void)file, (void)level;
    return SQLITE_OK;
}

/* What was written and not handed over when a transaction ends was taken back. */
static int database_unlock(sqlite3_file *file, int level) {
    if (level <= SQLITE_LOCK_SHARED) forget_all((struct database *)file);
    return SQLITE_OK;
}

static int database_reserved(sqlite3_file *file, int *is_reserved) {
    (void)file;
    *is_reserved = 0;
    return SQLITE_OK;
}

/* Refuses a log. The modes `memory` and `off` spare nothing, since the journal is in memory: the mode stays as it is,
 * and so does what takes back a commit, and what refuses one of several databases. */
static int change_journal(struct database *it, char **words) {
    static const char *const modes[] = {"delete", "truncate", "persist"};
    const char *value = words[2];
    if (sqlite3_stricmp(value, "wal") == 0) {
        words[0] = sqlite3_mprintf("%s", NO_LOG);
        return SQLITE_ERROR;
    }
    for (int i = 0; i < 3; i++) {
        if (sqlite3_stricmp(value, modes[i]) == 0) it->journal_mode = modes[i];
    }
    if (sqlite3_stricmp(value, "memory") && sqlite3_stricmp(value, "off")) return SQLITE_NOTFOUND;
    words[0] = sqlite3_mprintf("%s", it->journal_mode);
    return SQLITE_OK;
}

/* Looks at journals and at pages of another size; all else is SQLite's own. */
static int pragma(struct database *it, char **words) {
    const char *name = words[1], *value = words[2];
    uint32_t bytes = it->session.page_bytes;
    if (!value) return SQLITE_NOTFOUND;
    if (sqlite3_stricmp(name, "journal_mode") == 0) return change_journal(it, words);
    if (sqlite3_stricmp(name, "page_size") == 0 && strtoul(value, 0, 10) != bytes) {
        words[0] = sqlite3_mprintf("the pages of the device have %u bytes: give PRAGMA page_size=%u", bytes, bytes);
        return SQLITE_ERROR;
    }
    return SQLITE_NOTFOUND;
}

static int database_control(sqlite3_file *file, int what, void *with) {
    struct database *it = (struct database *)file;
    switch (what) {
    case SQLITE_FCNTL_SYNC:
        return sync_database(it, with);
    case SQLITE_FCNTL_BEGIN_ATOMIC_WRITE:
    case SQLITE_FCNTL_ROLLBACK_ATOMIC_WRITE:
        return SQLITE_OK;
    case SQLITE_FCNTL_COMMIT_ATOMIC_WRITE:
        /* Where this fails SQLite writes the same pages again and asks for a sync, which decides. */
        return hand_over(it) == SQLITE_OK ? SQLITE_OK : SQLITE_IOERR_COMMIT_ATOMIC;
    case SQLITE_FCNTL_PRAGMA:
        return pragma(it, with);
    case SQLITE_FCNTL_VFSNAME:
        *(char **)with = sqlite3_mprintf("%s", VFS_NAME);
        return SQLITE_OK;
    default:
        return SQLITE_NOTFOUND;
    }
}

static int database_sector_size(sqlite3_file *file) {
    return (int)((struct database *)file)->session.page_bytes;
}

static int database_characteristics(sqlite3_file *file) {
    (void)file;
    return SQLITE_IOCAP_BATCH_ATOMIC | SQLITE_IOCAP_POWERSAFE_OVERWRITE | SQLITE_IOCAP_SAFE_APPEND;
}

static const sqlite3_io_methods database_methods = {
    .iVersion = 1,
    .xClose = database_close,
    .xRead = database_read,
    .xWrite = database_write,
    .xTruncate = database_truncate,
    .xSync = database_sync,
    .xFileSize = database_file_size,
    .xLock = database_lock,
    .xUnlock = database_unlock,
    .xCheckReservedLock = database_reserved,
    .xFileControl = database_control,
    .xSectorSize = database_sector_size,
    .xDeviceCharacteristics = database_characteristics,
};

/* The opening of a database */

/* Reads the first page of the database, and with it its size. */
static int read_first(struct database *it, const char *image) {
    int is_blank;
    unsigned char *head = it->first;
    int code = load_page(&it->session, 0, head, &is_blank);
    if (code || is_blank) return code;
    uint32_t bytes = told_page_bytes(head), size = told_size(head);
    if (memcmp(head, "SQLite format 3", 16)) {
        return tell(SQLITE_NOTADB, "the pages of %s are not those of a database: take a blank image", image);
    }
    if (bytes != it->session.page_bytes) {
        return tell(SQLITE_CANTOPEN, "the database in %s has pages of %u bytes, and its device of %u: bring it to an "
                    "image with the same PAGE", image, bytes, it->session.page_bytes);
    }
    if (memcmp(head + 24, head + 92, 4) || size == 0) {
        return tell(SQLITE_CANTOPEN, "the database in %s does not say its size: let SQLite 3.7 or later write to it "
                    "before it is brought to a device", image);
    }
    if (size > it->session.logical) {
        return tell(SQLITE_CANTOPEN, "the database in %s has %u pages, and its device %u: bring all of it to an image "
                    "with a LOGICAL of that", image, size, it->session.logical);
    }
    drop_log(head);
    it->size = it->kept = size;
    return SQLITE_OK;
}

static int open_pages(struct database *it, const char *image) {
    size_t pages = it->session.logical;
    it->first = sqlite3_malloc64(it->session.page_bytes);
    it->page = sqlite3_malloc64(it->session.page_bytes);
    it->waiting = sqlite3_malloc64(pages * sizeof *it->waiting);
    if (!it->first || !it->page || !it->waiting) return SQLITE_NOMEM;
    memset(it->waiting, 0, pages * sizeof *it->waiting);
    return read_first(it, image);
}

static int open_database(struct database *it, const char *name) {
    memset(it, 0, sizeof *it);
    it->journal_mode = "delete";
    int code = open_session(&it->session, name);
    if (!code) code = open_pages(it, name);
    if (code) database_close(&it->base);
    else it->base.pMethods = &database_methods;
    return code;
}

/* The VFS */

/* That of the system's files, and that of SQLite's files in memory. */
static sqlite3_vfs *system_vfs, *memory_vfs;

/* A journal of SQLite is a file in memory, which takes back a commit that is refused. */
static int vfs_open(sqlite3_vfs *vfs, const char *name, sqlite3_file *file, int flags, int *out_flags) {
    (void)vfs;
    file->pMethods = 0;
    if (flags & SQLITE_OPEN_WAL) return tell(SQLITE_CANTOPEN, NO_LOG);
    if (flags & SQLITE_OPEN_SUPER_JOURNAL) return tell(SQLITE_CANTOPEN, NO_OTHERS);
    if (flags & SQLITE_OPEN_MAIN_JOURNAL) return memory_vfs->xOpen(memory_vfs, "journal", file, flags, out_flags);
    if (!(flags & SQLITE_OPEN_MAIN_DB)) return system_vfs->xOpen(system_vfs, name, file, flags, out_flags);
    if (out_flags) *out_flags = flags;
    return open_database((struct database *)file, name);
}

/* No file beside an image belongs to its database. */
static int vfs_delete(sqlite3_vfs *vfs, const char *name, int is_synced) {
    (void)vfs, (void)name, (void)is_synced;
    return SQLITE_OK;
}

static int vfs_access(sqlite3_vfs *vfs, const char *name, int what, int *is_there) {
    (void)vfs, (void)name, (void)what;
    *is_there = 0;
    return SQLITE_OK;
}

static sqlite3_vfs txflash_vfs;

/* Makes `vfs=txflash` known to SQLite, for a program that is linked to this file. All that is not told here is done as
 * the VFS of the system does it. */
int txflash_vfs_register(void) {
    if (sqlite3_vfs_find(VFS_NAME)) return SQLITE_OK;
    system_vfs = sqlite3_vfs_find("unix");
    memory_vfs = sqlite3_vfs_find("memdb");
    if (!system_vfs || !memory_vfs) return tell(SQLITE_ERROR, "SQLite 3.36 or later is needed");
    txflash_vfs = *system_vfs;
    txflash_vfs.zName = VFS_NAME;
    txflash_vfs.pNext = 0;
    txflash_vfs.xOpen = vfs_open;
    txflash_vfs.xDelete = vfs_delete;
    txflash_vfs.xAccess = vfs_access;
    if (txflash_vfs.szOsFile < memory_vfs->szOsFile) txflash_vfs.szOsFile = memory_vfs->szOsFile;
    if (txflash_vfs.szOsFile < (int)sizeof(struct database)) txflash_vfs.szOsFile = (int)sizeof(struct database);
    return sqlite3_vfs_register(&txflash_vfs, 0);
}

#ifndef TXFLASH_LINKED
/* What `.load` and load_extension call. The VFS outlives the connection that loads it. */
int sqlite3_txflashvfs_init(sqlite3 *db, char **error, const sqlite3_api_routines *api) {
    (void)db, (void)error;
    SQLITE_EXTENSION_INIT2(api);
    int code = txflash_vfs_register();
    return code ? code : SQLITE_OK_LOAD_PERMANENTLY;
}
#endif
