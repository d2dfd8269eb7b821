/* Tries what SQLite does over the VFS: try_vfs FOLDER PROTOCOL [CHECK]. Images are made in the folder, and stay. Each
 * expectation that fails has a line, and the status is then 1. */

#include <signal.h>
#include <sqlite3.h>
#include <stdarg.h>
#include <stdint.h>
#include <stdio.h>
#include <stdlib.h>
#include <string.h>
#include <sys/stat.h>
#include <sys/wait.h>
#include <unistd.h>

int txflash_vfs_register(void);

#define PAGES 64
#define PENDING 40

static const char *folder, *protocol, *check_name;
static char image[512], told[1024];
static int wrong;

#define EXPECT(what) expect((what), #what, __LINE__)

static void expect(int is_right, const char *what, int line) {
    if (is_right) return;
    wrong++;
    printf("try_vfs: %s, %s, line %d: %s (told: %s)\n", protocol, check_name, line, what, told);
}

static void listen_to_log(void *nobody, int code, const char *text) {
    (void)nobody, (void)code;
    if (strncmp(text, "txflash: ", 9) == 0) snprintf(told, sizeof told, "%s", text);
}

/* A text that stays for three calls more. */
static const char *text_of(const char *format, ...) {
    static char texts[4][2048];
    static int last;
    va_list words;
    va_start(words, format);
    last = (last + 1) % 4;
    vsnprintf(texts[last], sizeof texts[last], format, words);
    va_end(words);
    return texts[last];
}

static void put_number(unsigned char *at, uint32_t number) {
    for (int i = 0; i < 4; i++) at[i] = (unsigned char)(number >> 8 * i);
}

/* Makes the image of a blank device, of 8 pages a block and one die. */
static void make_image(uint32_t page, uint32_t blocks, uint32_t logical, uint32_t pending) {
    unsigned char head[64] = "TXFLASH1", filler[4096 + 64];
    uint32_t numbers[] = {strcmp(protocol, "scc") ? 2 : 1, page, 8, blocks, 1, logical, pending};
    for (int i = 0; i < 7; i++) put_number(head + 8 + 4 * i, numbers[i]);
    snprintf(image, sizeof image, "%s/%s-%s.img", folder, protocol, check_name);
    remove(image);
    FILE *file = fopen(image, "wb");
    if (!file) exit(2);
    fwrite(head, sizeof head, 1, file);
    memset(filler, 0, sizeof filler);
    for (uint32_t i = 0; i < 8 * blocks; i++) fwrite(filler, 1, 1, file);
    memset(filler, 255, sizeof filler);
    for (uint32_t i = 0; i < 8 * blocks; i++) fwrite(filler, page + 64, 1, file);
    if (fclose(file)) exit(2);
}

/* A number that all bytes of the image go into. */
static uint64_t image_sum(void) {
    uint64_t sum = 0;
    FILE *file = fopen(image, "rb");
    if (!file) exit(2);
    for (int byte; (byte = getc(file)) != EOF;) sum = (sum + (uint64_t)byte + 1) * 6364136223846793005u;
    fclose(file);
    return sum;
}

/* Gives lines to a program of its own that serves the image. */
static void serve_lines(const char *lines) {
    const char *program = getenv("FLASH_SERVE_PROGRAM");
    FILE *pipe = popen(text_of("'%s' '%s' > '%s.said'", program ? program : TXFLASH_SERVE, image, image), "w");
    if (!pipe) exit(2);
    fputs(lines, pipe);
    EXPECT(pclose(pipe) == 0);
}

static int open_at(const char *name, sqlite3 **db) {
    told[0] = 0;
    int flags = SQLITE_OPEN_READWRITE | SQLITE_OPEN_CREATE | SQLITE_OPEN_URI;
    int code = sqlite3_open_v2(text_of("file:%s%cvfs=txflash", name, strchr(name, '?') ? '&' : '?'), db, flags, 0);
    if (code) {
        sqlite3_close(*db);
        *db = 0;
    }
    return code;
}

/* Whether an opening is refused with this code and these words, and the image stays as it is. */
static int is_refused(const char *name, int code, const char *words) {
    sqlite3 *db;
    uint64_t sum = image_sum();
    return open_at(name, &db) == code && strstr(told, words) && image_sum() == sum;
}

static int run(sqlite3 *db, const char *sql) {
    return sqlite3_exec(db, sql, 0, 0, 0);
}

static int take_text(void *out, int columns, char **values, char **names) {
    (void)columns, (void)names;
    snprintf(out, 200, "%s", values[0] ? values[0] : "");
    return 0;
}

/* Whether the last row of a query begins with this. */
static int says(sqlite3 *db, const char *sql, const char *wanted) {
    char text[200] = "";
    int code = sqlite3_exec(db, sql, take_text, text, 0);
    int is_right = code == SQLITE_OK && strcmp(text, wanted) == 0;
    if (!is_right) printf("try_vfs: %s: `%s`, code %d, in place of `%s`\n", sql, text, code, wanted);
    return is_right;
}

static int is_sound(sqlite3 *db) {
    return says(db, "PRAGMA integrity_check", "ok");
}

/* A database with a row of 3000 bytes a page, which is opened again. */
static sqlite3 *with_rows(uint32_t logical, int rows) {
    sqlite3 *db;
    make_image(4096, 2 * logical / 8 + 12, logical, PENDING);
    EXPECT(open_at(image, &db) == SQLITE_OK);
    EXPECT(run(db, "CREATE TABLE t(n INTEGER PRIMARY KEY, v, w)") == SQLITE_OK);
    for (int n = 1; n <= rows; n += 20) {
        EXPECT(run(db, text_of("WITH r(n) AS (VALUES(%d) UNION ALL SELECT n + 1 FROM r WHERE n < %d) INSERT INTO t "
                               "SELECT n, 0, zeroblob(3000) FROM r", n, n + 19 < rows ? n + 19 : rows)) == SQLITE_OK);
    }
    sqlite3_close(db);
    EXPECT(open_at(image, &db) == SQLITE_OK);
    return db;
}

/* Closes a database, and looks at it as the next process would. */
static void close_and_look(sqlite3 *db, const char *sum) {
    EXPECT(is_sound(db));
    EXPECT(sqlite3_close(db) == SQLITE_OK);
    EXPECT(open_at(image, &db) == SQLITE_OK);
    EXPECT(is_sound(db));
    EXPECT(says(db, "SELECT sum(v) FROM t", sum));
    EXPECT(sqlite3_close(db) == SQLITE_OK);
}

static void rollbacks_and_savepoints(void) {
    sqlite3 *db = with_rows(PAGES, 20);
    EXPECT(run(db, "BEGIN; UPDATE t SET v = 1; ROLLBACK") == SQLITE_OK);
    EXPECT(says(db, "SELECT sum(v) FROM t", "0"));
    EXPECT(run(db, "BEGIN; UPDATE t SET v = 1 WHERE n = 1; SAVEPOINT s; UPDATE t SET v = 5; ROLLBACK TO s;"
                   "UPDATE t SET v = 2 WHERE n = 2; RELEASE s; COMMIT") == SQLITE_OK);
    EXPECT(says(db, "SELECT sum(v) FROM t", "3"));
    EXPECT(run(db, "INSERT INTO t VALUES(1, 9, 9)") == SQLITE_CONSTRAINT);
    close_and_look(db, "3");
}

static void journal_modes(void) {
    const char *modes[] = {"delete", "memory", "truncate", "off", "persist"};
    sqlite3 *db = with_rows(PAGES, 20);
    for (int i = 0; i < 5; i++) {
        EXPECT(says(db, text_of("PRAGMA journal_mode=%s", modes[i]), modes[i - i % 2]));
        EXPECT(run(db, "UPDATE t SET v = v + 1") == SQLITE_OK);
        EXPECT(run(db, "BEGIN; UPDATE t SET v = 50; ROLLBACK") == SQLITE_OK);
        EXPECT(run(db, "UPDATE t SET w = zeroblob(20000)") == SQLITE_FULL);
    }
    EXPECT(run(db, "PRAGMA journal_mode=off; PRAGMA cache_size=5; PRAGMA locking_mode=exclusive;"
                   "CREATE INDEX i ON t(v); BEGIN; UPDATE t SET v = 50; ROLLBACK") == SQLITE_OK);
    EXPECT(is_sound(db) && says(db, "SELECT max(v) FROM t", "5"));
    EXPECT(run(db, "PRAGMA cache_size=2000; PRAGMA locking_mode=normal; SELECT * FROM t") == SQLITE_OK);
    EXPECT(run(db, "PRAGMA journal_mode=wal") == SQLITE_ERROR && strstr(sqlite3_errmsg(db), "needs no log"));
    EXPECT(run(db, "PRAGMA locking_mode=exclusive; PRAGMA journal_mode=wal") == SQLITE_ERROR);
    close_and_look(db, "100");
}

static void no_sync(void) {
    sqlite3 *db = with_rows(PAGES, 20);
    EXPECT(run(db, "PRAGMA synchronous=off; UPDATE t SET v = 3") == SQLITE_OK);
    close_and_look(db, "60");
}

/* Pages leave SQLite's cache before the commit or rollback. */
static void small_cache(void) {
    sqlite3 *db = with_rows(400, 300);
    EXPECT(run(db, "PRAGMA cache_size=5; BEGIN; UPDATE t SET v = 1; DELETE FROM t WHERE n % 3 = 0;"
                   "INSERT INTO t SELECT n + 300, 7, w FROM t WHERE n < 60; ROLLBACK") == SQLITE_OK);
    EXPECT(says(db, "SELECT sum(v) FROM t", "0"));
    EXPECT(run(db, "BEGIN; UPDATE t SET v = 1 WHERE n <= 30; COMMIT") == SQLITE_OK);
    EXPECT(run(db, "BEGIN; UPDATE t SET v = 9; COMMIT") == SQLITE_FULL);
    EXPECT(strstr(told, "has at most 40") != 0);
    EXPECT(sqlite3_get_autocommit(db));
    EXPECT(says(db, "SELECT sum(v) FROM t", "30"));
    EXPECT(run(db, "UPDATE t SET v = 2 WHERE n = 1") == SQLITE_OK);
    close_and_look(db, "31");
}

static void too_large_commits(void) {
    const char *modes[] = {"normal", "exclusive"};
    for (int i = 0; i < 2; i++) {
        sqlite3 *db = with_rows(400, 300);
        EXPECT(run(db, text_of("PRAGMA locking_mode=%s", modes[i])) == SQLITE_OK);
        for (int turn = 0; turn < 3; turn++) {
            EXPECT(run(db, "UPDATE t SET v = v + 1 WHERE n <= 38") == SQLITE_OK);
            uint64_t sum = image_sum();
            EXPECT(run(db, "UPDATE t SET v = v + 1 WHERE n <= 60") == SQLITE_FULL);
            EXPECT(strstr(told, "greater PENDING") && image_sum() == sum);
        }
        close_and_look(db, "114");
    }
}

/* What is freed and not overwritten is no part of a commit. */
static void large_delete(void) {
    sqlite3 *db = with_rows(400, 300);
    EXPECT(run(db, "PRAGMA secure_delete=on; UPDATE t SET v = 1 WHERE n = 300") == SQLITE_OK);
    EXPECT(run(db, "DELETE FROM t WHERE n < 300") == SQLITE_FULL);
    EXPECT(strstr(told, "greater PENDING") != 0);
    EXPECT(run(db, "PRAGMA secure_delete=fast; DELETE FROM t WHERE n < 300") == SQLITE_OK);
    EXPECT(says(db, "SELECT count(*) FROM t", "1"));
    close_and_look(db, "1");
}

static void vacuum(void) {
    sqlite3 *db = with_rows(PAGES, 30);
    EXPECT(run(db, "UPDATE t SET v = 1; DELETE FROM t WHERE n % 2 = 0") == SQLITE_OK);
    EXPECT(run(db, "VACUUM") == SQLITE_OK);
    EXPECT(says(db, "PRAGMA freelist_count", "0"));
    close_and_look(db, "15");
    db = with_rows(200, 150);
    EXPECT(run(db, "UPDATE t SET v = 1 WHERE n < 10; DELETE FROM t WHERE n % 9 = 8") == SQLITE_OK);
    EXPECT(run(db, "VACUUM") == SQLITE_FULL);
    close_and_look(db, "8");
}

/* What is cut off is discarded, so that the device copies it no more. */
static void shrinking(void) {
    sqlite3 *db;
    char line[100] = "";
    make_image(4096, 30, 100, PENDING);
    EXPECT(open_at(image, &db) == SQLITE_OK);
    EXPECT(run(db, "PRAGMA auto_vacuum=full; CREATE TABLE t(n, v, w);"
                   "WITH r(n) AS (VALUES(1) UNION ALL SELECT n + 1 FROM r WHERE n < 30)"
                   "INSERT INTO t SELECT n, 1, zeroblob(3000) FROM r") == SQLITE_OK);
    EXPECT(run(db, "DELETE FROM t WHERE n > 10") == SQLITE_OK);
    EXPECT(says(db, "PRAGMA page_count", "13"));
    close_and_look(db, "10");
    serve_lines("stats\n");
    FILE *said = fopen(text_of("%s.said", image), "r");
    EXPECT(said && fgets(line, sizeof line, said) && fgets(line, sizeof line, said));
    if (said) fclose(said);
    EXPECT(strncmp(line, "stats written 13 ", 17) == 0);
}

static void one_connection(void) {
    sqlite3 *db = with_rows(PAGES, 5), *second;
    EXPECT(is_refused(image, SQLITE_BUSY, "(in use, status 15): close the connection"));
    EXPECT(run(db, "UPDATE t SET v = 1") == SQLITE_OK);
    EXPECT(sqlite3_close(db) == SQLITE_OK);
    EXPECT(open_at(text_of("%s?cache=shared", image), &db) == SQLITE_OK);
    EXPECT(open_at(text_of("%s?cache=shared", image), &second) == SQLITE_OK);
    EXPECT(run(second, "UPDATE t SET v = 2") == SQLITE_OK && says(db, "SELECT sum(v) FROM t", "10"));
    EXPECT(sqlite3_close(db) == SQLITE_OK);
    close_and_look(second, "10");
}

static void page_sizes(void) {
    for (uint32_t bytes = 512; bytes <= 4096; bytes *= 2) {
        sqlite3 *db;
        make_image(bytes, 30, 100, PENDING);
        EXPECT(open_at(image, &db) == SQLITE_OK);
        if (bytes != 4096) {
            EXPECT(run(db, "CREATE TABLE t(v)") == SQLITE_IOERR);
            EXPECT(strstr(told, "open it again and give PRAGMA page_size=") != 0);
            EXPECT(run(db, "PRAGMA page_size=4096") == SQLITE_ERROR);
            sqlite3_close(db);
            EXPECT(open_at(image, &db) == SQLITE_OK);
        }
        EXPECT(run(db, text_of("PRAGMA page_size=%u; CREATE TABLE t(v); INSERT INTO t VALUES(%u)", bytes, bytes)) == 0);
        close_and_look(db, text_of("%u", bytes));
    }
    make_image(16, 30, 100, PENDING);
    EXPECT(is_refused(image, SQLITE_CANTOPEN, "512, 1024, 2048 or 4096"));
}

static void full_device(void) {
    sqlite3 *db = with_rows(PAGES, 55);
    EXPECT(run(db, "INSERT INTO t SELECT n + 100, 1, w FROM t LIMIT 30") == SQLITE_FULL);
    EXPECT(strstr(told, "greater LOGICAL") != 0);
    EXPECT(run(db, "INSERT INTO t SELECT n + 100, 1, w FROM t LIMIT 3") == SQLITE_OK);
    close_and_look(db, "3");
}

static void several_databases(void) {
    sqlite3 *db = with_rows(PAGES, 5);
    remove(text_of("%s.other", image));
    EXPECT(run(db, text_of("ATTACH 'file:%s.other?vfs=unix' AS o; CREATE TABLE o.t(v); INSERT INTO o.t VALUES(1)",
                           image)) == SQLITE_OK);
    for (int i = 0; i < 2; i++) {
        told[0] = 0;
        EXPECT(run(db, "BEGIN; UPDATE main.t SET v = 2; UPDATE o.t SET v = 2; COMMIT") != SQLITE_OK);
        EXPECT(strstr(told, "several databases") != 0);
        run(db, "ROLLBACK");
        EXPECT(says(db, "PRAGMA main.journal_mode=memory", "delete"));
    }
    EXPECT(says(db, "SELECT sum(v) FROM o.t", "1"));
    EXPECT(run(db, "UPDATE t SET v = (SELECT v FROM o.t)") == SQLITE_OK);
    EXPECT(run(db, "CREATE TEMP TABLE c AS SELECT * FROM t; UPDATE t SET v = v + (SELECT max(v) FROM c)") == SQLITE_OK);
    close_and_look(db, "10");
}

static void other_main(void) {
    sqlite3 *db;
    sqlite3_close(with_rows(PAGES, 5));
    const char *other = text_of("%s.main", image);
    remove(other);
    EXPECT(sqlite3_open(other, &db) == SQLITE_OK);
    EXPECT(run(db, "CREATE TABLE m(v); INSERT INTO m VALUES(1)") == SQLITE_OK);
    EXPECT(run(db, text_of("ATTACH 'file:%s?vfs=txflash' AS d", image)) == SQLITE_OK);
    EXPECT(run(db, "BEGIN; UPDATE m SET v = 2; UPDATE d.t SET v = 2; COMMIT") != SQLITE_OK);
    run(db, "ROLLBACK");
    EXPECT(says(db, "SELECT v FROM m", "1"));
    EXPECT(run(db, "UPDATE d.t SET v = 1") == SQLITE_OK);
    EXPECT(run(db, "DETACH d") == SQLITE_OK);
    EXPECT(sqlite3_close(db) == SQLITE_OK);
    EXPECT(open_at(image, &db) == SQLITE_OK);
    close_and_look(db, "5");
}

static void copies(void) {
    sqlite3 *db = with_rows(PAGES, 20), *memory;
    EXPECT(sqlite3_open(":memory:", &memory) == SQLITE_OK);
    EXPECT(run(db, "UPDATE t SET v = 4") == SQLITE_OK);
    sqlite3_backup *copy = sqlite3_backup_init(memory, "main", db, "main");
    EXPECT(copy && sqlite3_backup_step(copy, -1) == SQLITE_DONE && sqlite3_backup_finish(copy) == SQLITE_OK);
    EXPECT(run(memory, "DELETE FROM t WHERE n > 10; UPDATE t SET v = 6") == SQLITE_OK);
    copy = sqlite3_backup_init(db, "main", memory, "main");
    EXPECT(copy && sqlite3_backup_step(copy, -1) == SQLITE_DONE && sqlite3_backup_finish(copy) == SQLITE_OK);
    EXPECT(sqlite3_close(memory) == SQLITE_OK);
    for (int bytes = 1024; bytes <= 16384; bytes *= 16) {
        EXPECT(sqlite3_open(":memory:", &memory) == SQLITE_OK);
        EXPECT(run(memory, text_of("PRAGMA page_size=%d; CREATE TABLE u(v)", bytes)) == SQLITE_OK);
        copy = sqlite3_backup_init(db, "main", memory, "main");
        EXPECT(copy && sqlite3_backup_step(copy, -1) != SQLITE_DONE && sqlite3_backup_finish(copy) != SQLITE_OK);
        EXPECT(strstr(told, "VACUUM to what is copied") != 0);
        EXPECT(sqlite3_close(memory) == SQLITE_OK);
    }
    close_and_look(db, "60");
}

/* A database with a log becomes one without. With an exclusive lock that is seen at the next opening. */
static void copies_of_logs(void) {
    const char *modes[] = {"normal", "exclusive"};
    for (int i = 0; i < 2; i++) {
        sqlite3 *db = with_rows(PAGES, 20), *logged;
        const char *name = text_of("%s.%d", image, i);
        remove(name);
        EXPECT(sqlite3_open(name, &logged) == SQLITE_OK);
        EXPECT(run(logged, "PRAGMA journal_mode=wal; CREATE TABLE t(v); INSERT INTO t VALUES(5)") == SQLITE_OK);
        EXPECT(run(db, text_of("PRAGMA locking_mode=%s; SELECT * FROM t", modes[i])) == SQLITE_OK);
        sqlite3_backup *copy = sqlite3_backup_init(db, "main", logged, "main");
        EXPECT(copy && sqlite3_backup_step(copy, -1) == SQLITE_DONE && sqlite3_backup_finish(copy) == SQLITE_OK);
        EXPECT(sqlite3_close(logged) == SQLITE_OK);
        EXPECT(run(db, "UPDATE t SET v = v + 1") == (i ? SQLITE_CANTOPEN : SQLITE_OK));
        if (i == 0) EXPECT(says(db, "PRAGMA journal_mode", "delete"));
        EXPECT(sqlite3_close(db) == SQLITE_OK);
        EXPECT(open_at(image, &db) == SQLITE_OK);
        close_and_look(db, i ? "5" : "6");
    }
}

static void bad_input(void) {
    make_image(4096, 30, 100, PENDING);
    EXPECT(is_refused(text_of("%s.none", image), SQLITE_CANTOPEN, "make an image"));
    EXPECT(is_refused(text_of("%s?serve=/no/program", image), SQLITE_CANTOPEN, "name it in FLASH_SERVE_PROGRAM"));
    EXPECT(is_refused(text_of("%s?serve=/bin/true", image), SQLITE_CANTOPEN, "nothing said"));
    serve_lines("write 1 0=41\nfinish 1\n");
    EXPECT(is_refused(image, SQLITE_NOTADB, "take a blank image"));
    FILE *file = fopen(image, "w");
    for (int i = 0; file && i < 100; i++) fputs("no image", file);
    if (!file || fclose(file)) exit(2);
    EXPECT(is_refused(image, SQLITE_CANTOPEN, "take an image"));
}

/* A first page that says another size or page size, or a log. */
static void foreign_heads(void) {
    static const struct { int at, value; const char *part; } changes[] = {
        {16, 2, "pages of 512 bytes"}, {30, 1, "256 pages"}, {95, 9, "its size"}, {18, 2, 0},
    };
    for (unsigned i = 0; i < sizeof changes / sizeof *changes; i++) {
        unsigned char head[100] = "SQLite format 3";
        char line[300] = "write 1 0=", *end = line + strlen(line);
        sqlite3 *db;
        make_image(4096, 30, 100, PENDING);
        memcpy(head + 16, "\x10\0\1\1\0\x40\x20\x20\0\0\0\7\0\0\0\1", 16);
        memcpy(head + 92, "\0\0\0\7", 4);
        head[44] = 4, head[59] = 1;
        head[changes[i].at] = (unsigned char)changes[i].value;
        if (changes[i].at == 30) head[31] = 0;
        if (changes[i].at == 18) head[19] = 2;
        for (int at = 0; at < 100; at++) end += sprintf(end, "%02x", head[at]);
        sprintf(end, "0d000000001000\nfinish 1\n");
        serve_lines(line);
        if (changes[i].part) {
            EXPECT(is_refused(image, SQLITE_CANTOPEN, changes[i].part));
            continue;
        }
        EXPECT(open_at(image, &db) == SQLITE_OK);
        EXPECT(run(db, "CREATE TABLE t(v); INSERT INTO t VALUES(8)") == SQLITE_OK);
        close_and_look(db, "8");
    }
}

/* Writes pages as a library with SQLITE_ENABLE_BATCH_ATOMIC_WRITE does: the first with another user_version, and so
 * many behind it with one byte. */
static int write_batch(sqlite3_file *file, unsigned char version, int others) {
    unsigned char page[4096];
    const sqlite3_io_methods *calls = file->pMethods;
    EXPECT(calls->xFileControl(file, SQLITE_FCNTL_BEGIN_ATOMIC_WRITE, 0) == SQLITE_OK);
    EXPECT(calls->xRead(file, page, sizeof page, 0) == SQLITE_OK);
    page[63] = version;
    EXPECT(calls->xWrite(file, page, sizeof page, 0) == SQLITE_OK);
    memset(page, version, sizeof page);
    for (int i = 1; i <= others; i++) EXPECT(calls->xWrite(file, page, sizeof page, 4096 * i) == SQLITE_OK);
    return calls->xFileControl(file, SQLITE_FCNTL_COMMIT_ATOMIC_WRITE, 0);
}

/* Writes a first page that says another size. */
static int write_size(sqlite3_file *file, unsigned char size) {
    unsigned char page[4096];
    EXPECT(file->pMethods->xRead(file, page, sizeof page, 0) == SQLITE_OK);
    page[31] = size;
    EXPECT(file->pMethods->xWrite(file, page, sizeof page, 0) == SQLITE_OK);
    return file->pMethods->xFileControl(file, SQLITE_FCNTL_SYNC, 0);
}

static void batches(void) {
    sqlite3_file *file = 0;
    sqlite3 *db = with_rows(PAGES, 50);
    EXPECT(sqlite3_file_control(db, "main", SQLITE_FCNTL_FILE_POINTER, &file) == SQLITE_OK);
    EXPECT(file->pMethods->xDeviceCharacteristics(file) & SQLITE_IOCAP_BATCH_ATOMIC);
    EXPECT(write_batch(file, 7, 0) == SQLITE_OK);
    EXPECT(write_batch(file, 8, PENDING) == SQLITE_IOERR_COMMIT_ATOMIC);
    EXPECT(strstr(told, "greater PENDING") != 0);
    EXPECT(file->pMethods->xFileControl(file, SQLITE_FCNTL_ROLLBACK_ATOMIC_WRITE, 0) == SQLITE_OK);
    EXPECT(file->pMethods->xFileControl(file, SQLITE_FCNTL_SYNC, 0) == SQLITE_FULL);
    EXPECT(write_size(file, 0) == SQLITE_CORRUPT && write_size(file, PAGES + 1) == SQLITE_CORRUPT);
    sqlite3_close(db);
    EXPECT(open_at(image, &db) == SQLITE_OK);
    EXPECT(says(db, "PRAGMA user_version", "7"));
    close_and_look(db, "0");
}

static pid_t child_of_mine(void) {
    char text[100] = "";
    FILE *file = fopen(text_of("/proc/self/task/%d/children", (int)getpid()), "r");
    if (!file || !fgets(text, sizeof text, file)) exit(2);
    fclose(file);
    return (pid_t)atoi(text);
}

static void killed_process(void) {
    sqlite3 *db = with_rows(PAGES, 20);
    EXPECT(run(db, "UPDATE t SET v = 1; BEGIN; UPDATE t SET v = 2") == SQLITE_OK);
    kill(child_of_mine(), SIGKILL);
    EXPECT((run(db, "COMMIT") & 0xff) == SQLITE_IOERR);
    EXPECT(strstr(told, "close the database and open it again") != 0);
    run(db, "ROLLBACK");
    EXPECT(run(db, "UPDATE t SET v = 3") != SQLITE_OK);
    EXPECT(run(db, "SELECT sum(v) FROM t") != SQLITE_OK);
    sqlite3_close(db);
    EXPECT(open_at(image, &db) == SQLITE_OK);
    close_and_look(db, "20");
}

/* A child that was forked has no part in the database, and takes it from nobody. */
static void forked_process(void) {
    sqlite3 *db = with_rows(PAGES, 20);
    int status = -1;
    pid_t child = fork();
    if (child == 0) {
        int code = run(db, "UPDATE t SET v = 7");
        sqlite3_close(db);
        _exit((code & 0xff) != SQLITE_IOERR);
    }
    EXPECT(waitpid(child, &status, 0) == child && status == 0);
    EXPECT(run(db, "UPDATE t SET v = 1") == SQLITE_OK);
    close_and_look(db, "20");
}

/* Where the program around SQLite has no children to wait for, a close says nothing of that. */
static void ignored_children(void) {
    sqlite3 *db = with_rows(PAGES, 20);
    signal(SIGCHLD, SIG_IGN);
    close_and_look(db, "0");
    signal(SIGCHLD, SIG_DFL);
    EXPECT(told[0] == 0);
}

/* A script that starts the program which the environment names does not start itself for ever. */
static void named_script(void) {
    sqlite3 *db = with_rows(PAGES, 20);
    EXPECT(sqlite3_close(db) == SQLITE_OK);
    const char *named = getenv("FLASH_SERVE_PROGRAM"), *script = text_of("%s/script", folder);
    FILE *file = fopen(script, "w");
    if (!file) exit(2);
    fprintf(file, "#!/bin/sh\nexec \"${FLASH_SERVE_PROGRAM:-%s}\" \"$@\"\n", named ? named : TXFLASH_SERVE);
    if (fclose(file) || chmod(script, 0755) || setenv("FLASH_SERVE_PROGRAM", script, 1)) exit(2);
    EXPECT(open_at(image, &db) == SQLITE_OK);
    close_and_look(db, "0");
}

static const struct { const char *name; void (*body)(void); } checks[] = {
    {"rollbacks", rollbacks_and_savepoints}, {"journal_modes", journal_modes}, {"no_sync", no_sync},
    {"small_cache", small_cache}, {"too_large_commits", too_large_commits}, {"large_delete", large_delete},
    {"vacuum", vacuum}, {"shrinking", shrinking}, {"one_connection", one_connection}, {"page_sizes", page_sizes},
    {"full_device", full_device}, {"several_databases", several_databases}, {"other_main", other_main},
    {"copies", copies}, {"copies_of_logs", copies_of_logs}, {"bad_input", bad_input}, {"foreign_heads", foreign_heads},
    {"batches", batches}, {"killed_process", killed_process}, {"forked_process", forked_process},
    {"ignored_children", ignored_children}, {"named_script", named_script},
};

/* Whether a device is served at all. */
static int is_served(void) {
    sqlite3 *db;
    check_name = "none";
    make_image(4096, 30, 100, PENDING);
    return open_at(image, &db) == SQLITE_OK && sqlite3_close(db) == SQLITE_OK;
}

int main(int count, char **words) {
    unsigned tried = 0;
    if (count != 3 && count != 4) return 2;
    folder = words[1], protocol = words[2];
    sqlite3_config(SQLITE_CONFIG_LOG, listen_to_log, 0);
    /* What the VFS says to standard error is looked at in the log. */
    if (!freopen("/dev/null", "w", stderr) || txflash_vfs_register()) return 2;
    if (!is_served()) return printf("try_vfs: %s\n", told), 2;
    for (unsigned i = 0; i < sizeof checks / sizeof *checks; i++) {
        check_name = checks[i].name;
        if (count == 4 && strcmp(words[3], check_name)) continue;
        checks[i].body();
        tried++;
    }
    printf("try_vfs: %s, SQLite %s: %u checks, %d wrong\n", protocol, sqlite3_libversion(), tried, wrong);
    return wrong != 0 || tried == 0;
}
