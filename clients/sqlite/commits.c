/* Commits of SQLite, for kills.py and cost.py.
 *
 *     commits work IMAGE SEED           moves money between accounts in the device of the image, until it is killed
 *     commits audit IMAGE               says what an audit finds
 *     commits fill WAY FILE             makes the table that `measure` changes
 *     commits measure WAY FILE N COUNT  what reading a page took, and each of COUNT commits of N rows in N pages
 *     commits version                   says which SQLite this is
 *
 * WAY is `device`, `log` or `journal`. The status is 3 where SQLite refuses something. */

#include "measuring.h"

#include <sqlite3.h>
#include <string.h>

int txflash_vfs_register(void);

#define ACCOUNTS 200
#define ROWS 400

static sqlite3 *db;

/* Ends with the words of SQLite, which the connection has. */
static void check(int code) {
    if (code == SQLITE_OK || code == SQLITE_ROW || code == SQLITE_DONE) return;
    printf("failed %d %s\n", code, sqlite3_errmsg(db));
    fflush(stdout);
    _exit(3);
}

static void run(const char *sql) {
    check(sqlite3_exec(db, sql, 0, 0, 0));
}

static void say(const char *word, long long number) {
    printf("%s %lld\n", word, number);
    fflush(stdout);
}

static void open_file(const char *way, const char *file) {
    char uri[4200];
    int is_device = strcmp(way, "device") == 0;
    snprintf(uri, sizeof uri, "file:%s%s", file, is_device ? "?vfs=txflash" : "");
    check(txflash_vfs_register());
    check(sqlite3_open_v2(uri, &db, SQLITE_OPEN_READWRITE | SQLITE_OPEN_CREATE | SQLITE_OPEN_URI, 0));
    run("PRAGMA locking_mode=exclusive");
    if (is_device) return;
    run(strcmp(way, "log") ? "PRAGMA journal_mode=delete" : "PRAGMA journal_mode=wal");
    run("PRAGMA synchronous=full");
}

static sqlite3_stmt *prepare(const char *sql) {
    sqlite3_stmt *statement = 0;
    check(sqlite3_prepare_v2(db, sql, -1, &statement, 0));
    return statement;
}

static void step(sqlite3_stmt *statement, int first, int second) {
    sqlite3_bind_int(statement, 1, first);
    sqlite3_bind_int(statement, 2, second);
    check(sqlite3_step(statement));
    check(sqlite3_reset(statement));
}

static long long number_of(const char *sql) {
    sqlite3_stmt *statement = prepare(sql);
    check(sqlite3_step(statement));
    long long number = sqlite3_column_int64(statement, 0);
    check(sqlite3_finalize(statement));
    return number;
}

/* The bank */

static void make_bank(void) {
    char sql[400];
    snprintf(sql, sizeof sql, "WITH r(n) AS (VALUES(0) UNION ALL SELECT n + 1 FROM r WHERE n < %d) "
             "INSERT INTO accounts SELECT n, 100, zeroblob(700) FROM r", ACCOUNTS - 1);
    run("BEGIN; CREATE TABLE accounts(n INTEGER PRIMARY KEY, money, filler)");
    run("CREATE TABLE turns(n INTEGER PRIMARY KEY, note)");
    run(sql);
    run("COMMIT");
}

/* One transaction, of which some savepoints and some whole turns are taken back. Whether it is to be committed. */
static int turn_money(sqlite3_stmt *move, sqlite3_stmt *note, int turn) {
    run("BEGIN");
    step(note, turn, 1 + draw(2000));
    for (int moves = 1 + draw(12); moves > 0; moves--) {
        int money = draw(20);
        int is_taken_back = draw(8) == 0;
        if (is_taken_back) run("SAVEPOINT s");
        step(move, draw(ACCOUNTS), money);
        step(move, draw(ACCOUNTS), -money);
        if (is_taken_back) run("ROLLBACK TO s; RELEASE s");
    }
    if (draw(10) == 0) run("DELETE FROM turns WHERE n < (SELECT max(n) FROM turns) - 20");
    return draw(10) != 0;
}

static int work(const char *image, int seed) {
    open_file("device", image);
    draws = (uint64_t)seed;
    if (!number_of("SELECT count(*) FROM sqlite_schema")) make_bank();
    sqlite3_stmt *move = prepare("UPDATE accounts SET money = money + ?2 WHERE n = ?1");
    sqlite3_stmt *note = prepare("INSERT INTO turns VALUES(?1, zeroblob(?2))");
    int turn = (int)number_of("SELECT coalesce(max(n), 0) FROM turns") + 1;
    while (turn > 0) {
        if (!turn_money(move, note, turn)) {
            run("ROLLBACK");
            continue;
        }
        say("commit", turn);
        run("COMMIT");
        say("done", turn++);
    }
    return 0;
}

static int audit(const char *image) {
    open_file("device", image);
    sqlite3_stmt *look = prepare("PRAGMA integrity_check");
    check(sqlite3_step(look));
    printf("integrity %s\n", (const char *)sqlite3_column_text(look, 0));
    check(sqlite3_finalize(look));
    say("money", number_of("SELECT sum(money) FROM accounts"));
    say("turn", number_of("SELECT coalesce(max(n), 0) FROM turns"));
    check(sqlite3_close(db));
    return 0;
}

/* What commits cost */

static int fill(const char *way, const char *file) {
    char sql[300];
    open_file(way, file);
    run("CREATE TABLE t(n INTEGER PRIMARY KEY, v, w)");
    for (int n = 0; n < ROWS; n += 20) {
        snprintf(sql, sizeof sql, "WITH r(n) AS (VALUES(%d) UNION ALL SELECT n + 1 FROM r WHERE n < %d) INSERT INTO t "
                 "SELECT n, 1000, zeroblob(3000) FROM r", n, n + 19);
        run(sql);
    }
    check(sqlite3_close(db));
    return 0;
}

/* One commit of rows in different pages, in microseconds. */
static double commit_rows(sqlite3_stmt *change, int rows) {
    double begun = now();
    run("BEGIN IMMEDIATE");
    for (int i = 0, row = draw(ROWS); i < rows; i++) {
        step(change, row, 1);
        row = (row + 1 + draw(ROWS / rows - 1)) % ROWS;
    }
    run("COMMIT");
    return now() - begun;
}

/* Reads the whole table, so that SQLite has it in its cache, and says what a row took, which is a page. */
static void scan(void) {
    double begun = now();
    number_of("SELECT sum(length(w)) FROM t");
    printf("read %.1f\n", (now() - begun) / ROWS);
}

static int measure(const char *way, const char *file, int rows, int count) {
    open_file(way, file);
    scan();
    draws = (uint64_t)getpid();
    sqlite3_stmt *change = prepare("UPDATE t SET v = v + ?2 WHERE n = ?1");
    struct measured all;
    commit_rows(change, rows);
    begin_measuring(&all, count);
    for (int i = 0; i < count; i++) add_time(&all, commit_rows(change, rows));
    end_measuring(&all);
    check(sqlite3_finalize(change));
    check(sqlite3_close(db));
    return 0;
}

int main(int count, char **words) {
    const char *word = count > 1 ? words[1] : "";
    if (count == 4 && strcmp(word, "work") == 0) return work(words[2], atoi(words[3]));
    if (count == 3 && strcmp(word, "audit") == 0) return audit(words[2]);
    if (count == 2 && strcmp(word, "version") == 0) return puts(sqlite3_libversion()) < 0;
    if (count == 4 && strcmp(word, "fill") == 0) return fill(words[2], words[3]);
    if (count == 6 && strcmp(word, "measure") == 0) return measure(words[2], words[3], atoi(words[4]), atoi(words[5]));
    fprintf(stderr, "commits: work IMAGE SEED, audit IMAGE, fill WAY FILE or measure WAY FILE N COUNT\n");
    return 2;
}
