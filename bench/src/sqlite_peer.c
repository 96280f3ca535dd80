/* The same messages through SQLite: one transaction a group, write-ahead log, synchronous FULL; line and reply of each
   message are kept.      sqlite_peer DIR GROUP DATABASE REPLIES
   Opens a database that a run left, as a stop would, and looks at one account:      sqlite_peer --open DATABASE */
#include <sqlite3.h>
#include <stdio.h>
#include <stdlib.h>
#include <string.h>

static sqlite3 *db;

static void must(int code) {
    if (code != SQLITE_OK && code != SQLITE_DONE && code != SQLITE_ROW) {
        fprintf(stderr, "sqlite_peer: %s\n", sqlite3_errmsg(db));
        exit(1);
    }
}

static void exec(const char *text) { must(sqlite3_exec(db, text, 0, 0, 0)); }

static sqlite3_stmt *prepared(const char *text) {
    sqlite3_stmt *statement;
    must(sqlite3_prepare_v2(db, text, -1, &statement, 0));
    return statement;
}

static FILE *opened(const char *folder, const char *name) {
    char path[4096];
    snprintf(path, sizeof path, "%s/%s", folder, name);
    FILE *file = fopen(path, "r");
    if (!file) { perror(path); exit(1); }
    return file;
}

static int look_again(const char *path) {
    must(sqlite3_open(path, &db));
    exec("PRAGMA journal_mode = WAL; PRAGMA synchronous = FULL");
    sqlite3_stmt *look = prepared("SELECT bal FROM accts LIMIT 1");
    must(sqlite3_step(look));
    printf("%lld\n", (long long)sqlite3_column_int64(look, 0));
    return 0;
}

int main(int count, char **words) {
    if (count == 3 && !strcmp(words[1], "--open")) return look_again(words[2]);
    if (count != 5) return 2;
    int group = atoi(words[2]), waiting = 0;
    must(sqlite3_open(words[3], &db));
    exec("PRAGMA journal_mode = WAL; PRAGMA synchronous = FULL;"
         "CREATE TABLE accts (acct TEXT PRIMARY KEY, bal INTEGER) WITHOUT ROWID;"
         "CREATE TABLE entries (place INTEGER PRIMARY KEY, line TEXT, reply TEXT); BEGIN");
    char line[4096], reply[64], account[64];
    long long amount;
    sqlite3_stmt *load = prepared("INSERT INTO accts VALUES (?, ?)");
    FILE *file = opened(words[1], "accounts.txt");
    while (fscanf(file, "%63s %lld", account, &amount) == 2) {
        sqlite3_bind_text(load, 1, account, -1, SQLITE_STATIC);
        sqlite3_bind_int64(load, 2, amount);
        must(sqlite3_step(load));
        sqlite3_reset(load);
    }
    exec("COMMIT");
    sqlite3_stmt *look = prepared("SELECT bal FROM accts WHERE acct = ?");
    sqlite3_stmt *add = prepared("UPDATE accts SET bal = bal + ? WHERE acct = ?");
    sqlite3_stmt *keep = prepared("INSERT INTO entries (line, reply) VALUES (?, ?)");
    FILE *out = fopen(words[4], "w");
    char *replies = malloc(1 << 20);
    size_t length = 0;
    file = opened(words[1], "messages.txt");
    while (fgets(line, sizeof line, file)) {
        line[strcspn(line, "\n")] = 0;
        char terminal[16], script[16], *rest = line;
        int used;
        sscanf(rest, "%15s %n", terminal, &used);
        rest += used;
        if (*rest >= '0' && *rest <= '9') rest = strchr(rest, ' ') + 1;
        amount = 0;
        sscanf(rest, "%15s %63s %lld", script, account, &amount);
        if (!waiting) exec("BEGIN");
        int change = strcmp(script, "ASK") != 0;
        strcpy(reply, "OK NEW");
        if (script[0] != 'D') {
            sqlite3_bind_text(look, 1, account, -1, SQLITE_STATIC);
            must(sqlite3_step(look));
            long long balance = sqlite3_column_int64(look, 0);
            sqlite3_reset(look);
            if (!change) snprintf(reply, sizeof reply, "OK %lld", balance);
            else if (balance < amount) { change = 0; strcpy(reply, "NO ROLB 7"); }
            else snprintf(reply, sizeof reply, "OK PAID %lld", amount);
        }
        if (change) {
            sqlite3_bind_int64(add, 1, script[0] == 'D' ? amount : -amount);
            sqlite3_bind_text(add, 2, account, -1, SQLITE_STATIC);
            must(sqlite3_step(add));
            sqlite3_reset(add);
        }
        sqlite3_bind_text(keep, 1, line, -1, SQLITE_STATIC);
        sqlite3_bind_text(keep, 2, reply, -1, SQLITE_STATIC);
        must(sqlite3_step(keep));
        sqlite3_reset(keep);
        length += (size_t)sprintf(replies + length, "%s %s\n", terminal, reply);
        if (++waiting == group || length > (1 << 19)) {
            exec("COMMIT");
            fwrite(replies, 1, length, out);
            fflush(out);
            length = 0;
            waiting = 0;
        }
    }
    if (waiting) exec("COMMIT");
    fwrite(replies, 1, length, out);
    fclose(out);
    return 0;
}
