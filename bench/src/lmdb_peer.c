/* The same messages through LMDB: one write transaction a group, each synced; line and reply of each message are kept.
   lmdb_peer DIR GROUP DATABASE REPLIES
   Opens a database that a run left, and looks at one account:      lmdb_peer --open DATABASE */
#include <lmdb.h>
#include <stdio.h>
#include <stdlib.h>
#include <string.h>

static MDB_env *env;
static MDB_txn *txn;
static MDB_dbi accts, entries;

static void must(int code) {
    if (code) {
        fprintf(stderr, "lmdb_peer: %s\n", mdb_strerror(code));
        exit(1);
    }
}

static FILE *opened(const char *folder, const char *name) {
    char path[4096];
    snprintf(path, sizeof path, "%s/%s", folder, name);
    FILE *file = fopen(path, "r");
    if (!file) { perror(path); exit(1); }
    return file;
}

static void load(const char *folder) {
    char account[64];
    long long amount;
    FILE *file = opened(folder, "accounts.txt");
    must(mdb_txn_begin(env, 0, 0, &txn));
    must(mdb_dbi_open(txn, "accts", MDB_CREATE, &accts));
    must(mdb_dbi_open(txn, "entries", MDB_CREATE | MDB_INTEGERKEY, &entries));
    while (fscanf(file, "%63s %lld", account, &amount) == 2) {
        MDB_val key = { strlen(account), account }, value = { sizeof amount, &amount };
        must(mdb_put(txn, accts, &key, &value, 0));
    }
    must(mdb_txn_commit(txn));
    fclose(file);
}

/* Does one message, and writes its reply. */
static void run(MDB_cursor *cursor, const char *script, char *account, long long amount, char *reply) {
    MDB_val key = { strlen(account), account }, value;
    long long balance;
    must(mdb_cursor_get(cursor, &key, &value, MDB_SET));
    memcpy(&balance, value.mv_data, sizeof balance);
    if (script[0] == 'A') { sprintf(reply, "OK %lld", balance); return; }
    if (script[0] == 'W' && balance < amount) { strcpy(reply, "NO ROLB 7"); return; }
    if (script[0] == 'W') sprintf(reply, "OK PAID %lld", amount);
    else strcpy(reply, "OK NEW");
    balance += script[0] == 'W' ? -amount : amount;
    MDB_val next = { sizeof balance, &balance };
    must(mdb_cursor_put(cursor, &key, &next, MDB_CURRENT));
}

static void keep(MDB_cursor *cursor, size_t place, const char *line, const char *reply) {
    char text[4200];
    int length = sprintf(text, "%s\n%s", line, reply);
    MDB_val key = { sizeof place, &place }, value = { (size_t)length, text };
    must(mdb_cursor_put(cursor, &key, &value, MDB_APPEND));
}

static void open_database(const char *path) {
    must(mdb_env_create(&env));
    must(mdb_env_set_mapsize(env, 1UL << 32));
    must(mdb_env_set_maxdbs(env, 2));
    must(mdb_env_open(env, path, MDB_NOSUBDIR, 0644));
}

static int look_again(const char *path) {
    open_database(path);
    must(mdb_txn_begin(env, 0, MDB_RDONLY, &txn));
    must(mdb_dbi_open(txn, "accts", 0, &accts));
    MDB_cursor *cursor;
    MDB_val key, value;
    long long balance;
    must(mdb_cursor_open(txn, accts, &cursor));
    must(mdb_cursor_get(cursor, &key, &value, MDB_FIRST));
    memcpy(&balance, value.mv_data, sizeof balance);
    printf("%lld\n", balance);
    return 0;
}

int main(int count, char **words) {
    if (count == 3 && !strcmp(words[1], "--open")) return look_again(words[2]);
    if (count != 5) return 2;
    int group = atoi(words[2]), waiting = 0;
    open_database(words[3]);
    load(words[1]);
    char line[4096], reply[64], account[64], terminal[16], script[16];
    FILE *out = fopen(words[4], "w"), *file = opened(words[1], "messages.txt");
    char *replies = malloc(1 << 20);
    size_t length = 0, place = 0;
    MDB_cursor *accounts = 0, *journal = 0;
    while (fgets(line, sizeof line, file)) {
        line[strcspn(line, "\n")] = 0;
        char *rest = line;
        int used;
        long long amount = 0;
        sscanf(rest, "%15s %n", terminal, &used);
        rest += used;
        if (*rest >= '0' && *rest <= '9') rest = strchr(rest, ' ') + 1;
        sscanf(rest, "%15s %63s %lld", script, account, &amount);
        if (!waiting) {
            must(mdb_txn_begin(env, 0, 0, &txn));
            must(mdb_cursor_open(txn, accts, &accounts));
            must(mdb_cursor_open(txn, entries, &journal));
        }
        run(accounts, script, account, amount, reply);
        keep(journal, place++, line, reply);
        length += (size_t)sprintf(replies + length, "%s %s\n", terminal, reply);
        if (++waiting == group || length > (1 << 19)) {
            must(mdb_txn_commit(txn));
            fwrite(replies, 1, length, out);
            fflush(out);
            length = 0;
            waiting = 0;
        }
    }
    if (waiting) must(mdb_txn_commit(txn));
    fwrite(replies, 1, length, out);
    fclose(out);
    mdb_env_close(env);
    return 0;
}
