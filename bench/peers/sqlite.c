// SQLite with prepared statements. The mode is the journal's: `memory`, `delete` or `wal`; but for the
// first each commit is synced (synchronous=FULL). Where PEER_INDEX is set there is an index on the quantity.
#include "peer.h"
#include <sqlite3.h>
#include <stdio.h>
#include <stdlib.h>
#include <string.h>

static sqlite3 *base;
static sqlite3_stmt *begin, *commit, *abort_, *insert, *get, *update, *delete_, *insert_note, *get_note;

static void run(const char *sql)
{
    if (sqlite3_exec(base, sql, NULL, NULL, NULL) != SQLITE_OK)
        fail(sqlite3_errmsg(base));
}

static sqlite3_stmt *prepared(const char *sql)
{
    sqlite3_stmt *made;
    if (sqlite3_prepare_v3(base, sql, -1, SQLITE_PREPARE_PERSISTENT, &made, NULL) != SQLITE_OK)
        fail(sqlite3_errmsg(base));
    return made;
}

void peer_open(const char *path, const char *mode)
{
    if (sqlite3_open(path, &base) != SQLITE_OK)
        fail(sqlite3_errmsg(base));
    char sql[64];
    snprintf(sql, sizeof sql, "pragma journal_mode=%s", mode);
    run(sql);
    run(strcmp(mode, "memory") ? "pragma synchronous=FULL" : "pragma synchronous=OFF");
    run("create table if not exists part (number integer primary key, quantity integer not null, name text not null)");
    run("create table if not exists note (title text primary key, body text not null) without rowid");
    if (getenv("PEER_PAGES")) {
        snprintf(sql, sizeof sql, "pragma cache_size=%d", atoi(getenv("PEER_PAGES")));
        run(sql);
    }
    if (getenv("PEER_INDEX"))
        run("create index if not exists by_quantity on part (quantity)");
    begin = prepared("begin");
    commit = prepared("commit");
    abort_ = prepared("rollback");
    insert = prepared("insert or ignore into part values (?, ?, ?)");
    get = prepared("select number, quantity, name from part where number = ?");
    update = prepared("update part set quantity = ? where number = ?");
    delete_ = prepared("delete from part where number = ?");
    insert_note = prepared("insert or ignore into note values (?, ?)");
    get_note = prepared("select title, body from note where title = ?");
}

void peer_close(void)
{
    sqlite3_stmt *all[] = {begin, commit, abort_, insert, get, update, delete_, insert_note, get_note};
    for (size_t i = 0; i < sizeof all / sizeof *all; i++)
        sqlite3_finalize(all[i]);
    // the statements of finds are the connection's, and go with it
    sqlite3_close_v2(base);
}

// Runs a statement that gives no row.
static void done(sqlite3_stmt *statement)
{
    if (sqlite3_step(statement) != SQLITE_DONE)
        fail(sqlite3_errmsg(base));
    sqlite3_reset(statement);
}

void peer_begin(void) { done(begin); }
void peer_commit(void) { done(commit); }
void peer_abort(void) { done(abort_); }

static bool changed(sqlite3_stmt *statement)
{
    done(statement);
    return sqlite3_changes(base) > 0;
}

bool peer_insert(const struct part *part)
{
    sqlite3_bind_int64(insert, 1, part->number);
    sqlite3_bind_int64(insert, 2, part->quantity);
    sqlite3_bind_text(insert, 3, part->name, -1, SQLITE_STATIC);
    return changed(insert);
}

static void take(sqlite3_stmt *row, struct part *part)
{
    part->number = sqlite3_column_int64(row, 0);
    part->quantity = sqlite3_column_int64(row, 1);
    snprintf(part->name, sizeof part->name, "%s", (const char *)sqlite3_column_text(row, 2));
}

bool peer_get(long long number, struct part *part)
{
    sqlite3_bind_int64(get, 1, number);
    bool is_there = sqlite3_step(get) == SQLITE_ROW;
    if (is_there)
        take(get, part);
    sqlite3_reset(get);
    return is_there;
}

bool peer_update(long long number, long long quantity)
{
    sqlite3_bind_int64(update, 1, quantity);
    sqlite3_bind_int64(update, 2, number);
    return changed(update);
}

bool peer_delete(long long number)
{
    sqlite3_bind_int64(delete_, 1, number);
    return changed(delete_);
}

bool peer_insert_note(const struct note *note)
{
    sqlite3_bind_text(insert_note, 1, note->title, -1, SQLITE_STATIC);
    sqlite3_bind_text(insert_note, 2, note->body, -1, SQLITE_STATIC);
    return changed(insert_note);
}

bool peer_get_note(const char *title, struct note *note)
{
    sqlite3_bind_text(get_note, 1, title, -1, SQLITE_STATIC);
    bool is_there = sqlite3_step(get_note) == SQLITE_ROW;
    if (is_there) {
        snprintf(note->title, sizeof note->title, "%s", (const char *)sqlite3_column_text(get_note, 0));
        snprintf(note->body, sizeof note->body, "%s", (const char *)sqlite3_column_text(get_note, 1));
    }
    sqlite3_reset(get_note);
    return is_there;
}

// The statement of such a find is made once.
static sqlite3_stmt *find(const char *sql)
{
    static struct { char sql[256]; sqlite3_stmt *statement; } made[16];
    for (size_t i = 0; i < sizeof made / sizeof *made; i++) {
        if (!made[i].statement) {
            snprintf(made[i].sql, sizeof made[i].sql, "%s", sql);
            made[i].statement = prepared(sql);
        }
        if (!strcmp(made[i].sql, sql))
            return made[i].statement;
    }
    fail("too many forms of finds");
    return NULL;
}

void peer_find(const struct condition *conditions, size_t count, bool by_name, void (*each)(const struct part *))
{
    static const char *const fields[] = {"number", "quantity"}, *const operators[] = {"=", "<>", "<", "<=", ">", ">="};
    char sql[256] = "select number, quantity, name from part";
    for (size_t i = 0; i < count; i++) {
        size_t at = strlen(sql);
        snprintf(sql + at, sizeof sql - at, " %s %s %s ?", i ? "and" : "where", fields[conditions[i].field], operators[conditions[i].operator]);
    }
    strcat(sql, by_name ? " order by name, number" : " order by number");
    sqlite3_stmt *statement = find(sql);
    for (size_t i = 0; i < count; i++)
        sqlite3_bind_int64(statement, (int)i + 1, conditions[i].value);
    struct part part;
    while (sqlite3_step(statement) == SQLITE_ROW) {
        take(statement, &part);
        each(&part);
    }
    sqlite3_reset(statement);
}
