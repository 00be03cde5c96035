// Plays a script of paths on SQLite in memory, and says the same bytes: paths <SCRIPT. The files are
// `dept (dno int, dname text 12)`, `emp (eno int, name text 24, pay int)` and
// `task (tno int, title text 12)`, the links `works (dept, emp)` and `does (emp, task)`. A link is a
// table of pairs with an index on each column. A path is one prepared `select distinct`.
#include <sqlite3.h>
#include <stdbool.h>
#include <stdio.h>
#include <stdlib.h>
#include <string.h>

enum { MOST_WORDS = 64, MOST_STATEMENTS = 32, SQL = 2048 };

struct file { const char *name, *key, *columns[3]; };
struct link { const char *name; const struct file *owner, *member; };

static const struct file files[] = {
    {"dept", "dno", {"dno", "dname", NULL}},
    {"emp", "eno", {"eno", "name", "pay"}},
    {"task", "tno", {"tno", "title", NULL}},
};
static const struct link links[] = {{"works", &files[0], &files[1]}, {"does", &files[1], &files[2]}};
static const char *const tables =
    "create table dept (dno integer primary key, dname text not null);"
    "create table emp (eno integer primary key, name text not null, pay integer not null);"
    "create table task (tno integer primary key, title text not null);"
    "create table works (owner integer not null, member integer not null);"
    "create table does (owner integer not null, member integer not null);"
    "create index works_owner on works (owner); create index works_member on works (member);"
    "create index does_owner on does (owner); create index does_member on does (member);";

static sqlite3 *base;
static char *words[MOST_WORDS];
static size_t count;
static long long commits;

static void fail(const char *what)
{
    fprintf(stderr, "paths: %s\n", what);
    exit(1);
}

static sqlite3_stmt *prepared(const char *sql)
{
    static struct { char sql[SQL]; sqlite3_stmt *statement; } made[MOST_STATEMENTS];
    for (size_t i = 0; i < MOST_STATEMENTS; i++) {
        if (!made[i].statement) {
            strcpy(made[i].sql, sql);
            if (sqlite3_prepare_v3(base, sql, -1, SQLITE_PREPARE_PERSISTENT, &made[i].statement, NULL) != SQLITE_OK)
                fail(sqlite3_errmsg(base));
        }
        if (!strcmp(made[i].sql, sql))
            return made[i].statement;
    }
    fail("too many forms of lines");
    return NULL;
}

static void bind(sqlite3_stmt *statement, int at, char *word)
{
    size_t length = strlen(word);
    if (word[0] == '"')
        sqlite3_bind_text(statement, at, word + 1, (int)length - 2, SQLITE_STATIC);
    else
        sqlite3_bind_int64(statement, at, strtoll(word, NULL, 10));
}

static void done(sqlite3_stmt *statement)
{
    if (sqlite3_step(statement) != SQLITE_DONE)
        fail(sqlite3_errmsg(base));
    sqlite3_reset(statement);
}

static const struct file *file_of(const char *name)
{
    for (size_t i = 0; i < sizeof files / sizeof *files; i++)
        if (!strcmp(files[i].name, name))
            return &files[i];
    fail("another file");
    return NULL;
}

static const struct link *link_of(const char *name)
{
    for (size_t i = 0; i < sizeof links / sizeof *links; i++)
        if (!strcmp(links[i].name, name))
            return &links[i];
    fail("another link");
    return NULL;
}

static void add(char *sql, const char *form, size_t at, const char *one, const char *two)
{
    char part[256];
    snprintf(part, sizeof part, form, at, one, two);
    strcat(sql, part);
}

// An insert or a connect: all words behind the second one are values.
static void edit(void)
{
    char sql[SQL] = "insert into ";
    strcat(sql, words[1]);
    for (size_t i = 2; i < count; i++)
        strcat(sql, i == 2 ? " values (?" : ", ?");
    sqlite3_stmt *statement = prepared(strcat(sql, ")"));
    for (size_t i = 2; i < count; i++)
        bind(statement, (int)i - 1, words[i]);
    done(statement);
    puts("ok");
}

static void say(sqlite3_stmt *statement, const struct file *file)
{
    size_t found = 0;
    for (; sqlite3_step(statement) == SQLITE_ROW; found++) {
        fputs(file->name, stdout);
        for (int i = 0; i < sqlite3_column_count(statement); i++) {
            bool is_text = sqlite3_column_type(statement, i) == SQLITE_TEXT;
            printf(is_text ? " \"%s\"" : " %s", (const char *)sqlite3_column_text(statement, i));
        }
        putchar('\n');
    }
    sqlite3_reset(statement);
    printf("found %zu\n", found);
}

static void path(void)
{
    char from[SQL] = "", where[SQL] = "", sql[SQL] = "select distinct ";
    const struct file *file = file_of(words[1]);
    char *values[MOST_WORDS];
    size_t at = 0, bound = 0;
    add(from, " from %2$s t%1$zu", at, file->name, "");
    for (size_t i = 2; i < count;) {
        if (!strcmp(words[i], "where") || !strcmp(words[i], "and")) {
            strcat(where, *where ? " and " : " where ");
            add(where, "t%zu.%s %s ?", at, words[i + 1], words[i + 2]);
            values[bound++] = words[i + 3];
            i += 4;
            continue;
        }
        bool is_down = !strcmp(words[i], "down");
        const struct link *link = link_of(words[i + 1]);
        add(from, " join %2$s l%1$zu on l%1$zu.%3$s = ", at, link->name, is_down ? "owner" : "member");
        add(from, "t%zu.%s", at, file->key, "");
        file = is_down ? link->member : link->owner;
        add(from, " join %2$s t%1$zu on t%1$zu.%3$s = ", at + 1, file->name, file->key);
        add(from, "l%zu.%s", at, is_down ? "member" : "owner", "");
        at++;
        i += 2;
    }
    for (size_t i = 0; i < 3 && file->columns[i]; i++)
        add(sql, i ? ", t%zu.%s" : "t%zu.%s", at, file->columns[i], "");
    strcat(strcat(sql, from), where);
    add(sql, " order by t%zu.%s", at, file->key, "");
    sqlite3_stmt *statement = prepared(sql);
    for (size_t i = 0; i < bound; i++)
        bind(statement, (int)i + 1, values[i]);
    say(statement, file);
}

static void play(void)
{
    if (!strcmp(words[0], "begin")) {
        done(prepared("begin"));
        puts("begun");
    } else if (!strcmp(words[0], "commit")) {
        done(prepared("commit"));
        printf("committed %lld\n", ++commits);
    } else if (!strcmp(words[0], "insert") || !strcmp(words[0], "connect")) {
        edit();
    } else if (!strcmp(words[0], "path")) {
        path();
    } else {
        fail("another command");
    }
}

int main(void)
{
    char *line = NULL;
    size_t room = 0;
    if (sqlite3_open(":memory:", &base) != SQLITE_OK || sqlite3_exec(base, tables, NULL, NULL, NULL) != SQLITE_OK)
        fail(sqlite3_errmsg(base));
    while (getline(&line, &room, stdin) > 0) {
        count = 0;
        for (char *word = strtok(line, " \n"); word && count < MOST_WORDS; word = strtok(NULL, " \n"))
            words[count++] = word;
        if (count)
            play();
    }
    free(line);
    sqlite3_close_v2(base);
    return 0;
}
