// The work of `work` on LMDB, each commit synced: work FILE RECORDS. It makes the file, plays the workload of
// docs/FORMATS.md on it, and prints the line that the program prints. People are kept in one tree by their
// number. Two trees without data have a pair for each person: of the pay and the number, and of the department
// and the number. One more has the department of each person.
#include <lmdb.h>
#include <stdio.h>
#include <stdlib.h>
#include <string.h>

enum { DEPARTMENTS = 10, GROUP = 20, MOST_MEMBERS = 500, RAISED = 1500 };

struct person {
    long long pay;
    char name[25], room[9];
};

// Two numbers that are compared one after the other, as bytes from the highest on.
struct pair {
    unsigned char first[8], second[8];
};

static MDB_env *env;
static MDB_txn *transaction;
static MDB_dbi departments, people, by_pay, members, owners;
static long commits;

static void check(int status)
{
    if (!status)
        return;
    fprintf(stderr, "work: %s\n", mdb_strerror(status));
    exit(1);
}

static void begin(void) { check(mdb_txn_begin(env, NULL, 0, &transaction)); }

static void commit(void)
{
    check(mdb_txn_commit(transaction));
    commits++;
}

static void set_number(unsigned char *bytes, unsigned long long number)
{
    for (int i = 7; i >= 0; i--, number >>= 8)
        bytes[i] = number & 0xff;
}

static struct pair pair_of(unsigned long long first, unsigned long long second)
{
    struct pair pair;
    set_number(pair.first, first);
    set_number(pair.second, second);
    return pair;
}

static void put(MDB_dbi tree, void *key, size_t length, void *data, size_t size, unsigned flags)
{
    MDB_val at = {length, key}, body = {size, data};
    check(mdb_put(transaction, tree, &at, &body, flags));
}

static void put_pair(MDB_dbi tree, unsigned long long first, unsigned long long second)
{
    struct pair pair = pair_of(first, second);
    put(tree, &pair, sizeof pair, NULL, 0, MDB_NOOVERWRITE);
}

static void *get(MDB_dbi tree, unsigned long long number)
{
    MDB_val key = {sizeof number, &number}, data;
    int status = mdb_get(transaction, tree, &key, &data);
    if (status == MDB_NOTFOUND)
        return NULL;
    check(status);
    return data.mv_data;
}

// How many pairs there are with this first number, up to the most; and each person of them is looked up.
static long pairs_with(MDB_dbi tree, unsigned long long first, long most, int look_up)
{
    struct pair from = pair_of(first, 0);
    MDB_val key = {sizeof from, &from}, data;
    MDB_cursor *cursor;
    long count = 0;
    check(mdb_cursor_open(transaction, tree, &cursor));
    for (int status = mdb_cursor_get(cursor, &key, &data, MDB_SET_RANGE); !status && count < most; status = mdb_cursor_get(cursor, &key, &data, MDB_NEXT)) {
        const struct pair *found = key.mv_data;
        if (memcmp(found->first, from.first, sizeof from.first))
            break;
        if (look_up) {
            unsigned long long number = 0;
            for (int i = 0; i < 8; i++)
                number = number << 8 | found->second[i];
            if (!get(people, number))
                check(MDB_CORRUPTED);
        }
        count++;
    }
    mdb_cursor_close(cursor);
    return count;
}

static void insert(unsigned long long number)
{
    struct person person = {.pay = 1000 + (long long)(37 * number % 100)};
    snprintf(person.name, sizeof person.name, "emp %llu", number);
    snprintf(person.room, sizeof person.room, "%s", number % 2 ? "r7" : "");
    put(people, &number, sizeof number, &person, sizeof person, MDB_NOOVERWRITE);
    put_pair(by_pay, (unsigned long long)person.pay, number);
}

static void join(unsigned long long number)
{
    unsigned long long department = number % DEPARTMENTS;
    if (!get(departments, department) || !get(people, number) || get(owners, number))
        return;
    if (pairs_with(members, department, MOST_MEMBERS, 0) >= MOST_MEMBERS)
        return;
    put_pair(members, department, number);
    put(owners, &number, sizeof number, &department, sizeof department, MDB_NOOVERWRITE);
}

static void raise(unsigned long long number)
{
    struct person person = *(struct person *)get(people, number);
    struct pair old = pair_of((unsigned long long)person.pay, number);
    MDB_val key = {sizeof old, &old};
    check(mdb_del(transaction, by_pay, &key, NULL));
    person.pay = RAISED;
    put(people, &number, sizeof number, &person, sizeof person, 0);
    put_pair(by_pay, RAISED, number);
}

static void open_trees(const char *path)
{
    check(mdb_env_create(&env));
    check(mdb_env_set_mapsize(env, (size_t)1 << 30));
    check(mdb_env_set_maxdbs(env, 5));
    check(mdb_env_open(env, path, MDB_NOSUBDIR, 0644));
    begin();
    check(mdb_dbi_open(transaction, "departments", MDB_INTEGERKEY | MDB_CREATE, &departments));
    check(mdb_dbi_open(transaction, "people", MDB_INTEGERKEY | MDB_CREATE, &people));
    check(mdb_dbi_open(transaction, "owners", MDB_INTEGERKEY | MDB_CREATE, &owners));
    check(mdb_dbi_open(transaction, "by pay", MDB_CREATE, &by_pay));
    check(mdb_dbi_open(transaction, "members", MDB_CREATE, &members));
    check(mdb_txn_commit(transaction));
}

int main(int count, char **words)
{
    if (count != 3)
        return 2;
    unsigned long long records = strtoull(words[2], NULL, 10);
    open_trees(words[1]);
    begin();
    for (unsigned long long number = 0; number < DEPARTMENTS; number++) {
        char name[13];
        snprintf(name, sizeof name, "dept %llu", number);
        put(departments, &number, sizeof number, name, sizeof name, MDB_NOOVERWRITE);
    }
    commit();
    for (unsigned long long first = 1; first <= records; first += GROUP) {
        begin();
        for (unsigned long long number = first; number < first + GROUP && number <= records; number++) {
            insert(number);
            join(number);
        }
        commit();
    }
    begin();
    for (unsigned long long number = 3; number <= records; number += 3)
        raise(number);
    commit();
    check(mdb_txn_begin(env, NULL, MDB_RDONLY, &transaction));
    long raised = pairs_with(by_pay, RAISED, (long)records, 1), joined = pairs_with(members, 3, MOST_MEMBERS, 1);
    mdb_txn_abort(transaction);
    printf("work: %llu records, %ld by pay, %ld by link, %ld commits\n", records, raised, joined, commits);
    mdb_env_close(env);
    return 0;
}
