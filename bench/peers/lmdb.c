// LMDB: one tree from numbers to the other fields, and one from titles to bodies. The mode is `sync`, or `nosync` where no commit is
// synced. Outside a transaction each get and find reads in one of its own.
#include "peer.h"
#include <lmdb.h>
#include <stdlib.h>
#include <string.h>

struct body {
    long long quantity;
    char name[21];
};

static MDB_env *env;
static MDB_dbi tree, notes;
static MDB_txn *open_, *reading;

static void check(int status)
{
    if (status)
        fail(mdb_strerror(status));
}

void peer_open(const char *path, const char *mode)
{
    check(mdb_env_create(&env));
    check(mdb_env_set_mapsize(env, (size_t)1 << 32));
    check(mdb_env_set_maxdbs(env, 2));
    check(mdb_env_open(env, path, MDB_NOSUBDIR | (strcmp(mode, "nosync") ? 0 : MDB_NOSYNC), 0644));
    MDB_txn *made;
    check(mdb_txn_begin(env, NULL, 0, &made));
    check(mdb_dbi_open(made, "part", MDB_INTEGERKEY | MDB_CREATE, &tree));
    check(mdb_dbi_open(made, "note", MDB_CREATE, &notes));
    check(mdb_txn_commit(made));
    check(mdb_txn_begin(env, NULL, MDB_RDONLY, &reading));
    mdb_txn_reset(reading);
}

void peer_close(void)
{
    mdb_txn_abort(reading);
    mdb_env_close(env);
}

void peer_begin(void) { check(mdb_txn_begin(env, NULL, 0, &open_)); }

void peer_commit(void)
{
    check(mdb_txn_commit(open_));
    open_ = NULL;
}

void peer_abort(void)
{
    mdb_txn_abort(open_);
    open_ = NULL;
}

static MDB_txn *seen(void)
{
    if (open_)
        return open_;
    check(mdb_txn_renew(reading));
    return reading;
}

static void unsee(void)
{
    if (!open_)
        mdb_txn_reset(reading);
}

static MDB_val key_of(const unsigned long long *number)
{
    return (MDB_val){sizeof *number, (void *)number};
}

bool peer_insert(const struct part *part)
{
    unsigned long long number = (unsigned long long)part->number;
    struct body body = {.quantity = part->quantity};
    memcpy(body.name, part->name, sizeof body.name);
    MDB_val key = key_of(&number), data = {sizeof body, &body};
    int status = mdb_put(open_, tree, &key, &data, MDB_NOOVERWRITE);
    if (status != MDB_KEYEXIST)
        check(status);
    return !status;
}

static void take(const MDB_val *key, const MDB_val *data, struct part *part)
{
    struct body body;
    memcpy(&part->number, key->mv_data, sizeof part->number);
    memcpy(&body, data->mv_data, sizeof body);
    part->quantity = body.quantity;
    memcpy(part->name, body.name, sizeof part->name);
}

bool peer_get(long long asked, struct part *part)
{
    unsigned long long number = (unsigned long long)asked;
    MDB_val key = key_of(&number), data;
    int status = mdb_get(seen(), tree, &key, &data);
    if (!status)
        take(&key, &data, part);
    unsee();
    if (status != MDB_NOTFOUND)
        check(status);
    return !status;
}

bool peer_update(long long asked, long long quantity)
{
    struct part part;
    if (!peer_get(asked, &part))
        return false;
    unsigned long long number = (unsigned long long)asked;
    struct body body = {.quantity = quantity};
    memcpy(body.name, part.name, sizeof body.name);
    MDB_val key = key_of(&number), data = {sizeof body, &body};
    check(mdb_put(open_, tree, &key, &data, 0));
    return true;
}

bool peer_delete(long long asked)
{
    unsigned long long number = (unsigned long long)asked;
    MDB_val key = key_of(&number);
    int status = mdb_del(open_, tree, &key, NULL);
    if (status != MDB_NOTFOUND)
        check(status);
    return !status;
}

bool peer_insert_note(const struct note *note)
{
    MDB_val key = {strlen(note->title), (void *)note->title}, data = {strlen(note->body), (void *)note->body};
    int status = mdb_put(open_, notes, &key, &data, MDB_NOOVERWRITE);
    if (status != MDB_KEYEXIST)
        check(status);
    return !status;
}

bool peer_get_note(const char *title, struct note *note)
{
    MDB_val key = {strlen(title), (void *)title}, data;
    int status = mdb_get(seen(), notes, &key, &data);
    if (!status) {
        strcpy(note->title, title);
        memcpy(note->body, data.mv_data, data.mv_size);
        note->body[data.mv_size] = 0;
    }
    unsee();
    if (status != MDB_NOTFOUND)
        check(status);
    return !status;
}

static bool meets(const struct part *part, const struct condition *condition)
{
    long long value = condition->field == NUMBER ? part->number : part->quantity;
    switch (condition->operator) {
    case EQUAL: return value == condition->value;
    case OTHER: return value != condition->value;
    case LESS: return value < condition->value;
    case AT_MOST: return value <= condition->value;
    case MORE: return value > condition->value;
    default: return value >= condition->value;
    }
}

// The least number that the conditions allow, and the greatest.
static void bounds(const struct condition *conditions, size_t count, unsigned long long *least, unsigned long long *most)
{
    *least = 0;
    *most = -1ull;
    for (size_t i = 0; i < count; i++) {
        unsigned long long value = (unsigned long long)conditions[i].value;
        if (conditions[i].field != NUMBER)
            continue;
        switch (conditions[i].operator) {
        case EQUAL: *least = *most = value; break;
        case LESS: *most = value - 1; break;
        case AT_MOST: *most = value; break;
        case MORE: *least = value + 1; break;
        case AT_LEAST: *least = value; break;
        default: break;
        }
    }
}

static int by_names(const void *a, const void *b)
{
    const struct part *one = a, *other = b;
    int order = strcmp(one->name, other->name);
    return order ? order : (one->number > other->number) - (one->number < other->number);
}

void peer_find(const struct condition *conditions, size_t count, bool by_name, void (*each)(const struct part *))
{
    static struct part *parts;
    static size_t room;
    size_t length = 0;
    unsigned long long number, most;
    bounds(conditions, count, &number, &most);
    MDB_cursor *cursor;
    check(mdb_cursor_open(seen(), tree, &cursor));
    MDB_val key = key_of(&number), data;
    for (int status = mdb_cursor_get(cursor, &key, &data, MDB_SET_RANGE); !status; status = mdb_cursor_get(cursor, &key, &data, MDB_NEXT)) {
        struct part part;
        take(&key, &data, &part);
        if ((unsigned long long)part.number > most)
            break;
        bool is_meant = true;
        for (size_t i = 0; i < count && is_meant; i++)
            is_meant = meets(&part, &conditions[i]);
        if (!is_meant)
            continue;
        if (!by_name) {
            each(&part);
            continue;
        }
        if (length == room && !(parts = realloc(parts, (room = 2 * room + 64) * sizeof *parts)))
            fail("no memory");
        parts[length++] = part;
    }
    mdb_cursor_close(cursor);
    unsee();
    if (by_name && length)
        qsort(parts, length, sizeof *parts, by_names);
    for (size_t i = 0; i < length; i++)
        each(&parts[i]);
}
