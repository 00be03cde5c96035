// What a peer does for the player of scripts: the records of two files,
// `part (number int, quantity int, name text 20)`, each found by its number, and
// `note (title text 40, body text 200)`, each found by its title.
#include <stdbool.h>
#include <stddef.h>

struct part {
    long long number, quantity;
    char name[21];
};

struct note {
    char title[41], body[201];
};

enum field { NUMBER, QUANTITY };
enum operator { EQUAL, OTHER, LESS, AT_MOST, MORE, AT_LEAST };

struct condition {
    enum field field;
    enum operator operator;
    long long value;
};

// Opens what is at the path, or makes it. The mode is the peer's own.
void peer_open(const char *path, const char *mode);
void peer_close(void);

void peer_begin(void);
void peer_commit(void);
void peer_abort(void);

// False: there is a record with this number, or none.
bool peer_insert(const struct part *part);
bool peer_get(long long number, struct part *part);
bool peer_update(long long number, long long quantity);
bool peer_delete(long long number);

// The same of notes.
bool peer_insert_note(const struct note *note);
bool peer_get_note(const char *title, struct note *note);

// Hands out the records that meet all conditions, by their number or by their name.
void peer_find(const struct condition *conditions, size_t count, bool by_name, void (*each)(const struct part *));

// Ends the program, with what went wrong.
void fail(const char *what);
