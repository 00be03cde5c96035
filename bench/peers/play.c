// Plays a script of the program on a peer, and says the same bytes: PEER PATH MODE <SCRIPT. It knows the
// commands that the benchmarks use, of the files `part (number int, quantity int, name text 20)` and
// `note (title text 40, body text 200)`.
#define _GNU_SOURCE
#include "peer.h"
#include <stdio.h>
#include <stdlib.h>
#include <string.h>

enum { MOST_CONDITIONS = 8 };

void fail(const char *what)
{
    fprintf(stderr, "peer: %s\n", what);
    exit(1);
}

// ---- saying

static void say(const char *text)
{
    fputs_unlocked(text, stdout);
}

static void say_number(long long number)
{
    char digits[24], *at = digits + sizeof digits - 1;
    unsigned long long left = number < 0 ? -(unsigned long long)number : (unsigned long long)number;
    *at = 0;
    do
        *--at = (char)('0' + left % 10);
    while (left /= 10);
    if (number < 0)
        *--at = '-';
    say(at);
}

static size_t found;

static void say_part(const struct part *part)
{
    say("part ");
    say_number(part->number);
    say(" ");
    say_number(part->quantity);
    say(" \"");
    say(part->name);
    say("\"\n");
    found++;
}

// ---- reading a line

static char *rest;

// The next word of the line, or an empty one at its end.
static const char *word(void)
{
    while (*rest == ' ')
        rest++;
    char *begin = rest;
    while (*rest && *rest != ' ')
        rest++;
    if (*rest)
        *rest++ = 0;
    return begin;
}

static long long number(void)
{
    const char *text = word();
    char *end;
    long long value = strtoll(text, &end, 10);
    if (end == text || *end)
        fail("a number is due");
    return value;
}

static void letters(char *into, size_t most)
{
    const char *text = word();
    size_t length = strlen(text);
    if (length < 2 || length > most + 2 || text[0] != '"' || text[length - 1] != '"')
        fail("a text of letters is due");
    memcpy(into, text + 1, length - 2);
    into[length - 2] = 0;
}

static enum operator operator(void)
{
    static const char *const words[] = {"=", "<>", "<", "<=", ">", ">="};
    const char *text = word();
    for (size_t i = 0; i < sizeof words / sizeof *words; i++)
        if (!strcmp(text, words[i]))
            return (enum operator)i;
    fail("an operator is due");
    return EQUAL;
}

static struct condition condition(void)
{
    struct condition made;
    const char *text = word();
    if (strcmp(text, "number") && strcmp(text, "quantity"))
        fail("a condition is on the number or the quantity");
    made.field = strcmp(text, "number") ? QUANTITY : NUMBER;
    made.operator = operator();
    made.value = number();
    return made;
}

// ---- commands

static void find(void)
{
    struct condition conditions[MOST_CONDITIONS];
    size_t count = 0;
    bool by_name = false;
    for (const char *text = word(); *text; text = word()) {
        if (!strcmp(text, "where") || !strcmp(text, "and")) {
            if (count == MOST_CONDITIONS)
                fail("too many conditions");
            conditions[count++] = condition();
        } else if (!strcmp(text, "order") && !strcmp(word(), "name")) {
            by_name = true;
        } else {
            fail("a find is by conditions and a name");
        }
    }
    found = 0;
    peer_find(conditions, count, by_name, say_part);
    say("found ");
    say_number((long long)found);
    say("\n");
}

// A command on notes.
static void play_note(const char *verb)
{
    struct note note;
    letters(note.title, 40);
    if (!strcmp(verb, "insert")) {
        letters(note.body, 200);
        say(peer_insert_note(&note) ? "ok\n" : "refused: key exists\n");
    } else if (!strcmp(verb, "get")) {
        char title[41];
        strcpy(title, note.title);
        if (!peer_get_note(title, &note)) {
            say("none\n");
            return;
        }
        say("note \"");
        say(note.title);
        say("\" \"");
        say(note.body);
        say("\"\n");
    } else {
        fail("another command on notes");
    }
}

static long long commits;

static void play(void)
{
    const char *verb = word();
    if (!strcmp(verb, "begin")) {
        peer_begin();
        say("begun\n");
        return;
    }
    if (!strcmp(verb, "commit")) {
        peer_commit();
        say("committed ");
        say_number(++commits);
        say("\n");
        return;
    }
    if (!strcmp(verb, "abort")) {
        peer_abort();
        say("dropped\n");
        return;
    }
    const char *file = word();
    if (!strcmp(file, "note")) {
        play_note(verb);
        return;
    }
    if (strcmp(file, "part"))
        fail("the file is part or note");
    struct part part;
    if (!strcmp(verb, "find")) {
        find();
    } else if (!strcmp(verb, "insert")) {
        part.number = number();
        part.quantity = number();
        letters(part.name, 20);
        say(peer_insert(&part) ? "ok\n" : "refused: key exists\n");
    } else if (!strcmp(verb, "get")) {
        if (peer_get(number(), &part))
            say_part(&part);
        else
            say("none\n");
    } else if (!strcmp(verb, "update")) {
        part.number = number();
        if (strcmp(word(), "quantity"))
            fail("an update is of the quantity");
        say(peer_update(part.number, number()) ? "ok\n" : "refused: no record\n");
    } else if (!strcmp(verb, "delete")) {
        say(peer_delete(number()) ? "ok\n" : "refused: no record\n");
    } else if (!strcmp(verb, "reorganize")) {
        // The peers keep no order that this would mend.
        say("ok\n");
    } else {
        fail("another command");
    }
}

int main(int count, char **words)
{
    if (count != 3)
        fail("two words are due: a path and a mode");
    static char line[65536], answers[1 << 16];
    setvbuf(stdout, answers, _IOFBF, sizeof answers);
    peer_open(words[1], words[2]);
    while (fgets(line, sizeof line, stdin)) {
        line[strcspn(line, "\n")] = 0;
        rest = line;
        if (*line)
            play();
    }
    peer_close();
    return fflush(stdout) ? 1 : 0;
}
