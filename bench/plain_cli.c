/* The line protocol over the plain C referee, so that tests/compare can hold it against the second referee. */
#define _POSIX_C_SOURCE 200809L /* getline */
#include "plain.h"

#include <stdbool.h>
#include <stdio.h>
#include <stdlib.h>
#include <string.h>

enum { MOST_TABLE = 70000, MOST_LINE = 6 + 2 * MOST_TABLE, MOST_WORDS = 5, MOST_NUMBER = 65535, USUAL_ROOM = 1024 };

/* A word of a line: its bytes may be any, so it has a length and no end mark. */
struct word {
    const char *at;
    size_t length;
};

static uint8_t table[MOST_TABLE + 1], record[PLAIN_RECORD_BYTES], room[MOST_NUMBER];
static size_t table_length;

static bool fault(const char *what)
{
    printf("error %s\n", what);
    return false;
}

static bool is(struct word w, const char *name)
{
    return w.length == strlen(name) && memcmp(w.at, name, w.length) == 0;
}

static bool read_decimal(struct word w, unsigned *value)
{
    *value = 0;
    for (size_t i = 0; i < w.length; i++) {
        if (w.at[i] < '0' || w.at[i] > '9')
            return fault("not a decimal number");
        *value = 10 * *value + (unsigned)(w.at[i] - '0');
        if (*value > MOST_NUMBER)
            return fault("number over 65535");
    }
    return true;
}

static int digit_of(char c)
{
    if (c >= '0' && c <= '9')
        return c - '0';
    if (c >= 'a' && c <= 'f')
        return c - 'a' + 10;
    return c >= 'A' && c <= 'F' ? c - 'A' + 10 : -1;
}

/* Reads hex that has as many bytes as the caller found it to have. */
static bool read_hex(struct word w, uint8_t *bytes)
{
    if (is(w, "-"))
        return true;
    for (size_t i = 0; i < w.length; i++)
        if (w.length % 2 || digit_of(w.at[i]) < 0)
            return fault("odd or wrong hex");
    for (size_t i = 0; i < w.length; i += 2)
        bytes[i / 2] = (uint8_t)(16 * digit_of(w.at[i]) + digit_of(w.at[i + 1]));
    return true;
}

static size_t hex_bytes(struct word w) { return is(w, "-") ? 0 : w.length / 2; }

static void print_hex(const uint8_t *bytes, size_t length)
{
    if (length == 0)
        putchar('-');
    for (size_t i = 0; i < length; i++) {
        putchar("0123456789abcdef"[bytes[i] / 16]);
        putchar("0123456789abcdef"[bytes[i] % 16]);
    }
    putchar('\n');
}

static void print_refusal(plain_answer a, char end) { printf("%u %u%c", plain_number(a), plain_place(a), end); }

static void take_table(struct word w)
{
    static uint8_t taken[MOST_TABLE + 1];
    if (hex_bytes(w) > MOST_TABLE)
        fault("table over 70000 bytes");
    else if (read_hex(w, taken)) {
        table_length = hex_bytes(w);
        memcpy(table, taken, table_length);
        printf("ok %zu\n", table_length);
    }
}

static void load_table(struct word w)
{
    static char name[MOST_LINE + 1];
    static uint8_t taken[MOST_TABLE + 1];
    memcpy(name, w.at, w.length);
    name[w.length] = 0;
    FILE *file = memchr(name, 0, w.length) ? NULL : fopen(name, "rb");
    size_t length = file ? fread(taken, 1, sizeof taken, file) : 0;
    bool sound = file && !ferror(file);
    if (file)
        fclose(file);
    if (!sound || length > MOST_TABLE) {
        fault(sound ? "table over 70000 bytes" : "no such file");
        return;
    }
    table_length = length;
    memcpy(table, taken, length);
    printf("ok %zu\n", length);
}

static void say_message(struct word seat_word, const struct word *room_word)
{
    unsigned seat, lent = USUAL_ROOM;
    if (!read_decimal(seat_word, &seat) || (room_word && !read_decimal(*room_word, &lent)))
        return;
    plain_answer a = plain_message(table, table_length, record, (uint16_t)seat, room, lent);
    print_refusal(a, ' ');
    printf("%u ", plain_value(a));
    print_hex(room, plain_value(a));
}

static void say_model(const struct word *words, const struct word *room_word)
{
    uint8_t position[PLAIN_POSITION_BYTES], choices[PLAIN_CHOICE_BYTES];
    unsigned lent = USUAL_ROOM;
    if (hex_bytes(words[0]) != sizeof position || hex_bytes(words[1]) != sizeof choices) {
        fault("position or choices of another length");
        return;
    }
    if (!read_hex(words[0], position) || !read_hex(words[1], choices) || (room_word && !read_decimal(*room_word, &lent)))
        return;
    plain_answer a = plain_model(table, table_length, position, choices, room, lent);
    print_refusal(a, ' ');
    print_hex(room, plain_number(a) ? 0 : plain_atoms(table, table_length));
}

static void say_hidden(const struct word *words)
{
    unsigned asking, moving, move;
    if (!read_decimal(words[0], &asking) || !read_decimal(words[1], &moving) || !read_decimal(words[2], &move))
        return;
    plain_answer a = plain_hidden(table, table_length, (uint16_t)asking, (uint16_t)moving, (uint16_t)move);
    print_refusal(a, ' ');
    printf("%u\n", plain_value(a));
}

static void take_offer(const struct word *words)
{
    unsigned seat, move;
    if (read_decimal(words[0], &seat) && read_decimal(words[1], &move))
        print_refusal(plain_offer(table, table_length, record, (uint16_t)seat, (uint16_t)move), '\n');
}

static void take_record(struct word w)
{
    uint8_t taken[PLAIN_RECORD_BYTES];
    if (hex_bytes(w) != sizeof taken)
        fault("a record has 2580 bytes");
    else if (read_hex(w, taken)) {
        memcpy(record, taken, sizeof taken);
        puts("ok 2580");
    }
}

static void say_claim(void)
{
    plain_answer a = plain_claim(table, table_length);
    print_refusal(a, ' ');
    printf("%u\n", plain_value(a));
}

/* Answers a line of `count` words. */
static void obey(const struct word *w, unsigned count)
{
    if (is(w[0], "table") && count == 2)
        take_table(w[1]);
    else if (is(w[0], "load") && count == 2)
        load_table(w[1]);
    else if (is(w[0], "check") && count == 1)
        print_refusal(plain_check(table, table_length), '\n');
    else if (is(w[0], "claim") && count == 1)
        say_claim();
    else if (is(w[0], "open") && count == 1)
        print_refusal(plain_open(table, table_length, record), '\n');
    else if (is(w[0], "offer") && count == 3)
        take_offer(w + 1);
    else if (is(w[0], "play") && count == 1)
        print_refusal(plain_play(table, table_length, record), '\n');
    else if (is(w[0], "message") && (count == 2 || count == 3))
        say_message(w[1], count == 3 ? &w[2] : NULL);
    else if (is(w[0], "hidden") && count == 4)
        say_hidden(w + 1);
    else if (is(w[0], "model") && (count == 3 || count == 4))
        say_model(w + 1, count == 4 ? &w[3] : NULL);
    else if (is(w[0], "record") && count == 1)
        print_hex(record, sizeof record);
    else if (is(w[0], "record") && count == 2)
        take_record(w[1]);
    else if (is(w[0], "help") && count == 1)
        puts("commands: table HEX, load FILE, check, claim, open, offer SEAT MOVE, play, message SEAT [ROOM], "
             "hidden SEAT SEAT MOVE, model HEX HEX [ROOM], record [HEX], help");
    else
        fault("unknown command, or a missing or extra word");
}

static void answer_line(const char *line, size_t length)
{
    struct word words[MOST_WORDS];
    unsigned count = 0;
    if (length > MOST_LINE) {
        fault("line too long");
        return;
    }
    for (const char *at = line, *end = line + length; count < MOST_WORDS; count++) {
        const char *blank = memchr(at, ' ', (size_t)(end - at));
        words[count] = (struct word){at, (size_t)((blank ? blank : end) - at)};
        if (words[count].length == 0) {
            fault("empty line or extra blank");
            return;
        }
        if (!blank) {
            obey(words, count + 1);
            return;
        }
        at = blank + 1;
    }
    fault("extra word");
}

int main(int argc, char **argv)
{
    char *line = NULL;
    size_t size = 0;
    if (argc == 2 && strcmp(argv[1], "--linear") == 0)
        plain_use(PLAIN_LINEAR);
    else if (argc != 1) {
        fprintf(stderr, "usage: %s [--linear]   (levels in linear time)\n", argv[0]);
        return 2;
    }
    for (ssize_t length; (length = getline(&line, &size, stdin)) >= 0;) {
        answer_line(line, (size_t)length - (length > 0 && line[length - 1] == '\n'));
        fflush(stdout);
    }
    free(line);
    return 0;
}
