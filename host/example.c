/* Plays a match of the penny game through the C interface, and prints every answer and message. Its argument is the table's file. */
#include "embalume.h"

#include <stdio.h>
#include <string.h>

enum { TABLE_ROOM = 65536, HEADS = 0, TAILS = 1, SEATS = 2 };

static uint8_t table[TABLE_ROOM];
static size_t table_bytes;
static uint8_t record[EMBALUME_RECORD_BYTES];

static void tell(const char *call, embalume_answer answer)
{
    printf("%s: number %llu, place %llu, value %llu\n", call, (unsigned long long)answer.number, (unsigned long long)answer.place,
           (unsigned long long)answer.value);
}

static int read_table(const char *path)
{
    FILE *file = fopen(path, "rb");
    if (file == NULL)
        return 0;
    table_bytes = fread(table, 1, TABLE_ROOM, file);
    int whole = !ferror(file);
    fclose(file);
    return whole;
}

static void offer(uint16_t seat, uint16_t move)
{
    printf("seat %u, move %u: ", (unsigned)seat, (unsigned)move);
    tell("offer", embalume_offer(table, table_bytes, record, sizeof record, seat, move));
}

static void play(void)
{
    uint8_t before[EMBALUME_RECORD_BYTES];
    memcpy(before, record, sizeof record);
    tell("play", embalume_play(table, table_bytes, record, sizeof record));
    printf("the record %s\n", memcmp(before, record, sizeof record) == 0 ? "is as before" : "has moved on");
}

static void read_messages(void)
{
    for (uint16_t seat = 0; seat < SEATS; seat++) {
        uint8_t room[EMBALUME_MESSAGE_ROOM];
        embalume_answer answer = embalume_message(table, table_bytes, record, sizeof record, seat, room, sizeof room);
        printf("seat %u ", (unsigned)seat);
        tell("message", answer);
        for (size_t i = 0; i < answer.value; i++)
            printf(" %02x", room[i]);
        printf("\n");
    }
}

static void tell_true_atoms(void)
{
    uint8_t flags[EMBALUME_MODEL_ROOM] = {0};
    const uint8_t *choices = record + EMBALUME_POSITION_BYTES;
    tell("model", embalume_model(table, table_bytes, record, EMBALUME_POSITION_BYTES, choices, EMBALUME_CHOICES_BYTES, flags, sizeof flags));
    printf("true atoms:");
    for (size_t p = 0; p < sizeof flags; p++)
        if (flags[p] == 1)
            printf(" %zu", p);
    printf("\n");
}

int main(int count, char **words)
{
    if (count != 2 || !read_table(words[1])) {
        fprintf(stderr, "usage: example TABLE\n");
        return 2;
    }
    tell("check", embalume_check(table, table_bytes));
    tell("claim", embalume_claim(table, table_bytes));
    tell("open, room one byte short", embalume_open(table, table_bytes, record, sizeof record - 1));
    tell("open", embalume_open(table, table_bytes, record, sizeof record));
    read_messages();
    offer(0, HEADS);
    play();
    offer(1, HEADS);
    offer(1, TAILS);
    tell_true_atoms();
    play();
    read_messages();
    offer(0, TAILS);
    tell("seat 0's move hidden from seat 1", embalume_hidden(table, table_bytes, 1, 0, HEADS));
    tell("seat 1's move hidden from seat 0", embalume_hidden(table, table_bytes, 0, 1, HEADS));
    return 0;
}
