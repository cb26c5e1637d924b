/*
 * The calls of the referee for C: numbers and byte slices, the record in its byte form.
 * Link host/out/libhost.a (Linux, x86-64-v2), which host/run builds.
 *
 * A slice is two arguments, a pointer and its number of bytes. What the caller owes, since the library cannot test it:
 * - no pointer is null, also where the number is 0, and each leads to that many bytes;
 * - a slice that is not const overlaps no other slice of the same call.
 * For any such bytes and any numbers a call ends and answers as its promise says (crates/host/specs). It keeps no state, allocates nothing and calls
 * nothing but memcpy and memset, so calls may run at once on several threads, each with its own lent bytes. A call takes up to 256 KiB of stack.
 */
#ifndef EMBALUME_H
#define EMBALUME_H

#include <stddef.h>
#include <stdint.h>

#ifdef __cplusplus
extern "C" {
#endif

/*
 * A record, little endian: 512 flags of the position (fluent f is byte f); 8 choices of 2 bytes (0 for none, else one more than the move); 2,048
 * flags of the last percepts (seat * 256 + percept); the round in 4 bytes. A position and choices handed to embalume_model have the same form.
 */
#define EMBALUME_RECORD_BYTES 2580
#define EMBALUME_POSITION_BYTES 512
#define EMBALUME_CHOICES_BYTES 16

/* Room that a message asks for, and room that is enough for the model of any table. */
#define EMBALUME_MESSAGE_ROOM 1024
#define EMBALUME_MODEL_ROOM 1024

/* The number answered to a record, a position or choices of another length than above. Lengths are tested before the table. */
#define EMBALUME_WRONG_LENGTH 255

/*
 * number: 0 for success, 1 to 22 as README.md lists them, or EMBALUME_WRONG_LENGTH. If it is not 0 the record and lent
 * room are as they were; only a refused open with room for a record has written a blank one (round 0, nothing set or chosen).
 * place: where the refusal stands (a byte of the table, a clause, an atom or a seat), else 0.
 * value: the claim, the length of the message or the hidden answer; 0 on a refusal and for the other calls.
 */
typedef struct embalume_answer {
    uint64_t number;
    uint64_t place;
    uint64_t value;
} embalume_answer;

/* The verdict on a table. */
embalume_answer embalume_check(const uint8_t *table, size_t table_bytes);

/* value: the claim that the table makes. */
embalume_answer embalume_claim(const uint8_t *table, size_t table_bytes);

/* Writes a record at round 0. */
embalume_answer embalume_open(const uint8_t *table, size_t table_bytes, uint8_t *record, size_t record_bytes);

/* Stores a legal move for a seat in the record. A host that holds seats or moves in more than 16 bits tests them before. */
embalume_answer embalume_offer(const uint8_t *table, size_t table_bytes, uint8_t *record, size_t record_bytes, uint16_t seat, uint16_t move);

/* Moves the record on to the next round, once every seat has chosen. Its answer is the host's alone: 20 tells who has not chosen yet. */
embalume_answer embalume_play(const uint8_t *table, size_t table_bytes, uint8_t *record, size_t record_bytes);

/* Writes the message of a seat into the room; value: its length. Bytes after it stay. */
embalume_answer embalume_message(const uint8_t *table, size_t table_bytes, const uint8_t *record, size_t record_bytes, uint16_t seat, uint8_t *room,
                                 size_t room_bytes);

/* value: 1 if the move of the moving seat cannot reach the asking seat, else 0. */
embalume_answer embalume_hidden(const uint8_t *table, size_t table_bytes, uint16_t asking, uint16_t moving, uint16_t move);

/* Writes one flag for each atom, 1 if it is true and else 0, into the first places of the room. Later places stay. */
embalume_answer embalume_model(const uint8_t *table, size_t table_bytes, const uint8_t *position, size_t position_bytes, const uint8_t *choices,
                               size_t choices_bytes, uint8_t *room, size_t room_bytes);

#ifdef __cplusplus
}
#endif

#endif
