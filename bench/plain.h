/* The calls of the plain C referee: no proofs, written for speed, to hold the proved calls' times against. */
#ifndef EMBALUME_BENCH_PLAIN_H
#define EMBALUME_BENCH_PLAIN_H

#include <stddef.h>
#include <stdint.h>

/* A record in its byte form: 512 position flags, 8 choices of 16 bits, 2,048 percept flags, the round in 32 bits. */
enum { PLAIN_RECORD_BYTES = 2580, PLAIN_POSITION_BYTES = 512, PLAIN_CHOICE_BYTES = 16 };

/* What a call answers: the number of refusal, 65,536 times the place, and above both the claim, length or hidden answer. */
typedef uint64_t plain_answer;

static inline unsigned plain_number(plain_answer answer) { return answer & 0xFFFF; }
static inline unsigned plain_place(plain_answer answer) { return answer >> 16 & 0xFFFF; }
static inline unsigned plain_value(plain_answer answer) { return (unsigned)(answer >> 32); }

/* How levels, models and hidden moves are found: as the proved referee does it, by passes over the clauses until nothing is new, the levels
 * over the graph's components where a few passes are not enough, and the whole reach of a seat; or always in linear time, over the
 * components, by counts of unmet literals, and backwards from the move to what the seat is told. */
enum plain_method { PLAIN_PASSES, PLAIN_LINEAR };
void plain_use(enum plain_method chosen);

plain_answer plain_check(const uint8_t *table, size_t length);
plain_answer plain_claim(const uint8_t *table, size_t length);

/* Open, offer and play write the record handed back over the one given. */
plain_answer plain_open(const uint8_t *table, size_t length, uint8_t *record);
plain_answer plain_offer(const uint8_t *table, size_t length, uint8_t *record, uint16_t seat, uint16_t move);
plain_answer plain_play(const uint8_t *table, size_t length, uint8_t *record);

plain_answer plain_message(const uint8_t *table, size_t length, const uint8_t *record, uint16_t seat,
                           uint8_t *room, size_t room_length);
plain_answer plain_hidden(const uint8_t *table, size_t length, uint16_t asking, uint16_t moving, uint16_t move);
plain_answer plain_model(const uint8_t *table, size_t length, const uint8_t *position, const uint8_t *choices,
                         uint8_t *room, size_t room_length);

/* How many atoms a table has, once a call has accepted it: so many flags the model call writes. */
unsigned plain_atoms(const uint8_t *table, size_t length);

#endif
