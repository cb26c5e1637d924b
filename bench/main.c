/* Times every call on every table of a folder, in touches of that table, and against the plain C referee.
 *
 * One touch is one reading of each byte of the table. All is timed in one run of one program, so that an emulator, if
 * there is one, slows down all of it alike. */
#define _POSIX_C_SOURCE 200809L /* clock_gettime */
#include "plain.h"

#include <stdbool.h>
#include <stdio.h>
#include <stdlib.h>
#include <string.h>
#include <time.h>

#ifdef WITH_LIBRARY
#include "embalume.h"
#endif

enum { MOST_BYTES = 65535, ROOM = 1024, MOST_NAME = 40, MOST_PATH = 600, MOST_TIMES = 4096 };

/* The calls of one referee, all in the form of plain.h. */
struct referee {
    plain_answer (*check)(const uint8_t *, size_t);
    plain_answer (*claim)(const uint8_t *, size_t);
    plain_answer (*open)(const uint8_t *, size_t, uint8_t *);
    plain_answer (*offer)(const uint8_t *, size_t, uint8_t *, uint16_t, uint16_t);
    plain_answer (*play)(const uint8_t *, size_t, uint8_t *);
    plain_answer (*message)(const uint8_t *, size_t, const uint8_t *, uint16_t, uint8_t *, size_t);
    plain_answer (*hidden)(const uint8_t *, size_t, uint16_t, uint16_t, uint16_t);
    plain_answer (*model)(const uint8_t *, size_t, const uint8_t *, const uint8_t *, uint8_t *, size_t);
};

static const struct referee plain = {plain_check, plain_claim,   plain_open,   plain_offer,
                                     plain_play,  plain_message, plain_hidden, plain_model};

#ifdef WITH_LIBRARY

static plain_answer packed(struct embalume_answer a) { return a.number | a.place << 16 | a.value << 32; }

static plain_answer library_check(const uint8_t *table, size_t length) { return packed(embalume_check(table, length)); }

static plain_answer library_claim(const uint8_t *table, size_t length) { return packed(embalume_claim(table, length)); }

static plain_answer library_open(const uint8_t *table, size_t length, uint8_t *record)
{
    return packed(embalume_open(table, length, record, PLAIN_RECORD_BYTES));
}

static plain_answer library_offer(const uint8_t *table, size_t length, uint8_t *record, uint16_t seat, uint16_t move)
{
    return packed(embalume_offer(table, length, record, PLAIN_RECORD_BYTES, seat, move));
}

static plain_answer library_play(const uint8_t *table, size_t length, uint8_t *record)
{
    return packed(embalume_play(table, length, record, PLAIN_RECORD_BYTES));
}

static plain_answer library_message(const uint8_t *table, size_t length, const uint8_t *record, uint16_t seat,
                                    uint8_t *room, size_t room_length)
{
    return packed(embalume_message(table, length, record, PLAIN_RECORD_BYTES, seat, room, room_length));
}

static plain_answer library_hidden(const uint8_t *table, size_t length, uint16_t asking, uint16_t moving, uint16_t move)
{
    return packed(embalume_hidden(table, length, asking, moving, move));
}

static plain_answer library_model(const uint8_t *table, size_t length, const uint8_t *position, const uint8_t *choices,
                                  uint8_t *room, size_t room_length)
{
    return packed(embalume_model(table, length, position, PLAIN_POSITION_BYTES, choices, PLAIN_CHOICE_BYTES, room, room_length));
}

static const struct referee proved = {library_check, library_claim,   library_open,   library_offer,
                                      library_play,  library_message, library_hidden, library_model};
static const struct referee *const library = &proved;

#else

static const struct referee *const library = NULL;

#endif

/* COPY is no call: it is what the bench itself does before each offer and play, and is taken off their times. */
enum call { CHECK, CLAIM, OPEN, OFFER, PLAY, MESSAGE, HIDDEN, MODEL, CALLS, COPY };

static const char *const call_names[CALLS] = {"check", "claim", "open", "offer", "play", "message", "hidden", "model"};

/* A table with what its calls are asked: the opened record, the record with every seat's choice, a seat and its move. */
struct job {
    char group[MOST_NAME], name[MOST_NAME];
    unsigned literals;
    uint8_t table[MOST_BYTES + 1];
    size_t length;
    uint8_t opened[PLAIN_RECORD_BYTES], chosen[PLAIN_RECORD_BYTES];
    uint16_t last_seat, first_move, last_move;
    uint8_t record[PLAIN_RECORD_BYTES], room[ROOM];
};

/* One call. Offer and play write their record, so each turn begins with a copy of it. */
static plain_answer call_once(const struct referee *r, struct job *j, enum call call)
{
    const uint8_t *choices = j->chosen + PLAIN_POSITION_BYTES;
    switch (call) {
    case CHECK:
        return r->check(j->table, j->length);
    case CLAIM:
        return r->claim(j->table, j->length);
    case OPEN:
        return r->open(j->table, j->length, j->record);
    case OFFER:
        memcpy(j->record, j->opened, sizeof j->record);
        return r->offer(j->table, j->length, j->record, 0, j->first_move);
    case PLAY:
        memcpy(j->record, j->chosen, sizeof j->record);
        return r->play(j->table, j->length, j->record);
    case MESSAGE:
        return r->message(j->table, j->length, j->opened, 0, j->room, sizeof j->room);
    case HIDDEN:
        return r->hidden(j->table, j->length, 0, j->last_seat, j->last_move);
    case COPY:
        memcpy(j->record, j->chosen, sizeof j->record);
        return 0;
    default:
        return r->model(j->table, j->length, j->opened, choices, j->room, sizeof j->room);
    }
}

/* Reads each byte once, one turn of the loop for each. The bytes are volatile, so that a compiler must read them one by one,
 * in order, and can neither widen the loop nor leave it out; and it is told not to lay several turns out in a row, which
 * would make the unit of all figures three times smaller with one compiler than with another. */
#ifdef __clang__
#define ONE_TURN_EACH _Pragma("clang loop unroll(disable) vectorize(disable)")
#define COMPILER __VERSION__
#else
#define ONE_TURN_EACH _Pragma("GCC unroll 1")
#define COMPILER "gcc " __VERSION__
#endif

static unsigned touch(const uint8_t *table, size_t length)
{
    const volatile uint8_t *bytes = table;
    unsigned sum = 0;
    ONE_TURN_EACH
    for (size_t i = 0; i < length; i++)
        sum += bytes[i];
    return sum;
}

/* ------------------------------------------------------------------- timing */

static volatile unsigned sink;

/* The processor time of this program, so that other programs on the machine count as little as can be. */
static double now(void)
{
    struct timespec t;
    clock_gettime(CLOCK_PROCESS_CPUTIME_ID, &t);
    return (double)t.tv_sec + (double)t.tv_nsec * 1e-9;
}

/* The time of so many turns of a call, or of touches where no referee is given. */
static double time_turns(const struct referee *r, struct job *j, enum call call, unsigned turns)
{
    double started = now();
    for (unsigned i = 0; i < turns; i++)
        sink = r ? plain_number(call_once(r, j, call)) : touch(j->table, j->length);
    return now() - started;
}

/* The same with the call's own arrays so many bytes further down. Where they stand against the table and one another in the
 * processor's cache can change the time of the same instructions by a fifth. */
static double time_deeper(const struct referee *r, struct job *j, enum call call, unsigned turns, size_t bytes)
{
    volatile uint8_t above[bytes + 1];
    above[bytes] = 0;
    return time_turns(r, j, call, turns) + above[bytes];
}

/* The times of earlier runs, which were the same bench with its code at other places, in the order in which they are taken; and how
 * many were taken in this run. Where a loop lies across the end of a page an emulator takes up to half as long again for it. */
static struct {
    double seconds[MOST_TIMES];
    unsigned known, taken;
} least;

/* A time, or the best of earlier runs for it. */
static double least_so_far(double seconds)
{
    if (least.taken == MOST_TIMES)
        return seconds;
    double *kept = &least.seconds[least.taken];
    if (least.taken >= least.known || seconds < *kept)
        *kept = seconds;
    least.taken++;
    return *kept;
}

/* Reads or writes these times. */
static void keep_least(const char *folder, const char *mode)
{
    char path[MOST_PATH];
    snprintf(path, sizeof path, "%s/least.txt", folder);
    FILE *file = fopen(path, mode);
    if (!file)
        return;
    if (*mode == 'r')
        while (least.known < MOST_TIMES && fscanf(file, "%lf", &least.seconds[least.known]) == 1)
            least.known++;
    else
        for (unsigned k = 0; k < least.taken; k++)
            fprintf(file, "%.12g\n", least.seconds[k]);
    fclose(file);
}

/* The time of one turn: the best of some batches, each long enough for the clock and each at another depth. */
static double seconds_of(const struct referee *r, struct job *j, enum call call)
{
    const double batch = 1e-3, slow = 2e-2;
    const size_t step = 17 * 64;
    unsigned turns = 1;
    double taken = time_turns(r, j, call, turns);
    while (taken < batch) {
        turns *= taken < batch / 20 ? 10 : 2;
        taken = time_turns(r, j, call, turns);
    }
    double best = taken;
    for (unsigned left = taken > slow ? 3 : 12; left > 0; left--) {
        taken = time_deeper(r, j, call, turns, left * step);
        best = taken < best ? taken : best;
    }
    return least_so_far(best / turns);
}

/* ------------------------------------------------------------------- tables */

static unsigned read_number(const uint8_t **at)
{
    unsigned value = 0, shift = 0;
    for (; **at >= 0x80; shift += 7)
        value |= (*(*at)++ & 0x7Fu) << shift;
    return value | (unsigned)*(*at)++ << shift;
}

/* The lowest legal move of a seat in the opened record, read from its message, or 0. */
static uint16_t lowest_legal(struct job *j, uint16_t seat)
{
    const uint8_t *at = j->room;
    if (plain_number(plain_message(j->table, j->length, j->opened, seat, j->room, sizeof j->room)) != 0)
        return 0;
    for (unsigned skipped = 0; skipped < 3; skipped++)
        read_number(&at);
    for (unsigned percepts = read_number(&at); percepts > 0; percepts--)
        read_number(&at);
    return read_number(&at) ? (uint16_t)read_number(&at) : 0;
}

/* Opens a session and lets every seat choose, as far as the table allows it. */
static void prepare(struct job *j)
{
    plain_open(j->table, j->length, j->opened);
    memcpy(j->chosen, j->opened, sizeof j->chosen);
    j->first_move = lowest_legal(j, 0);
    j->last_seat = 0;
    j->last_move = j->first_move;
    for (uint16_t seat = 0; seat < 8; seat++) {
        uint16_t move = lowest_legal(j, seat);
        if (plain_number(plain_offer(j->table, j->length, j->chosen, seat, move)) == 0) {
            j->last_seat = seat;
            j->last_move = move;
        }
    }
}

static bool load(struct job *j, const char *folder)
{
    char path[MOST_PATH];
    snprintf(path, sizeof path, "%s/%s.table", folder, j->name);
    FILE *file = fopen(path, "rb");
    if (!file) {
        fprintf(stderr, "bench: cannot read %s\n", path);
        return false;
    }
    j->length = fread(j->table, 1, sizeof j->table, file);
    fclose(file);
    prepare(j);
    return true;
}

/* ------------------------------------------------------------------ answers */

/* What a call gave back: its answer, the record and the room. */
struct outcome {
    plain_answer answer;
    uint8_t record[PLAIN_RECORD_BYTES], room[ROOM];
};

static void observe(const struct referee *r, struct job *j, enum call call, struct outcome *o)
{
    memset(j->record, 0xA5, sizeof j->record);
    memset(j->room, 0xA5, sizeof j->room);
    o->answer = call_once(r, j, call);
    memcpy(o->record, j->record, sizeof o->record);
    memcpy(o->room, j->room, sizeof o->room);
}

static unsigned differences;

/* Whether a referee gave what the first one did, to the last byte: times of calls that do different things say little. */
static void compare(const struct job *j, enum call call, const struct outcome *a, const struct outcome *b)
{
    const bool same_record = memcmp(a->record, b->record, sizeof a->record) == 0;
    const bool same_room = memcmp(a->room, b->room, sizeof a->room) == 0;
    if (a->answer == b->answer && same_record && same_room)
        return;
    differences++;
    fprintf(stderr, "bench: %s on %s: %u %u %u and %u %u %u, the record is %s, the room is %s\n", call_names[call], j->name,
            plain_number(a->answer), plain_place(a->answer), plain_value(a->answer), plain_number(b->answer),
            plain_place(b->answer), plain_value(b->answer), same_record ? "the same" : "ANOTHER", same_room ? "the same" : "ANOTHER");
}

/* ------------------------------------------------------------------- report */

/* The dearest call of a group of tables. */
struct worst {
    double touches, ratio;
    char touches_at[2 * MOST_NAME], ratio_at[2 * MOST_NAME];
};

enum group { SAMPLE, RANDOM, ACCEPTED, REFUSED, GROUPS };

static const char *const group_names[GROUPS] = {"sample games", "random tables", "hostile, accepted", "hostile, refused"};
static const double aims[GROUPS] = {100, 100, 1500, 4000};
static struct worst worsts[GROUPS];
static double nanoseconds_a_byte;

/* Below so many touches of the plain C a ratio says more about the bench's own steps than about the call. */
static const double LEAST = 0.1;

static void note(struct worst *w, const struct job *j, enum call call, double touches, double ratio)
{
    if (touches > w->touches) {
        w->touches = touches;
        snprintf(w->touches_at, sizeof w->touches_at, "%s %s", call_names[call], j->name);
    }
    if (ratio > w->ratio) {
        w->ratio = ratio;
        snprintf(w->ratio_at, sizeof w->ratio_at, "%s %s", call_names[call], j->name);
    }
}

static enum group group_of(const struct job *j, unsigned check_number)
{
    if (strcmp(j->group, "hostile") != 0)
        return strcmp(j->group, "random") == 0 ? RANDOM : SAMPLE;
    return check_number ? REFUSED : ACCEPTED;
}

/* What a table's figures are counted in, and what is taken off its offers and plays. */
struct scale {
    double touch, copy;
    enum plain_method rival;
    enum group group;
};

/* The touches of one call, at least none: a copy may take longer by chance than a call that is refused at once. */
static double touches_of(const struct referee *r, struct job *j, enum call call, const struct scale *s)
{
    double seconds = seconds_of(r, j, call) - (call == OFFER || call == PLAY ? s->copy : 0);
    return seconds > 0 ? seconds / s->touch : 0;
}

/* Times one call three ways and prints its row. */
static void bench_call(struct job *j, enum call call, const struct scale *s)
{
    struct outcome outcomes[3];
    double touches[3];
    for (unsigned method = PLAIN_PASSES; method <= PLAIN_LINEAR; method++) {
        plain_use((enum plain_method)method);
        observe(&plain, j, call, &outcomes[method]);
        touches[method] = touches_of(&plain, j, call, s);
    }
    compare(j, call, &outcomes[0], &outcomes[1]);
    printf("%-8s %-20s %6zu %6u %4u", call_names[call], j->name, j->length, j->literals, plain_number(outcomes[0].answer));
    if (!library) {
        printf(" %9s %9.1f %9.1f %7s\n", "-", touches[0], touches[1], "-");
        note(&worsts[s->group], j, call, touches[s->rival], 0);
        return;
    }
    observe(library, j, call, &outcomes[2]);
    compare(j, call, &outcomes[0], &outcomes[2]);
    touches[2] = touches_of(library, j, call, s);
    printf(" %9.1f %9.1f %9.1f", touches[2], touches[0], touches[1]);
    if (touches[s->rival] >= LEAST)
        printf(" %7.2f\n", touches[2] / touches[s->rival]);
    else
        printf(" %7s\n", "-");
    note(&worsts[s->group], j, call, touches[2], touches[s->rival] >= LEAST ? touches[2] / touches[s->rival] : 0);
}

/* The time of a touch. Under an emulator a loop of few turns comes out several times too slow in some runs, so a short table's
 * touch is at most its share of the touch of a whole room. */
static double touch_seconds(struct job *j)
{
    static struct job room = {.length = MOST_BYTES};
    static double a_byte;
    if (a_byte == 0)
        a_byte = seconds_of(NULL, &room, CHECK) / (double)room.length;
    double own = seconds_of(NULL, j, CHECK), share = a_byte * (double)j->length;
    return own < share ? own : share;
}

static void bench_table(struct job *j, enum plain_method rival)
{
    struct scale s = {touch_seconds(j), seconds_of(&plain, j, COPY), rival,
                      group_of(j, plain_number(plain_check(j->table, j->length)))};
    for (unsigned call = 0; call < CALLS; call++)
        bench_call(j, (enum call)call, &s);
    fflush(stdout);
    nanoseconds_a_byte = 1e9 * s.touch / (double)j->length;
}

static void print_summary(void)
{
    printf("\na touch takes %.2f ns a byte; plain C compiled by %s\n", nanoseconds_a_byte, COMPILER);
    printf("most touches of %s:\n", library ? "the library" : "the plain C referee");
    for (unsigned g = 0; g < GROUPS; g++) {
        printf("  %-18s %8.1f (%s), aim %.0f", group_names[g], worsts[g].touches, worsts[g].touches_at, aims[g]);
        if (library)
            printf("; highest ratio %.2f (%s)", worsts[g].ratio, worsts[g].ratio_at);
        putchar('\n');
    }
}

/* Times the tables that the folder's list names. */
static int bench_folder(const char *folder, enum plain_method rival)
{
    static struct job job;
    char path[MOST_PATH];
    snprintf(path, sizeof path, "%s/tables.txt", folder);
    FILE *list = fopen(path, "r");
    if (!list) {
        fprintf(stderr, "bench: cannot read %s\n", path);
        return 2;
    }
    keep_least(folder, "r");
    printf("%-8s %-20s %6s %6s %4s %9s %9s %9s %7s\n", "call", "table", "bytes", "lits", "no.", "touches", "passes", "linear",
           "ratio");
    while (fscanf(list, "%39s %39s %u", job.group, job.name, &job.literals) == 3) {
        if (!load(&job, folder)) {
            fclose(list);
            return 2;
        }
        bench_table(&job, rival);
    }
    fclose(list);
    keep_least(folder, "w");
    print_summary();
    return differences ? 1 : 0;
}

int main(int argc, char **argv)
{
    if (argc == 3 && strcmp(argv[1], "--linear") == 0)
        return bench_folder(argv[2], PLAIN_LINEAR);
    if (argc == 2 && argv[1][0] != '-')
        return bench_folder(argv[1], PLAIN_PASSES);
    fprintf(stderr, "usage: %s [--linear] FOLDER   (--linear: ratios against levels in linear time)\n", argv[0]);
    return 2;
}
