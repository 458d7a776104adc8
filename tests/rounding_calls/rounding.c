/* The compiled library in five floating-point environments: a host may have left the processor rounding to the nearest, down, up or toward
   zero, or flushing denormals to 0. On legs in whole 64ths nothing is ever rounded (docs/ASSURANCE.md), so every call must put out the same
   bytes in all five, and the processor must never say that a result was inexact. tests/rounding compiles this and runs it:

     rounding same SEED COUNT FILE...   the practice files, files called *.calls, which hold calls of two desks, and so many drawn sessions
     rounding differ                    the example off the grid, in each environment */
#include <fenv.h>
#include <stdbool.h>
#include <stdio.h>
#include <stdlib.h>
#include <string.h>
#include <xmmintrin.h>

#include "baguymo.h"

enum { MODES = 5, NEAREST = 0, DOWN = 1, FLUSHED = 4, LONGEST = 24610, HEAD = 26, BODY = 34, CALLS = 300, ON_FINAL = 11 * 128 };
static const char *const names[MODES] = {"nearest", "down", "up", "toward zero", "denormals flushed"};
static const int directions[MODES] = {FE_TONEAREST, FE_DOWNWARD, FE_UPWARD, FE_TOWARDZERO, FE_TONEAREST};

/* Of the processor's word for floats: both flags that flush denormals, the mark of an inexact result, and all marks. */
#define FLUSHING 0x8040u
#define INEXACT 0x0020u
#define MARKS 0x003fu

/* A call of the host, with its arguments in the order of include/baguymo.h. */
enum what { START, ASK, BACK, PRESS, HOLD_DOWN, SPACING, LIST, FIELD };
struct call {
    enum what what;
    size_t values[5];
    const uint8_t *list;
    size_t length;
};

/* What a call returns and puts out. */
struct reply {
    size_t number, values[21];
    double gaps[3];
};

static uint8_t states[MODES][BAGUYMO_STATE_SIZE];
static struct {
    unsigned long sessions, calls, accepted, misses, backs, zeros, bytes;
} counted;
static const char *session = "";
static unsigned long at;

static void failed(int mode, const char *what) {
    printf("rounding: FAILED: %s, call %lu, %s: %s\n", session, at, names[mode], what);
    exit(1);
}

static unsigned entered(int mode) {
    fesetround(directions[mode]);
    unsigned word = (_mm_getcsr() & ~(MARKS | FLUSHING)) | (mode == FLUSHED ? FLUSHING : 0);
    _mm_setcsr(word);
    return word;
}

/* Back to the environment of this program; whether the library said that something was inexact. */
static bool left(int mode, unsigned word) {
    unsigned now = _mm_getcsr();
    _mm_setcsr(now & ~(MARKS | FLUSHING));
    fesetround(FE_TONEAREST);
    if ((now & ~MARKS) != word)
        failed(mode, "the library changed the environment");
    return (now & INEXACT) != 0;
}

static size_t called(const struct call *c, uint8_t *state, struct reply *r) {
    const size_t *v = c->values;
    switch (c->what) {
    case START:
        return baguymo_host_start(v[0], v[1], v[2], v[3], state);
    case ASK:
        return baguymo_host_ask(state, v[0], v[1], v[2], v[3], v[4], r->values);
    case BACK:
        return baguymo_host_back(state, v[0]);
    case PRESS:
        return baguymo_host_press(state, r->values, r->values + 5);
    case HOLD_DOWN:
        return baguymo_host_hold_down(state, r->values);
    case SPACING:
        return baguymo_host_spacing(state, v[0], r->values, r->gaps);
    case LIST:
        return baguymo_host_list(state, r->values);
    case FIELD:
        return baguymo_host_field(v[0], v[1], v[2], v[3], v[4], c->list, c->length, state);
    }
    return 0;
}

/* Whether two gaps have the same bits, or are both 0 and the second was rounded down: the difference of two equal numbers is -0 then. */
static bool same_gap(double first, double second, int mode) {
    if (memcmp(&first, &second, sizeof first) == 0)
        return true;
    counted.zeros++;
    return first == 0 && second == 0 && mode == DOWN;
}

/* Makes a call in each environment, on a state for each, and compares what it puts out and every byte that it leaves. */
static struct reply in_each(struct call c) {
    static struct reply replies[MODES];
    memset(replies, 0, sizeof replies);
    at++;
    for (int mode = 0; mode < MODES; mode++) {
        struct reply *r = &replies[mode];
        unsigned word = entered(mode);
        r->number = called(&c, states[mode], r);
        if (left(mode, word))
            failed(mode, "a result was inexact");
        if (r->number != replies[NEAREST].number || memcmp(r->values, replies[NEAREST].values, sizeof r->values) != 0)
            failed(mode, "another answer");
        for (int pair = 0; pair < 3; pair++)
            if (!same_gap(replies[NEAREST].gaps[pair], r->gaps[pair], mode))
                failed(mode, "another gap");
        if (memcmp(states[mode], states[NEAREST], BAGUYMO_STATE_SIZE) != 0)
            failed(mode, "another byte of the state");
    }
    counted.calls++;
    counted.accepted += replies[NEAREST].number == 0;
    return replies[NEAREST];
}

/* Writes a report in each environment, and compares every byte. */
enum report { SESSION, JUDGED, GAPS, BUTTON };
static size_t reported(enum report report, const uint8_t *file, size_t length, uint8_t *out) {
    switch (report) {
    case SESSION:
        return baguymo_report(file, length, out);
    case JUDGED:
        return baguymo_report_judged(file, length, out);
    case GAPS:
        return baguymo_spacing(file, length, 128, out);
    case BUTTON:
        return baguymo_button(file, length, out);
    }
    return 0;
}

static void report_in_each(enum report report, const uint8_t *file, size_t length) {
    static uint8_t out[MODES][BAGUYMO_REPORT_ROOM];
    size_t sizes[MODES];
    for (int mode = 0; mode < MODES; mode++) {
        unsigned word = entered(mode);
        sizes[mode] = reported(report, file, length, out[mode]);
        if (left(mode, word))
            failed(mode, "a result of a report was inexact");
        if (sizes[mode] != sizes[NEAREST] || memcmp(out[mode], out[NEAREST], sizes[NEAREST]) != 0)
            failed(mode, "another byte of a report");
        counted.bytes += sizes[mode];
    }
}

static uint16_t number16(const uint8_t *bytes) {
    return (uint16_t)(bytes[0] | bytes[1] << 8);
}

static void start(const uint8_t *legs) {
    in_each((struct call){.what = START, .values = {number16(legs), number16(legs + 2), number16(legs + 4), number16(legs + 6)}});
}

/* Asks a request, and then for the spacing. */
static void ask(uint8_t desk, const uint8_t *request, uint16_t spacing) {
    struct reply r = in_each((struct call){
        .what = ASK, .values = {desk, request[0], request[1], number16(request + 2), number16(request + 4)}});
    counted.misses += r.number == 0 && request[0] == 10;
    in_each((struct call){.what = SPACING, .values = {spacing}});
}

/* Takes the last request back, and asks for the spacing. */
static void back(uint8_t desk, uint16_t spacing) {
    counted.backs += in_each((struct call){.what = BACK, .values = {desk}}).number == 0;
    in_each((struct call){.what = SPACING, .values = {spacing}});
}

/* The reports of a practice file, and its requests one by one as a host asks them. */
static void play(const uint8_t *file, size_t length) {
    for (enum report report = SESSION; report <= BUTTON; report++)
        report_in_each(report, file, length);
    counted.sessions++;
    if (length < BODY)
        return;
    start(file + HEAD);
    for (size_t next = BODY; next + 6 <= length; next += 6)
        ask(1, file + next, 128);
    in_each((struct call){.what = LIST});
}

/* Legs, and eight bytes for each call of two desks, as the program desks takes them. */
static void play_calls(const uint8_t *input, size_t length) {
    counted.sessions++;
    start(input);
    for (size_t next = 8; next + 8 <= length; next += 8) {
        if (input[next] == 0)
            ask(input[next + 1], input + next + 2, 128);
        else
            back(input[next + 1], 128);
    }
}

static void play_stored(const char *name) {
    static uint8_t bytes[LONGEST + 2];
    FILE *file = fopen(name, "rb");
    if (file == NULL) {
        perror(name);
        exit(1);
    }
    size_t length = fread(bytes, 1, sizeof bytes, file);
    fclose(file);
    session = name;
    at = 0;
    size_t size = strlen(name);
    if (size > 6 && strcmp(name + size - 6, ".calls") == 0)
        play_calls(bytes, length);
    else
        play(bytes, length);
}

/* A number below n, the same ones for the same seed. */
static uint64_t dice;
static uint16_t below(uint16_t n) {
    dice ^= dice << 13;
    dice ^= dice >> 7;
    dice ^= dice << 17;
    return (uint16_t)((dice >> 11) % n);
}

static uint16_t drawn_leg(void) {
    return (uint16_t)(1 + below(below(8) == 0 ? 4096 : 128));
}

/* A request of a number from 1 to 6; those with even numbers are desk 2's. Often the miss of the one on final, where that is not 0. Some
   kinds and amounts are not allowed. */
static void drawn_request(uint16_t on_final, uint8_t *desk, uint8_t *request) {
    static const uint8_t kinds[] = {12, 12, 12, 12, 12, 12, 12, 1, 1, 2,  3,  3,  4,  4,  4,  5,
                                    5,  5,  6,  6,  6,  7,  8,  9, 10, 10, 10, 11, 11, 11, 0, 13};
    bool misses = on_final != 0 && below(4) == 0;
    uint8_t kind = misses ? 10 : kinds[below(sizeof kinds)];
    uint16_t number = misses ? on_final : (uint16_t)(1 + below(6));
    uint16_t amount = kind == 12 ? (uint16_t)(1 + below(64)) : kind <= 2 ? (uint16_t)(1 + below(513)) : 0;
    uint8_t side = kind <= 2 ? (uint8_t)(1 + below(2)) : 0;
    if (kind == 12)
        number = 0;
    *desk = (uint8_t)(below(40) == 0 ? below(4) : 2 - number % 2);
    memcpy(request, (uint8_t[]){kind, side, (uint8_t)number, 0, (uint8_t)amount, (uint8_t)(amount >> 8)}, 6);
}

/* Draws a session call by call: requests of two desks, steps back and presses, with the spacing; at its end the list of the field, and at
   times the button held down. */
static void play_drawn(uint8_t *legs) {
    start(legs);
    for (int i = 0; i < CALLS; i++) {
        uint8_t desk, request[6];
        uint16_t which = below(100), spacing = below(514);
        drawn_request(number16(states[NEAREST] + ON_FINAL), &desk, request);
        if (which < 4)
            back((uint8_t)(1 + below(2)), spacing);
        else if (which < 25)
            in_each((struct call){.what = PRESS});
        else
            ask(desk, request, spacing);
    }
    in_each((struct call){.what = LIST});
    if (below(16) == 0)
        in_each((struct call){.what = HOLD_DOWN});
}

/* The reports of a drawn practice file, and the field of a drawn list. */
static void play_drawn_file(uint8_t *legs) {
    static uint8_t file[BODY + 6 * CALLS] = {'S', 'C',  'A', 'P', 2, 0, 1, 0, HEAD, 0, 0, 0, 8, 0, 0, 0, 2,
                                             0,   BODY, 0,   0,   0, 6 * CALLS & 255, 6 * CALLS >> 8};
    memcpy(file + HEAD, legs, 8);
    for (int i = 0; i < CALLS; i++) {
        uint8_t desk;
        drawn_request(0, &desk, file + BODY + 6 * i);
    }
    for (enum report report = SESSION; report <= GAPS; report++)
        report_in_each(report, file, sizeof file);
    const uint8_t list[16] = {7, 0, 3, 0, 1, 0, 1, 0, 8, 0, 2, 0, 2, 0, 2, 0};
    in_each((struct call){.what = FIELD,
                          .values = {number16(legs), number16(legs + 2), number16(legs + 4), number16(legs + 6), 64},
                          .list = list,
                          .length = sizeof list});
    for (int i = 0; i < 12; i++)
        in_each((struct call){.what = PRESS});
}

static void draw(unsigned long count) {
    static char name[64];
    session = name;
    for (unsigned long n = 1; n <= count; n++) {
        uint8_t legs[8];
        snprintf(name, sizeof name, "drawn session %lu", n);
        at = 0;
        for (int leg = 0; leg < 4; leg++) {
            uint16_t length = drawn_leg();
            legs[2 * leg] = (uint8_t)length;
            legs[2 * leg + 1] = (uint8_t)(length >> 8);
        }
        play_drawn(legs);
        play_drawn_file(legs);
        counted.sessions++;
    }
}

/* The example of crates/proof_rounding/specs/OffTheGrid.antt: legs of a mile, but final is the next float above it. 7 misses at the
   beginning of final, and holds two minutes later. Prints its own leg after the miss, and what the hold is answered. */
static void differ(int mode) {
    static const uint8_t requests[11][6] = {{1, 1, 7, 0, 64, 0}, {3, 0, 7, 0, 0, 0},   {4, 0, 7, 0, 0, 0},   {12, 0, 0, 0, 64, 0},
                                            {5, 0, 7, 0, 0, 0},  {12, 0, 0, 0, 64, 0}, {6, 0, 7, 0, 0, 0},   {10, 0, 7, 0, 0, 0},
                                            {12, 0, 0, 0, 64, 0}, {12, 0, 0, 0, 64, 0}, {11, 0, 7, 0, 0, 0}};
    enum { FINAL = 1681 + 24, OWN_LEG = 6 * 128 + 22 };
    const double over_1 = 0x1.0000000000001p+0;
    uint8_t *state = states[mode];
    size_t answer[6] = {0};
    uint64_t own = 0;
    baguymo_host_start(64, 64, 64, 64, state);
    memcpy(state + FINAL, &over_1, 8);
    unsigned word = entered(mode);
    for (int i = 0; i < 11; i++) {
        if (i == 10)
            memcpy(&own, state + OWN_LEG, 8);
        baguymo_host_ask(state, 1, requests[i][0], requests[i][1], requests[i][2], requests[i][4], answer);
    }
    bool inexact = left(mode, word);
    printf("%s: own leg %016llx, hold answered %zu, %s\n", names[mode], (unsigned long long)own, answer[0], inexact ? "inexact" : "exact");
}

int main(int argc, char **argv) {
    if (argc == 2 && strcmp(argv[1], "differ") == 0) {
        for (int mode = 0; mode < MODES; mode++)
            differ(mode);
        return 0;
    }
    if (argc < 4 || strcmp(argv[1], "same") != 0) {
        fprintf(stderr, "rounding same SEED COUNT FILE... | rounding differ\n");
        return 2;
    }
    dice = strtoull(argv[2], NULL, 10) * 2 + 1;
    for (int i = 4; i < argc; i++)
        play_stored(argv[i]);
    draw(strtoul(argv[3], NULL, 10));
    printf("%lu sessions, %lu calls in each of five environments, %lu accepted, %lu misses and %lu steps back among them, %lu bytes of "
           "reports; "
           "every byte the same and nothing inexact; %lu times a gap of 0 was -0, rounded down\n",
           counted.sessions, counted.calls, counted.accepted, counted.misses, counted.backs, counted.bytes, counted.zeros);
    return counted.misses > strtoul(argv[3], NULL, 10) && counted.zeros > 0 ? 0 : 1;
}
