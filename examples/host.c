/* A host program that links the airport module: two desks, two aircraft, from their entry to the runway and off it. It makes each of the
   eight calls and prints what it is answered; tests/host_example compiles it, runs it and compares that with examples/host.stdout. */
#include <stdio.h>
#include <string.h>

#include "baguymo.h"

static uint8_t state[BAGUYMO_STATE_SIZE], saved[BAGUYMO_STATE_SIZE];

/* Prints a call, its number, and what it put out. */
static void print(const char *call, uint16_t number, const size_t *values, size_t count) {
    printf("%s: %u", call, (unsigned)number);
    for (size_t at = 0; at < count; at++)
        printf(" %zu", values[at]);
    printf("\n");
}

/* Asks one request; the answer's first number is the call's. */
static void ask(size_t desk, size_t kind, size_t side, size_t aircraft, size_t amount) {
    size_t answer[6];
    char call[128];
    uint16_t number = baguymo_host_ask(state, desk, kind, side, aircraft, amount, answer);
    snprintf(call, sizeof call, "ask %zu %zu %zu %zu %zu", desk, kind, side, aircraft, amount);
    print(call, number, answer + 1, 5);
}

static void compare(const char *what, size_t size) {
    printf("%s as saved: %s\n", what, memcmp(state, saved, size) == 0 ? "yes" : "no");
}

int main(void) {
    size_t answer[6], request[5], report[2], pairs[10], entries[21];
    double gaps[3];

    print("start", baguymo_host_start(64, 64, 64, 128, state), NULL, 0);
    /* Desk 1 lets 7 in on the right, desk 2 lets 9 in on the left, who follows 7 and is not told; 7 is not desk 2's. */
    ask(1, 1, 1, 7, 64);
    ask(2, 1, 2, 9, 96);
    ask(2, 3, 0, 7, 0);
    /* Both descend and go to their bases. */
    ask(1, 3, 0, 7, 0);
    ask(1, 4, 0, 7, 0);
    ask(2, 3, 0, 9, 0);
    ask(2, 4, 0, 9, 0);

    /* A refused call leaves every byte: 9 is there already, and there is no desk 3. */
    memcpy(saved, state, sizeof state);
    ask(1, 1, 1, 9, 64);
    ask(3, 12, 0, 0, 64);
    /* So does a number that is wider than its part: it is not taken for what its low bits are, 10, 1 and 64. */
    ask(1, 1, 1, 65546, 64);
    ask(257, 12, 0, 0, 64);
    ask(1, 12, 0, 0, 65600);
    compare("every byte", sizeof state);
    /* A minute, taken back by the other desk: the field with its index is as it was. */
    ask(2, 12, 0, 0, 64);
    compare("the field", BAGUYMO_FIELD_SIZE);
    print("back 1", baguymo_host_back(state, 1), NULL, 0);
    compare("the field", BAGUYMO_FIELD_SIZE);

    /* Half a minute: 9 is faster, and is a quarter of a mile nearer than its leader; 7 has not flown its leg out. */
    ask(1, 12, 0, 0, 32);
    print("spacing 64", baguymo_host_spacing(state, 64, pairs, gaps), pairs, 10);
    printf("gaps in miles: %.6f %.6f %.6f\n", gaps[0], gaps[1], gaps[2]);
    ask(1, 5, 0, 7, 0);
    /* Intermediate, final, and the runway, which 9 finds occupied. */
    ask(2, 12, 0, 0, 32);
    ask(1, 5, 0, 7, 0);
    ask(2, 5, 0, 9, 0);
    ask(1, 12, 0, 0, 64);
    ask(1, 6, 0, 7, 0);
    ask(2, 6, 0, 9, 0);
    ask(1, 12, 0, 0, 64);
    ask(1, 7, 0, 7, 0);
    ask(2, 7, 0, 9, 0);
    print("list", baguymo_host_list(state, entries), entries, 21);

    /* A press taxis 7 off. Held down, the button lands 9 and taxis it off; and then it says none. */
    uint16_t number = baguymo_host_press(state, request, answer);
    print("press", number, request, 5);
    print("answered", number, answer + 1, 5);
    print("hold_down", baguymo_host_hold_down(state, report), report, 2);
    print("press", baguymo_host_press(state, request, answer), request, 5);

    /* A field from a list of the classroom dialect: 5 waits at 3000 on the left. With a byte changed it breaks the bounds. */
    static const uint8_t list[] = {5, 0, 2, 0, 1, 0, 2, 0};
    print("field", baguymo_host_field(64, 64, 64, 128, 64, list, sizeof list, state), NULL, 0);
    print("list", baguymo_host_list(state, entries), entries, 21);
    state[0] ^= 1;
    print("list", baguymo_host_list(state, entries), entries, 21);
    return 0;
}
