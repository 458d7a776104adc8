/* The airport module, for C: requests in, answers out, the state in the caller's own memory; and the reports that the programs print. Link
   target/staticlib/libbaguymo.a, which `tools/build baguymo` makes (x86-64 Linux). It needs no other library than C's.

   No function keeps anything of its own, and each touches nothing but what it is lent. No pointer is null, not even where the length beside
   it is 0, and stretches that are lent to one call do not overlap.

   Widths. A C compiler narrows an argument without a word, so every number that a function takes is a size_t: none is narrowed on its way.
   The parts are narrower: a desk, a kind and a side have 8 bits; an aircraft's number, an amount, a speed, a spacing and a leg have 16. What
   is wider than its part, as is a negative number, which C turns into a large one, is refused by the number of that part: 31 for a desk, 1
   for a kind, 2 for a side, 3 for an aircraft's number, 4 for an amount, a speed or a spacing, 7 for a leg. It is no request of the rules,
   so it is refused so on every state, with zeros and with every byte as it was; where several parts are wide or broken, the first in the
   order of the rules has its number. */
#ifndef BAGUYMO_H
#define BAGUYMO_H

#include <stddef.h>
#include <stdint.h>

#ifdef __cplusplus
extern "C" {
#endif

/* The module that a trainer's host program links.

   The state is a buffer of BAGUYMO_STATE_SIZE bytes that the host lends with every call: the field with its index, the eight kept fields,
   oldest first, and how many of them count. Calls on different buffers may run at the same time on different threads, and calls on the same
   one may not. A state may be saved, sent and compared with memcmp: after the same accepted calls from the same start it has the same bytes
   on every machine. Any bytes may be handed in as a state. One that breaks the bounds is refused 10. A refused call leaves every byte of the
   state as it was; an accepted one writes all of it anew, but for the spacing and the list, which only read. Every pattern of a NaN is read
   as the one NaN, which is written as 0x7ff8000000000000: within the bounds one can stand only in a kept field that does not count, and
   there the next accepted call that writes changes any other pattern to this one. The bounds are no checksum: a flipped bit may lead to
   another state within them. After a step back the first 1,733 bytes are those before the request, and a kept field that no longer counts
   keeps its bytes. Of the caller's stack a request takes up to some 150 KB, a press 170 KB and the button held down 190 KB, as measured, as
   all sizes of stack here, with an older kit of the toolchain.

   The floating-point environment: a call computes in the processor's rounding direction, as every operation on doubles does, and leaves the
   environment as it was. On a state that a start wrote, and that requests, steps back and the button have changed since, no result is ever
   rounded. So a host may leave the processor rounding in any direction, and flushing denormals to 0, as graphics engines set it: every byte
   is the same, and the processor's mark of an inexact result is not set. One sign differs: where the processor rounds down, a gap of 0 is
   -0, which compares equal to 0. It matters on a state from elsewhere whose legs or miles are no whole 4096ths of a mile: for its answers to
   be those of the rules a host has the processor round to the nearest and keep denormals, which is the default. Traps on floating-point
   exceptions stay masked, also the default: compiled code may compare bits that it then does not use.

   Layout, numbers with the low byte first, floats as their 64 bits (IEEE 754 binary64):
     a field with its index, 1,733 bytes:
          0  zones 1 to 13, 128 bytes each: four aircraft, the head first, of 30 bytes each, and the queue's length, 8 bytes
       1664  the landing sequence: four numbers, 2 bytes each, and its length, 8 bytes
       1680  the next fix, 1 byte
       1681  the legs in miles: missed, base, intermediate, final, 8 bytes each
       1713  the index: five entries of number, 2 bytes, zone, 1 byte, and place, 1 byte
     an aircraft, 30 bytes:
          0  number, 2 bytes
          2  fix, 1 byte
          3  desk, 1 byte
          4  speed in 64ths of a mile a minute, 2 bytes
          6  progress, 8 bytes: all bits set while it waits, else the miles flown
         14  miles waited at the ends of legs, 8 bytes
         22  its own leg in miles, 8 bytes
     the state, 15,605 bytes:
          0  the field with its index
       1733  the eight kept fields with their indexes
      15597  how many of them count, 8 bytes

   Every function returns its number: 0 where the call is accepted, or the number that refuses it. A refused call puts zeros into all that
   it is lent for its results, but for answer[0], which is the number again. The kinds, the sides, the zones and the numbers are listed in
   docs/RULES.md. */

/* How many bytes the state has, and how many of them are the field with its index, the first. */
#define BAGUYMO_STATE_SIZE 15605
#define BAGUYMO_FIELD_SIZE 1733

/* Writes the state of the empty field with four legs in 64ths of a mile, with nothing kept. 7 for a leg that is not 1 to 4096. What stood
   in the buffer does not matter. */
uint16_t baguymo_host_start(size_t base, size_t intermediate, size_t final_approach, size_t missed, uint8_t *state);

/* Asks a request of the state: a desk, a kind, a side, an aircraft's number, and a speed or a tick's 64ths of a minute. Puts the answer's
   six numbers into `answer`: its number, the aircraft, where that is then (zone), its fix and its leader, and who moved along. The last two
   are 0 where that one is the other desk's. An accepted request keeps the field before it. Refused by 31, 1 to 4, 10, and the others in the
   order of the rules; 3 is also for a number over 65,535. */
uint16_t baguymo_host_ask(uint8_t *state, size_t desk, size_t kind, size_t side, size_t number, size_t amount, size_t answer[6]);

/* Takes back the last accepted request, for a desk: 31 for a desk that is not 1 or 2, then 10, then 27 where nothing is kept. */
uint16_t baguymo_host_back(uint8_t *state, size_t desk);

/* Presses the button: plays the one request that it proposes, as if it had been asked. Puts that request into `request` (desk, kind, side,
   number, amount) and its answer into `answer`. The button has no desk: it asks for each aircraft as its own desk, ticks as desk 1,
   and shows whom it moves, whichever desk's; the one that a hold moves along only where that one is of the same desk. Where nobody is on
   the field it plays nothing, and all are zeros. 10 for a state that breaks the bounds. */
uint16_t baguymo_host_press(uint8_t *state, size_t request[5], size_t answer[6]);

/* Holds the button down until it says none, or until its presses are spent. Puts into `report` how many requests were played, and 1 where
   somebody is still on the field, else 0. Each of them keeps the field before it, so that of more than eight the last eight can be taken
   back. 10 for a state that breaks the bounds. */
uint16_t baguymo_host_hold_down(uint8_t *state, size_t report[2]);

/* The spacing of the pairs on the approach. `spacing` is in 64ths of a mile, 1 to 512. Puts into `pairs` how many pairs there are, and for
   each of the three places the leader's number, the follower's and 1 where it is close, else 0; and into `gaps` the gap of each in miles.
   Places past the count are zeros. Refused by 4 where the spacing is not 1 to 512, and then by 10. The state is only read. */
uint16_t baguymo_host_spacing(const uint8_t *state, size_t spacing, size_t pairs[10], double gaps[3]);

/* The field as a list of the classroom dialect. Puts into `entries` how many entries there are, and for each of the five places number,
   location, place and fix; places past the count are zeros. Refused by 10, and then by 29 where somebody is in zone 5, 6 or 11. The state
   is only read. */
uint16_t baguymo_host_list(const uint8_t *state, size_t entries[21]);

/* Writes the state of the field that a list of the classroom dialect builds, with nothing kept: four legs and a speed, and the list in the
   `length` bytes at `list`, eight for each entry (number, location, place, fix, 16 bits each). Refused, in this order, by 7 (a leg), 4 (the
   speed), 29 (the list) and 25 (the field that it builds breaks a bound). What stood in the buffer does not matter; a refused call leaves
   it. */
uint16_t baguymo_host_field(size_t base, size_t intermediate, size_t final_approach, size_t missed, size_t speed, const uint8_t *list,
                            size_t length, uint8_t *state);

/* The reports, from bytes to bytes. Each writes its report to the start of `out`, a buffer with the room that is named with it, which every
   report of it fits into, and returns how many bytes the report has; the rest of `out` is not changed. Any bytes are allowed as what is
   read, also none: what is no practice file, binder, list or calls gives a line that says so. Those that play practice files take up to some
   120 KB of the caller's stack, with a log of 57,344 bytes in it, and the calls by two desks 250 KB. */

/* How many bytes the buffer of baguymo_report and of baguymo_report_judged has. */
#define BAGUYMO_REPORT_ROOM 131072

/* The report of the practice file of `length` bytes at `file` (document 01, "The practice file"). */
size_t baguymo_report(const uint8_t *file, size_t length, uint8_t *out);

/* The same report, byte for byte, and slower: the field and its index are judged before every request, and the field after it, as the
   papers have it for any field. baguymo_report leaves that out, since it is proved that no field of a session breaks a bound. This one is
   for tests of the compiled library. */
size_t baguymo_report_judged(const uint8_t *file, size_t length, uint8_t *out);

/* How many bytes the buffer of baguymo_week has. */
#define BAGUYMO_WEEK_ROOM 131072

/* The report over the binder of practice files of `length` bytes at `binder` (document 02, 2.1). */
size_t baguymo_week(const uint8_t *binder, size_t length, uint8_t *out);

/* How many bytes the buffer of baguymo_button has. */
#define BAGUYMO_BUTTON_ROOM 131072

/* What the button does after a practice file (document 02, 2.6): plays the file of `length` bytes at `file` from the empty field, and holds
   the button down on the field that it leads to. The report has a line for each press that moved somebody (press, kind, aircraft, zone,
   fix, leader, along) and a last line, `none` or `spent`, with how many requests the button played; a refused file has only `file` and its
   number. */
size_t baguymo_button(const uint8_t *file, size_t length, uint8_t *out);

/* How many bytes the buffer of baguymo_spacing has. */
#define BAGUYMO_SPACING_ROOM 1024

/* The spacing on the approach after the practice file of `length` bytes at `file` (document 02, 2.8), by a spacing in 64ths of a mile. The
   report has 0 bytes where there is no pair. Any spacing is allowed: one that is not 1 to 512 gives the line `spacing 4`, and then a refused
   file gives `file` and its number. */
size_t baguymo_spacing(const uint8_t *file, size_t length, size_t spacing, uint8_t *out);

/* How many bytes the buffer of baguymo_list and of baguymo_field has. */
#define BAGUYMO_CLASSROOM_ROOM 512

/* The field after the practice file of `length` bytes at `file` as a list of the classroom dialect in sequence order (document 02, 2.12): a
   line for each, number, location, place and fix, and 0 bytes where nobody is on the field. A refused file gives the line `file` and its
   number, and a field with anyone in zones 5, 6 or 11 gives `refused 29`. */
size_t baguymo_list(const uint8_t *file, size_t length, uint8_t *out);

/* The next fix and the list of the field that the `length` bytes at `input` build: four legs (base, intermediate, final, missed) and a
   speed, then entries of number, location, place and fix, each number of 16 bits, little-endian. Refused ones give the line `refused` and
   7, 4, 29 or 25; with fewer than 8 bytes a leg is not there, which is 7, and with 8 or 9 the speed, which is 4. Everyone on the field
   belongs to desk 1. A field that is built so keeps the bounds, and need not be one that requests reach: nothing of demand 3 is claimed of
   it, and somebody may be on it with nobody able to move. So it is at once on 36 of the 128 patterns of one to four in the holdings; one is
   A at 3000 right with fix 1 ahead of B at 2000 right with fix 2. */
size_t baguymo_field(const uint8_t *input, size_t length, uint8_t *out);

/* How many bytes the buffer of baguymo_desks has. */
#define BAGUYMO_DESKS_ROOM 131072

/* Calls by two desks, requests and steps back (document 02, 2.10 and 2.13): plays the calls that the `length` bytes at `input` hold from the
   empty field. The report has a line for each with its answer, and a last line. The input has eight bytes for the legs (base,
   intermediate, final, missed, in 64ths of a mile) and then eight for each call: 0 for a request or any other byte for a step back, the
   desk, the kind, the side, the number and the amount; a number of two bytes has its low byte first. An input that is refused gives the line
   `refused` and its number, 7 or 5. */
size_t baguymo_desks(const uint8_t *input, size_t length, uint8_t *out);

/* How many bytes a buffer has that every practice file fits into. */
#define BAGUYMO_FILE_ROOM 24610

/* Writes the practice file of four legs, in 64ths of a mile, and of the requests in the `length` bytes at `requests`, six for each (kind,
   side, number, amount; the low byte first), to the start of the `room` bytes at `out` (document 02, 2.11). Returns 0, and puts the file's
   length into `*size`; the bytes past the file are not changed. Or returns the number that refuses it, and puts 0 into `*size`; then no byte
   of `out` is changed: 7 for a leg that is not 1 to 4096; 5 for a length that is no multiple of 6, or more than 4,096 requests; 1 to 4 for
   the first request that breaks the input rules; 28 for a buffer that is shorter than the file. Any legs, bytes and lengths are allowed. */
uint16_t baguymo_write(size_t base, size_t intermediate, size_t final_approach, size_t missed, const uint8_t *requests, size_t length,
                       uint8_t *out, size_t room, size_t *size);

#ifdef __cplusplus
}
#endif

#endif
