/* The proved switch, for C (C89 and later, with <stdint.h>) and C++. Link target/staticlib/libhost.a, which `tests/build archive`
 * makes.
 *
 * The caller keeps a switch in a struct melszondru and hands it to every call. Nothing is kept elsewhere: there is no heap, no
 * global, no clock, no lock, and no call keeps anything between calls. Two switches are two structs.
 *
 * Every call answers, whatever the arguments hold. What is owed is what C itself asks: each array has its size, a pointer and its
 * length belong together, and of the switch, the image, the packet and the buffer that one call is handed no two overlap. A null
 * pointer with length 0 is an empty packet, buffer or image.
 *
 * Interrupts and threads: one call at a time for one switch. Different switches may be served at once. An interrupt must not call
 * for a switch in whose call the main loop may stand: let it note the edge, the tick or the packet, and the main loop make the
 * call (examples/loop.c does). Every call ends, and waits for nothing.
 *
 * From the C library the archive needs memcpy and memmove and nothing else (`nm -u`), and nothing is to be set up before the first
 * call. The deepest stack that was measured is 292 bytes (docs/PERFORMANCE.md has each function's; measured, not proved).
 *
 * It is built for x86-64 Linux: the toolchain has no other target today.
 */
#ifndef MELSZONDRU_H
#define MELSZONDRU_H

#include <stddef.h>
#include <stdint.h>

/* Version 1 had the functions that take parts, under the plain names. Version 2 had no array for the paddles, took what it only
 * read without const, and had first and second in place of the answer's lengths. The landing is the delivery that the header
 * belongs to. */
#define MELSZONDRU_HEADER_VERSION 3
#define MELSZONDRU_LANDING 0

#ifndef MELSZONDRU_INLINE
#if defined(__cplusplus) || (defined(__STDC_VERSION__) && __STDC_VERSION__ >= 199901L)
#define MELSZONDRU_INLINE static inline
#elif defined(__GNUC__)
#define MELSZONDRU_INLINE static __inline__
#else
#define MELSZONDRU_INLINE static
#endif
#endif

#ifdef __cplusplus
extern "C" {
#endif

enum {
    MELSZONDRU_PADDLES = 2, /* top and bottom; an event sends at most a packet for each */
    MELSZONDRU_COUNTERS = 7,
    MELSZONDRU_NUMBERS = 8,
    MELSZONDRU_BYTES = 4 * MELSZONDRU_PADDLES,               /* what is kept of the paddles */
    MELSZONDRU_REGISTERS = 256,                              /* and the bytes of an image */
    MELSZONDRU_PLACE = 24,                                   /* the bytes of a place, and of the longest packet */
    MELSZONDRU_ROOM = MELSZONDRU_PADDLES * MELSZONDRU_PLACE, /* the least buffer that an event takes: a place for each paddle */
    MELSZONDRU_SECOND = 240                                  /* the ticks of a second */
};

enum {
    MELSZONDRU_LOCAL_TOP = 0,
    MELSZONDRU_LOCAL_BOTTOM = 1,
    MELSZONDRU_SLAVE_TOP = 2,
    MELSZONDRU_SLAVE_BOTTOM = 3
};

/* The answer's number. */
enum {
    MELSZONDRU_DONE = 0,
    MELSZONDRU_WRONG_IMAGE = 1,        /* the image is not 256 bytes */
    MELSZONDRU_SHORT_BUFFER = 2,       /* the buffer is shorter than MELSZONDRU_ROOM, 48 bytes */
    MELSZONDRU_NO_CONTACT = 3,         /* the contact is above 3 */
    MELSZONDRU_SHORT_PACKET = 4,       /* the packet is under 7 bytes */
    MELSZONDRU_LONG_PACKET = 5,        /* it is over 24 bytes */
    MELSZONDRU_WRONG_LENGTH = 6,       /* it says another length than it has */
    MELSZONDRU_WRONG_SUM = 7,          /* its bytes do not add up to 0 modulo 256 */
    MELSZONDRU_RESERVED_BIT = 8,       /* bit 7 of its byte 1 is set */
    MELSZONDRU_OTHER_NETWORK = 9,      /* its network is not register 0x00's, and not 0, which is for all */
    MELSZONDRU_OTHER_DESTINATION = 10, /* it is for another unit (register 0x01; 0 is for all), or a link that no component has */
    MELSZONDRU_NO_COMMAND = 11,        /* no such command */
    MELSZONDRU_WRONG_ARGUMENTS = 12,   /* the command is there, its arguments do not fit, or its registers go past 0xFF */
    MELSZONDRU_NOT_HERE = 13,          /* it is not for this kind of packet, this destination, this mode, this load or source 0 */
    MELSZONDRU_WRONG_PASSWORD = 14     /* of a Start Setup */
};

/* The lamp. */
enum { MELSZONDRU_BLACK = 0, MELSZONDRU_RED = 1, MELSZONDRU_GREEN = 2, MELSZONDRU_ORANGE = 3 };

enum { MELSZONDRU_NORMAL = 0, MELSZONDRU_SETUP = 1, MELSZONDRU_FACTORY = 2 /* Factory Default */ };

/* All that a switch holds, in 286 bytes. Its arrays are written by melszondru_start and by the events, and by nobody else; they may
 * be copied and put back as a whole. The password is in numbers[6] and numbers[7], and not among the registers: registers[2] and
 * registers[3] are 0. */
struct melszondru {
    uint16_t counters[MELSZONDRU_COUNTERS];
    uint8_t numbers[MELSZONDRU_NUMBERS];
    uint8_t paddles[MELSZONDRU_BYTES];
    uint8_t registers[MELSZONDRU_REGISTERS];
};

/* What a start and an event are answered with.
 *
 * lengths  of the packets sent, in order; 0 where there is none
 * count    the packets sent, 0 to MELSZONDRU_PADDLES
 * number   MELSZONDRU_DONE, or the refusal
 * level    the level in steps, 0 to 200 of a switch that was started; output what the output shows of it
 * colour   the lamp, MELSZONDRU_BLACK to MELSZONDRU_ORANGE
 * mode     MELSZONDRU_NORMAL to MELSZONDRU_FACTORY
 *
 * On a refusal (number above 0) nothing is sent, so count and every length are 0; the switch is as it was, but for the lamp's
 * black blink that 4 to 8 start, and the rest of the answer shows it so. On 1 the rest is 0: a refused start shows no switch. */
struct melszondru_answer {
    uint8_t lengths[MELSZONDRU_PADDLES];
    uint8_t count;
    uint8_t number;
    uint8_t level;
    uint8_t output;
    uint8_t colour;
    uint8_t mode;
};

/* Neither has padding: every byte of an answer was set, and every byte of a switch after a start. */
typedef char melszondru_has_no_padding[sizeof(struct melszondru) == 2 * MELSZONDRU_COUNTERS + MELSZONDRU_NUMBERS
                                               + MELSZONDRU_BYTES + MELSZONDRU_REGISTERS ? 1 : -1];
typedef char melszondru_answer_has_no_padding[sizeof(struct melszondru_answer) == MELSZONDRU_PADDLES + 6 ? 1 : -1];

/* The exported functions. They take a switch in parts: those below hand them the parts of one switch, and a caller in C or C++ has
 * no need of these. What is const is only read. */
struct melszondru_answer melszondru_parts_start(const uint8_t *image, size_t length, uint16_t counters[MELSZONDRU_COUNTERS],
                                                uint8_t numbers[MELSZONDRU_NUMBERS], uint8_t paddles[MELSZONDRU_BYTES],
                                                uint8_t registers[MELSZONDRU_REGISTERS]);
struct melszondru_answer melszondru_parts_press(const uint16_t counters[MELSZONDRU_COUNTERS],
                                                const uint8_t numbers[MELSZONDRU_NUMBERS], uint8_t paddles[MELSZONDRU_BYTES],
                                                const uint8_t registers[MELSZONDRU_REGISTERS], uint8_t contact,
                                                const uint8_t *out, size_t room);
struct melszondru_answer melszondru_parts_release(uint16_t counters[MELSZONDRU_COUNTERS], uint8_t numbers[MELSZONDRU_NUMBERS],
                                                  uint8_t paddles[MELSZONDRU_BYTES],
                                                  const uint8_t registers[MELSZONDRU_REGISTERS], uint8_t contact, uint8_t *out,
                                                  size_t room);
struct melszondru_answer melszondru_parts_tick(uint16_t counters[MELSZONDRU_COUNTERS], uint8_t numbers[MELSZONDRU_NUMBERS],
                                               uint8_t paddles[MELSZONDRU_BYTES], uint8_t registers[MELSZONDRU_REGISTERS],
                                               uint8_t *out, size_t room);
struct melszondru_answer melszondru_parts_receive(uint16_t counters[MELSZONDRU_COUNTERS], uint8_t numbers[MELSZONDRU_NUMBERS],
                                                  uint8_t registers[MELSZONDRU_REGISTERS], const uint8_t *packet, size_t length,
                                                  uint8_t *out, size_t room);
struct melszondru_answer melszondru_parts_restart(uint16_t counters[MELSZONDRU_COUNTERS], uint8_t numbers[MELSZONDRU_NUMBERS],
                                                  uint8_t paddles[MELSZONDRU_BYTES], uint8_t registers[MELSZONDRU_REGISTERS],
                                                  const uint8_t *out, size_t room);
void melszondru_parts_image(const uint8_t numbers[MELSZONDRU_NUMBERS], const uint8_t registers[MELSZONDRU_REGISTERS],
                            uint8_t image[MELSZONDRU_REGISTERS]);

/* Starts a switch from a copy of the image, and counts one more in register 0xFC, up to 255. Answers 0 or 1. On 0 the struct is
 * written whole and hangs on the image alone: whatever it held, it need not be cleared first. On 1 no switch was started, and every
 * byte is exactly as it was: a switch that ran in it is still there, and a struct that held none still holds none. */
MELSZONDRU_INLINE struct melszondru_answer melszondru_start(struct melszondru *self, const uint8_t *image, size_t length)
{
    return melszondru_parts_start(image, length, self->counters, self->numbers, self->paddles, self->registers);
}

/* What an event leaves in its buffer, out and room: the packets sent, in order, each at the front of a place of its own, and the
 * places of MELSZONDRU_PLACE bytes one behind the other from byte 0 on. Every other byte keeps its value; a refusal changes none.
 * melszondru_packet finds them. A press and a restart send nothing: of their buffer only the size counts. */

/* A press edge of a contact: top or bottom, local or slave. Answers 0, 2 or 3; sends nothing. */
MELSZONDRU_INLINE struct melszondru_answer melszondru_press(struct melszondru *self, uint8_t contact, const uint8_t *out,
                                                            size_t room)
{
    return melszondru_parts_press(self->counters, self->numbers, self->paddles, self->registers, contact, out, room);
}

/* A release edge. Answers 0, 2 or 3; sends at most one packet. */
MELSZONDRU_INLINE struct melszondru_answer melszondru_release(struct melszondru *self, uint8_t contact, uint8_t *out, size_t room)
{
    return melszondru_parts_release(self->counters, self->numbers, self->paddles, self->registers, contact, out, room);
}

/* One tick, 1/240 second. Answers 0 or 2; sends at most a packet for each paddle. Every 480th tick since the start or restart
 * puts the percent into register 0xF9. */
MELSZONDRU_INLINE struct melszondru_answer melszondru_tick(struct melszondru *self, uint8_t *out, size_t room)
{
    return melszondru_parts_tick(self->counters, self->numbers, self->paddles, self->registers, out, room);
}

/* A received packet. Answers 0, 2 or 4 to 14; sends at most one packet, the reply. */
MELSZONDRU_INLINE struct melszondru_answer melszondru_receive(struct melszondru *self, const uint8_t *packet, size_t length,
                                                              uint8_t *out, size_t room)
{
    return melszondru_parts_receive(self->counters, self->numbers, self->registers, packet, length, out, room);
}

/* A restart: the password stays, and the registers but for 0xFC, which counts one more, up to 255; all else is as after a start.
 * Answers 0 or 2; sends nothing. */
MELSZONDRU_INLINE struct melszondru_answer melszondru_restart(struct melszondru *self, const uint8_t *out, size_t room)
{
    return melszondru_parts_restart(self->counters, self->numbers, self->paddles, self->registers, out, room);
}

/* The 256 registers for the owner to save, with the password among them. Fills image; changes nothing else. */
MELSZONDRU_INLINE void melszondru_image(const struct melszondru *self, uint8_t image[MELSZONDRU_REGISTERS])
{
    melszondru_parts_image(self->numbers, self->registers, image);
}

/* Packet n of an event, counted from 0, in the buffer that the event was given, and its length; null and 0 where so many were not
 * sent. */
MELSZONDRU_INLINE const uint8_t *melszondru_packet(const struct melszondru_answer *answer, const uint8_t *out, unsigned n,
                                                   uint8_t *length)
{
    if (n >= answer->count || n >= MELSZONDRU_PADDLES) {
        *length = 0;
        return NULL;
    }
    *length = answer->lengths[n];
    return out + n * MELSZONDRU_PLACE;
}

#ifdef __cplusplus
}
#endif

#endif
