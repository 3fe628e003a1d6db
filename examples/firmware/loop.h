/*
 * A handset's firmware in small. loop.c is the device's loop, the same file on every device; a port is the part that differs: linux.c
 * plays a list of events, mps2.c runs on a bare processor. This header is what lies between them.
 */
#ifndef LOOP_H
#define LOOP_H

#include "handset.h"

#include <stddef.h>

/* ---- What the loop does for a port ---- */

/*
 * Once, before all else. The record is the port's: it says in which memory it lies, and may look at it between two steps. False if the
 * archive has another interface than the header: then no other call may be made, and the port says so.
 */
bool loop_start(struct handset *record, uint16_t tick);

/* A step: at each tick of 10 ms, and as often as the port likes in between, so that no byte waits long. */
void loop_step(uint16_t tick);

/* As if the battery had been taken out. Between two steps. */
void loop_power_on(void);

/* Whether the ring has a place for a byte. While it has none the line is to be held. */
bool loop_has_room(void);

/* A byte came from the cord. This call and the one above are for an interrupt too, the others are not. Without room the byte is lost. */
void loop_byte_came(uint8_t byte);

/* How many bytes from the cord were used since the start, modulo 2^32. */
uint32_t loop_bytes_used(void);

/* ---- What a port does for the loop ---- */

/* Sends answers down the cord, all of them before it comes back: the next call puts its own in the same place. */
void port_send(const uint8_t *bytes, size_t count);

/* Sends the code of a key down the cord. */
void port_send_key(uint8_t code);

/* The next edge of the keypad, enum handset_edge, or HANDSET_POLL if there is none. It is asked once a tick. */
uint8_t port_next_edge(void);

/* Whether the handset lies on its hook. It is asked once a tick. */
bool port_is_on_hook(void);

/* Draws a row of the display, which now shows something else. */
void port_draw(uint8_t row, const struct handset_row *seen);

/* Switches the backlight: its mode or its seconds have changed. */
void port_light(uint8_t mode, struct handset_seconds left);

/*
 * Tells whoever looks after the device that a call was refused with this number. With HANDSET_FIELD_OUT_OF_RANGE the record was spoilt,
 * and has been powered on anew; any other is a mistake of the port's, and what it asked for was not done.
 */
void port_complain(uint8_t number);

#endif
