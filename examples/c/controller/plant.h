/*
 * plant.h: a model of an inverted pendulum on a cart, and the registers in which a controller sees it. Positions are to
 * the right of the middle of the rail, and angles to the right of upright.
 */
#ifndef PLANT_H
#define PLANT_H

#include <stdint.h>

enum { PLANT_STEP = 250000 };           /* nanoseconds */
enum { PLANT_MOST_FORCE = 20000 };      /* millinewtons, either way */
enum { PLANT_MOST_ANGLE = 500000 };     /* microradians, either way: at more it falls */

/* Interrupts: the cart comes within 100 mm of an end of the rail; the pendulum falls. */
enum { PLANT_LIMIT_SWITCH = 1, PLANT_EMERGENCY = 2 };

/* Registers, for any thread. */

int32_t plant_position(void);           /* of the cart, in micrometres */
int32_t plant_angle(void);              /* of the pendulum, in microradians */
void plant_drive(int32_t force);        /* on the cart, in millinewtons, until the next one */

/* Before the first step: how hard the pendulum is pushed each two seconds, either way in turn: millinewton seconds. */
void plant_set_push(int32_t impulse);

/* A step of the model. The interrupt that it requests, or 0. One thread takes all steps. */
int plant_step(void);

#endif
