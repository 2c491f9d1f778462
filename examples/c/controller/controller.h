/* controller.h: tasks and handlers that balance an inverted pendulum, for controller.cfg. */
#ifndef CONTROLLER_H
#define CONTROLLER_H

#include "program.h"

#include <stdint.h>

extern const struct fmp_program controller;

/* What the control task has counted, to be read once a run is over. */
struct controller_counts {
    long periods;
    int32_t greatest_angle;     /* of the pendulum after the first second, in microradians, either way */
};

extern struct controller_counts controller_counts;

#endif
