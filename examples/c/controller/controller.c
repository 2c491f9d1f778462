/*
 * controller.c: tasks that balance an inverted pendulum on a cart.
 *
 * On processor 1 a cyclic handler wakes CONTROL each tick, which is a millisecond. On processor 2 SUPERVISOR moves the
 * goal of the cart, and answers the interrupts; LOGGER prints what happens.
 */
#include "controller.h"

#include "kernel.h"
#include "latency.h"
#include "plant.h"

#include <inttypes.h>
#include <stdio.h>
#include <stdlib.h>

/* Objects, by their numbers in controller.cfg. */
enum { CONTROL = 1 };
enum { ALARMS = 1 };
enum { REPORTS = 1 };
enum { DRIVE = 1, GOAL, POSITION, ANGLE, FORCE };

/* Bits of ALARMS. */
enum { AT_LIMIT = 0x1, EMERGENCY = 0x2 };

/* Words of REPORTS: a period to be printed, or: */
enum { LIMIT_REACHED = -1, DRIVE_OFF = -2 };

enum { TICKS_AT_A_GOAL = 3000, PERIODS_BETWEEN_REPORTS = 500, SETTLING_PERIODS = 1000 };

/* Gains: newtons for a metre, a metre a second, a radian, and a radian a second. */
enum { POSITION_GAIN = 11, VELOCITY_GAIN = 11, ANGLE_GAIN = 60, ANGULAR_VELOCITY_GAIN = 13 };

struct controller_counts controller_counts;

static int32_t load(ID shrid)
{
    int32_t word = 0;
    ld_shr(shrid, &word);
    return word;
}

/* Processor 1. */

struct sample {
    int32_t position;       /* micrometres */
    int32_t angle;          /* microradians */
};

static struct sample sample_now(void)
{
    return (struct sample){ plant_position(), plant_angle() };
}

/* State feedback, in millinewtons. A micrometre in a millisecond is a millimetre a second. */
static int32_t force_for(struct sample now, struct sample before, int32_t goal)
{
    int32_t force = (POSITION_GAIN * (now.position - goal) + ANGLE_GAIN * now.angle) / 1000
        + VELOCITY_GAIN * (now.position - before.position) + ANGULAR_VELOCITY_GAIN * (now.angle - before.angle);
    return force > PLANT_MOST_FORCE ? PLANT_MOST_FORCE : force < -PLANT_MOST_FORCE ? -PLANT_MOST_FORCE : force;
}

/* What processor 2 is told of a period. A report that finds no room is dropped: CONTROL never waits for others. */
static void publish(struct sample now, int32_t force)
{
    st_shr(POSITION, now.position);
    st_shr(ANGLE, now.angle);
    st_shr(FORCE, force);
    if (controller_counts.periods % PERIODS_BETWEEN_REPORTS == 0) {
        psnd_dtq(REPORTS, controller_counts.periods);
    }
}

static void count_period(struct sample now)
{
    controller_counts.periods++;
    if (controller_counts.periods > SETTLING_PERIODS && abs(now.angle) > controller_counts.greatest_angle) {
        controller_counts.greatest_angle = abs(now.angle);
    }
}

static void control(intptr_t exinf)
{
    (void)exinf;
    struct sample before = sample_now();
    while (slp_tsk() == E_OK) {
        int64_t tick = latency_tick();
        struct sample now = sample_now();
        int32_t force = load(DRIVE) ? force_for(now, before, load(GOAL)) : 0;
        plant_drive(force);
        latency_output(tick);
        publish(now, force);
        count_period(now);
        before = now;
    }
}

static void begin_period(intptr_t exinf)
{
    (void)exinf;
    iwup_tsk(CONTROL);
}

/* Processor 2. */

static void reach_limit(intptr_t exinf)
{
    (void)exinf;
    iset_flg(ALARMS, AT_LIMIT);
}

static void stop_emergency(intptr_t exinf)
{
    (void)exinf;
    iset_flg(ALARMS, EMERGENCY);
}

/* The goal changes sides. At a limit it is the middle for a while. Anything else is an emergency: the drive is off. */
static void supervise(intptr_t goal)
{
    for (;;) {
        FLGPTN alarms = 0;
        ER code = twai_flg(ALARMS, AT_LIMIT | EMERGENCY, TWF_ORW, &alarms, TICKS_AT_A_GOAL);
        if (code == E_TMOUT) {
            st_shr(GOAL, (int32_t)goal);
            goal = -goal;
        } else if (code == E_OK && (alarms & EMERGENCY) == 0) {
            st_shr(GOAL, 0);
            snd_dtq(REPORTS, LIMIT_REACHED);
        } else {
            st_shr(DRIVE, 0);
            snd_dtq(REPORTS, DRIVE_OFF);
            return;
        }
    }
}

static void print_period(intptr_t period)
{
    int32_t position = load(POSITION), angle = load(ANGLE), force = load(FORCE);
    printf("%10" PRIdPTR " %8" PRId32 " %14" PRId32 " %9" PRId32 "\n", period, position / 1000, angle / 1000, force);
}

static void write_log(intptr_t exinf)
{
    (void)exinf;
    intptr_t report;
    puts("    period  cart mm  pendulum mrad  force mN");
    while (rcv_dtq(REPORTS, &report) == E_OK) {
        if (report == LIMIT_REACHED) {
            puts("the cart is at a limit switch");
        } else if (report == DRIVE_OFF) {
            puts("emergency: the drive is off");
        } else {
            print_period(report);
        }
    }
}

static const struct fmp_body bodies[] = {
    { "control", control },
    { "begin_period", begin_period },
    { "reach_limit", reach_limit },
    { "stop_emergency", stop_emergency },
    { "supervise", supervise },
    { "write_log", write_log },
};

const struct fmp_program controller = { .bodies = bodies, .count = sizeof bodies / sizeof *bodies };
