/* plant.c: the equations of an inverted pendulum on a cart, integrated step by step (semi-implicit Euler). */
#include "plant.h"

#include <math.h>
#include <stdatomic.h>
#include <stdbool.h>

enum { STEPS_BETWEEN_PUSHES = 8000 };

static const double cart_mass = 1.0, bob_mass = 0.2;            /* kilograms; the rod has none */
static const double rod_length = 0.5;                           /* metres */
static const double rail_end = 0.5, limit_switch = 0.4;         /* metres from the middle */
static const double friction = 0.1;                             /* of the cart: newtons for a metre a second */
static const double gravity = 9.81;
static const double flat = 1.5;                                 /* radians: the pendulum lies on the cart */
static const double seconds = PLANT_STEP / 1e9;

static struct {
    double position, velocity;          /* of the cart */
    double angle, angular_velocity;     /* of the pendulum */
} state = { .angle = 0.1 };

static atomic_int position_register, angle_register, force_register;
static double next_push;                /* newton seconds */
static unsigned long steps;
static bool is_near_end, falls;

int32_t plant_position(void)
{
    return atomic_load(&position_register);
}

int32_t plant_angle(void)
{
    return atomic_load(&angle_register);
}

void plant_drive(int32_t force)
{
    atomic_store(&force_register, force);
}

void plant_set_push(int32_t impulse)
{
    next_push = impulse / 1e3;
}

static double bounded(double value, double most)
{
    return value > most ? most : value < -most ? -most : value;
}

static void push(void)
{
    state.angular_velocity += next_push / (bob_mass * rod_length);
    next_push = -next_push;
}

static void move(double force)
{
    double s = sin(state.angle), c = cos(state.angle);
    double pull = bob_mass * s * (rod_length * state.angular_velocity * state.angular_velocity - gravity * c);
    double acceleration = (force + pull - friction * state.velocity) / (cart_mass + bob_mass * s * s);
    state.velocity += acceleration * seconds;
    state.angular_velocity += (gravity * s - acceleration * c) / rod_length * seconds;
    state.position += state.velocity * seconds;
    state.angle += state.angular_velocity * seconds;
}

/* The ends of the rail stop the cart, and the cart stops the pendulum. */
static void stop_at_ends(void)
{
    if (fabs(state.position) > rail_end) {
        state.position = bounded(state.position, rail_end);
        state.velocity = 0;
    }
    if (fabs(state.angle) > flat) {
        state.angle = bounded(state.angle, flat);
        state.angular_velocity = 0;
    }
}

static bool becomes(bool *flag, bool value)
{
    bool before = *flag;
    *flag = value;
    return value && !before;
}

int plant_step(void)
{
    if (++steps % STEPS_BETWEEN_PUSHES == 0) {
        push();
    }
    move(bounded(atomic_load(&force_register), PLANT_MOST_FORCE) / 1e3);
    stop_at_ends();
    atomic_store(&position_register, (int)(state.position * 1e6));
    atomic_store(&angle_register, (int)(state.angle * 1e6));
    if (becomes(&falls, fabs(state.angle) * 1e6 > PLANT_MOST_ANGLE)) {
        return PLANT_EMERGENCY;
    }
    return becomes(&is_near_end, fabs(state.position) > limit_switch) ? PLANT_LIMIT_SWITCH : 0;
}
