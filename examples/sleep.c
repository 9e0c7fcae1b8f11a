/*
 * A monitor that sleeps, with the shop's process P of docs/RULES.md; a tick is a minute. The engine says how many minutes are quiet, the processor
 * sleeps for so long, or until something comes in, and the engine is told how many minutes have passed. Where a duty is due, the next minute is one
 * before which something is caused. The clock, which runs on while the processor sleeps, and what comes in are only played here. At the end the
 * battery is changed: nothing runs but the clock, and what fell due meanwhile is caught up with in one call.
 */
#include "duty.h"
#include "shop.h"
#include <stdio.h>
#include <stdlib.h>

static const char *const names[EVENTS] = {"leak", "flush", "isolate", "standby", "drain"};

/* The shop's table, as examples/shop.c builds it. */
static const uint8_t table[] = {
    0x0a, 0x06, 0x00, 0x00,             /* five events, six relations, not firm */
    0x00, 0xc0, 0xc0, 0x00, 0xc0,       /* flush, isolate and drain are controllable and causable */
    0x40, 0x03, 0x00, 0x00, 0x00, 0x0c, /* leak response flush, within 3 */
    0x20, 0x85, 0x00, 0x00, 0x00, 0x00, /* flush condition isolate */
    0x60, 0x02, 0x00, 0x00, 0x00, 0x00, /* leak includes flush */
    0x81, 0x82, 0x00, 0x00, 0x00, 0x00, /* standby excludes flush */
    0xa0, 0x88, 0x00, 0x00, 0x00, 0x00, /* flush milestone drain */
    0x40, 0x08, 0x00, 0x00, 0x00, 0x00, /* leak response drain, eventually */
};
static uint8_t marking[DUTY_RECORD_BYTES * EVENTS];

#define IMAGES table, sizeof table, marking, sizeof marking

/* What comes in, and at which minute since the start. */
static const struct {
    size_t minute, event;
} inputs[] = {
    {1000, LEAK},
    {2000, LEAK}, {2001, STANDBY}, /* before the flush is due: it is out again */
    {2010, LEAK}, {2012, LEAK}, /* the second leak puts the flush off */
    {2500000, STANDBY}, {2500000, LEAK},
};

enum { INPUTS = sizeof inputs / sizeof inputs[0], CHANGING_BATTERY = 60 };

/* The clock, in minutes since the start. */
static size_t minute;
static size_t inputs_taken, times_woken;

static void must(const char *what, uint8_t number)
{
    if (number == DUTY_DONE)
        return;
    printf("%s: refused with %d\n", what, number);
    exit(1);
}

/* The processor sleeps for so many minutes, or until something comes in. How many have passed is the clock's to say. */
static size_t rest(size_t minutes)
{
    size_t left = inputs[inputs_taken].minute - minute;
    size_t passed = minutes < left ? minutes : left;
    minute += passed;
    times_woken++;
    return passed;
}

/* The engine is told that so many minutes have passed up to now. What it has caused is what the pump has to do. */
static uint8_t pass(size_t minutes, uint32_t *list, size_t room)
{
    uint8_t reason = 0;
    size_t count = 0, place = 0;
    uint8_t number = duty_sleep(IMAGES, minutes, list, room, &count, &reason, &place);
    for (size_t i = 0; i < count; i++)
        printf("  caused %s, before tick %zu\n", names[DUTY_SLEPT_EVENT(list[i])], minute - minutes + DUTY_SLEPT_TICK(list[i]));
    return number;
}

/* Until the processor is woken. Quiet minutes cause nothing, and take no place of a list; another one causes each event once at most. */
static void sleep_once(void)
{
    uint32_t list[EVENTS] = {0};
    size_t quiet = 0;
    must("quiet", duty_quiet(IMAGES, &quiet));
    if (quiet == 0)
        printf("minute %zu: a duty is due\n", minute);
    else
        printf("minute %zu: quiet for %zu\n", minute, quiet);
    size_t passed = rest(quiet == 0 ? 1 : quiet);
    printf("minute %zu: slept for %zu\n", minute, passed);
    must("sleep", pass(passed, list, quiet == 0 ? EVENTS : 0));
}

static void take_inputs(void)
{
    for (; inputs_taken < INPUTS && inputs[inputs_taken].minute == minute; inputs_taken++) {
        size_t event = inputs[inputs_taken].event;
        printf("minute %zu: %s\n", minute, names[event]);
        must(names[event], duty_happen(IMAGES, event));
    }
}

/* Nobody asked how many minutes are quiet. With a list that is too short no minute has passed; one with a place for each event and each minute is
   always long enough. */
static void change_battery(void)
{
    static uint32_t list[EVENTS * CHANGING_BATTERY];
    minute += CHANGING_BATTERY;
    printf("minute %zu: the battery was changed, which took %d\n", minute, CHANGING_BATTERY);
    uint8_t number = pass(CHANGING_BATTERY, list, 1);
    if (number == DUTY_ROOM) {
        printf("  one place is too few\n");
        number = pass(CHANGING_BATTERY, list, EVENTS * CHANGING_BATTERY);
    }
    must("sleep", number);
}

int main(void)
{
    uint8_t reason = 0;
    size_t place = 0;
    must("fresh marking", duty_fresh(EVENTS, marking, sizeof marking));
    marking[DUTY_RECORD_BYTES * FLUSH + INCLUDED_BYTE] = 0; /* the flush is out until there is a leak */
    must("check", duty_check(IMAGES, &reason, &place));
    while (inputs_taken < INPUTS) {
        sleep_once();
        take_inputs();
    }
    printf("woken %zu times in %zu minutes\n", times_woken, minute);
    change_battery();
    return 0;
}
