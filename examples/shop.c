/*
 * The shop example P of docs/RULES.md, from C: a leak asks for a flush within three minutes, the flush waits for the isolating valve, and when
 * the duty is due the engine itself isolates, drains and flushes. The table is built from plain numbers, and shown in its bytes. A flush that is
 * only tried, in an offered list, is not counted; one that is done is. Then a leak comes again while the flush is still to be done: it is put off,
 * unless the table is firm. Then the isolating valve is away, and the engine says what would be if it came back. At the end the valve itself waits
 * for the drain, and the engine says all that stands in the way of the flush.
 */
#include "duty.h"
#include "shop.h"
#include <inttypes.h>
#include <stdio.h>

static const char *const names[EVENTS] = {"leak", "flush", "isolate", "standby", "drain"};

enum { UNBOUNDED = 0, BOUNDED = 1, REMEDY = DUTY_CONTROLLABLE | DUTY_CAUSABLE };

/* flush, isolate and drain are controllable and causable; a leak and a standby are neither */
static const uint8_t classes[EVENTS] = {[FLUSH] = REMEDY, [ISOLATE] = REMEDY, [DRAIN] = REMEDY};

/* for each relation: kind, left, right, bounded, time */
static const uint32_t relations[] = {
    DUTY_RESPONSE,  LEAK,    FLUSH,   BOUNDED,   3, /* 0: leak response flush, within 3 */
    DUTY_CONDITION, FLUSH,   ISOLATE, BOUNDED,   0, /* 1: flush condition isolate */
    DUTY_INCLUSION, LEAK,    FLUSH,   UNBOUNDED, 0, /* 2: leak includes flush */
    DUTY_EXCLUSION, STANDBY, FLUSH,   UNBOUNDED, 0, /* 3: standby excludes flush */
    DUTY_MILESTONE, FLUSH,   DRAIN,   UNBOUNDED, 0, /* 4: flush milestone drain */
    DUTY_RESPONSE,  LEAK,    DRAIN,   UNBOUNDED, 0, /* 5: leak response drain, eventually */
    DUTY_CONDITION, ISOLATE, DRAIN,   BOUNDED,   0, /* 6: isolate condition drain; not the shop's, the last table has it besides */
};

enum { ALL = sizeof relations / sizeof relations[0] / DUTY_NUMBERS, SHOPS = ALL - 1 };

/* as long as the table is that was built last */
static uint8_t table[DUTY_HEADER_BYTES + EVENTS + DUTY_RELATION_BYTES * ALL];
static size_t length_of_table;
static uint8_t marking[DUTY_RECORD_BYTES * EVENTS];

static void say(const char *what, uint8_t number)
{
    if (number == DUTY_DONE)
        printf("%s: done\n", what);
    else
        printf("%s: refused with %d\n", what, number);
}

static void say_table(void)
{
    printf(" ");
    for (size_t i = 0; i < length_of_table; i++)
        printf(" %02x", table[i]);
    printf("\n");
}

static const char *left_of(size_t relation) { return names[relations[DUTY_NUMBERS * relation + DUTY_AT_LEFT]]; }

static const char *right_of(size_t relation) { return names[relations[DUTY_NUMBERS * relation + DUTY_AT_RIGHT]]; }

static void say_hold_up(size_t event)
{
    uint8_t kind = 0;
    size_t relation = 0;
    if (duty_hold_up(table, length_of_table, marking, sizeof marking, event, &kind, &relation) != DUTY_DONE)
        return;
    if (kind == DUTY_BLOCKED)
        printf("  %s is held up by relation %zu\n", names[event], relation);
    else if (kind == DUTY_ENABLED_UNLESS)
        printf("  %s is enabled, unless %s returns (relation %zu)\n", names[event], right_of(relation), relation);
    else
        printf("  %s is %s\n", names[event], kind == DUTY_ENABLED ? "enabled" : "excluded");
}

/* What stands in the way of an event, and below each line what stands in the way of that. */
static void say_chain(size_t event)
{
    uint16_t list[DUTY_CHAIN_PLACES] = {0};
    size_t count = 0;
    if (duty_chain(table, length_of_table, marking, sizeof marking, event, list, DUTY_CHAIN_PLACES, &count) != DUTY_DONE)
        return;
    for (size_t i = 0; i < count; i++) {
        size_t relation = DUTY_CHAIN_RELATION(list[i]);
        int depth = DUTY_CHAIN_DEPTH(list[i]);
        printf("  %*s%s waits for %s (relation %zu)\n", 2 * depth, "", left_of(relation), right_of(relation), relation);
    }
}

static void say_margin(size_t relation)
{
    uint8_t kind = 0;
    int32_t ticks = 0;
    if (duty_margin(table, length_of_table, marking, sizeof marking, relation, &kind, &ticks) != DUTY_DONE)
        return;
    printf("  relation %zu: ", relation);
    switch (kind) {
    case DUTY_IGNORED: printf("ignored; if %s returned: never\n", right_of(relation)); break;
    case DUTY_IGNORED_BY: printf("ignored; if %s returned: by %" PRId32 "\n", right_of(relation), ticks); break;
    case DUTY_NEVER: printf("never\n"); break;
    case DUTY_BY: printf("by %" PRId32 "\n", ticks); break;
    default: printf("not a condition\n");
    }
}

static void say_count(size_t event)
{
    uint32_t fields[DUTY_FIELDS];
    if (duty_record(table, length_of_table, marking, sizeof marking, event, fields, DUTY_FIELDS) == DUTY_DONE)
        printf("  count of %s: %" PRIu32 "\n", names[event], fields[DUTY_EXECUTIONS]);
}

static void say_deadline(size_t event)
{
    uint32_t fields[DUTY_FIELDS];
    if (duty_record(table, length_of_table, marking, sizeof marking, event, fields, DUTY_FIELDS) == DUTY_DONE)
        printf("  %s is due in %" PRIu32 "\n", names[event], fields[DUTY_DEADLINE]);
}

static void guarded_tick(void)
{
    uint8_t caused[EVENTS] = {0}, reason = 0;
    size_t count = 0, place = 0;
    uint8_t number = duty_guarded_tick(table, length_of_table, marking, sizeof marking, caused, sizeof caused, &count, &reason, &place);
    say("guarded tick", number);
    if (number == DUTY_REJECTED)
        printf("  the check rejects: reason %d at %zu\n", reason, place);
    for (size_t i = 0; i < count; i++)
        printf("  caused %s\n", names[caused[i]]);
}

/* In the marking itself: no relation of the table does it at this moment. */
static void exclude(size_t event) { marking[DUTY_RECORD_BYTES * event + INCLUDED_BYTE] &= 0xFE; }

static void include(size_t event) { marking[DUTY_RECORD_BYTES * event + INCLUDED_BYTE] |= 0x01; }

/* The table of the first so many relations, and its start: all fresh but for the flush, which is excluded. */
static void start(const char *what, uint32_t firm, size_t count)
{
    length_of_table = DUTY_HEADER_BYTES + EVENTS + DUTY_RELATION_BYTES * count;
    say(what, duty_write_table(EVENTS, firm, classes, sizeof classes, relations, DUTY_NUMBERS * count, table, length_of_table));
    say_table();
    say("fresh marking", duty_fresh(EVENTS, marking, sizeof marking));
    exclude(FLUSH);
}

static void happen(size_t event)
{
    printf("%s ", names[event]);
    say("happens", duty_happen(table, length_of_table, marking, sizeof marking, event));
}

/* A leak, two minutes, and the leak again: when is the flush due? */
static void repeat_leak(void)
{
    happen(LEAK);
    guarded_tick();
    guarded_tick();
    say_deadline(FLUSH);
    happen(LEAK);
    say_deadline(FLUSH);
}

/* While the isolating valve is away the flush does not wait for it: would it, if the valve came back? */
static void valve_away(void)
{
    exclude(ISOLATE);
    say_hold_up(ISOLATE);
    say_margin(1);
    say_hold_up(FLUSH);
    include(ISOLATE);
}

/* Before it was ever used, and a minute after. */
static void valve_away_twice(void)
{
    happen(DRAIN);
    valve_away();
    happen(ISOLATE);
    guarded_tick();
    valve_away();
}

/* The flush waits for the valve and for the drain, and the valve waits for the drain too: which is to be done first? */
static void whole_chain(void)
{
    happen(LEAK);
    say_hold_up(FLUSH);
    say_chain(FLUSH);
    happen(ISOLATE);
    happen(DRAIN);
    say_chain(FLUSH);
    happen(ISOLATE);
    say_chain(FLUSH);
    say_hold_up(FLUSH);
}

int main(void)
{
    start("table", DUTY_NOT_FIRM, SHOPS);
    say("judged", duty_judge(table, length_of_table, marking, sizeof marking));

    happen(LEAK);
    happen(FLUSH);
    say_hold_up(FLUSH);
    say_chain(FLUSH);

    for (int minute = 0; minute < 3; minute++)
        guarded_tick();
    say("plain tick", duty_plain_tick(table, length_of_table, marking, sizeof marking));

    static const uint8_t preferred[] = {FLUSH, ISOLATE, DRAIN}, fallback[] = {DRAIN, ISOLATE, FLUSH, ISOLATE};
    uint8_t list = 0;
    size_t length = 0;
    say("offered remedies",
        duty_remedies(table, length_of_table, marking, sizeof marking, preferred, sizeof preferred, fallback, sizeof fallback, &list, &length));
    printf("  the first %zu of the %s list\n", length, list == DUTY_PREFERRED ? "preferred" : "fallback");
    say_count(FLUSH);

    guarded_tick();
    say_count(FLUSH);

    repeat_leak();
    start("firm table", DUTY_FIRM, SHOPS);
    repeat_leak();
    valve_away_twice();
    start("table in which isolate waits for drain", DUTY_NOT_FIRM, ALL);
    whole_chain();
    return 0;
}
