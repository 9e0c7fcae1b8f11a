/*
 * What can be seen from C: the answers of the shop case and at the limits, the order of refusals, and that nothing is read or written past a
 * buffer, nor written in a refusal. Every buffer ends where its page ends and the page behind cannot be touched; in a refusal its own page
 * cannot be written either. A call that oversteps ends the program.
 */
#define _DEFAULT_SOURCE
#include "duty.h"
#include "shop.h"
#include "shop_table.h" /* of ./run: the script beside this file makes it */
#include <stdio.h>
#include <stdlib.h>
#include <string.h>
#include <sys/mman.h>

static int passed, failed;

#define CHECK(fact) check((fact), #fact, __LINE__)
static void check(int holds, const char *fact, int line)
{
    if (holds) {
        passed++;
    } else {
        failed++;
        printf("line %d: %s\n", line, fact);
    }
}

/* Lent memory */

enum { PAGE = 4096, PAGES = 4, MOST = PAGE * PAGES };

/* so many bytes, with the page behind them closed */
struct lent {
    uint8_t *base, *bytes;
    size_t length;
};

static struct lent lend(const void *bytes, size_t length)
{
    struct lent l;
    l.base = mmap(NULL, MOST + PAGE, PROT_READ | PROT_WRITE, MAP_PRIVATE | MAP_ANONYMOUS, -1, 0);
    if (l.base == MAP_FAILED || length > MOST || mprotect(l.base + MOST, PAGE, PROT_NONE) != 0) {
        puts("no memory to lend");
        exit(1);
    }
    l.bytes = l.base + MOST - length;
    l.length = length;
    memset(l.base, 0xA5, MOST);
    if (bytes != NULL)
        memcpy(l.bytes, bytes, length);
    return l;
}

static void protect(struct lent l, int how)
{
    if (mprotect(l.base, MOST, how) != 0) {
        puts("a page cannot be shut");
        exit(1);
    }
}

static void shut(struct lent l) { protect(l, PROT_READ); }

static void open_up(struct lent l) { protect(l, PROT_READ | PROT_WRITE); }

static void give_back(struct lent l) { munmap(l.base, MOST + PAGE); }

/* what is before the bytes is as it was made */
static int kept_before(struct lent l)
{
    for (uint8_t *p = l.base; p < l.bytes; p++)
        if (*p != 0xA5)
            return 0;
    return 1;
}

/* The out-parameters, each at the end of a page of its own. */
static struct lent small, word, half, place, count;
#define SMALL (small.bytes)
#define SET ((uint64_t *)(void *)word.bytes)
#define SIZE ((uint32_t *)(void *)half.bytes)
#define TICKS ((int32_t *)(void *)(word.bytes + 4))
#define PLACE ((size_t *)(void *)place.bytes)
#define COUNT ((size_t *)(void *)count.bytes)

static void shut_answers(void)
{
    shut(small);
    shut(word);
    shut(half);
    shut(place);
    shut(count);
}

static void open_answers(void)
{
    open_up(small);
    open_up(word);
    open_up(half);
    open_up(place);
    open_up(count);
}

/* A table and a marking, and every call on them */

struct images {
    struct lent table, marking, caused, answers, fields, list, slept;
};

#define T(i) (i).table.bytes, (i).table.length
#define M(i) (i).marking.bytes, (i).marking.length

/* a list for a sleep, of so many places */
static struct lent lend_places(size_t places) { return lend(NULL, places * sizeof(uint32_t)); }

static struct images take(const void *table, size_t table_length, const void *marking, size_t marking_length)
{
    struct images i;
    i.table = lend(table, table_length);
    i.marking = lend(marking, marking_length);
    i.caused = lend(NULL, DUTY_MOST_EVENTS);
    i.answers = lend(NULL, 8);
    i.fields = lend(NULL, DUTY_FIELDS * sizeof(uint32_t));
    i.list = lend(NULL, DUTY_CHAIN_PLACES * sizeof(uint16_t));
    i.slept = lend_places(3 * DUTY_MOST_EVENTS);
    shut(i.table);
    return i;
}

static void leave(struct images i)
{
    give_back(i.table);
    give_back(i.marking);
    give_back(i.caused);
    give_back(i.answers);
    give_back(i.fields);
    give_back(i.list);
    give_back(i.slept);
}

static uint8_t guarded(struct images i)
{
    return duty_guarded_tick(T(i), M(i), i.caused.bytes, i.caused.length, COUNT, SMALL, PLACE);
}

static uint8_t record(struct images i, size_t event)
{
    return duty_record(T(i), M(i), event, (uint32_t *)(void *)i.fields.bytes, i.fields.length / sizeof(uint32_t));
}

static uint8_t relation(struct images i, size_t k)
{
    return duty_relation(T(i), k, (uint32_t *)(void *)i.fields.bytes, i.fields.length / sizeof(uint32_t));
}

static uint8_t chain(struct images i, size_t event)
{
    return duty_chain(T(i), M(i), event, (uint16_t *)(void *)i.list.bytes, i.list.length / sizeof(uint16_t), COUNT);
}

static uint8_t pass(struct images i, size_t ticks)
{
    return duty_sleep(T(i), M(i), ticks, (uint32_t *)(void *)i.slept.bytes, i.slept.length / sizeof(uint32_t), COUNT, SMALL, PLACE);
}

static uint8_t quiet(struct images i) { return duty_quiet(T(i), M(i), COUNT); }

static uint8_t run(struct images i, const void *steps, size_t length)
{
    struct lent l = lend(steps, length);
    shut(l);
    uint8_t number = duty_run(T(i), M(i), l.bytes, l.length, i.answers.bytes, i.answers.length);
    give_back(l);
    return number;
}

/* Images that cannot be read: every call gives their number, and writes nothing. */
static void all_refused(const void *table, size_t table_length, const void *marking, size_t marking_length, uint8_t number)
{
    static const uint8_t list[] = {ISOLATE}, steps[] = {2, 0};
    struct images i = take(table, table_length, marking, marking_length);
    shut(i.marking);
    shut(i.caused);
    shut(i.answers);
    shut(i.fields);
    shut(i.list);
    shut(i.slept);
    shut_answers();
    CHECK(duty_judge(T(i), M(i)) == number);
    CHECK(record(i, 0) == number);
    CHECK(duty_enabled(T(i), M(i), 0, SMALL) == number);
    CHECK(duty_due(T(i), M(i), SET) == number);
    CHECK(duty_happen(T(i), M(i), FLUSH) == number);
    CHECK(duty_plain_tick(T(i), M(i)) == number);
    CHECK(duty_margin(T(i), M(i), 0, SMALL, TICKS) == number);
    CHECK(duty_hold_up(T(i), M(i), 0, SMALL, PLACE) == number);
    CHECK(chain(i, 0) == number);
    CHECK(chain(i, SIZE_MAX) == number);
    CHECK(duty_closure(T(i), M(i), SET, SIZE) == number);
    CHECK(duty_check(T(i), M(i), SMALL, PLACE) == number);
    CHECK(guarded(i) == number);
    CHECK(duty_remedies(T(i), M(i), list, sizeof list, list, sizeof list, SMALL, PLACE) == number);
    CHECK(run(i, steps, sizeof steps) == number);
    CHECK(quiet(i) == number);
    CHECK(pass(i, 0) == number && pass(i, 1) == number && pass(i, SIZE_MAX) == number);
    i.slept.length = 0;
    CHECK(pass(i, DUTY_MOST_TICKS) == number && pass(i, DUTY_MOST_TICKS + 1) == number);
    open_answers();
    leave(i);
}

/* A table that cannot be read: the calls that are handed it alone give its number too, before their own. */
static void table_refused(const void *table, size_t table_length, const void *marking, size_t marking_length, uint8_t number)
{
    struct images i = take(table, table_length, marking, marking_length);
    shut(i.fields);
    shut_answers();
    CHECK(relation(i, 0) == number);
    CHECK(relation(i, SIZE_MAX) == number);
    CHECK(duty_class(T(i), 0, SMALL) == number);
    CHECK(duty_class(T(i), SIZE_MAX, SMALL) == number);
    CHECK(duty_firm(T(i), SIZE) == number);
    i.fields.length = 0;
    CHECK(relation(i, 0) == number);
    open_answers();
    leave(i);
    all_refused(table, table_length, marking, marking_length, number);
}

/* The shop's start, with its table or one that differs in a bit: fresh, flush excluded. */
static struct images start(const uint8_t *table)
{
    struct images i = take(table, sizeof shop_table, NULL, DUTY_RECORD_BYTES * EVENTS);
    CHECK(duty_fresh(EVENTS, i.marking.bytes, i.marking.length) == DUTY_DONE);
    i.marking.bytes[DUTY_RECORD_BYTES * FLUSH + INCLUDED_BYTE] = 0;
    return i;
}

static struct images shop(void) { return start(shop_table); }

/* leak, and three guarded ticks */
static struct images shop_due(void)
{
    struct images i = shop();
    CHECK(duty_happen(T(i), M(i), LEAK) == DUTY_DONE);
    for (int minute = 0; minute < 3; minute++)
        CHECK(guarded(i) == DUTY_DONE && *COUNT == 0);
    return i;
}

static void plays_the_shop(void)
{
    struct images i = shop();
    shut(i.marking);
    CHECK(duty_judge(T(i), M(i)) == DUTY_DONE);
    CHECK(duty_check(T(i), M(i), SMALL, PLACE) == DUTY_DONE && *SMALL == 0 && *PLACE == 0);
    CHECK(duty_closure(T(i), M(i), SET, SIZE) == DUTY_DONE && *SET == 0x16 && *SIZE == 3);
    CHECK(duty_size(*SET) == 3 && duty_lowest(*SET) == FLUSH);
    CHECK(duty_due(T(i), M(i), SET) == DUTY_DONE && *SET == 0);
    CHECK(duty_hold_up(T(i), M(i), FLUSH, SMALL, PLACE) == DUTY_DONE && *SMALL == DUTY_EXCLUDED && *PLACE == 0);
    open_up(i.marking);
    CHECK(duty_happen(T(i), M(i), LEAK) == DUTY_DONE);
    CHECK(duty_enabled(T(i), M(i), ISOLATE, SMALL) == DUTY_DONE && *SMALL == 1);
    CHECK(duty_enabled(T(i), M(i), FLUSH, SMALL) == DUTY_DONE && *SMALL == 0);
    CHECK(duty_hold_up(T(i), M(i), FLUSH, SMALL, PLACE) == DUTY_DONE && *SMALL == DUTY_BLOCKED && *PLACE == 1);
    CHECK(duty_margin(T(i), M(i), 1, SMALL, TICKS) == DUTY_DONE && *SMALL == DUTY_NEVER && *TICKS == 0);
    CHECK(duty_margin(T(i), M(i), 0, SMALL, TICKS) == DUTY_DONE && *SMALL == DUTY_NOT_A_CONDITION && *TICKS == 0);
    leave(i);

    i = shop_due();
    CHECK(duty_due(T(i), M(i), SET) == DUTY_DONE && *SET == 1u << FLUSH);
    CHECK(guarded(i) == DUTY_DONE && *COUNT == 3 && memcmp(i.caused.bytes, "\2\4\1\xA5", 4) == 0 && *SMALL == 0 && *PLACE == 0);
    CHECK(kept_before(i.marking) && kept_before(i.caused) && i.caused.bytes[DUTY_MOST_EVENTS - 1] == 0xA5);
    CHECK(duty_margin(T(i), M(i), 1, SMALL, TICKS) == DUTY_DONE && *SMALL == DUTY_BY && *TICKS == 1);
    leave(i);
}

/* The seven places hold the record's fields in the image's order; an eighth stays; 8 comes before 14, and a refusal writes nothing. */
static void tells_records(void)
{
    static const uint32_t flush[DUTY_FIELDS] = {0, 0, 1, 1, 1, 0, 0}, leak[DUTY_FIELDS] = {1, 3, 1, 0, 0, 0, 1};
    static const uint32_t isolate[DUTY_FIELDS] = {0, 0, 1, 0, 0, 0, 0}, drain[DUTY_FIELDS] = {0, 0, 1, 1, 0, 0, 0};
    uint32_t eight[DUTY_FIELDS + 1] = {9, 9, 9, 9, 9, 9, 9, 9};
    struct images i = shop_due();
    shut(i.marking);
    CHECK(record(i, FLUSH) == DUTY_DONE && memcmp(i.fields.bytes, flush, sizeof flush) == 0 && kept_before(i.fields));
    CHECK(record(i, LEAK) == DUTY_DONE && memcmp(i.fields.bytes, leak, sizeof leak) == 0);
    CHECK(record(i, DRAIN) == DUTY_DONE && memcmp(i.fields.bytes, drain, sizeof drain) == 0);
    CHECK(duty_record(T(i), M(i), ISOLATE, eight, DUTY_FIELDS + 1) == DUTY_DONE);
    CHECK(memcmp(eight, isolate, sizeof isolate) == 0 && eight[DUTY_FIELDS] == 9);
    shut(i.fields);
    CHECK(record(i, EVENTS) == DUTY_NONE_SUCH);
    CHECK(record(i, SIZE_MAX) == DUTY_NONE_SUCH);
    i.fields.length -= sizeof(uint32_t); /* 6 places */
    CHECK(record(i, EVENTS) == DUTY_NONE_SUCH);
    CHECK(record(i, EVENTS - 1) == DUTY_ROOM);
    i.fields.length = 0;
    CHECK(record(i, 0) == DUTY_ROOM);
    leave(i);
}

/* The flush before the leak, which includes it, and behind what it waits for; by the call and by both kinds of step, with each event of its
   class and with each of the other. */
static void happens_in_either_class(void)
{
    static const uint8_t events[] = {FLUSH, LEAK, FLUSH, ISOLATE, DRAIN, FLUSH, EVENTS}, answers[] = {10, 0, 10, 0, 0, 0, 8};
    uint8_t table[sizeof shop_table], steps[2 * sizeof events];
    for (unsigned turn = 0; turn < 4; turn++) {
        memcpy(table, shop_table, sizeof table);
        for (size_t e = 0; e < EVENTS; e++)
            table[4 + e] ^= turn < 2 ? 0 : DUTY_CONTROLLABLE;
        struct images i = start(table), other = start(table);
        for (size_t k = 0; k < sizeof events; k++) {
            CHECK(duty_happen(T(i), M(i), events[k]) == answers[k]);
            steps[2 * k] = turn % 2 == 0 ? DUTY_HAPPEN : 1;
            steps[2 * k + 1] = events[k];
        }
        CHECK(run(other, steps, sizeof steps) == DUTY_DONE && memcmp(other.answers.bytes, answers, sizeof answers) == 0);
        CHECK(memcmp(i.marking.bytes, other.marking.bytes, i.marking.length) == 0 && kept_before(i.marking));
        leave(i);
        leave(other);
    }
}

/* Counting */

/* how often an event was executed, as duty_record tells it */
static uint32_t executions(struct images i, size_t event)
{
    CHECK(record(i, event) == DUTY_DONE);
    return ((const uint32_t *)(const void *)i.fields.bytes)[DUTY_EXECUTIONS];
}

/* for each event, how often */
static int counted(struct images i, const uint32_t *times)
{
    for (size_t e = 0; e < EVENTS; e++)
        if (executions(i, e) != times[e])
            return 0;
    return 1;
}

/* an event that has happened so often, just now */
static void set_executions(struct images i, size_t event, uint32_t times)
{
    uint8_t *bytes = i.marking.bytes + DUTY_RECORD_BYTES * event;
    bytes[0] = 0x80;
    for (int k = 0; k < 4; k++)
        bytes[DUTY_OLD_RECORD_BYTES + k] = (uint8_t)(times >> (24 - 8 * k));
}

/* Each execution counts its own event, by whichever call; a refusal, a tick without a duty and lists that are only tried count nothing. */
static void counts_executions(void)
{
    static const uint8_t preferred[] = {FLUSH, ISOLATE, DRAIN}, fallback[] = {DRAIN, ISOLATE, FLUSH, ISOLATE};
    static const uint8_t steps[] = {1, LEAK, 0, ISOLATE, 0, LEAK, 1, DRAIN, 0, FLUSH, 1, FLUSH, 3, 0}, answers[7] = {0};
    struct images i = shop();
    CHECK(counted(i, (const uint32_t[EVENTS]){0}));
    CHECK(duty_happen(T(i), M(i), ISOLATE) == DUTY_DONE && duty_happen(T(i), M(i), ISOLATE) == DUTY_DONE);
    CHECK(counted(i, (const uint32_t[EVENTS]){[ISOLATE] = 2}));
    leave(i);

    i = shop_due();
    CHECK(counted(i, (const uint32_t[EVENTS]){[LEAK] = 1}));
    CHECK(duty_happen(T(i), M(i), FLUSH) == DUTY_NOT_ENABLED && duty_plain_tick(T(i), M(i)) == DUTY_IS_DUE);
    shut(i.marking);
    CHECK(duty_remedies(T(i), M(i), preferred, 3, fallback, 4, SMALL, PLACE) == DUTY_DONE && *SMALL == DUTY_FALLBACK && *PLACE == 3);
    CHECK(duty_remedies(T(i), M(i), fallback, 4, fallback, 4, SMALL, PLACE) == DUTY_DONE && *SMALL == DUTY_PREFERRED && *PLACE == 3);
    CHECK(duty_remedies(T(i), M(i), fallback, 2, preferred, 3, SMALL, PLACE) == DUTY_NO_REMEDY);
    CHECK(counted(i, (const uint32_t[EVENTS]){[LEAK] = 1}));
    open_up(i.marking);
    CHECK(guarded(i) == DUTY_DONE && *COUNT == 3);
    CHECK(counted(i, (const uint32_t[EVENTS]){[LEAK] = 1, [FLUSH] = 1, [ISOLATE] = 1, [DRAIN] = 1}));
    CHECK(duty_remedies(T(i), M(i), fallback, 4, preferred, 3, SMALL, PLACE) == DUTY_DONE && *SMALL == DUTY_PREFERRED && *PLACE == 0);
    CHECK(duty_happen(T(i), M(i), STANDBY) == DUTY_DONE && guarded(i) == DUTY_DONE && *COUNT == 0);
    CHECK(duty_happen(T(i), M(i), FLUSH) == DUTY_NOT_ENABLED); /* excluded, and it has happened */
    CHECK(counted(i, (const uint32_t[EVENTS]){1, 1, 1, 1, 1}));
    CHECK(run(i, steps, sizeof steps) == DUTY_DONE && memcmp(i.answers.bytes, answers, sizeof answers) == 0);
    CHECK(counted(i, (const uint32_t[EVENTS]){[LEAK] = 3, [FLUSH] = 3, [ISOLATE] = 2, [STANDBY] = 1, [DRAIN] = 2}));
    leave(i);
}

/* At the limit a count stays, whichever call executes; one below it is reached. */
static void holds_counts(void)
{
    static const uint8_t steps[] = {0, ISOLATE, 1, LEAK};
    static const uint8_t held[] = {0x80, 0, 0, 3, 0, 0, 0, 0, 0xFF, 0xFF, 0xFF, 0xFF};
    struct images i = shop();
    set_executions(i, ISOLATE, DUTY_COUNT_LIMIT - 1);
    CHECK(executions(i, ISOLATE) == DUTY_COUNT_LIMIT - 1);
    CHECK(duty_happen(T(i), M(i), ISOLATE) == DUTY_DONE && executions(i, ISOLATE) == DUTY_COUNT_LIMIT);
    CHECK(duty_happen(T(i), M(i), ISOLATE) == DUTY_DONE && executions(i, ISOLATE) == DUTY_COUNT_LIMIT);
    set_executions(i, LEAK, DUTY_COUNT_LIMIT);
    CHECK(duty_happen(T(i), M(i), LEAK) == DUTY_DONE && executions(i, LEAK) == DUTY_COUNT_LIMIT);
    CHECK(run(i, steps, sizeof steps) == DUTY_DONE && memcmp(i.answers.bytes, "\0\0", 2) == 0);
    CHECK(executions(i, ISOLATE) == DUTY_COUNT_LIMIT && executions(i, LEAK) == DUTY_COUNT_LIMIT);
    leave(i);

    i = shop_due();
    set_executions(i, FLUSH, DUTY_COUNT_LIMIT);
    set_executions(i, DRAIN, DUTY_COUNT_LIMIT - 1);
    CHECK(guarded(i) == DUTY_DONE && *COUNT == 3 && memcmp(i.caused.bytes, "\2\4\1", 3) == 0);
    CHECK(counted(i, (const uint32_t[EVENTS]){1, DUTY_COUNT_LIMIT, 1, 0, DUTY_COUNT_LIMIT}));
    CHECK(memcmp(i.marking.bytes + DUTY_RECORD_BYTES * FLUSH, held, sizeof held) == 0);
    CHECK(duty_judge(T(i), M(i)) == DUTY_DONE && kept_before(i.marking));
    leave(i);
}

static void offers_remedies(void)
{
    static const uint8_t preferred[] = {FLUSH, ISOLATE, DRAIN}, fallback[] = {DRAIN, ISOLATE, FLUSH, ISOLATE}, long_list[256] = {0};
    struct images i = shop_due();
    shut(i.marking);
    CHECK(duty_remedies(T(i), M(i), preferred, 3, fallback, 4, SMALL, PLACE) == DUTY_DONE && *SMALL == DUTY_FALLBACK && *PLACE == 3);
    CHECK(duty_remedies(T(i), M(i), fallback, 4, preferred, 3, SMALL, PLACE) == DUTY_DONE && *SMALL == DUTY_PREFERRED && *PLACE == 3);
    /* one list for both, and a part of a list as the other */
    CHECK(duty_remedies(T(i), M(i), fallback, 4, fallback, 4, SMALL, PLACE) == DUTY_DONE && *SMALL == DUTY_PREFERRED && *PLACE == 3);
    CHECK(duty_remedies(T(i), M(i), fallback + 1, 3, fallback, 4, SMALL, PLACE) == DUTY_DONE && *SMALL == DUTY_FALLBACK && *PLACE == 3);
    shut_answers();
    CHECK(duty_remedies(T(i), M(i), fallback, 1, fallback, 1, SMALL, PLACE) == DUTY_NO_REMEDY);
    CHECK(duty_remedies(T(i), M(i), fallback, 0, fallback, 0, SMALL, PLACE) == DUTY_NO_REMEDY);
    CHECK(duty_remedies(T(i), M(i), long_list, 256, fallback, 4, SMALL, PLACE) == DUTY_ROOM);
    CHECK(duty_remedies(T(i), M(i), fallback, 4, long_list, 256, SMALL, PLACE) == DUTY_ROOM);
    CHECK(duty_remedies(T(i), M(i), long_list, 255, long_list, 255, SMALL, PLACE) == DUTY_NO_REMEDY);
    open_answers();
    leave(i);

    i = shop();
    CHECK(duty_remedies(T(i), M(i), preferred, 0, fallback, 0, SMALL, PLACE) == DUTY_DONE && *SMALL == DUTY_PREFERRED && *PLACE == 0);
    leave(i);
}

/* A refusal of the call's own, with everything shut. */
static void refuses(void)
{
    struct images i = shop_due();
    shut(i.marking);
    shut(i.caused);
    shut_answers();
    CHECK(duty_happen(T(i), M(i), FLUSH) == DUTY_NOT_ENABLED);
    CHECK(duty_happen(T(i), M(i), EVENTS) == DUTY_NONE_SUCH);
    CHECK(duty_happen(T(i), M(i), DUTY_MOST_EVENTS) == DUTY_NONE_SUCH);
    CHECK(duty_happen(T(i), M(i), (size_t)1 << 32) == DUTY_NONE_SUCH);
    CHECK(duty_happen(T(i), M(i), SIZE_MAX) == DUTY_NONE_SUCH);
    CHECK(duty_enabled(T(i), M(i), SIZE_MAX, SMALL) == DUTY_NONE_SUCH);
    CHECK(duty_hold_up(T(i), M(i), EVENTS, SMALL, PLACE) == DUTY_NONE_SUCH);
    CHECK(duty_margin(T(i), M(i), 6, SMALL, TICKS) == DUTY_NONE_SUCH);
    CHECK(duty_plain_tick(T(i), M(i)) == DUTY_IS_DUE);
    /* a byte for each event, and no less */
    i.caused.length = EVENTS - 1;
    CHECK(guarded(i) == DUTY_ROOM);
    i.caused.length = 0;
    CHECK(guarded(i) == DUTY_ROOM);
    open_answers();
    open_up(i.marking);
    open_up(i.caused);
    i.caused.bytes += DUTY_MOST_EVENTS - EVENTS;
    i.caused.length = EVENTS;
    CHECK(guarded(i) == DUTY_DONE && *COUNT == 3 && memcmp(i.caused.bytes, "\2\4\1\xA5\xA5", EVENTS) == 0 && kept_before(i.caused));
    leave(i);
}

/* 12 writes reason and place, and nothing else; 14 comes before it. */
static void rejects(void)
{
    uint8_t table[sizeof shop_table], marking[DUTY_RECORD_BYTES * EVENTS] = {0};
    static const uint8_t step[] = {3, 0};
    memcpy(table, shop_table, sizeof table);
    table[4 + ISOLATE] = 0x80; /* not causable */
    CHECK(duty_fresh(EVENTS, marking, sizeof marking) == DUTY_DONE);
    struct images i = take(table, sizeof table, marking, sizeof marking);
    shut(i.marking);
    shut(i.caused);
    shut(count);
    CHECK(duty_check(T(i), M(i), SMALL, PLACE) == DUTY_REJECTED && *SMALL == 2 && *PLACE == ISOLATE);
    *SMALL = 9;
    *PLACE = 9;
    CHECK(guarded(i) == DUTY_REJECTED && *SMALL == 2 && *PLACE == ISOLATE);
    i.caused.length = EVENTS - 1;
    shut_answers();
    CHECK(guarded(i) == DUTY_ROOM);
    open_answers();
    open_up(i.marking);
    CHECK(run(i, step, sizeof step) == DUTY_DONE && i.answers.bytes[0] == DUTY_REJECTED && i.answers.bytes[1] == 0xA5);
    CHECK(memcmp(i.marking.bytes, marking, sizeof marking) == 0);
    leave(i);
}

static void runs(void)
{
    static const uint8_t steps[] = {1, LEAK, 0, FLUSH, 3, 0, 3, 0, 3, 0, 2, 0, 3, 0, 4, 0}, answers[] = {0, 10, 0, 0, 0, 11, 0, 15};
    static uint8_t many[2 * 4097];
    struct images i = shop(), other = shop_due();
    CHECK(guarded(other) == DUTY_DONE);
    CHECK(run(i, steps, sizeof steps) == DUTY_DONE);
    CHECK(memcmp(i.answers.bytes, answers, sizeof answers) == 0 && kept_before(i.answers));
    CHECK(memcmp(i.marking.bytes, other.marking.bytes, i.marking.length) == 0);
    CHECK(run(i, steps, 0) == DUTY_DONE && memcmp(i.marking.bytes, other.marking.bytes, i.marking.length) == 0);
    shut(i.marking);
    shut(i.answers);
    CHECK(run(i, steps, 15) == DUTY_LENGTH);
    i.answers.length = 7;
    CHECK(run(i, steps, sizeof steps) == DUTY_ROOM);
    CHECK(run(i, many, sizeof many - 1) == DUTY_LENGTH);
    CHECK(run(i, many, sizeof many) == DUTY_ROOM);
    leave(i);
    leave(other);
}

/* The two events of docs/RULES.md, byte by byte: one that is due is caused, and its response comes back to it. */
static const uint8_t hex_table[] = {0x04, 0x01, 0, 0, 0x40, 0x80, 0x40, 0x01, 0, 0, 0, 0x04};
static const uint8_t hex_marking[2 * DUTY_RECORD_BYTES] = {0, 0, 0, 1, 0xC0, 0, 0, 0, 0, 0, 0, 0};
static const uint8_t hex_after[2 * DUTY_RECORD_BYTES] = {0x80, 0, 0, 3, 0xC0, 0, 0, 0, 0, 0, 0, 1};

static void answers_the_hex_case(void)
{
    struct images i = take(hex_table, sizeof hex_table, hex_marking, sizeof hex_marking);
    CHECK(guarded(i) == DUTY_DONE && *COUNT == 1 && i.caused.bytes[0] == 0);
    CHECK(memcmp(i.marking.bytes, hex_after, sizeof hex_after) == 0);
    leave(i);

    /* as the station program answers it, whose 25 bytes are the answer and the marking */
    static const uint8_t steps[] = {3, 0};
    i = take(hex_table, sizeof hex_table, hex_marking, sizeof hex_marking);
    CHECK(run(i, steps, sizeof steps) == DUTY_DONE && i.answers.bytes[0] == 0 && i.answers.bytes[1] == 0xA5);
    CHECK(1 + i.marking.length == 25 && memcmp(i.marking.bytes, hex_after, sizeof hex_after) == 0);
    leave(i);
}

static void makes_fresh(void)
{
    struct lent l = lend(NULL, DUTY_RECORD_BYTES * DUTY_MOST_EVENTS);
    shut(l);
    CHECK(duty_fresh(0, l.bytes, l.length) == DUTY_COUNTS);
    CHECK(duty_fresh(65, l.bytes, l.length) == DUTY_COUNTS);
    CHECK(duty_fresh(SIZE_MAX, l.bytes, l.length) == DUTY_COUNTS);
    CHECK(duty_fresh(0, l.bytes, 0) == DUTY_COUNTS);
    CHECK(duty_fresh(1, l.bytes, 0) == DUTY_ROOM);
    CHECK(duty_fresh(EVENTS, l.bytes, DUTY_RECORD_BYTES * EVENTS - 1) == DUTY_ROOM);
    open_up(l);
    CHECK(duty_fresh(1, l.bytes, l.length) == DUTY_DONE);
    CHECK(memcmp(l.bytes, "\0\0\0\1\0\0\0\0\0\0\0\0\xA5", DUTY_RECORD_BYTES + 1) == 0 && kept_before(l));
    CHECK(duty_fresh(64, l.bytes, l.length) == DUTY_DONE && l.bytes[DUTY_RECORD_BYTES * 63 + INCLUDED_BYTE] == 1);
    give_back(l);
}

/* Carrying over */

static uint8_t carry(size_t events, const void *old, size_t old_length, struct lent marking)
{
    struct lent l = lend(old, old_length);
    shut(l);
    uint8_t number = duty_carry(events, l.bytes, l.length, marking.bytes, marking.length);
    give_back(l);
    return number;
}

/* The number of what is not carried over: with the buffer shut. */
static uint8_t uncarried(size_t events, const void *old, size_t old_length, size_t room)
{
    struct lent l = lend(NULL, room);
    shut(l);
    uint8_t number = carry(events, old, old_length, l);
    give_back(l);
    return number;
}

/* The old image of the hex case, after it: the one has happened, the other not. */
static const uint8_t hex_old[2 * DUTY_OLD_RECORD_BYTES] = {0x80, 0, 0, 3, 0xC0, 0, 0, 0};

/* What is carried over is the old bytes and a count of 1 or 0, a byte behind it stays, and it is read. */
static void carries_over(void)
{
    static const uint32_t first[DUTY_FIELDS] = {1, 1, 1, 1, 1, 0, 1}, second[DUTY_FIELDS] = {0};
    struct images i = take(hex_table, sizeof hex_table, NULL, sizeof hex_after);
    CHECK(carry(2, hex_old, sizeof hex_old, i.marking) == DUTY_DONE);
    CHECK(memcmp(i.marking.bytes, hex_after, sizeof hex_after) == 0 && kept_before(i.marking));
    CHECK(record(i, 0) == DUTY_DONE && memcmp(i.fields.bytes, first, sizeof first) == 0);
    CHECK(record(i, 1) == DUTY_DONE && memcmp(i.fields.bytes, second, sizeof second) == 0);
    leave(i);

    struct lent longer = lend(NULL, sizeof hex_after + 2);
    CHECK(carry(2, hex_old, sizeof hex_old, longer) == DUTY_DONE);
    CHECK(memcmp(longer.bytes, hex_after, sizeof hex_after) == 0 && memcmp(longer.bytes + sizeof hex_after, "\xA5\xA5", 2) == 0);
    CHECK(kept_before(longer));
    give_back(longer);

    /* 64 events, of which every second has happened: all fields at their limits, and the empty record */
    static const uint8_t full[] = {0xF7, 0x35, 0x94, 0x01, 0xFB, 0x9A, 0xCA, 0x00, 0, 0, 0, 1}, empty[DUTY_RECORD_BYTES] = {0};
    static uint8_t old[DUTY_OLD_RECORD_BYTES * DUTY_MOST_EVENTS];
    struct lent l = lend(NULL, DUTY_LONGEST_MARKING);
    int same = 1;
    for (size_t e = 0; e < DUTY_MOST_EVENTS; e += 2)
        memcpy(old + DUTY_OLD_RECORD_BYTES * e, full, DUTY_OLD_RECORD_BYTES);
    CHECK(carry(DUTY_MOST_EVENTS, old, sizeof old, l) == DUTY_DONE && kept_before(l));
    for (size_t e = 0; e < DUTY_MOST_EVENTS; e++)
        same &= memcmp(l.bytes + DUTY_RECORD_BYTES * e, e % 2 == 0 ? full : empty, DUTY_RECORD_BYTES) == 0;
    CHECK(same);
    give_back(l);
}

/* 3, 1, 7, 14 in this order, and nothing is written. */
static void carries_nothing(void)
{
    static const struct {
        uint8_t bytes[DUTY_OLD_RECORD_BYTES];
    } broken[] = {
        {{0, 0, 0, 2}},                         /* an age, not happened */
        {{0x40}},                               /* the same, its highest bit */
        {{0, 0, 0, 0, 0x40}},                   /* bounded, not pending */
        {{0, 0, 0, 0, 0, 0, 0, 1}},             /* a deadline, not pending */
        {{0, 0, 0, 0, 0x80, 0, 0, 1}},          /* a deadline, not bounded */
        {{0xF7, 0x35, 0x94, 0x02}},             /* an age above the limit */
        {{0, 0, 0, 0, 0xFB, 0x9A, 0xCA, 0x01}}, /* a deadline above the limit */
    };
    static const uint8_t many[DUTY_RECORD_BYTES * (DUTY_MOST_EVENTS + 1)] = {0};
    uint8_t old[3 * DUTY_OLD_RECORD_BYTES];
    CHECK(uncarried(0, many, 0, DUTY_LONGEST_MARKING) == DUTY_COUNTS);
    CHECK(uncarried(0, many, 1, 0) == DUTY_COUNTS);
    CHECK(uncarried(DUTY_MOST_EVENTS + 1, many, DUTY_OLD_RECORD_BYTES * (DUTY_MOST_EVENTS + 1), sizeof many) == DUTY_COUNTS);
    CHECK(uncarried(SIZE_MAX, many, sizeof many, sizeof many) == DUTY_COUNTS);
    CHECK(uncarried(3, many, 0, DUTY_LONGEST_MARKING) == DUTY_LENGTH);
    CHECK(uncarried(3, many, sizeof old - 1, DUTY_LONGEST_MARKING) == DUTY_LENGTH);
    CHECK(uncarried(3, many, sizeof old + 1, DUTY_LONGEST_MARKING) == DUTY_LENGTH);
    CHECK(uncarried(3, many, 3 * DUTY_RECORD_BYTES, DUTY_LONGEST_MARKING) == DUTY_LENGTH); /* a new image */
    CHECK(uncarried(3, broken, sizeof old + 1, 0) == DUTY_LENGTH);
    for (size_t k = 0; k < sizeof broken / sizeof broken[0]; k++)
        for (size_t e = 0; e < 3; e++) {
            memset(old, 0, sizeof old);
            memcpy(old + DUTY_OLD_RECORD_BYTES * e, broken[k].bytes, DUTY_OLD_RECORD_BYTES);
            CHECK(uncarried(3, old, sizeof old, DUTY_LONGEST_MARKING) == DUTY_RECORD);
            CHECK(uncarried(3, old, sizeof old, 0) == DUTY_RECORD);
        }
    CHECK(uncarried(3, many, sizeof old, 0) == DUTY_ROOM);
    CHECK(uncarried(3, many, sizeof old, sizeof old) == DUTY_ROOM);
    CHECK(uncarried(3, many, sizeof old, 3 * DUTY_RECORD_BYTES - 1) == DUTY_ROOM);
}

/* Building a table, and telling it */

/* What a table is built from, and how many bytes there are for it. */
struct draft {
    size_t events, classes_length, numbers_length, room;
    uint32_t firm;
    uint8_t classes[DUTY_MOST_EVENTS + 1];
    uint32_t numbers[DUTY_NUMBERS * (DUTY_MOST_RELATIONS + 1)];
};

static size_t relations_of(const struct draft *d) { return d->numbers_length / DUTY_NUMBERS; }

static size_t length_of(const struct draft *d) { return DUTY_HEADER_BYTES + d->events + DUTY_RELATION_BYTES * relations_of(d); }

/* So many events and relations, each relation the same, not firm, with the room that they take. */
static void drafted(struct draft *d, size_t events, uint8_t class_byte, size_t relations, const uint32_t *numbers)
{
    memset(d, 0, sizeof *d);
    d->events = d->classes_length = events;
    d->numbers_length = DUTY_NUMBERS * relations;
    memset(d->classes, class_byte, events);
    for (size_t k = 0; k < relations; k++)
        memcpy(d->numbers + DUTY_NUMBERS * k, numbers, DUTY_NUMBERS * sizeof numbers[0]);
    d->room = length_of(d);
}

static uint8_t build(const struct draft *d, struct lent table)
{
    struct lent classes = lend(d->classes, d->classes_length), numbers = lend(d->numbers, d->numbers_length * sizeof d->numbers[0]);
    shut(classes);
    shut(numbers);
    uint8_t number = duty_write_table(d->events, d->firm, classes.bytes, classes.length, (const uint32_t *)(const void *)numbers.bytes,
                                      d->numbers_length, table.bytes, table.length);
    give_back(classes);
    give_back(numbers);
    return number;
}

/* The number of what builds no table: with the buffer shut. */
static uint8_t unbuilt(const struct draft *d)
{
    struct lent table = lend(NULL, d->room);
    shut(table);
    uint8_t number = build(d, table);
    give_back(table);
    return number;
}

/* What is built tells each number that built it, so the numbers that it tells build it again; a byte behind it stays. */
static void builds(const struct draft *d, const uint8_t *image)
{
    static struct draft told;
    size_t length = length_of(d);
    struct lent exact = lend(NULL, length), longer = lend(NULL, length + 1);
    CHECK(build(d, exact) == DUTY_DONE && memcmp(exact.bytes, image, length) == 0 && kept_before(exact));
    shut(exact);
    memcpy(&told, d, sizeof told);
    told.firm = 9;
    memset(told.classes, 0xA5, told.classes_length);
    memset(told.numbers, 0xA5, told.numbers_length * sizeof told.numbers[0]);
    uint8_t number = duty_firm(exact.bytes, exact.length, &told.firm);
    for (size_t e = 0; e < d->events; e++)
        number |= duty_class(exact.bytes, exact.length, e, told.classes + e);
    for (size_t k = 0; k < relations_of(d); k++)
        number |= duty_relation(exact.bytes, exact.length, k, told.numbers + DUTY_NUMBERS * k, DUTY_NUMBERS);
    CHECK(number == DUTY_DONE && memcmp(&told, d, sizeof told) == 0);
    CHECK(build(&told, longer) == DUTY_DONE && memcmp(longer.bytes, image, length) == 0);
    CHECK(longer.bytes[length] == 0xA5 && kept_before(longer));
    give_back(exact);
    give_back(longer);
}

/* The table of a draft, and a fresh marking for it. */
static struct images made(const struct draft *d)
{
    struct images i = take(NULL, length_of(d), NULL, DUTY_RECORD_BYTES * d->events);
    open_up(i.table);
    CHECK(build(d, i.table) == DUTY_DONE);
    shut(i.table);
    CHECK(duty_fresh(d->events, i.marking.bytes, i.marking.length) == DUTY_DONE);
    return i;
}

static const uint32_t waits[DUTY_NUMBERS] = {DUTY_CONDITION, 0, 1, 1, 5}, includes[DUTY_NUMBERS] = {DUTY_INCLUSION, 1, 2, 0, 0};

/* The first number where several apply: what is wrong is put right one by one, from the first test on. */
static void builds_in_order(void)
{
    static struct draft d;
    drafted(&d, 3, 0, 257, waits);
    d.firm = 2;
    d.events = 0;
    d.classes_length = 4;
    d.classes[1] = 0x01;
    d.classes[2] = 0x20;
    d.numbers[DUTY_AT_KIND] = 257;
    d.numbers[DUTY_AT_LEFT] = 256;
    d.numbers[DUTY_AT_RIGHT] = UINT32_MAX;
    d.numbers[DUTY_AT_BOUNDED] = 2;
    d.numbers[DUTY_NUMBERS + DUTY_AT_KIND] = 0;
    d.room = 0;
    CHECK(unbuilt(&d) == DUTY_SPARE);
    d.firm = 256;
    CHECK(unbuilt(&d) == DUTY_SPARE);
    d.firm = UINT32_MAX;
    CHECK(unbuilt(&d) == DUTY_SPARE);
    d.firm = DUTY_FIRM;
    CHECK(unbuilt(&d) == DUTY_COUNTS);
    d.events = 3; /* 257 relations */
    CHECK(unbuilt(&d) == DUTY_COUNTS);
    d.numbers_length--; /* 256 relations and four numbers */
    CHECK(unbuilt(&d) == DUTY_LENGTH);
    d.events = 0;
    CHECK(unbuilt(&d) == DUTY_COUNTS);
    d.events = 65;
    CHECK(unbuilt(&d) == DUTY_COUNTS);
    d.events = SIZE_MAX;
    CHECK(unbuilt(&d) == DUTY_COUNTS);
    d.events = 3;
    d.numbers_length = DUTY_NUMBERS * 2;
    CHECK(unbuilt(&d) == DUTY_LENGTH); /* of four classes */
    d.classes_length = 2;
    CHECK(unbuilt(&d) == DUTY_LENGTH);
    d.classes_length = 3;
    d.numbers_length = DUTY_NUMBERS * 2 - 1;
    CHECK(unbuilt(&d) == DUTY_LENGTH);
    d.numbers_length = DUTY_NUMBERS * 2 + 1;
    CHECK(unbuilt(&d) == DUTY_LENGTH);
    d.numbers_length = DUTY_NUMBERS * 2;
    CHECK(unbuilt(&d) == DUTY_SPARE);
    d.classes[1] = DUTY_CONTROLLABLE | DUTY_CAUSABLE;
    CHECK(unbuilt(&d) == DUTY_SPARE);
    d.classes[2] = DUTY_CAUSABLE;
    CHECK(unbuilt(&d) == DUTY_KIND);
    d.numbers[DUTY_AT_KIND] = DUTY_INCLUSION;
    CHECK(unbuilt(&d) == DUTY_ENDS);
    d.numbers[DUTY_AT_LEFT] = 2;
    CHECK(unbuilt(&d) == DUTY_ENDS);
    d.numbers[DUTY_AT_RIGHT] = 1;
    CHECK(unbuilt(&d) == DUTY_TIME);
    d.numbers[DUTY_AT_BOUNDED] = 0;
    CHECK(unbuilt(&d) == DUTY_TIME); /* of its time, 5 */
    d.numbers[DUTY_AT_TIME] = 0;
    CHECK(unbuilt(&d) == DUTY_KIND); /* of the second relation */
    d.numbers[DUTY_NUMBERS + DUTY_AT_KIND] = DUTY_CONDITION;
    CHECK(unbuilt(&d) == DUTY_ROOM);
    d.room = length_of(&d) - 1;
    CHECK(unbuilt(&d) == DUTY_ROOM);
    builds(&d, (const uint8_t *)"\x06\x02\x80\0\x00\xC0\x40\x61\x02\0\0\0\0\x20\x03\0\0\0\x14");
    d.firm = DUTY_NOT_FIRM;
    builds(&d, (const uint8_t *)"\x06\x02\0\0\x00\xC0\x40\x61\x02\0\0\0\0\x20\x03\0\0\0\x14");
}

/* Each number is judged as it stands: those that are wider than their field, and those that the field holds and no relation may have. */
static void cuts_nothing_down(void)
{
    static const struct {
        uint32_t place, value, number;
    } wrong[] = {
        {DUTY_AT_KIND, 0, DUTY_KIND},
        {DUTY_AT_KIND, 6, DUTY_KIND},
        {DUTY_AT_KIND, 8 + DUTY_CONDITION, DUTY_KIND},
        {DUTY_AT_KIND, 256 + DUTY_CONDITION, DUTY_KIND},
        {DUTY_AT_KIND, 256 + DUTY_INCLUSION, DUTY_KIND},
        {DUTY_AT_KIND, UINT32_MAX, DUTY_KIND},
        {DUTY_AT_LEFT, 3, DUTY_ENDS},
        {DUTY_AT_LEFT, 64, DUTY_ENDS},
        {DUTY_AT_LEFT, 256, DUTY_ENDS},
        {DUTY_AT_LEFT, UINT32_MAX, DUTY_ENDS},
        {DUTY_AT_RIGHT, 3, DUTY_ENDS},
        {DUTY_AT_RIGHT, 64, DUTY_ENDS},
        {DUTY_AT_RIGHT, 256, DUTY_ENDS},
        {DUTY_AT_RIGHT, UINT32_MAX - 255, DUTY_ENDS},
        {DUTY_AT_BOUNDED, 2, DUTY_TIME},
        {DUTY_AT_BOUNDED, 3, DUTY_TIME},
        {DUTY_AT_BOUNDED, 256, DUTY_TIME},
        {DUTY_AT_BOUNDED, 257, DUTY_TIME},
        {DUTY_AT_BOUNDED, UINT32_MAX, DUTY_TIME},
        {DUTY_AT_TIME, DUTY_LIMIT + 1, DUTY_TIME},
        {DUTY_AT_TIME, 1u << 30, DUTY_TIME},
        {DUTY_AT_TIME, (1u << 30) + 5, DUTY_TIME},
        {DUTY_AT_TIME, 1u << 31, DUTY_TIME},
        {DUTY_AT_TIME, UINT32_MAX, DUTY_TIME},
    };
    static struct draft d;
    for (size_t i = 0; i < sizeof wrong / sizeof wrong[0]; i++) {
        drafted(&d, 3, 0, 2, waits);
        d.numbers[DUTY_NUMBERS + wrong[i].place] = wrong[i].value;
        CHECK(unbuilt(&d) == wrong[i].number);
        drafted(&d, 3, 0, 2, includes);
        d.numbers[DUTY_NUMBERS + wrong[i].place] = wrong[i].value;
        CHECK(unbuilt(&d) == wrong[i].number);
    }
    for (unsigned bit = 1; bit < DUTY_CAUSABLE; bit *= 2) {
        drafted(&d, 3, 0, 2, waits);
        d.classes[2] = (uint8_t)(DUTY_CONTROLLABLE | bit);
        CHECK(unbuilt(&d) == DUTY_SPARE);
    }
    static const uint32_t neither[] = {2, 3, 128, 255, 256, 257, 0x10001, 1u << 31, UINT32_MAX};
    for (size_t i = 0; i < sizeof neither / sizeof neither[0]; i++) {
        drafted(&d, 3, 0, 2, waits);
        d.firm = neither[i];
        CHECK(unbuilt(&d) == DUTY_SPARE);
    }
}

/* The most and the fewest: 64 events and 256 relations, 1 and none. */
static void builds_at_the_limits(void)
{
    static const uint32_t longest[DUTY_NUMBERS] = {DUTY_CONDITION, 63, 63, 1, DUTY_LIMIT};
    static uint8_t image[DUTY_LONGEST_TABLE];
    static struct draft d;
    image[0] = 64 << 1 | 1;
    memset(image + 4, DUTY_CONTROLLABLE, 64);
    for (size_t k = 0; k < 256; k++)
        memcpy(image + 68 + 6 * k, "\x3F\xFF\xEE\x6B\x28\x00", 6);
    drafted(&d, 64, DUTY_CONTROLLABLE, 256, longest);
    builds(&d, image);
    d.firm = DUTY_FIRM;
    image[2] = 0x80;
    builds(&d, image);
    d.room--;
    CHECK(unbuilt(&d) == DUTY_ROOM);
    drafted(&d, 64, DUTY_CONTROLLABLE, 257, longest);
    CHECK(unbuilt(&d) == DUTY_COUNTS);

    drafted(&d, 1, DUTY_CAUSABLE, 0, longest);
    builds(&d, (const uint8_t *)"\2\0\0\0\x40");
    d.firm = DUTY_FIRM;
    builds(&d, (const uint8_t *)"\2\0\x80\0\x40");
    d.room--;
    CHECK(unbuilt(&d) == DUTY_ROOM);
    d.room = 0;
    CHECK(unbuilt(&d) == DUTY_ROOM);
}

/* The shop's table in its numbers. Five places are written and a sixth stays; 8 comes before 14. */
static void tells_tables(void)
{
    static const uint32_t numbers[] = {
        DUTY_RESPONSE, LEAK, FLUSH, 1, 3, DUTY_CONDITION, FLUSH, ISOLATE, 1, 0, DUTY_INCLUSION, LEAK, FLUSH, 0, 0,
        DUTY_EXCLUSION, STANDBY, FLUSH, 0, 0, DUTY_MILESTONE, FLUSH, DRAIN, 0, 0, DUTY_RESPONSE, LEAK, DRAIN, 0, 0,
    };
    static const uint32_t none[DUTY_NUMBERS];
    static const uint8_t classes[EVENTS] = {0, 0xC0, 0xC0, 0, 0xC0};
    static struct draft d;
    drafted(&d, EVENTS, 0, 6, none);
    memcpy(d.classes, classes, sizeof classes);
    memcpy(d.numbers, numbers, sizeof numbers);
    CHECK(length_of(&d) == sizeof shop_table);
    builds(&d, shop_table);

    struct images i = shop();
    uint32_t *places = (uint32_t *)(void *)i.fields.bytes, *last = places + DUTY_FIELDS - DUTY_NUMBERS;
    places[DUTY_NUMBERS] = 9;
    CHECK(relation(i, 3) == DUTY_DONE && memcmp(places, numbers + 15, 5 * sizeof numbers[0]) == 0 && places[DUTY_NUMBERS] == 9);
    CHECK(duty_relation(T(i), 0, last, DUTY_NUMBERS) == DUTY_DONE && memcmp(last, numbers, 5 * sizeof numbers[0]) == 0);
    CHECK(last[-1] == STANDBY && kept_before(i.fields));
    CHECK(duty_class(T(i), DRAIN, SMALL) == DUTY_DONE && *SMALL == 0xC0 && kept_before(small));
    CHECK(duty_class(T(i), LEAK, SMALL) == DUTY_DONE && *SMALL == 0);
    *SIZE = 9;
    CHECK(duty_firm(T(i), SIZE) == DUTY_DONE && *SIZE == DUTY_NOT_FIRM && kept_before(half));
    shut(i.fields);
    shut_answers();
    CHECK(duty_class(T(i), EVENTS, SMALL) == DUTY_NONE_SUCH);
    CHECK(duty_class(T(i), SIZE_MAX, SMALL) == DUTY_NONE_SUCH);
    CHECK(relation(i, 6) == DUTY_NONE_SUCH);
    CHECK(relation(i, SIZE_MAX) == DUTY_NONE_SUCH);
    i.fields.length = (DUTY_NUMBERS - 1) * sizeof(uint32_t);
    CHECK(relation(i, 6) == DUTY_NONE_SUCH);
    CHECK(relation(i, 5) == DUTY_ROOM);
    i.fields.length = 0;
    CHECK(relation(i, 0) == DUTY_ROOM);
    open_answers();
    leave(i);
}

/* Firm tables */

/* the bytes of a record that say what is to be done, and when; a response's last two numbers that give it */
struct duty {
    uint8_t bytes[4];
    uint32_t bounded, time;
};

static const struct duty nothing = {{0, 0, 0, 0}, 0, 0}, eventually = {{0x80, 0, 0, 0}, 0, 0}, now = {{0xC0, 0, 0, 0}, 1, 0};
static const struct duty in_1 = {{0xC0, 0, 0, 1}, 1, 1}, in_3 = {{0xC0, 0, 0, 3}, 1, 3}, in_4 = {{0xC0, 0, 0, 4}, 1, 4};

static int has(struct images i, size_t event, const struct duty *d)
{
    return memcmp(i.marking.bytes + DUTY_RECORD_BYTES * event + 4, d->bytes, sizeof d->bytes) == 0;
}

/* Two events, of which the first has a response to one of them, which already has something to do. */
static struct images meeting(uint32_t firm, size_t target, const struct duty *had, const struct duty *given)
{
    static struct draft d;
    const uint32_t numbers[DUTY_NUMBERS] = {DUTY_RESPONSE, 0, (uint32_t)target, given->bounded, given->time};
    drafted(&d, 2, DUTY_CONTROLLABLE | DUTY_CAUSABLE, 1, numbers);
    d.firm = firm;
    struct images i = made(&d);
    memcpy(i.marking.bytes + DUTY_RECORD_BYTES * target + 4, had->bytes, sizeof had->bytes);
    return i;
}

/* A response meets what its target has: the smaller deadline stands in a firm table, the new one in any other. */
static void keeps_the_smaller_deadline(void)
{
    static const struct {
        const struct duty *had, *given, *in_a_firm_table;
    } met[] = {
        {&nothing, &in_3, &in_3},
        {&nothing, &eventually, &eventually},
        {&eventually, &in_3, &in_3},
        {&eventually, &eventually, &eventually},
        {&now, &in_3, &now},
        {&now, &eventually, &now},
        {&in_1, &in_3, &in_1},
        {&in_3, &in_3, &in_3},
        {&in_4, &in_3, &in_3},
        {&in_3, &eventually, &in_3},
    };
    for (size_t k = 0; k < sizeof met / sizeof met[0]; k++) {
        struct images i = meeting(DUTY_FIRM, 1, met[k].had, met[k].given);
        CHECK(duty_happen(T(i), M(i), 0) == DUTY_DONE && has(i, 1, met[k].in_a_firm_table) && kept_before(i.marking));
        leave(i);
        i = meeting(DUTY_NOT_FIRM, 1, met[k].had, met[k].given);
        CHECK(duty_happen(T(i), M(i), 0) == DUTY_DONE && has(i, 1, met[k].given));
        leave(i);
        /* a response to itself finds nothing: the event was cleared */
        for (uint32_t firm = DUTY_NOT_FIRM; firm <= DUTY_FIRM; firm++) {
            i = meeting(firm, 0, met[k].had, met[k].given);
            CHECK(duty_happen(T(i), M(i), 0) == DUTY_DONE && has(i, 0, met[k].given));
            leave(i);
        }
    }
}

/* A flush that is due in one minute stays so where a leak comes again, by the call or by a step; in a table that is not firm it is put off. */
static void keeps_a_date(void)
{
    static const uint8_t steps[] = {1, LEAK, 2, 0, 3, 0, 0, LEAK};
    uint8_t table[sizeof shop_table];
    memcpy(table, shop_table, sizeof table);
    for (uint32_t firm = DUTY_NOT_FIRM; firm <= DUTY_FIRM; firm++) {
        const struct duty *behind = firm == DUTY_FIRM ? &in_1 : &in_3;
        table[2] = (uint8_t)(firm * 128);
        struct images i = start(table);
        CHECK(duty_firm(T(i), SIZE) == DUTY_DONE && *SIZE == firm);
        CHECK(duty_happen(T(i), M(i), LEAK) == DUTY_DONE && has(i, FLUSH, &in_3));
        CHECK(guarded(i) == DUTY_DONE && guarded(i) == DUTY_DONE && has(i, FLUSH, &in_1));
        CHECK(duty_happen(T(i), M(i), LEAK) == DUTY_DONE && has(i, FLUSH, behind) && has(i, DRAIN, &eventually));
        CHECK(guarded(i) == DUTY_DONE && *COUNT == 0 && guarded(i) == DUTY_DONE && *COUNT == (firm == DUTY_FIRM ? 3 : 0));
        leave(i);

        i = start(table);
        CHECK(run(i, steps, sizeof steps) == DUTY_DONE && memcmp(i.answers.bytes, "\0\0\0\0", 4) == 0 && has(i, FLUSH, behind));
        leave(i);
    }
}

/* A guarded tick and an offered list execute in the same way. The first event alone discharges the second, which is due, by putting it off: not
   in a firm table. */
static void keeps_a_date_while_causing(void)
{
    static const uint8_t list[] = {0};
    for (uint32_t firm = DUTY_NOT_FIRM; firm <= DUTY_FIRM; firm++) {
        struct images i = meeting(firm, 1, &in_3, &in_4);
        memcpy(i.marking.bytes + 4, now.bytes, sizeof now.bytes);
        CHECK(guarded(i) == DUTY_DONE && *COUNT == 1 && i.caused.bytes[0] == 0);
        CHECK(duty_record(T(i), M(i), 1, (uint32_t *)(void *)i.fields.bytes, DUTY_FIELDS) == DUTY_DONE);
        CHECK(((const uint32_t *)(const void *)i.fields.bytes)[DUTY_DEADLINE] == (firm == DUTY_FIRM ? 2 : 3));
        leave(i);

        i = meeting(firm, 1, &now, &in_3);
        shut(i.marking);
        CHECK(duty_remedies(T(i), M(i), list, 1, list, 1, SMALL, PLACE) == (firm == DUTY_FIRM ? DUTY_NO_REMEDY : DUTY_DONE));
        leave(i);
    }
}

/* Each bit of the header behind firm is refused, in a firm table and in another. */
static void refuses_the_other_bits(void)
{
    uint8_t table[sizeof shop_table], marking[DUTY_RECORD_BYTES * EVENTS] = {0};
    CHECK(duty_fresh(EVENTS, marking, sizeof marking) == DUTY_DONE);
    for (unsigned bits = 0x4000; bits > 0; bits /= 2)
        for (unsigned firm = 0; firm <= 0x8000; firm += 0x8000) {
            memcpy(table, shop_table, sizeof table);
            table[2] = (uint8_t)((firm | bits) >> 8);
            table[3] = (uint8_t)bits;
            table_refused(table, sizeof table, marking, sizeof marking, DUTY_SPARE);
        }
}

/* Excluded events, and what would be if they returned */

/* an event that has happened so long ago, or never; it has something to do, and is included, or not */
struct state {
    uint32_t happened, age;
    const struct duty *duty;
    uint32_t included;
};

static void set_state(struct images i, size_t event, struct state s)
{
    uint32_t past = s.happened << 31 | s.age << 1 | s.included;
    uint8_t *bytes = i.marking.bytes + DUTY_RECORD_BYTES * event;
    memset(bytes, 0, DUTY_RECORD_BYTES);
    for (int k = 0; k < 4; k++)
        bytes[k] = (uint8_t)(past >> (24 - 8 * k));
    memcpy(bytes + 4, s.duty->bytes, sizeof s.duty->bytes);
    bytes[DUTY_RECORD_BYTES - 1] = (uint8_t)s.happened;
}

/* What is told, whatever stood there before. */
static int has_margin(struct images i, size_t k, uint8_t kind, int32_t ticks)
{
    *SMALL = 9;
    *TICKS = 9;
    return duty_margin(T(i), M(i), k, SMALL, TICKS) == DUTY_DONE && *SMALL == kind && *TICKS == ticks && kept_before(small);
}

static int has_hold_up(struct images i, size_t event, uint8_t kind, size_t k)
{
    *SMALL = 9;
    *PLACE = 9;
    return duty_hold_up(T(i), M(i), event, SMALL, PLACE) == DUTY_DONE && *SMALL == kind && *PLACE == k && kept_before(place);
}

/* Two events: by the second relation the first waits for the second, which has this state. */
static struct images waiting(uint32_t kind, uint32_t time, struct state s)
{
    static struct draft d;
    const uint32_t numbers[2 * DUTY_NUMBERS] = {DUTY_INCLUSION, 0, 1, 0, 0, kind, 0, 1, kind == DUTY_CONDITION, time};
    drafted(&d, 2, DUTY_CONTROLLABLE, 2, numbers);
    memcpy(d.numbers, numbers, sizeof numbers);
    struct images i = made(&d);
    set_state(i, 1, s);
    shut(i.marking);
    return i;
}

/* Included it blocks, excluded it would; where it does neither nothing is named. The event is enabled but where it is blocked. */
static void holds_up(struct images i, int stops, uint32_t included)
{
    uint8_t kind = !stops ? DUTY_ENABLED : included ? DUTY_BLOCKED : DUTY_ENABLED_UNLESS;
    CHECK(has_hold_up(i, 0, kind, stops ? 1 : 0));
    CHECK(duty_enabled(T(i), M(i), 0, SMALL) == DUTY_DONE && *SMALL == (kind != DUTY_BLOCKED));
    CHECK(has_hold_up(i, 1, included ? DUTY_ENABLED : DUTY_EXCLUDED, 0));
}

/* An ignored condition has as its rest what it is where its right event is included: never with 0 ticks, or the ticks. */
static void tells_the_rest(void)
{
    static const struct {
        uint32_t happened, age, time;
        int32_t ticks;
    } conditions[] = {
        {0, 0, 0, 0},
        {0, 0, 5, 0},
        {0, 0, DUTY_LIMIT, 0},
        {1, 3, 5, -2},
        {1, 5, 5, 0},
        {1, 9, 5, 4},
        {1, 0, 1, -1},
        {1, 0, 0, 0},
        {1, 0, DUTY_LIMIT, -DUTY_LIMIT},
        {1, DUTY_LIMIT, DUTY_LIMIT, 0},
        {1, DUTY_LIMIT, 0, DUTY_LIMIT},
    };
    for (size_t k = 0; k < sizeof conditions / sizeof conditions[0]; k++)
        for (uint32_t included = 0; included <= 1; included++) {
            uint32_t happened = conditions[k].happened;
            struct state s = {happened, conditions[k].age, &nothing, included};
            struct images i = waiting(DUTY_CONDITION, conditions[k].time, s);
            uint8_t there = happened ? DUTY_BY : DUTY_NEVER, away = happened ? DUTY_IGNORED_BY : DUTY_IGNORED;
            CHECK(has_margin(i, 1, included ? there : away, conditions[k].ticks));
            CHECK(has_margin(i, 0, DUTY_NOT_A_CONDITION, 0));
            holds_up(i, !happened || conditions[k].ticks < 0, included);
            leave(i);
        }
}

/* A milestone would block while its right event has something to do, due or not; it has no margin, whether that event is excluded or not. */
static void tells_milestones(void)
{
    static const struct duty *const duties[] = {&nothing, &eventually, &now, &in_3};
    for (size_t k = 0; k < sizeof duties / sizeof duties[0]; k++)
        for (uint32_t bits = 0; bits < 4; bits++) {
            struct state s = {bits / 2, 0, duties[k], bits % 2};
            struct images i = waiting(DUTY_MILESTONE, 0, s);
            CHECK(has_margin(i, 1, DUTY_NOT_A_CONDITION, 0));
            holds_up(i, duties[k] != &nothing, s.included);
            leave(i);
        }
}

/* The lowest of the event's own relations that would block is named, where none does block. */
static void names_the_lowest(void)
{
    static const uint32_t numbers[] = {
        DUTY_CONDITION, 1, 2, 1, 0, /* 0: another event's */
        DUTY_CONDITION, 0, 1, 1, 2, /* 1: event 1 happened two ticks ago */
        DUTY_EXCLUSION, 0, 2, 0, 0,
        DUTY_MILESTONE, 0, 2, 0, 0,
        DUTY_CONDITION, 0, 2, 1, 0,
        DUTY_CONDITION, 0, 3, 1, 0,
        DUTY_CONDITION, 0, 0, 1, 0, /* 6: on itself */
    };
    static const struct state itself = {1, 0, &nothing, 1}, long_ago = {1, 2, &nothing, 0}, lately = {1, 1, &nothing, 0};
    static const struct state open = {0, 0, &eventually, 0}, never = {0, 0, &nothing, 0}, there = {0, 0, &nothing, 1};
    static struct draft d;
    drafted(&d, 4, DUTY_CONTROLLABLE, 7, numbers);
    memcpy(d.numbers, numbers, sizeof numbers);
    struct images i = made(&d);
    set_state(i, 0, itself);
    set_state(i, 1, long_ago);
    set_state(i, 2, open);
    set_state(i, 3, never);
    CHECK(has_hold_up(i, 0, DUTY_ENABLED_UNLESS, 3));
    CHECK(has_hold_up(i, 1, DUTY_EXCLUDED, 0));
    set_state(i, 1, lately);
    CHECK(has_hold_up(i, 0, DUTY_ENABLED_UNLESS, 1));
    set_state(i, 1, long_ago);
    set_state(i, 2, never);
    CHECK(has_hold_up(i, 0, DUTY_ENABLED_UNLESS, 4));
    set_state(i, 3, there); /* it blocks, which comes before what would */
    CHECK(has_hold_up(i, 0, DUTY_BLOCKED, 5));
    set_state(i, 2, there);
    CHECK(has_hold_up(i, 0, DUTY_BLOCKED, 4));
    set_state(i, 2, long_ago);
    set_state(i, 3, long_ago);
    CHECK(has_hold_up(i, 0, DUTY_ENABLED, 0));
    set_state(i, 1, there);
    set_state(i, 2, never);
    CHECK(has_hold_up(i, 1, DUTY_ENABLED_UNLESS, 0)); /* relation 0, by its kind another than none */
    set_state(i, 0, never);
    CHECK(has_hold_up(i, 0, DUTY_EXCLUDED, 0)); /* whatever would block it besides */
    CHECK(has_margin(i, 6, DUTY_IGNORED, 0));
    set_state(i, 0, lately);
    CHECK(has_hold_up(i, 0, DUTY_EXCLUDED, 0) && has_margin(i, 6, DUTY_IGNORED_BY, 1));
    leave(i);
}

/* All 256 relations are conditions of the last event, and every other event is excluded: the only one that would block, at each place. */
static void names_at_the_limits(void)
{
    static const uint32_t numbers[DUTY_NUMBERS] = {DUTY_CONDITION, 63, 0, 1, 5};
    static const struct state away = {1, 5, &nothing, 0};
    static struct draft d;
    for (size_t k = 0; k <= DUTY_MOST_RELATIONS; k++) {
        drafted(&d, DUTY_MOST_EVENTS, DUTY_CONTROLLABLE, DUTY_MOST_RELATIONS, numbers);
        for (uint32_t n = 0; n < DUTY_MOST_RELATIONS; n++)
            d.numbers[DUTY_NUMBERS * n + DUTY_AT_RIGHT] = n % 63;
        if (k < DUTY_MOST_RELATIONS)
            d.numbers[DUTY_NUMBERS * k + DUTY_AT_TIME] = 6;
        struct images i = made(&d);
        for (size_t e = 0; e < 63; e++)
            set_state(i, e, away);
        shut(i.marking);
        if (k < DUTY_MOST_RELATIONS)
            CHECK(has_hold_up(i, 63, DUTY_ENABLED_UNLESS, k) && has_margin(i, k, DUTY_IGNORED_BY, -1));
        else
            CHECK(has_hold_up(i, 63, DUTY_ENABLED, 0) && has_margin(i, 255, DUTY_IGNORED_BY, 0));
        leave(i);
    }
}

/* Of what there is not, nothing is told. */
static void tells_nothing(void)
{
    struct images i = waiting(DUTY_CONDITION, 5, (struct state){1, 3, &nothing, 0});
    shut_answers();
    CHECK(duty_margin(T(i), M(i), 2, SMALL, TICKS) == DUTY_NONE_SUCH);
    CHECK(duty_margin(T(i), M(i), SIZE_MAX, SMALL, TICKS) == DUTY_NONE_SUCH);
    CHECK(duty_hold_up(T(i), M(i), 2, SMALL, PLACE) == DUTY_NONE_SUCH);
    CHECK(duty_hold_up(T(i), M(i), SIZE_MAX, SMALL, PLACE) == DUTY_NONE_SUCH);
    open_answers();
    leave(i);
}

/* Chains */

/* A place of a list: a relation, and how deep it stands. */
#define AT(relation, depth) ((uint16_t)(256 * (relation) + (depth)))

/* So many places are written, these, and the others are as they were lent: bytes 0xA5. */
static int lists(struct images i, size_t event, const uint16_t *places, size_t n)
{
    static const size_t left = 9;
    *COUNT = left;
    memset(i.list.bytes, 0xA5, i.list.length);
    if (chain(i, event) != DUTY_DONE || *COUNT != n || memcmp(i.list.bytes, places, n * sizeof places[0]) != 0)
        return 0;
    for (size_t k = n * sizeof places[0]; k < i.list.length; k++)
        if (i.list.bytes[k] != 0xA5)
            return 0;
    return kept_before(i.list) && kept_before(count);
}

/* Where the flush stands, from the leak on. */
static void lists_the_shops(void)
{
    static const uint16_t both[] = {AT(1, 0), AT(4, 0)};
    struct images i = shop();
    shut(i.marking);
    CHECK(lists(i, FLUSH, both, 0)); /* excluded */
    CHECK(lists(i, ISOLATE, both, 0)); /* enabled */
    open_up(i.marking);
    CHECK(duty_happen(T(i), M(i), LEAK) == DUTY_DONE);
    CHECK(lists(i, FLUSH, both, 2));
    CHECK(duty_happen(T(i), M(i), ISOLATE) == DUTY_DONE);
    CHECK(lists(i, FLUSH, both + 1, 1));
    CHECK(duty_happen(T(i), M(i), DRAIN) == DUTY_DONE);
    CHECK(lists(i, FLUSH, both, 0));
    leave(i);
}

/* A relation, all below it, then the next; an event that is open is not opened again; an excluded one is left out, and nobody waits for it. */
static void lists_downwards(void)
{
    static const uint32_t numbers[] = {
        DUTY_CONDITION, 2, 3, 1, 0, /* 0 */
        DUTY_CONDITION, 0, 1, 1, 0, /* 1 */
        DUTY_MILESTONE, 0, 2, 0, 0, /* 2 */
        DUTY_CONDITION, 1, 3, 1, 5, /* 3 */
        DUTY_MILESTONE, 3, 3, 0, 0, /* 4: on itself */
        DUTY_CONDITION, 3, 0, 1, 0, /* 5: back to the first */
        DUTY_CONDITION, 0, 3, 1, 0, /* 6 */
        DUTY_RESPONSE, 0, 1, 0, 0,
    };
    static const uint16_t all[] = {AT(1, 0), AT(3, 1), AT(4, 2), AT(5, 2), AT(2, 0), AT(0, 1), AT(6, 0)};
    static const uint16_t of_3[] = {AT(4, 0), AT(5, 0), AT(1, 1), AT(3, 2), AT(2, 1), AT(0, 2), AT(6, 1)};
    static const uint16_t without_3[] = {AT(1, 0), AT(2, 0)}, late[] = {AT(1, 0), AT(3, 1), AT(2, 0)};
    static const struct state todo = {0, 0, &eventually, 1}, away = {0, 0, &eventually, 0};
    static const struct state lately = {1, 4, &nothing, 1}, long_ago = {1, 5, &nothing, 1};
    static struct draft d;
    drafted(&d, 4, DUTY_CONTROLLABLE, 8, numbers);
    memcpy(d.numbers, numbers, sizeof numbers);
    struct images i = made(&d);
    for (size_t e = 0; e < 4; e++)
        set_state(i, e, todo);
    CHECK(lists(i, 0, all, 7));
    CHECK(lists(i, 3, of_3, 7));
    set_state(i, 3, away);
    CHECK(lists(i, 0, without_3, 2) && lists(i, 3, all, 0) && lists(i, 2, all, 0));
    set_state(i, 3, lately); /* not long enough ago for event 1 alone; it waits for event 0, which is open */
    CHECK(lists(i, 0, (const uint16_t[]){AT(1, 0), AT(3, 1), AT(5, 2), AT(2, 0)}, 4));
    set_state(i, 0, long_ago);
    CHECK(lists(i, 0, late, 3));
    set_state(i, 3, long_ago);
    CHECK(lists(i, 0, without_3, 2) && lists(i, 1, all, 0) && lists(i, 3, all, 0));
    leave(i);
}

/* Each event waits for the next and the last for the first, by the relations in the table's order or from the last to the first. */
static void lists_at_the_deepest(void)
{
    static const uint32_t numbers[DUTY_NUMBERS] = {DUTY_CONDITION, 0, 0, 1, 0};
    static uint16_t expected[DUTY_MOST_EVENTS];
    static struct draft d;
    for (uint32_t turned = 0; turned <= 1; turned++) {
        drafted(&d, DUTY_MOST_EVENTS, DUTY_CONTROLLABLE, DUTY_MOST_EVENTS, numbers);
        for (uint32_t e = 0; e < DUTY_MOST_EVENTS; e++) {
            uint32_t k = turned ? DUTY_MOST_EVENTS - 1 - e : e;
            d.numbers[DUTY_NUMBERS * k + DUTY_AT_LEFT] = e;
            d.numbers[DUTY_NUMBERS * k + DUTY_AT_RIGHT] = (e + 1) % DUTY_MOST_EVENTS;
            expected[e] = AT(k, e);
        }
        struct images i = made(&d);
        shut(i.marking);
        CHECK(lists(i, 0, expected, DUTY_MOST_EVENTS));
        leave(i);
    }
}

/* All 256 relations of one event, each at its place: the list is written to its end. */
static void lists_all(void)
{
    static const uint32_t numbers[DUTY_NUMBERS] = {DUTY_CONDITION, 63, 0, 1, 0};
    static uint16_t expected[DUTY_CHAIN_PLACES];
    static struct draft d;
    drafted(&d, DUTY_MOST_EVENTS, DUTY_CONTROLLABLE, DUTY_MOST_RELATIONS, numbers);
    for (uint32_t k = 0; k < DUTY_MOST_RELATIONS; k++) {
        d.numbers[DUTY_NUMBERS * k + DUTY_AT_RIGHT] = k % DUTY_MOST_EVENTS;
        expected[k] = AT(k, 0);
    }
    struct images i = made(&d);
    shut(i.marking);
    CHECK(lists(i, 63, expected, DUTY_CHAIN_PLACES));
    CHECK(DUTY_CHAIN_RELATION(expected[255]) == 255 && DUTY_CHAIN_DEPTH(expected[255]) == 0);
    give_back(i.list);
    i.list = lend(NULL, (DUTY_CHAIN_PLACES + 1) * sizeof(uint16_t));
    CHECK(lists(i, 63, expected, DUTY_CHAIN_PLACES)); /* a place more stays */
    leave(i);
}

/* With fewer than 256 places nothing is listed, also where nothing would be; 8 comes first, and a refusal writes nothing. */
static void lists_nothing(void)
{
    static const size_t rooms[] = {0, 1, 255};
    struct images i = shop();
    CHECK(duty_happen(T(i), M(i), LEAK) == DUTY_DONE);
    shut(i.marking);
    shut(i.list);
    shut_answers();
    CHECK(chain(i, EVENTS) == DUTY_NONE_SUCH && chain(i, SIZE_MAX) == DUTY_NONE_SUCH);
    for (size_t k = 0; k < sizeof rooms / sizeof rooms[0]; k++) {
        i.list.length = rooms[k] * sizeof(uint16_t);
        CHECK(chain(i, FLUSH) == DUTY_ROOM);
        CHECK(chain(i, ISOLATE) == DUTY_ROOM);
        CHECK(chain(i, EVENTS) == DUTY_NONE_SUCH && chain(i, SIZE_MAX) == DUTY_NONE_SUCH);
    }
    open_answers();
    leave(i);
}

/* Sleeping */

/* A place of a list: a tick, and an event that was caused before it. */
#define BEFORE(tick, event) ((uint32_t)(256 * (tick) + (event)))

/* what a sleep that causes nothing lists */
static const uint32_t nowhere;

/* The list of another length. */
static void lend_other(struct images *i, size_t places)
{
    give_back(i->slept);
    i->slept = lend_places(places);
}

/* A sleep that is done: so many places are written, these, the others are as they were lent, and reason and place are 0. */
static int sleeps(struct images i, size_t ticks, const uint32_t *places, size_t n)
{
    *COUNT = *PLACE = 9;
    *SMALL = 9;
    memset(i.slept.bytes, 0xA5, i.slept.length);
    if (pass(i, ticks) != DUTY_DONE || *COUNT != n || *SMALL != 0 || *PLACE != 0 || memcmp(i.slept.bytes, places, n * sizeof places[0]) != 0)
        return 0;
    for (size_t k = n * sizeof places[0]; k < i.slept.length; k++)
        if (i.slept.bytes[k] != 0xA5)
            return 0;
    return kept_before(i.marking) && kept_before(i.slept) && kept_before(count) && kept_before(small) && kept_before(place);
}

/* The number of a sleep that writes nothing: with everything shut. */
static uint8_t unslept(struct images i, size_t ticks)
{
    shut(i.marking);
    shut(i.slept);
    shut_answers();
    uint8_t number = pass(i, ticks);
    open_answers();
    open_up(i.marking);
    open_up(i.slept);
    return number;
}

static int same_marking(struct images i, struct images other)
{
    return memcmp(i.marking.bytes, other.marking.bytes, i.marking.length) == 0;
}

static int is_due(struct images i)
{
    CHECK(duty_due(T(i), M(i), SET) == DUTY_DONE);
    return *SET != 0;
}

static struct images shop_leaks(void)
{
    struct images i = shop();
    CHECK(duty_happen(T(i), M(i), LEAK) == DUTY_DONE);
    return i;
}

/* one tick behind the leak: the flush is out, with its deadline */
static struct images shop_stands_by(void)
{
    struct images i = shop_leaks();
    CHECK(guarded(i) == DUTY_DONE && duty_happen(T(i), M(i), STANDBY) == DUTY_DONE);
    return i;
}

/* firm, and the leak comes again while the flush is due in one tick */
static struct images firm_shop(void)
{
    uint8_t table[sizeof shop_table];
    memcpy(table, shop_table, sizeof table);
    table[2] = 0x80;
    struct images i = start(table);
    CHECK(duty_happen(T(i), M(i), LEAK) == DUTY_DONE && guarded(i) == DUTY_DONE && guarded(i) == DUTY_DONE);
    CHECK(duty_happen(T(i), M(i), LEAK) == DUTY_DONE);
    return i;
}

static struct images hex_case(void) { return take(hex_table, sizeof hex_table, hex_marking, sizeof hex_marking); }

/* Four events that come again every 2, 3, 5 and 1 ticks, but the last is excluded, whose deadline is the nearest; the first is almost as old as can
   be. */
static struct images rounds(void)
{
    static const uint32_t numbers[] = {
        DUTY_RESPONSE, 0, 0, 1, 2, DUTY_RESPONSE, 1, 1, 1, 3, DUTY_RESPONSE, 2, 2, 1, 5, DUTY_RESPONSE, 3, 3, 1, 1,
    };
    static const struct state states[] = {{1, DUTY_LIMIT - 2, &in_4, 1}, {0, 0, &in_3, 1}, {1, 7, &in_4, 1}, {1, 0, &in_1, 0}};
    static struct draft d;
    drafted(&d, 4, DUTY_CONTROLLABLE | DUTY_CAUSABLE, 4, numbers);
    memcpy(d.numbers, numbers, sizeof numbers);
    struct images i = made(&d);
    for (size_t e = 0; e < 4; e++)
        set_state(i, e, states[e]);
    return i;
}

static struct images (*const nights[])(void) = {shop, shop_leaks, shop_due, shop_stands_by, firm_shop, hex_case, rounds};

enum { NIGHTS = sizeof nights / sizeof nights[0], LONG = 24 };

/* So many single guarded ticks, and what they cause, as a sleep lists it; how much. */
static size_t singly(struct images i, size_t ticks, uint32_t *places)
{
    size_t n = 0;
    for (size_t tick = 1; tick <= ticks; tick++) {
        CHECK(guarded(i) == DUTY_DONE);
        for (size_t k = 0; k < *COUNT; k++)
            places[n++] = BEFORE(tick, i.caused.bytes[k]);
    }
    return n;
}

/* Single guarded ticks cause the same and end in the same marking, with a list that is just long enough or longer; with one place less no tick
   has passed. */
static void sleeps_as_single_ticks(void)
{
    uint32_t places[4 * LONG];
    for (size_t k = 0; k < NIGHTS; k++)
        for (size_t ticks = 0; ticks <= LONG; ticks++) {
            struct images i = nights[k](), other = nights[k](), exact = nights[k]();
            size_t n = singly(other, ticks, places);
            CHECK(sleeps(i, ticks, places, n) && same_marking(i, other));
            if (n > 0) {
                lend_other(&exact, n - 1);
                CHECK(unslept(exact, ticks) == DUTY_ROOM);
            }
            lend_other(&exact, n);
            CHECK(sleeps(exact, ticks, places, n) && same_marking(exact, other));
            leave(i);
            leave(other);
            leave(exact);
        }
}

/* The shop's flush by its ticks: three are quiet, and before the fourth it is caused with what it waits for. */
static void sleeps_the_shops(void)
{
    static const uint32_t fourth[] = {BEFORE(4, ISOLATE), BEFORE(4, DRAIN), BEFORE(4, FLUSH)};
    struct images i = shop_leaks();
    CHECK(sleeps(i, 3, fourth, 0) && is_due(i));
    leave(i);
    i = shop_leaks();
    CHECK(sleeps(i, 4, fourth, 3) && !is_due(i) && counted(i, (const uint32_t[EVENTS]){1, 1, 1, 0, 1}));
    CHECK(DUTY_SLEPT_TICK(fourth[2]) == 4 && DUTY_SLEPT_EVENT(fourth[2]) == FLUSH);
    leave(i);
    i = shop_leaks();
    CHECK(sleeps(i, DUTY_MOST_TICKS, fourth, 3) && counted(i, (const uint32_t[EVENTS]){1, 1, 1, 0, 1}));
    leave(i);
    i = shop_stands_by(); /* excluded, its deadline runs out and nothing comes of it */
    CHECK(sleeps(i, 5, fourth, 0) && has(i, FLUSH, &now) && !is_due(i));
    CHECK(duty_happen(T(i), M(i), LEAK) == DUTY_DONE && has(i, FLUSH, &in_3) && sleeps(i, 4, fourth, 3));
    leave(i);
}

/* First some ticks and then more: both lists together, the second's ticks counted on, and the marking are those of all at once. */
static void sleeps_in_two(void)
{
    uint32_t places[4 * LONG], rest[4 * LONG];
    for (size_t k = 0; k < NIGHTS; k++)
        for (size_t ticks = 0; ticks <= LONG; ticks++) {
            struct images i = nights[k](), other = nights[k]();
            size_t n = singly(other, LONG, places), first = 0;
            while (first < n && DUTY_SLEPT_TICK(places[first]) <= ticks)
                first++;
            for (size_t p = first; p < n; p++)
                rest[p - first] = places[p] - BEFORE(ticks, 0);
            CHECK(sleeps(i, ticks, places, first));
            CHECK(sleeps(i, LONG - ticks, rest, n - first) && same_marking(i, other));
            leave(i);
            leave(other);
        }
}

/* 14 for the ticks, then 12, then 14 for the list. Of all that could be written 12 writes reason and place alone, and a 14 nothing. */
static void sleeps_in_order(void)
{
    static const size_t too_many[] = {DUTY_MOST_TICKS + 1, (size_t)1 << 32, ((size_t)1 << 32) + 1, (size_t)1 << 63, SIZE_MAX};
    static const size_t allowed[] = {0, 1, DUTY_MOST_TICKS};
    static const size_t rooms[] = {0, 2, 3};
    uint8_t table[sizeof shop_table];
    memcpy(table, shop_table, sizeof table);
    table[4 + ISOLATE] = 0x80; /* not causable */
    for (size_t r = 0; r < sizeof rooms / sizeof rooms[0]; r++) {
        struct images i = start(table), due = shop_due(), other = shop_due();
        lend_other(&i, rooms[r]);
        lend_other(&due, rooms[r]);
        for (size_t k = 0; k < sizeof too_many / sizeof too_many[0]; k++)
            CHECK(unslept(i, too_many[k]) == DUTY_ROOM && unslept(due, too_many[k]) == DUTY_ROOM);
        shut(i.marking);
        shut(i.slept);
        shut(count);
        for (size_t k = 0; k < sizeof allowed / sizeof allowed[0]; k++) {
            *SMALL = 9;
            *PLACE = 9;
            CHECK(pass(i, allowed[k]) == DUTY_REJECTED && *SMALL == 2 && *PLACE == ISOLATE && kept_before(small) && kept_before(place));
        }
        open_up(count);
        CHECK(sleeps(due, 0, &nowhere, 0) && same_marking(due, other));
        for (size_t k = 1; k < sizeof allowed / sizeof allowed[0]; k++)
            if (rooms[r] < 3)
                CHECK(unslept(due, allowed[k]) == DUTY_ROOM);
        leave(i);
        leave(due);
        leave(other);
    }
}

/* to be done within so many ticks */
static struct duty within(uint32_t ticks)
{
    uint32_t word = 0xC0000000u | ticks;
    return (struct duty){{(uint8_t)(word >> 24), (uint8_t)(word >> 16), (uint8_t)(word >> 8), (uint8_t)word}, 1, ticks};
}

/* The most events, each of which comes again every so many ticks, and now; but those below `first` have nothing to do. */
static struct images many(uint32_t first, uint32_t ticks)
{
    static const uint32_t numbers[DUTY_NUMBERS] = {DUTY_RESPONSE, 0, 0, 1, 0};
    static struct draft d;
    drafted(&d, DUTY_MOST_EVENTS, DUTY_CONTROLLABLE | DUTY_CAUSABLE, DUTY_MOST_EVENTS, numbers);
    for (uint32_t e = 0; e < DUTY_MOST_EVENTS; e++) {
        d.numbers[DUTY_NUMBERS * e + DUTY_AT_LEFT] = d.numbers[DUTY_NUMBERS * e + DUTY_AT_RIGHT] = e;
        d.numbers[DUTY_NUMBERS * e + DUTY_AT_TIME] = ticks;
    }
    struct images i = made(&d);
    for (uint32_t e = first; e < DUTY_MOST_EVENTS; e++)
        set_state(i, e, (struct state){0, 0, &now, 1});
    return i;
}

/* Every event before every tick: one place for each event and each tick is what it takes. */
static void sleeps_with_most(void)
{
    enum { TICKS_SLEPT = 63, MOST_PLACES = DUTY_MOST_EVENTS * TICKS_SLEPT };
    static uint32_t places[MOST_PLACES];
    struct images i = many(0, 1), other = many(0, 1);
    for (size_t k = 0; k < MOST_PLACES; k++)
        places[k] = BEFORE(1 + k / DUTY_MOST_EVENTS, k % DUTY_MOST_EVENTS);
    lend_other(&i, MOST_PLACES - 1);
    CHECK(unslept(i, TICKS_SLEPT) == DUTY_ROOM);
    lend_other(&i, MOST_PLACES);
    lend_other(&other, MOST_PLACES + 1);
    CHECK(sleeps(i, TICKS_SLEPT, places, MOST_PLACES) && sleeps(other, TICKS_SLEPT, places, MOST_PLACES) && same_marking(i, other));
    leave(i);
    leave(other);
}

/* As long as can be: the last event before every thousandth tick, the millionth too. */
static void sleeps_longest(void)
{
    enum { LAST = DUTY_MOST_EVENTS - 1, OFTEN = DUTY_MOST_TICKS / 1000 };
    static uint32_t places[OFTEN];
    const struct duty soon = within(999), at_the_end = within(DUTY_MOST_TICKS - 1), behind_it = within(DUTY_MOST_TICKS);
    struct images i = many(LAST, 1000);
    for (size_t k = 0; k < OFTEN; k++)
        places[k] = BEFORE(1000 * (k + 1), LAST);
    set_state(i, LAST, (struct state){0, 0, &soon, 1});
    lend_other(&i, OFTEN - 1);
    CHECK(unslept(i, DUTY_MOST_TICKS) == DUTY_ROOM);
    CHECK(sleeps(i, DUTY_MOST_TICKS - 1, places, OFTEN - 1));
    CHECK(executions(i, LAST) == OFTEN - 1 && is_due(i));
    set_state(i, LAST, (struct state){0, 0, &soon, 1});
    lend_other(&i, OFTEN);
    CHECK(sleeps(i, DUTY_MOST_TICKS, places, OFTEN));
    CHECK(executions(i, LAST) == OFTEN && has(i, LAST, &soon));
    set_state(i, LAST, (struct state){1, 7, &at_the_end, 1});
    CHECK(sleeps(i, DUTY_MOST_TICKS, places + OFTEN - 1, 1) && executions(i, LAST) == 2);
    set_state(i, LAST, (struct state){1, 7, &behind_it, 1});
    lend_other(&i, 0);
    CHECK(sleeps(i, DUTY_MOST_TICKS, &nowhere, 0) && has(i, LAST, &now) && is_due(i));
    CHECK(record(i, LAST) == DUTY_DONE && ((const uint32_t *)(const void *)i.fields.bytes)[DUTY_AGE] == DUTY_MOST_TICKS + 7);
    leave(i);
}

/* Quiet ticks */

static int is_quiet(struct images i, size_t ticks)
{
    *COUNT = 9;
    return quiet(i) == DUTY_DONE && *COUNT == ticks && kept_before(count);
}

/* The nearest deadline of an included event, up to the limit, wherever the event stands. */
static void tells_quiet(void)
{
    static const struct {
        uint32_t deadline, included, ticks;
    } dates[] = {
        {0, 1, 0},
        {1, 1, 1},
        {3, 1, 3},
        {DUTY_MOST_TICKS - 1, 1, DUTY_MOST_TICKS - 1},
        {DUTY_MOST_TICKS, 1, DUTY_MOST_TICKS},
        {DUTY_MOST_TICKS + 1, 1, DUTY_MOST_TICKS},
        {DUTY_LIMIT, 1, DUTY_MOST_TICKS},
        {0, 0, DUTY_MOST_TICKS},
        {1, 0, DUTY_MOST_TICKS},
        {DUTY_LIMIT, 0, DUTY_MOST_TICKS},
    };
    static const size_t n = sizeof dates / sizeof dates[0];
    struct images i = many(DUTY_MOST_EVENTS, 1);
    CHECK(is_quiet(i, DUTY_MOST_TICKS)); /* nothing to do */
    set_state(i, 0, (struct state){0, 0, &eventually, 1});
    CHECK(is_quiet(i, DUTY_MOST_TICKS));
    for (size_t k = 0; k < n * n; k++) {
        const struct duty first = within(dates[k / n].deadline), last = within(dates[k % n].deadline);
        size_t of_first = dates[k / n].ticks, of_last = dates[k % n].ticks;
        set_state(i, 1, (struct state){0, 0, &first, dates[k / n].included});
        set_state(i, DUTY_MOST_EVENTS - 1, (struct state){1, 5, &last, dates[k % n].included});
        CHECK(is_quiet(i, of_first < of_last ? of_first : of_last));
    }
    leave(i);
}

/* Also where the check rejects. */
static void tells_quiet_unchecked(void)
{
    uint8_t table[sizeof shop_table];
    memcpy(table, shop_table, sizeof table);
    table[4 + ISOLATE] = 0x80; /* not causable */
    struct images i = start(table);
    CHECK(is_quiet(i, DUTY_MOST_TICKS) && duty_happen(T(i), M(i), LEAK) == DUTY_DONE);
    shut(i.marking);
    CHECK(is_quiet(i, 3) && guarded(i) == DUTY_REJECTED);
    leave(i);
}

/* From the shop's leak on. */
static void tells_the_shops_quiet(void)
{
    struct images i = shop();
    CHECK(is_quiet(i, DUTY_MOST_TICKS) && duty_happen(T(i), M(i), LEAK) == DUTY_DONE);
    for (size_t left = 3; left > 0; left--)
        CHECK(is_quiet(i, left) && guarded(i) == DUTY_DONE && *COUNT == 0);
    CHECK(is_quiet(i, 0) && guarded(i) == DUTY_DONE && *COUNT == 3 && is_quiet(i, DUTY_MOST_TICKS));
    leave(i);
    i = shop_stands_by();
    CHECK(is_quiet(i, DUTY_MOST_TICKS) && duty_happen(T(i), M(i), LEAK) == DUTY_DONE && is_quiet(i, 3));
    leave(i);
    i = firm_shop();
    CHECK(is_quiet(i, 1));
    leave(i);
}

/* So many ticks or fewer cause nothing, and no place is needed. Up to so many none is due before; after so many one is, below the limit. */
static void keeps_quiet(void)
{
    for (size_t k = 0; k < NIGHTS; k++) {
        struct images start = nights[k]();
        shut(start.marking);
        CHECK(quiet(start) == DUTY_DONE);
        size_t ticks = *COUNT;
        for (size_t slept = 0; slept <= ticks; slept = slept < LONG || slept == ticks ? slept + 1 : ticks) {
            struct images i = nights[k]();
            lend_other(&i, 0);
            CHECK(sleeps(i, slept, &nowhere, 0));
            CHECK(is_due(i) == (slept == ticks && ticks < DUTY_MOST_TICKS));
            leave(i);
        }
        leave(start);
    }
}

/* What is read and what is not, and the first number where several apply. */
static void keeps_the_limits(void)
{
    static uint8_t table[4 + 65 + 6 * 257], marking[DUTY_RECORD_BYTES * 65];
    uint8_t bad_table[sizeof shop_table], bad_marking[DUTY_RECORD_BYTES * EVENTS] = {0};
    size_t k;

    /* 64 events, 256 relations: conditions of event 63 on 63, time 1,000,000,000 */
    table[0] = 64 << 1 | 1;
    for (k = 0; k < 256; k++)
        memcpy(table + 68 + 6 * k, "\x3F\xFF\xEE\x6B\x28\x00", 6);
    for (k = 0; k < 64; k++)
        marking[DUTY_RECORD_BYTES * k + INCLUDED_BYTE] = 1;
    struct images i = take(table, 4 + 64 + 6 * 256, marking, DUTY_LONGEST_MARKING);
    CHECK(duty_judge(T(i), M(i)) == DUTY_DONE);
    CHECK(duty_margin(T(i), M(i), 255, SMALL, TICKS) == DUTY_DONE && *SMALL == DUTY_NEVER);
    CHECK(duty_happen(T(i), M(i), 0) == DUTY_DONE && duty_happen(T(i), M(i), 63) == DUTY_NOT_ENABLED);
    CHECK(duty_plain_tick(T(i), M(i)) == DUTY_DONE && kept_before(i.marking));
    leave(i);

    table[68 + 6 * 255 + 5] = 0x04; /* time 1,000,000,001 */
    table_refused(table, 4 + 64 + 6 * 256, marking, DUTY_LONGEST_MARKING, DUTY_TIME);
    table[1] = 1; /* 257 relations */
    table_refused(table, 4 + 64 + 6 * 257, marking, DUTY_LONGEST_MARKING, DUTY_COUNTS);
    table[0] = 65 << 1;
    table[1] = 0;
    table_refused(table, 4 + 65, marking, sizeof marking, DUTY_COUNTS);
    table[0] = 0;
    table_refused(table, 4, marking, 0, DUTY_COUNTS);

    CHECK(duty_fresh(EVENTS, bad_marking, sizeof bad_marking) == DUTY_DONE);
    table_refused(shop_table, 0, bad_marking, sizeof bad_marking, DUTY_LENGTH);
    table_refused(shop_table, 3, bad_marking, sizeof bad_marking, DUTY_LENGTH);
    table_refused(shop_table, sizeof shop_table - 1, bad_marking, sizeof bad_marking, DUTY_LENGTH);
    all_refused(shop_table, sizeof shop_table, bad_marking, 0, DUTY_LENGTH);
    all_refused(shop_table, sizeof shop_table, bad_marking, sizeof bad_marking - 1, DUTY_LENGTH);
    all_refused(shop_table, sizeof shop_table, bad_marking, DUTY_OLD_RECORD_BYTES * EVENTS, DUTY_LENGTH);
    bad_marking[7] = 1; /* a deadline without a bound */
    all_refused(shop_table, sizeof shop_table, bad_marking, sizeof bad_marking, DUTY_RECORD);
    memcpy(bad_table, shop_table, sizeof bad_table);
    bad_table[9] = 0xE0; /* kind 7 */
    table_refused(bad_table, sizeof bad_table, bad_marking, sizeof bad_marking, DUTY_KIND);
    bad_table[3] = 1; /* a spare bit of the header */
    table_refused(bad_table, sizeof bad_table, bad_marking, 0, DUTY_SPARE);
}

/* A count that disagrees with happened, at the first event or the last, is given 7 by each call that reads the marking. */
static void refuses_disagreeing_counts(void)
{
    static const struct {
        uint8_t happened, count[4], number;
    } counts[] = {
        {0x00, {0, 0, 0, 0}, DUTY_DONE},
        {0x00, {0, 0, 0, 1}, DUTY_RECORD},
        {0x00, {0x80, 0, 0, 0}, DUTY_RECORD},
        {0x00, {0xFF, 0xFF, 0xFF, 0xFF}, DUTY_RECORD},
        {0x80, {0, 0, 0, 0}, DUTY_RECORD},
        {0x80, {0, 0, 0, 1}, DUTY_DONE},
        {0x80, {0, 1, 0, 0}, DUTY_DONE},
        {0x80, {0xFF, 0xFF, 0xFF, 0xFF}, DUTY_DONE},
    };
    for (size_t k = 0; k < sizeof counts / sizeof counts[0]; k++)
        for (size_t e = 0; e < EVENTS; e += EVENTS - 1) {
            uint8_t marking[DUTY_RECORD_BYTES * EVENTS] = {0}, *bytes = marking + DUTY_RECORD_BYTES * e;
            CHECK(duty_fresh(EVENTS, marking, sizeof marking) == DUTY_DONE);
            bytes[0] = counts[k].happened;
            memcpy(bytes + DUTY_OLD_RECORD_BYTES, counts[k].count, sizeof counts[k].count);
            if (counts[k].number == DUTY_DONE)
                CHECK(duty_judge(shop_table, sizeof shop_table, marking, sizeof marking) == DUTY_DONE);
            else
                all_refused(shop_table, sizeof shop_table, marking, sizeof marking, counts[k].number);
        }
}

/* What is only read may overlap: the marking lies within the table's own memory. */
static void reads_overlapping(void)
{
    uint8_t both[4 + 1 + DUTY_RECORD_BYTES] = {0x02, 0, 0, 0, 0};
    struct lent l = lend(both, sizeof both);
    shut(l);
    CHECK(duty_judge(l.bytes, 5, l.bytes + 5, DUTY_RECORD_BYTES) == DUTY_DONE);
    CHECK(duty_judge(l.bytes, 5, l.bytes + 1, DUTY_RECORD_BYTES) == DUTY_DONE);
    CHECK(duty_judge(l.bytes, 5, l.bytes, DUTY_RECORD_BYTES) == DUTY_RECORD);
    give_back(l);
}

static void counts_sets(void)
{
    CHECK(duty_size(0) == 0 && duty_lowest(0) == 64);
    CHECK(duty_size(UINT64_MAX) == 64 && duty_lowest(UINT64_MAX) == 0);
    CHECK(duty_size(1ull << 63) == 1 && duty_lowest(1ull << 63) == 63);
}

int main(void)
{
    small = lend(NULL, 1);
    word = lend(NULL, 8);
    half = lend(NULL, sizeof(uint32_t));
    place = lend(NULL, sizeof(size_t));
    count = lend(NULL, sizeof(size_t));
    plays_the_shop();
    tells_records();
    happens_in_either_class();
    counts_executions();
    holds_counts();
    offers_remedies();
    refuses();
    rejects();
    runs();
    answers_the_hex_case();
    makes_fresh();
    carries_over();
    carries_nothing();
    builds_in_order();
    cuts_nothing_down();
    builds_at_the_limits();
    tells_tables();
    keeps_the_smaller_deadline();
    keeps_a_date();
    keeps_a_date_while_causing();
    refuses_the_other_bits();
    tells_the_rest();
    tells_milestones();
    names_the_lowest();
    names_at_the_limits();
    tells_nothing();
    lists_the_shops();
    lists_downwards();
    lists_at_the_deepest();
    lists_all();
    lists_nothing();
    sleeps_as_single_ticks();
    sleeps_the_shops();
    sleeps_in_two();
    sleeps_in_order();
    sleeps_with_most();
    sleeps_longest();
    tells_quiet();
    tells_quiet_unchecked();
    tells_the_shops_quiet();
    keeps_quiet();
    keeps_the_limits();
    refuses_disagreeing_counts();
    reads_overlapping();
    counts_sets();
    printf("%d passed, %d failed\n", passed, failed);
    return failed != 0;
}
