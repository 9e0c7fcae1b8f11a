/*
 * The duty engine for C.
 *
 * Each function is proved, in the crate `duty`, to do what is said here for any bytes and numbers that keep the rules below; the exact promise
 * stands on the function itself in crates/duty/src/lib.rt. What the words mean (enabled, due, the check, a guarded tick ..) stands in
 * docs/RULES.md. `tests/archive duty` writes target/staticlib/libduty.a, for x86-64; of the C library it uses memcpy and memset alone.
 *
 * What C must keep. Nothing can test it within the call, and the proof assumes it:
 *   - a pointer is not null, is aligned as its type asks, and points to as many places as its length says, also where the length is 0;
 *   - those places, and what an out-parameter points to, have been written before, with anything;
 *   - what a length says is below 2^63 bytes;
 *   - nothing that a call may write (a parameter without const) overlaps anything else that it is handed. What is only read may overlap;
 *   - no other thread or interrupt touches what is lent while a call runs. There is no state between calls.
 *
 * Images. `table` is a table image and `marking` a marking image for the table's events: exactly so long, 12 bytes per event. Bits count from
 * the highest bit of the first byte on; each field has its highest bit first, and fields follow each other without a gap. Spare bits are 0.
 *
 *   Table image, 4 + events + 6 * relations bytes:
 *     header, 4 bytes            events 7 bits, relations 9, firm 1, spare 15
 *     for each event, 1 byte     controllable 1, causable 1, spare 6
 *     for each relation, 6 bytes kind 3, left 6, right 6, bounded 1, time 30, spare 2
 *   Marking image, 12 * events bytes:
 *     for each event, 12 bytes   happened 1, age 30, included 1, pending 1, bounded 1, deadline 30, count 32
 *
 *   As bytes, where / cuts off what is below 1 and % is what it leaves:
 *     header    [0] = events * 2 + relations / 256, [1] = relations % 256, [2] = firm * 128, [3] = 0
 *     class     controllable * 128 + causable * 64
 *     relation  [0] = kind * 32 + left / 2, [1] = left % 2 * 128 + right * 2 + bounded, [2] to [5] = time * 4, high byte first
 *     record    [0] to [3] = happened * 2^31 + age * 2 + included, [4] to [7] = pending * 2^31 + bounded * 2^30 + deadline,
 *               [8] to [11] = count, each high byte first
 *
 *   What fits: 1 to 64 events and 0 to 256 relations; left and right below the events; ages, times and deadlines at most 1,000,000,000.
 *     Condition: bounded 1, any time. Response: bounded 1 and a time of 1 or more, or 0 and 0 for "eventually". Any other kind: 0 and 0.
 *     Age is 0 if not happened, bounded 0 if not pending, deadline 0 if not bounded. Count is 0 if not happened, else 1 or more.
 *   Firm: a response gives its right event a new deadline, which in a table that is not firm replaces the one that the event has. In a firm
 *     table the smaller of the two stands, where "eventually" is the largest, so that a repeat never moves a date out. An event that is not
 *     pending has none, nor has one that has just been executed: it gets the new one in either table.
 *   docs/RULES.md has bit positions, and an example byte by byte.
 *
 * Answers. A function returns 0 for done, or the number of the refusal. The numbers are tried in this order: the table's (1 under 4 bytes;
 * 2 and 3 of the header; 1; 2 of the classes; then for each relation 2, 4, 5, 6), the marking's (1, then 7), then those named with the
 * function, in the order named. Of an image that a function is not handed there is nothing to try: duty_relation, duty_class and duty_firm give
 * the table's numbers and then their own, duty_write_table, duty_fresh and duty_carry their own alone.
 *
 * A refusal writes nothing at all; a call that is done writes what is said and no byte past it. The one exception: 12 has a reason and a
 * place, and writes those two. An acting function (happen, ticks, sleep, run) that is done puts the new marking's image where the old one was
 * handed in.
 *
 * Stack. Bytes that a call takes at most on x86-64, its callers and what they lend not counted, nor memcpy and memset of the C library. They
 * are measured, of the compiled library, and not proved: docs/BENCH.md, 'Stack', says how. None takes more than 24 KiB. There is no heap, and
 * one call recurses: duty_chain, one visit within another for each event at most, 64, and one more that finds its event open. All of them are
 * counted.
 *     duty_sleep 20,208   duty_guarded_tick 20,336  duty_run 20,400      duty_remedies 12,360
 *     duty_happen 13,464  duty_check 10,928         duty_chain 9,248     duty_plain_tick 11,352
 *     duty_margin 7,392   duty_closure 7,408        duty_enabled 9,472   duty_hold_up 7,408
 *     duty_quiet 7,392    duty_due 7,392            duty_record 8,416    duty_relation 8,432
 *     duty_judge 7,360    duty_class 6,320          duty_firm 6,320      duty_write_table 4,480
 *     duty_fresh 3,176    duty_carry 2,112
 *     duty_size, duty_lowest 8
 */
#ifndef DUTY_H
#define DUTY_H

#include <stddef.h>
#include <stdint.h>

#ifdef __cplusplus
extern "C" {
#endif

/* It grows by one wherever a function, a number or an image is changed, so that code written for another one can refuse to compile.
   8, since 7: duty_sleep and duty_quiet are new; all that 7 has is as it was.
   7, since 6: duty_happen is in place of duty_request and duty_report, the steps of kind 0 and 1 both mean it, and 9 is given no more. Where 6
   answered no step of a trace with 9, it runs as it did; a step that 6 answered so may now be done. */
#define DUTY_VERSION 8

/* A compiler that knows these words warns where a null pointer, or an overlap with what is written, can be seen. */
#if defined(__GNUC__)
#define DUTY_CALL __attribute__((nonnull, warn_unused_result))
#define DUTY_ALONE __restrict
#else
#define DUTY_CALL
#define DUTY_ALONE
#endif

/* The numbers given for refusal. 9 was given by versions up to 6, for an event of another class than the call; nothing gives it any more. */
enum duty_number {
    DUTY_DONE = 0,
    DUTY_LENGTH = 1,        /* an image's length is wrong, or that of a table's numbers, or the steps end in an odd byte */
    DUTY_SPARE = 2,         /* a spare bit is set, or firm is neither 0 nor 1 */
    DUTY_COUNTS = 3,        /* events 0 or above 64, or relations above 256 */
    DUTY_KIND = 4,          /* a relation's kind is not 1 to 5 */
    DUTY_ENDS = 5,          /* left or right is not below the event count */
    DUTY_TIME = 6,          /* bounded and time do not fit the kind */
    DUTY_RECORD = 7,        /* a marking record breaks its rules */
    DUTY_NONE_SUCH = 8,     /* no such event or relation */
    DUTY_NOT_ENABLED = 10,  /* the event is not enabled */
    DUTY_IS_DUE = 11,       /* plain tick while an event is due */
    DUTY_REJECTED = 12,     /* the static check rejects; with reason and place */
    DUTY_NO_REMEDY = 13,    /* no start of either list discharges */
    DUTY_ROOM = 14,         /* a list or trace is too long, the ticks are too many, or a buffer is too short */
    DUTY_STEP = 15          /* in an answer byte of a run: no such kind of step, or a tick with an event */
};

/* The kinds of relation in a table image: left first, right second. */
enum duty_kind {
    DUTY_CONDITION = 1,     /* left waits until right has happened, at least so long ago */
    DUTY_RESPONSE = 2,      /* left makes right pending, within so many ticks or eventually */
    DUTY_INCLUSION = 3,     /* left includes right */
    DUTY_EXCLUSION = 4,     /* left excludes right */
    DUTY_MILESTONE = 5      /* left waits while right is pending */
};

/* The bits of a class byte: both, one or neither. */
enum duty_class_bit {
    DUTY_CONTROLLABLE = 0x80,   /* an operator or a controller decides whether it happens; any other event is only seen (reason 1 of the check) */
    DUTY_CAUSABLE = 0x40        /* a guarded tick or an offered remedy may execute it */
};

/* Whether a table is firm. */
enum { DUTY_NOT_FIRM = 0, DUTY_FIRM = 1 };

/* A relation in plain numbers: which stands at which place, and how many there are. Bounded is 0 or 1. */
enum duty_place { DUTY_AT_KIND = 0, DUTY_AT_LEFT = 1, DUTY_AT_RIGHT = 2, DUTY_AT_BOUNDED = 3, DUTY_AT_TIME = 4, DUTY_NUMBERS = 5 };

/* The kinds of step in a trace: the first byte of a step; the second is the event, 0 for a tick. Kind 1 means what kind 0 means, so that the
   traces of versions up to 6 run, which had one kind for each class of event. */
enum duty_step {
    DUTY_HAPPEN = 0,
    DUTY_PLAIN_TICK = 2,
    DUTY_GUARDED_TICK = 3
};

/* The parts of images, and the most that there can be. */
enum {
    DUTY_HEADER_BYTES = 4,
    DUTY_RELATION_BYTES = 6,
    DUTY_RECORD_BYTES = 12,
    DUTY_OLD_RECORD_BYTES = 8,      /* of a record before it had a count */
    DUTY_MOST_EVENTS = 64,
    DUTY_MOST_RELATIONS = 256,
    DUTY_MOST_STEPS = 4096,
    DUTY_LONGEST_LIST = 255,        /* events of an offered list */
    DUTY_CHAIN_PLACES = 256,        /* places of a list of duty_chain, at least */
    DUTY_MOST_TICKS = 1000000,      /* ticks of one duty_sleep, and the most that duty_quiet tells */
    DUTY_LONGEST_TABLE = 1604,      /* bytes of a table image: 4 + 64 + 6 * 256 */
    DUTY_LONGEST_MARKING = 768,     /* bytes of a marking image: 12 * 64 */
    DUTY_LIMIT = 1000000000         /* the largest age, time and deadline */
};

/* The largest count: one that is there stays there. */
#define DUTY_COUNT_LIMIT UINT32_MAX

/* Images */

/* The number that reading both images gives: 0, or 1 to 7. */
DUTY_CALL uint8_t duty_judge(const uint8_t *table, size_t table_length, const uint8_t *marking, size_t marking_length);

/* A fresh marking for so many events: not happened, included, not pending, count 0. 3 where they are 0 or above 64; 14 where the buffer has
   fewer than 12 bytes per event. Done, the first 12 bytes per event are written. */
DUTY_CALL uint8_t duty_fresh(size_t events, uint8_t *DUTY_ALONE marking, size_t marking_length);

/* An old marking image, of the time before counts, for so many events: 8 bytes per event, which are a record's without its count. Each record is
   carried over with its fields as they are, and with count 1 if the event has happened, else 0. 3 where the events are 0 or above 64; 1 where the
   old image has not 8 bytes per event; 7 where an old record breaks the rules that it had; 14 where the buffer has fewer than 12 bytes per event.
   Done, the first 12 bytes per event are written, and they are an image that is read. The buffer is another than the old image's: nothing is
   carried over in place. */
DUTY_CALL uint8_t duty_carry(size_t events, const uint8_t *old_marking, size_t old_length, uint8_t *DUTY_ALONE marking, size_t marking_length);

/* A table's image, built from plain numbers: firm, 0 or 1; a class byte for each event; and for each relation five numbers, as duty_place has
   them, one relation behind the other; `relations_length` counts the numbers. Each is judged as it stands: none is cut down to the width of its
   field. 2 where firm is neither 0 nor 1; 3 where the events are 0 or above 64, or the relations, relations_length / 5, above 256; 1 where the
   classes are not as many as the events, or the numbers not five to a relation; 2 where another bit of a class byte is set; then for each
   relation 4, 5, 6, also 6 where bounded is neither 0 nor 1; 14 where the buffer has fewer than 4 + events + 6 * relations bytes. Done, so many
   are written: the image is exactly so long. */
DUTY_CALL uint8_t duty_write_table(size_t events, uint32_t firm, const uint8_t *classes, size_t classes_length, const uint32_t *relations,
                                   size_t relations_length, uint8_t *DUTY_ALONE table, size_t table_length);

/* A relation of a table, in the five numbers that build it. `numbers` has at least 5 places, of which the first 5 are written. 8, then 14
   where there are fewer. */
DUTY_CALL uint8_t duty_relation(const uint8_t *table, size_t table_length, size_t relation, uint32_t *DUTY_ALONE numbers,
                                size_t numbers_length);

/* The class byte of an event. 8. */
DUTY_CALL uint8_t duty_class(const uint8_t *table, size_t table_length, size_t event, uint8_t *DUTY_ALONE class_byte);

/* Whether a table is firm, 1 or 0. */
DUTY_CALL uint8_t duty_firm(const uint8_t *table, size_t table_length, uint32_t *DUTY_ALONE firm);

/* Event sets: event n is the bit worth 2^n. How many events a set holds, and the lowest, 64 for none. These two refuse nothing. */
DUTY_CALL uint32_t duty_size(uint64_t set);
DUTY_CALL uint32_t duty_lowest(uint64_t set);

/* Asking: the marking stays */

/* Whether an event is enabled, 1 or 0. 8. */
DUTY_CALL uint8_t duty_enabled(const uint8_t *table, size_t table_length, const uint8_t *marking, size_t marking_length,
                               size_t event, uint8_t *DUTY_ALONE enabled);

/* What the marking has of an event: the seven fields of its record in the image's order, each in a place of its own, a flag as 0 or 1. `fields`
   has at least 7 places, of which the first 7 are written. 8, then 14 where there are fewer. The last is the count, how often it was executed:
   where it happened or a guarded tick caused it, up to DUTY_COUNT_LIMIT; what duty_remedies tries is not counted. */
enum duty_field {
    DUTY_HAPPENED = 0,
    DUTY_AGE = 1,
    DUTY_INCLUDED = 2,
    DUTY_PENDING = 3,
    DUTY_BOUNDED = 4,
    DUTY_DEADLINE = 5,
    DUTY_EXECUTIONS = 6,
    DUTY_FIELDS = 7
};
DUTY_CALL uint8_t duty_record(const uint8_t *table, size_t table_length, const uint8_t *marking, size_t marking_length,
                              size_t event, uint32_t *DUTY_ALONE fields, size_t fields_length);

/* The set of due events. */
DUTY_CALL uint8_t duty_due(const uint8_t *table, size_t table_length, const uint8_t *marking, size_t marking_length,
                           uint64_t *DUTY_ALONE set);

/* How many guarded ticks can pass before one finds an event due: 0 where one is due now, and DUTY_MOST_TICKS where they are so many or more, or
   where no included event has a bounded deadline. The deadline of an excluded event does not count. Where the check accepts, so many guarded ticks
   or fewer cause nothing; and where they are fewer than DUTY_MOST_TICKS, an event is due after so many. That is so while nothing happens:
   duty_happen may bring a nearer deadline, or take one away. The check is not asked, and 12 is not given. */
DUTY_CALL uint8_t duty_quiet(const uint8_t *table, size_t table_length, const uint8_t *marking, size_t marking_length,
                             size_t *DUTY_ALONE ticks);

/* The margin of a relation, as a condition: what kind it is, and for two kinds the ticks, age minus time, below 0 while the condition still
   waits; 0 ticks for any other kind. A condition whose right event is excluded is ignored: then kind and ticks tell what its margin would be if
   that event were included. 8. */
enum {
    DUTY_NOT_A_CONDITION = 0,
    DUTY_IGNORED = 1,       /* right is excluded; were it included: never */
    DUTY_NEVER = 2,         /* right is included, and has not happened */
    DUTY_BY = 3,            /* right is included, and has happened: the ticks */
    DUTY_IGNORED_BY = 4     /* right is excluded; were it included: the ticks */
};
DUTY_CALL uint8_t duty_margin(const uint8_t *table, size_t table_length, const uint8_t *marking, size_t marking_length,
                              size_t relation, uint8_t *DUTY_ALONE kind, int32_t *DUTY_ALONE ticks);

/* What holds an event up, and the lowest-numbered relation that blocks it; where it is enabled, the lowest-numbered relation that would block it
   if the right event of that relation were included and all else were as it is; relation 0 where none is named. 8. */
enum {
    DUTY_ENABLED = 0,           /* and no relation would block it; relation 0 */
    DUTY_EXCLUDED = 1,          /* relation 0 */
    DUTY_BLOCKED = 2,           /* by this relation */
    DUTY_ENABLED_UNLESS = 3     /* unless the right event of this relation returns */
};
DUTY_CALL uint8_t duty_hold_up(const uint8_t *table, size_t table_length, const uint8_t *marking, size_t marking_length,
                               size_t event, uint8_t *DUTY_ALONE kind, size_t *DUTY_ALONE relation);

/* Every relation that stands in an event's way: one that blocks the event, then in the same way all that stand in the way of its right event, then
   the next one that blocks the event; those of one event in the table's order. Each event is opened once, at its first visit, so a circle ends: a
   relation whose right event is open already is listed, and nothing below it. A place of the list is 256 * relation + depth; the event's own
   relations have depth 0, those of their right events depth 1, and none is deeper than 63. The first `count` places are written, and those behind
   them stay. Nothing is listed where the event is enabled, nor where it is excluded: duty_hold_up tells which. `list` has at least 256 places,
   since each relation is listed at most once. 8, then 14 where there are fewer, also where they would do. */
#define DUTY_CHAIN_RELATION(place) ((place) / 256)
#define DUTY_CHAIN_DEPTH(place) ((place) % 256)
DUTY_CALL uint8_t duty_chain(const uint8_t *table, size_t table_length, const uint8_t *marking, size_t marking_length, size_t event,
                             uint16_t *DUTY_ALONE list, size_t list_length, size_t *DUTY_ALONE count);

/* The closure of the static check, also where it rejects, and how many events it holds. */
DUTY_CALL uint8_t duty_closure(const uint8_t *table, size_t table_length, const uint8_t *marking, size_t marking_length,
                               uint64_t *DUTY_ALONE set, uint32_t *DUTY_ALONE size);

/* The static check. 12 where it rejects, with the lowest reason that applies, 1 to 6, and its lowest place: an event for reasons 1, 2 and 4,
   else a relation. Where it accepts, both are written 0. */
DUTY_CALL uint8_t duty_check(const uint8_t *table, size_t table_length, const uint8_t *marking, size_t marking_length,
                             uint8_t *DUTY_ALONE reason, size_t *DUTY_ALONE place);

/* Of two offered lists of events, each at most 255 long, the shortest start that discharges: of the preferred list if it has one, else of the
   fallback. `list` is 0 for preferred, 1 for fallback; the stretch is the first `length` bytes of that list, which the caller has. The two
   lists may be the same. 14, 13. */
enum { DUTY_PREFERRED = 0, DUTY_FALLBACK = 1 };
DUTY_CALL uint8_t duty_remedies(const uint8_t *table, size_t table_length, const uint8_t *marking, size_t marking_length,
                                const uint8_t *preferred, size_t preferred_length, const uint8_t *fallback, size_t fallback_length,
                                uint8_t *DUTY_ALONE list, size_t *DUTY_ALONE length);

/* Acting: the marking changes */

/* An event happens: whatever its class, it is executed, if enabled. 8, 10. */
DUTY_CALL uint8_t duty_happen(const uint8_t *table, size_t table_length, uint8_t *DUTY_ALONE marking, size_t marking_length, size_t event);

/* One tick passes. 11. */
DUTY_CALL uint8_t duty_plain_tick(const uint8_t *table, size_t table_length, uint8_t *DUTY_ALONE marking, size_t marking_length);

/* The needed events are executed in order, and one tick passes. `caused` has at least one byte for each event of the table, since each is
   caused at most once; the executed events are written to its first `count` bytes. 14 where it is shorter, 12 where the check rejects.
   Reason and place are as for duty_check. */
DUTY_CALL uint8_t duty_guarded_tick(const uint8_t *table, size_t table_length, uint8_t *DUTY_ALONE marking, size_t marking_length,
                                    uint8_t *DUTY_ALONE caused, size_t caused_length, size_t *DUTY_ALONE count,
                                    uint8_t *DUTY_ALONE reason, size_t *DUTY_ALONE place);

/* So many guarded ticks pass in one call, 0 to DUTY_MOST_TICKS; a run of them before which nothing falls due is passed in one go. The marking, and
   what is caused, in order, are those of as many calls of duty_guarded_tick. A place of the list is 256 * tick + event: the event, and the number
   of the tick before which it was caused, where the call's first tick is 1. The first `count` places are written, and those behind them stay.
   Each event is caused at most once before a tick, so one place for each event of the table and each tick is always room enough, at most 64 for
   each tick; for as many ticks as duty_quiet tells, or fewer, none is needed. 14 above DUTY_MOST_TICKS; 12 where the check rejects, at 0 ticks too;
   14 where the list has fewer places than events are caused: no tick has passed then, and they can be passed with a longer list, or in several
   calls. To sleep some ticks and then more is to sleep all of them, with the tick numbers of the second list counted on from the first's ticks.
   Reason and place are as for duty_check. */
#define DUTY_SLEPT_TICK(place) ((place) / 256)
#define DUTY_SLEPT_EVENT(place) ((place) % 256)
DUTY_CALL uint8_t duty_sleep(const uint8_t *table, size_t table_length, uint8_t *DUTY_ALONE marking, size_t marking_length, size_t ticks,
                             uint32_t *DUTY_ALONE list, size_t list_length, size_t *DUTY_ALONE count, uint8_t *DUTY_ALONE reason,
                             size_t *DUTY_ALONE place);

/* A monitor that sleeps through the quiet ticks. `rest` and `execute` are its own. `rest` waits until so many ticks have passed or an input comes,
   and returns how many have passed, by a clock that runs on while the processor sleeps. It never returns more than it was asked for: where it woke
   late, the ticks that are left over are for the next time. When none is left over, what came in is told by duty_happen, and it begins again. Where
   the check accepted at the start, nothing in here is refused. examples/sleep.c plays it.

       size_t rest(size_t ticks);
       void execute(size_t event);

       uint8_t sleep_once(const uint8_t *table, size_t table_length, uint8_t *marking, size_t marking_length)
       {
           uint32_t list[DUTY_MOST_EVENTS] = {0};
           size_t quiet = 0, ticks = 0, count = 0, place = 0;
           uint8_t reason = 0, number = duty_quiet(table, table_length, marking, marking_length, &quiet);
           if (number != DUTY_DONE)
               return number;
           ticks = rest(quiet == 0 ? 1 : quiet);
           number = duty_sleep(table, table_length, marking, marking_length, ticks, list, DUTY_MOST_EVENTS, &count, &reason, &place);
           for (size_t i = 0; i < count; i++)
               execute(DUTY_SLEPT_EVENT(list[i]));
           return number;
       }
*/

/* A trace of steps of 2 bytes, a kind of duty_step and an event; ticks have event 0. One answer byte per step, 0 for done or the step's number
   (15, 8, 10; 11; 12); a refused step leaves the marking and the run goes on. The marking is the one at the end. 1 where the steps have an
   odd length; 14 above 4,096 steps, or where there are fewer answer bytes than steps. */
DUTY_CALL uint8_t duty_run(const uint8_t *table, size_t table_length, uint8_t *DUTY_ALONE marking, size_t marking_length,
                           const uint8_t *steps, size_t steps_length, uint8_t *DUTY_ALONE answers, size_t answers_length);

#ifdef __cplusplus
}
#endif

#endif
