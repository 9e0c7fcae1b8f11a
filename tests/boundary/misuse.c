/* Misuse that a compiler sees by the header's words: with -DNULL_BUFFER, -DOVERLAP, -DIN_PLACE, -DNO_PLACE, -DNO_LIST, -DSHORT_PLACES, -DNO_SLEPT,
   -DSHORT_SLEPT, -DONE_PLACE_FOR_TWO or -DNO_TICKS this is refused, with none of them it is not. */
#include "duty.h"

uint8_t tick(const uint8_t *table, size_t table_length, uint8_t *marking, size_t marking_length);

uint8_t tick(const uint8_t *table, size_t table_length, uint8_t *marking, size_t marking_length)
{
#if defined(NULL_BUFFER)
    table = NULL;
    return duty_plain_tick(NULL, table_length, marking, marking_length) + (table == NULL);
#elif defined(OVERLAP)
    return duty_plain_tick(marking, table_length, marking, marking_length) + (table == NULL);
#else
    return duty_plain_tick(table, table_length, marking, marking_length);
#endif
}

uint8_t carry(size_t events, const uint8_t *old, size_t old_length, uint8_t *marking, size_t marking_length);

uint8_t carry(size_t events, const uint8_t *old, size_t old_length, uint8_t *marking, size_t marking_length)
{
#if defined(IN_PLACE)
    return duty_carry(events, marking, old_length, marking, marking_length) + (old == NULL);
#else
    return duty_carry(events, old, old_length, marking, marking_length);
#endif
}

uint8_t firm(const uint8_t *table, size_t table_length, uint32_t *told);

uint8_t firm(const uint8_t *table, size_t table_length, uint32_t *told)
{
#if defined(NO_PLACE)
    return duty_firm(table, table_length, NULL) + (told == NULL);
#else
    return duty_firm(table, table_length, told);
#endif
}

uint8_t chain(const uint8_t *table, size_t table_length, const uint8_t *marking, size_t marking_length, uint16_t *list, size_t *count);

uint8_t chain(const uint8_t *table, size_t table_length, const uint8_t *marking, size_t marking_length, uint16_t *list, size_t *count)
{
#if defined(NO_LIST)
    return duty_chain(table, table_length, marking, marking_length, 0, NULL, DUTY_CHAIN_PLACES, count) + (list == NULL);
#elif defined(SHORT_PLACES)
    uint8_t places[DUTY_CHAIN_PLACES] = {0};
    return duty_chain(table, table_length, marking, marking_length, 0, places, DUTY_CHAIN_PLACES, count) + (list == NULL);
#else
    return duty_chain(table, table_length, marking, marking_length, 0, list, DUTY_CHAIN_PLACES, count);
#endif
}

uint8_t pass(const uint8_t *table, size_t table_length, uint8_t *marking, size_t marking_length, uint32_t *list, size_t *count, uint8_t *reason,
             size_t *place);

uint8_t pass(const uint8_t *table, size_t table_length, uint8_t *marking, size_t marking_length, uint32_t *list, size_t *count, uint8_t *reason,
             size_t *place)
{
#if defined(NO_SLEPT)
    return duty_sleep(table, table_length, marking, marking_length, 1, NULL, 0, count, reason, place) + (list == NULL);
#elif defined(SHORT_SLEPT)
    uint16_t places[DUTY_MOST_EVENTS] = {0};
    return duty_sleep(table, table_length, marking, marking_length, 1, places, DUTY_MOST_EVENTS, count, reason, place) + (list == NULL);
#elif defined(ONE_PLACE_FOR_TWO)
    return duty_sleep(table, table_length, marking, marking_length, 1, list, DUTY_MOST_EVENTS, count, reason, count) + (place == NULL);
#else
    return duty_sleep(table, table_length, marking, marking_length, 1, list, DUTY_MOST_EVENTS, count, reason, place);
#endif
}

uint8_t quiet(const uint8_t *table, size_t table_length, const uint8_t *marking, size_t marking_length, size_t *ticks);

uint8_t quiet(const uint8_t *table, size_t table_length, const uint8_t *marking, size_t marking_length, size_t *ticks)
{
#if defined(NO_TICKS)
    return duty_quiet(table, table_length, marking, marking_length, NULL) + (ticks == NULL);
#else
    return duty_quiet(table, table_length, marking, marking_length, ticks);
#endif
}
