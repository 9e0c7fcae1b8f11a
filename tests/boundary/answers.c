/*
 * Answers the exported calls on standard input, for tests/bench to hold against the second implementation.
 *
 * A question: the call's number 1 byte, the number asked about 8, then four byte strings, each behind its length of 2 bytes: table, marking,
 * a first and a second list. An answer: the number 1 byte, the small out-parameter 1, the large ones 8 and 8, then the marking and the second
 * list as they are afterwards, as long as they came. Numbers are little-endian, and the out-parameters start as bytes 0xEE. The ticks, the
 * size and firm take the first half of a large one; the places of a record's fields, or of a relation's numbers, are the second list, 4 bytes
 * each. A table is written to the second list: asked are the events, firm comes in place of a table, 4 bytes, of which those that are missing
 * are 0 and more are not looked at, the first list is the classes, and in place of the marking come the relations' numbers, 4 bytes each,
 * bytes behind the last whole one not counted. An old marking is carried over from the first list to the second: asked are the events. The list
 * that a chain is written to is the second list, 2 bytes for each place, a byte behind the last whole one not counted; how many are written is the
 * second large value. Of a sleep the ticks are asked, and its list is the second list, 4 bytes for each place, bytes behind the last whole one not
 * counted; reason and place are the small value and the first large one, and how many are written is the second. Quiet ticks are the first large
 * value.
 */
#include "duty.h"
#include <stdio.h>
#include <string.h>

enum { LONGEST = 65535 };

struct list {
    uint8_t bytes[LONGEST];
    size_t length;
};

static struct list table, marking, first, second;
static uint32_t numbers[LONGEST / 4 + 1];
static uint16_t chain[LONGEST / 2 + 1];

static int take(void *bytes, size_t length) { return fread(bytes, 1, length, stdin) == length; }

static void put(const void *bytes, size_t length) { fwrite(bytes, 1, length, stdout); }

/* a list as numbers: how many, and the list again, as the numbers are */
static size_t unpack(const struct list *l)
{
    memcpy(numbers, l->bytes, l->length);
    return l->length / sizeof numbers[0];
}

static void pack(struct list *l) { memcpy(l->bytes, numbers, l->length); }

/* a list's first bytes as a number */
static uint32_t first_number(const struct list *l)
{
    uint32_t number = 0;
    memcpy(&number, l->bytes, l->length < sizeof number ? l->length : sizeof number);
    return number;
}

static int take_list(struct list *l)
{
    uint8_t length[2];
    if (!take(length, 2))
        return 0;
    l->length = length[0] + 256u * length[1];
    return take(l->bytes, l->length);
}

#define TABLE table.bytes, table.length
#define MARKING marking.bytes, marking.length
#define FIRST first.bytes, first.length
#define SECOND second.bytes, second.length

int main(void)
{
    uint8_t call;
    while (take(&call, 1)) {
        uint64_t asked;
        if (!take(&asked, 8) || !take_list(&table) || !take_list(&marking) || !take_list(&first) || !take_list(&second))
            return 1;
        uint8_t number = 0, small = 0xEE;
        uint64_t set;
        size_t large, count, places;
        int32_t ticks;
        uint32_t size, firm;
        memset(&set, 0xEE, sizeof set);
        memset(&large, 0xEE, sizeof large);
        memset(&count, 0xEE, sizeof count);
        memset(&ticks, 0xEE, sizeof ticks);
        memset(&size, 0xEE, sizeof size);
        memset(&firm, 0xEE, sizeof firm);
        switch (call) {
        case 0: number = duty_judge(TABLE, MARKING); break;
        case 1: number = duty_fresh(asked, MARKING); break;
        case 2: number = (uint8_t)duty_size(asked); break;
        case 3: number = (uint8_t)duty_lowest(asked); break;
        case 4: number = duty_enabled(TABLE, MARKING, asked, &small); break;
        case 5: number = duty_due(TABLE, MARKING, &set); break;
        case 6: number = duty_happen(TABLE, MARKING, asked); break;
        case 7: number = duty_plain_tick(TABLE, MARKING); break;
        case 8: number = duty_margin(TABLE, MARKING, asked, &small, &ticks); break;
        case 9: number = duty_hold_up(TABLE, MARKING, asked, &small, &large); break;
        case 10: number = duty_closure(TABLE, MARKING, &set, &size); break;
        case 11: number = duty_check(TABLE, MARKING, &small, &large); break;
        case 12: number = duty_guarded_tick(TABLE, MARKING, SECOND, &count, &small, &large); break;
        case 13: number = duty_remedies(TABLE, MARKING, FIRST, SECOND, &small, &large); break;
        case 14: number = duty_run(TABLE, MARKING, FIRST, SECOND); break;
        case 15:
            places = unpack(&second);
            number = duty_record(TABLE, MARKING, asked, numbers, places);
            pack(&second);
            break;
        case 16:
            places = unpack(&marking);
            number = duty_write_table(asked, first_number(&table), FIRST, numbers, places, SECOND);
            break;
        case 17:
            places = unpack(&second);
            number = duty_relation(TABLE, asked, numbers, places);
            pack(&second);
            break;
        case 18: number = duty_class(TABLE, asked, &small); break;
        case 19: number = duty_carry(asked, FIRST, SECOND); break;
        case 20: number = duty_firm(TABLE, &firm); break;
        case 21:
            memcpy(chain, second.bytes, second.length);
            number = duty_chain(TABLE, MARKING, asked, chain, second.length / sizeof chain[0], &count);
            memcpy(second.bytes, chain, second.length);
            break;
        case 22:
            places = unpack(&second);
            number = duty_sleep(TABLE, MARKING, asked, numbers, places, &count, &small, &large);
            pack(&second);
            break;
        case 23: number = duty_quiet(TABLE, MARKING, &large); break;
        default: return 1;
        }
        if (call == 5 || call == 10)
            large = set;
        if (call == 8)
            memcpy(&large, &ticks, sizeof ticks);
        if (call == 10)
            memcpy(&count, &size, sizeof size);
        if (call == 20)
            memcpy(&large, &firm, sizeof firm);
        put(&number, 1);
        put(&small, 1);
        put(&large, 8);
        put(&count, 8);
        put(MARKING);
        put(SECOND);
    }
    return ferror(stdin) || fflush(stdout) != 0;
}
