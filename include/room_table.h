/* The room table's two functions for the load module. They take and return plain numbers, accept
 * every input, and keep no state, so any thread may call them. */
#ifndef ROOM_TABLE_H
#define ROOM_TABLE_H

#include <stdint.h>

#ifdef __cplusplus
extern "C" {
#endif

/* The home of a key in a table of c cells: the cell, from 0 to c - 1, at which the search for the
 * key begins. It is (key * 40503) mod 65536, divided by (65536 / c), rounded down.
 *
 * 65535, which is never a cell, where c is not a power of two from 1 to 4096, or where the key is
 * not live, that is, not from 1 to 65534. */
uint32_t room_home(uint32_t key, uint32_t c);

/* The sum of two totals, held at 65535, and whether it capped the first. It never fails.
 *
 * The sum is the lower sixteen bits: 65535 where it is 65535 or larger. A total of 65535 is pinned:
 * it stands for at least that much, so a sum with a pinned total is pinned too.
 *
 * 65536 more, which sets bit 16, where a was a true total, that is, below 65535, and the sum is
 * pinned. Only a is asked: room_sum(0, 65535) is 131071, and room_sum(65535, 0) is 65535. Where
 * nothing was capped the result is the sum alone; it is at most 131071. */
uint32_t room_sum(uint16_t a, uint16_t b);

#ifdef __cplusplus
}
#endif

#endif
