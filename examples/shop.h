/* The events of the process P of docs/RULES.md, for the example and the tests. */
#ifndef SHOP_H
#define SHOP_H

enum { LEAK, FLUSH, ISOLATE, STANDBY, DRAIN, EVENTS };

/* of a record, the byte with the bit `included` */
enum { INCLUDED_BYTE = 3 };

#endif
