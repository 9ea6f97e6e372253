/* Memory that is lent to the library. A part ends where a guard begins, or begins where one ends, in turn, and known octets stand on its other
   side: a call that reads or writes beside a part is found. Half of the empty parts are null pointers. */
#ifndef GUARD_H
#define GUARD_H

#include "making.h"

/* Where a case's parts are lent. */
typedef struct {
    octet *in[INPUTS], *lent[LENT];
} loan;

/* Makes the memory ready. From then on a fault ends the program with the case in which it came. */
void guard(void);

/* Lends the parts of a case. */
loan lend_guarded(const test *t);

/* Takes the lent buffers back; ends the program where an input, or an octet beside a part, is another than before. */
void take_back(const test *t, answer *a);

#endif
