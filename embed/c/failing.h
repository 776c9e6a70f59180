/* Memory that is made to fail, for tests: link with failing.o and --wrap=malloc,--wrap=calloc,--wrap=realloc. */
#ifndef FAILING_H
#define FAILING_H
#include <stddef.h>

/* Counts allocations from 0 anew: that of the number `first` + k is to fail where the bit k of `which` is set. */
void failing_from(long first, unsigned which);

/* The greatest `which` with which a client tries all odd ones: up to five allocations behind one another fail, or don't. */
enum { FAILING_MOST = 31 };

/* Only while this is on are allocations counted, and do they fail. */
void failing_watch(int on);

/* Counts one allocation, and says whether it fails; for those of a language that has its own memory. */
int failing_fails(void);

/* How many allocations were counted. */
long failing_asked(void);
#endif
