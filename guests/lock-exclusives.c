// The guest lock with pairs of exclusive accesses in place of atomic instructions.
#define EXCLUSIVES
#include "threads.h"

#include "lock.c"
