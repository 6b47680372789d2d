// The guest barrier with pairs of exclusive accesses in place of atomic instructions.
#define EXCLUSIVES
#include "threads.h"

#include "barrier.c"
