// The same with 16 threads.
#define THREADS 16
#define ROUNDS 12
#include "pi-lock.c"
