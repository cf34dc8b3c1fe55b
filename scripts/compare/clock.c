// Reads the clock by the kernel's call, under a name that callgrind sees. A program that is given this library first (LD_PRELOAD) can so be
// counted between two readings of the clock, also where its own functions have no names.
#include <sys/syscall.h>
#include <time.h>
#include <unistd.h>

int clock_gettime(clockid_t clock, struct timespec *now) { return (int)syscall(SYS_clock_gettime, clock, now); }
