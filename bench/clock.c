#define _GNU_SOURCE
#include <sys/syscall.h>
#include <time.h>
#include <unistd.h>

/* Each clock returns the processor time of the process. So other processes do not count. */
int clock_gettime(clockid_t clock, struct timespec *now)
{
	(void)clock;
	return (int)syscall(SYS_clock_gettime, CLOCK_PROCESS_CPUTIME_ID, now);
}
