/* started PROGRAM WORD ..: runs a program, and prints on standard error its status, its seconds of the processor and its
 * peak of memory in KiB. A process counts with the memory that its parent had at its start, so this program is small. The
 * standard error of PROGRAM is dropped. */
#include <fcntl.h>
#include <stdio.h>
#include <sys/resource.h>
#include <sys/wait.h>
#include <unistd.h>

int main(int count, char **words) {
  struct rusage used;
  int status;
  pid_t child = count > 1 ? fork() : -1;
  if (child == 0) {
    dup2(open("/dev/null", O_WRONLY), 2);
    execvp(words[1], words + 1);
    _exit(127);
  }
  if (child < 0 || wait4(child, &status, 0, &used) != child) return 1;
  double seconds = (double)(used.ru_utime.tv_sec + used.ru_stime.tv_sec);
  seconds += (double)(used.ru_utime.tv_usec + used.ru_stime.tv_usec) / 1e6;
  fprintf(stderr, "%d %.6f %ld\n", WIFEXITED(status) ? WEXITSTATUS(status) : -1, seconds, used.ru_maxrss);
  return 0;
}
