/* measure COMMAND..: runs a command with nothing to read, without what it prints, for at most HANGS seconds. Prints its exit
   status, or less than 0 for a signal, the milliseconds of processors that it took, and the most memory that it had at once, in KB.
   A process counts the memory of the one that began it, so the one that begins the command has to be as small as this. */
#define _DEFAULT_SOURCE
#include <fcntl.h>
#include <signal.h>
#include <stdio.h>
#include <sys/resource.h>
#include <sys/wait.h>
#include <unistd.h>

enum { HANGS = 20 };
/* what it may ask for at all: 64 threads ask for much that they don't use */
static const struct rlimit addresses = {4000000000, 4000000000};
static pid_t ran;

static void end_it(int signal)
{
    (void)signal;
    kill(ran, SIGKILL);
}

static void begin(char **words)
{
    int nothing = open("/dev/null", O_RDWR);
    if (nothing >= 0 && dup2(nothing, 0) == 0 && dup2(nothing, 1) == 1 && !setrlimit(RLIMIT_AS, &addresses))
        execv(words[0], words);
    _exit(127);
}

static long milliseconds(struct timeval time)
{
    return time.tv_sec * 1000 + time.tv_usec / 1000;
}

int main(int count, char **words)
{
    int status;
    struct rusage used;
    if (count < 2 || (ran = fork()) < 0)
        return 1;
    if (ran == 0)
        begin(words + 1);
    signal(SIGALRM, end_it);
    alarm(HANGS);
    if (wait4(ran, &status, 0, &used) != ran)
        return 1;
    status = WIFEXITED(status) ? WEXITSTATUS(status) : -WTERMSIG(status);
    printf("%d %ld %ld\n", status, milliseconds(used.ru_utime) + milliseconds(used.ru_stime), used.ru_maxrss);
    return 0;
}
