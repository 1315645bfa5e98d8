/* Loaded into a program before it starts: a signal every five milliseconds, caught, and no call that it interrupts goes on by itself. */
#include <signal.h>
#include <string.h>
#include <sys/time.h>

static void caught(int number)
{
    (void)number;
}

__attribute__((constructor)) static void begin(void)
{
    struct sigaction action;
    struct itimerval timer = {{0, 5000}, {0, 5000}};
    memset(&action, 0, sizeof action);
    action.sa_handler = caught;
    sigaction(SIGALRM, &action, NULL);
    setitimer(ITIMER_REAL, &timer, NULL);
}
