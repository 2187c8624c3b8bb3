/* Keeps a processor busy until it is killed, or whoever started it has ended: busy PARENT */
#include <signal.h>
#include <stdlib.h>
#include <sys/prctl.h>
#include <unistd.h>

int main(int argc, char **argv)
{
    volatile unsigned long turns = 0;
    if (argc != 2 || prctl(PR_SET_PDEATHSIG, SIGKILL) != 0 || getppid() != atoi(argv[1]))
        return 1;
    for (;;)
        turns++;
}
