/* The time of whole programs on one input: programs FILE ROUNDS COMMAND.. -- COMMAND.. runs the commands by turns, and prints of each the least nanoseconds of
 * processor time. */
#define _GNU_SOURCE
#include <fcntl.h>
#include <stdio.h>
#include <stdlib.h>
#include <string.h>
#include <sys/resource.h>
#include <sys/wait.h>
#include <unistd.h>

enum { MOST = 8 };

static double seconds(struct timeval t) { return t.tv_sec + t.tv_usec / 1e6; }

/* Never returns: the command, with the file as its input and no output. */
static void become(const char *file, char **command) {
    int in = open(file, O_RDONLY), out = open("/dev/null", O_WRONLY);
    if (in < 0 || out < 0 || dup2(in, 0) < 0 || dup2(out, 1) < 0) _exit(126);
    execv(command[0], command);
    _exit(127);
}

static double run(const char *file, char **command) {
    struct rusage used;
    int status;
    pid_t child = fork();
    if (child == 0) become(file, command);
    if (child < 0 || wait4(child, &status, 0, &used) < 0 || status != 0) exit(1);
    return (seconds(used.ru_utime) + seconds(used.ru_stime)) * 1e9;
}

int main(int argc, char **argv) {
    char **commands[MOST];
    double least[MOST] = {0};
    int count = 0;
    if (argc < 4) return 2;
    for (int i = 3; i < argc && count < MOST; i++)
        if (i == 3 || !argv[i - 1]) commands[count++] = argv + i;
        else if (!strcmp(argv[i], "--")) argv[i] = 0;
    for (int round = atoi(argv[2]); round > 0; round--)
        for (int k = 0; k < count; k++) {
            double took = run(argv[1], commands[k]);
            if (least[k] == 0 || took < least[k]) least[k] = took;
        }
    for (int k = 0; k < count; k++) printf("%.0f%c", least[k], k + 1 < count ? '\t' : '\n');
    return 0;
}
