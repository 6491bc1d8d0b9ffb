/* Runs a program whose reading fails half way: halfway TEXT PROGRAM [ARGS..]. Its standard input is the master of a terminal that gives TEXT and whose other side is then closed, at which a read fails. */
#define _GNU_SOURCE
#include <fcntl.h>
#include <stdlib.h>
#include <string.h>
#include <termios.h>
#include <unistd.h>

int main(int count, char **words) {
    int master = posix_openpt(O_RDWR | O_NOCTTY);
    if (count < 3 || master < 0 || grantpt(master) || unlockpt(master)) return 99;
    int other = open(ptsname(master), O_RDWR | O_NOCTTY);
    struct termios plain;
    if (other < 0 || tcgetattr(other, &plain)) return 99;
    cfmakeraw(&plain);
    size_t length = strlen(words[1]);
    if (tcsetattr(other, TCSANOW, &plain) || write(other, words[1], length) != (ssize_t)length) return 99;
    close(other);
    dup2(master, 0);
    execvp(words[2], words + 2);
    return 99;
}
