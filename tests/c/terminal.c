/* terminal.c: runs a program in a terminal of its own and hands on what it writes there, and its exit status.
 *
 *   terminal PROGRAM WORD..
 */
#define _XOPEN_SOURCE 700
#include <fcntl.h>
#include <stdio.h>
#include <stdlib.h>
#include <sys/wait.h>
#include <unistd.h>

int main(int argc, char **argv)
{
    int ours = posix_openpt(O_RDWR | O_NOCTTY);
    if (argc < 2 || ours < 0 || grantpt(ours) || unlockpt(ours))
        return 3;
    const char *name = ptsname(ours);
    int theirs = name ? open(name, O_RDWR | O_NOCTTY) : -1;
    if (theirs < 0)
        return 3;
    pid_t child = fork();
    if (child == 0) {
        setsid();
        for (int i = 0; i < 3; i++)
            dup2(theirs, i);
        close(ours);
        close(theirs);
        execv(argv[1], argv + 1);
        _exit(3);
    }
    close(theirs); /* once the program ends, reading fails */
    char part[4096];
    ssize_t got;
    while ((got = read(ours, part, sizeof part)) > 0)
        fwrite(part, 1, (size_t)got, stdout);
    int status = 0;
    if (child < 0 || waitpid(child, &status, 0) != child)
        return 3;
    return WIFEXITED(status) ? WEXITSTATUS(status) : 3;
}
