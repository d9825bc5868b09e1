/* narrow FD MOST STEP PROGRAM [WORDS...]: what a program writes on standard output (FD 1) or standard error (FD 2) where that is a pipe which takes K bytes and
   then no more, and does not wait: a line for each K from 0 to MOST by STEP, with K and, in brackets, the bytes that came through. A line end among them is a `|`. */
#define _GNU_SOURCE
#include <fcntl.h>
#include <stdio.h>
#include <stdlib.h>
#include <string.h>
#include <sys/wait.h>
#include <unistd.h>

enum { PAGE = 4096 };

static void stop(const char *what)
{
    perror(what);
    exit(2);
}

/* a pipe of one page with room for so many bytes */
static void make_pipe(int ends[2], int room)
{
    static char filling[PAGE];
    if (pipe2(ends, O_CLOEXEC) != 0) stop("pipe");
    if (fcntl(ends[1], F_SETPIPE_SZ, PAGE) != PAGE) stop("the pipe's size");
    if (fcntl(ends[1], F_SETFL, O_NONBLOCK) != 0) stop("the pipe's flags");
    if (write(ends[1], filling, (size_t)(PAGE - room)) != PAGE - room) stop("the pipe's filling");
}

static void run(int to, int fd, char **words)
{
    int nothing = open("/dev/null", O_RDWR);
    if (nothing < 0) stop("/dev/null");
    fflush(stdout);
    pid_t child = fork();
    if (child < 0) stop("a process");
    if (child == 0) {
        if (dup2(nothing, 3 - fd) < 0 || dup2(to, fd) < 0) _exit(126);
        execv(words[0], words);
        _exit(127);
    }
    int status = 0;
    if (waitpid(child, &status, 0) != child) stop("the program");
    if (status != 0) {
        fprintf(stderr, "the program's status is %d\n", status);
        exit(2);
    }
    close(nothing);
}

int main(int count, char **words)
{
    if (count < 5) return 2;
    int fd = atoi(words[1]);
    int most = atoi(words[2]);
    int step = atoi(words[3]);
    if (fd < 1 || fd > 2 || most < 0 || most > PAGE || step < 1) return 2;
    for (int room = 0; room <= most; room += step) {
        static char text[PAGE + 1];
        int ends[2];
        make_pipe(ends, room);
        run(ends[1], fd, words + 4);
        close(ends[1]);
        ssize_t n = read(ends[0], text, PAGE);
        close(ends[0]);
        if (n < PAGE - room) stop("what came through");
        text[n] = 0;
        for (char *c = text; c < text + n; c++)
            if (*c == '\n') *c = '|';
        printf("%d [%s]\n", room, text + (PAGE - room));
    }
    return 0;
}
