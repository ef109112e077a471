/* Runs a program, and prints its peak memory in kB.
 *
 *   peak INPUT PROGRAM [WORD ..]
 *
 * The program reads the file INPUT, and its output is dropped. The status is 1 if it can't be run or fails.
 *
 * A program that Python starts is at first a copy of Python, whose memory counts. A copy of this one has 1 MB.
 */
#include <fcntl.h>
#include <stdio.h>
#include <sys/resource.h>
#include <sys/wait.h>
#include <unistd.h>

static int run(char **words)
{
    int input = open(words[0], O_RDONLY);
    int output = open("/dev/null", O_WRONLY);
    if (input < 0 || output < 0 || dup2(input, 0) < 0 || dup2(output, 1) < 0)
        return 127;
    execvp(words[1], words + 1);
    return 127;
}

int main(int count, char **words)
{
    int status;
    struct rusage used;
    if (count < 3) {
        fprintf(stderr, "usage: peak INPUT PROGRAM [WORD ..]\n");
        return 1;
    }
    pid_t child = fork();
    if (child == 0)
        _exit(run(words + 1));
    if (child < 0 || wait4(child, &status, 0, &used) < 0 || status != 0) {
        fprintf(stderr, "peak: %s failed\n", words[2]);
        return 1;
    }
    printf("%ld\n", used.ru_maxrss);
    return 0;
}
