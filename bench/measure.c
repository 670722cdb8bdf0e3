// measure ROUNDS INPUT COMMAND...: the CPU time of commands that read the same input, as a row of a table.
//
// The commands take turns in each round, so that whatever else the machine does meets all of them. Each is one argument, split at spaces. The row has
// the median of the first command's times in ms and then, for each command, the median over the rounds of its time as a ratio to the first command's in
// the same round.

#include <fcntl.h>
#include <stdio.h>
#include <stdlib.h>
#include <string.h>
#include <sys/resource.h>
#include <sys/wait.h>
#include <unistd.h>

enum { MAX_WORDS = 8 };

static void fail(const char *what)
{
    perror(what);
    exit(1);
}

static void redirect(const char *path, int flags, int to)
{
    int fd = open(path, flags);
    if (fd < 0 || dup2(fd, to) < 0)
        fail(path);
    close(fd);
}

static void execute(char *command, const char *input)
{
    char *words[MAX_WORDS + 1] = {NULL};
    size_t count = 0;
    for (char *w = strtok(command, " "); w != NULL && count < MAX_WORDS; w = strtok(NULL, " "))
        words[count++] = w;
    redirect(input, O_RDONLY, STDIN_FILENO);
    redirect("/dev/null", O_WRONLY, STDOUT_FILENO);
    execv(words[0], words);
    fail(words[0]);
}

static double ms(struct timeval t)
{
    return (double)t.tv_sec * 1e3 + (double)t.tv_usec * 1e-3;
}

// User and system time of one run.
static double cpu_time(char *command, const char *input)
{
    int status;
    struct rusage used;
    pid_t child = fork();
    if (child < 0)
        fail("fork");
    if (child == 0)
        execute(command, input);
    if (wait4(child, &status, 0, &used) != child)
        fail("wait4");
    if (!WIFEXITED(status) || WEXITSTATUS(status) != 0) {
        fprintf(stderr, "failed: %s\n", command);
        exit(1);
    }
    return ms(used.ru_utime) + ms(used.ru_stime);
}

static int ascending(const void *a, const void *b)
{
    double x = *(const double *)a, y = *(const double *)b;
    return (x > y) - (x < y);
}

// Of an even number of values, the mean of the two in the middle. Sorts the values.
static double median(double *values, int count)
{
    qsort(values, (size_t)count, sizeof *values, ascending);
    return (values[(count - 1) / 2] + values[count / 2]) / 2;
}

// Prints the row. `times` has the rounds of the first command, then those of the second, and so on; `values` has room for one command's.
static void print_row(const double *times, int count, int rounds, double *values)
{
    memcpy(values, times, (size_t)rounds * sizeof *values);
    printf("%9.1f", median(values, rounds));
    for (int c = 0; c < count; c++) {
        for (int round = 0; round < rounds; round++)
            values[round] = times[c * rounds + round] / times[round];
        printf("%9.2f", median(values, rounds));
    }
    printf("\n");
}

int main(int argc, char **argv)
{
    int rounds = argc > 3 ? atoi(argv[1]) : 0;
    int count = argc - 3;
    if (rounds < 1) {
        fprintf(stderr, "usage: measure ROUNDS INPUT COMMAND...\n");
        return 2;
    }
    double *times = calloc((size_t)rounds * (size_t)count, sizeof *times);
    double *values = calloc((size_t)rounds, sizeof *values);
    if (times == NULL || values == NULL)
        fail("calloc");
    for (int round = 0; round < rounds; round++)
        for (int c = 0; c < count; c++)
            times[c * rounds + round] = cpu_time(argv[3 + c], argv[2]);
    print_row(times, count, rounds, values);
    return 0;
}
