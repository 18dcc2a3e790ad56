// Loading a model by puts: each searches the members held, so that so many take time that grows with their square. What
// is timed is the program framecount on frame files that only put, less its time on one that puts nothing.
#include <fcntl.h>
#include <stdio.h>
#include <stdlib.h>
#include <sys/wait.h>
#include <time.h>
#include <unistd.h>

#define ORDER 99
#define MOST_PUTS 2000 // framecount holds no more than 2,048 members
#define ROUNDS 201

static double now(void) {
    struct timespec t;
    clock_gettime(CLOCK_MONOTONIC, &t);
    return (double)t.tv_sec + 1e-9 * (double)t.tv_nsec;
}

// A frame file that puts so many different members.
static void write_frame(const char *path, int puts) {
    FILE *file = fopen(path, "w");
    if (!file) abort();
    fprintf(file, "M,PUTS,%d\n", ORDER);
    for (int i = 1; i <= ORDER; i++)
        for (int j = i + 1; j <= ORDER; j++)
            if (puts-- > 0) fprintf(file, "P,%d,%d\n", j, i);
    if (fclose(file)) abort();
}

static double run(const char *program, const char *path) {
    double begun = now();
    pid_t child = fork();
    if (child == 0) {
        if (dup2(open(path, O_RDONLY), 0) < 0 || dup2(open("/dev/null", O_WRONLY), 1) < 0) _exit(127);
        execl(program, program, (char *)NULL);
        _exit(127);
    }
    int status;
    if (child < 0 || waitpid(child, &status, 0) != child || status != 0) abort();
    return now() - begun;
}

static double least(const char *program, const char *path) {
    double best = run(program, path);
    for (int r = 1; r < ROUNDS; r++) {
        double t = run(program, path);
        if (t < best) best = t;
    }
    return best;
}

int main(int count, char **arguments) {
    if (count != 3) return 2;
    const char *program = arguments[1], *path = arguments[2];
    write_frame(path, 0);
    double empty = least(program, path);
    printf("%8s %12s %20s\n", "puts", "microseconds", "ns a member searched");
    for (int puts = 500; puts <= MOST_PUTS; puts *= 2) {
        write_frame(path, puts);
        double t = least(program, path) - empty;
        printf("%8d %12.0f %20.2f\n", puts, t * 1e6, t * 1e9 / ((double)puts * (puts - 1) / 2));
    }
    return 0;
}
