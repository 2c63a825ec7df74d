/* time.c: runs programs on the same inputs, in turn, and compares what they write.
 *   time ROUNDS LIST EMPTY WORK MARK -- OURS WORD.. -- SECOND WORD.. [-- LIMIT WORD..]
 * LIST has a path a line. Each program is run with its words, input from the path, output to a file in WORK; who goes first
 * changes from run to run. Beside each run the same program is run on EMPTY, since the start of a process costs more than a
 * short input, and not the same from one second to the next. A line a round, for one program after the other: wall
 * seconds, processor seconds (user and system), both of the empty runs, and the peak memory of one run in kilobytes.
 * The first two must write the same to standard output, and to standard error the same lines that begin with MARK, one at
 * least; without a MARK ('') standard error goes nowhere. The third must write as many bytes as the first. Else it ends
 * with status 1.
 *   time peak COMMAND..        runs a command; prints its wall seconds and the peak memory of its largest process
 * A run's peak memory counts no less than this program's own, so it is linked statically, to be small. */
#define _GNU_SOURCE
#include <fcntl.h>
#include <stdio.h>
#include <stdlib.h>
#include <string.h>
#include <sys/resource.h>
#include <sys/stat.h>
#include <sys/wait.h>
#include <time.h>
#include <unistd.h>

enum { MOST = 3 };

struct cost { double wall, processor; long peak; };
struct program { char **words, output[4096], said[4096]; };

static double seconds(void)
{
    struct timespec t;
    clock_gettime(CLOCK_MONOTONIC, &t);
    return (double)t.tv_sec + (double)t.tv_nsec / 1e9;
}

static double of(struct timeval t)
{
    return (double)t.tv_sec + (double)t.tv_usec / 1e6;
}

static void die(const char *what)
{
    perror(what);
    exit(2);
}

static int to_write(const char *path)
{
    int file = open(path, O_WRONLY | O_CREAT | O_TRUNC | O_CLOEXEC, 0600);
    if (file < 0)
        die(path);
    return file;
}

/* One run, from before it is started until it has ended. */
static void run(const struct program *p, const char *input, struct cost *c)
{
    struct rusage used;
    int status, in = open(input, O_RDONLY | O_CLOEXEC), to = to_write(p->output), said = to_write(p->said);
    double began;
    pid_t child;
    if (in < 0)
        die(input);
    began = seconds();
    child = vfork();
    if (child == 0) {
        dup2(in, 0);
        dup2(to, 1);
        dup2(said, 2);
        execv(p->words[0], p->words);
        _exit(127);
    }
    if (child < 0 || wait4(child, &status, 0, &used) != child)
        die(p->words[0]);
    c->wall += seconds() - began;
    c->processor += of(used.ru_utime) + of(used.ru_stime);
    if (used.ru_maxrss > c->peak)
        c->peak = used.ru_maxrss;
    if (!WIFEXITED(status) || WEXITSTATUS(status) > 1) {
        fprintf(stderr, "time: %s ended badly on %s\n", p->words[0], input);
        exit(1);
    }
    close(in);
    close(to);
    close(said);
}

static void compare(const char *a, const char *b, const char *input)
{
    static char x[32768], y[sizeof x];
    int f = open(a, O_RDONLY), g = open(b, O_RDONLY);
    ssize_t n, m;
    if (f < 0 || g < 0)
        die(a);
    do {
        n = read(f, x, sizeof x);
        m = read(g, y, sizeof y);
        if (n < 0 || n != m || memcmp(x, y, (size_t)n) != 0) {
            fprintf(stderr, "time: the outputs differ on %s\n", input);
            exit(1);
        }
    } while (n > 0);
    close(f);
    close(g);
}

/* The next line of a file that begins with the mark; 0 at the end. */
static int next_marked(FILE *f, const char *mark, char **line, size_t *room)
{
    while (getline(line, room, f) >= 0)
        if (strncmp(*line, mark, strlen(mark)) == 0)
            return 1;
    return 0;
}

static void compare_marked(const char *a, const char *b, const char *mark, const char *input)
{
    static char *x, *y;
    static size_t x_room, y_room;
    FILE *f = fopen(a, "r"), *g = fopen(b, "r");
    int more, other, count = 0;
    if (!f || !g)
        die(a);
    do {
        more = next_marked(f, mark, &x, &x_room);
        other = next_marked(g, mark, &y, &y_room);
        if (more != other || (more && strcmp(x, y) != 0) || (!more && count == 0)) {
            fprintf(stderr, "time: the lines '%s' on standard error differ, or are not there, on %s\n", mark, input);
            exit(1);
        }
        count++;
    } while (more);
    fclose(f);
    fclose(g);
}

static void compare_length(const char *a, const char *b, const char *input)
{
    struct stat x, y;
    if (stat(a, &x) != 0 || stat(b, &y) != 0)
        die(a);
    if (x.st_size != y.st_size) {
        fprintf(stderr, "time: the outputs are not as long as each other on %s\n", input);
        exit(1);
    }
}

static int peak(char **words)
{
    struct rusage used;
    int status;
    double began = seconds();
    pid_t child = vfork();
    if (child == 0) {
        execvp(words[0], words);
        _exit(127);
    }
    if (child < 0 || waitpid(child, &status, 0) != child)
        die(words[0]);
    getrusage(RUSAGE_CHILDREN, &used);
    printf("%.0f %ld\n", seconds() - began, used.ru_maxrss);
    return WIFEXITED(status) ? WEXITSTATUS(status) : 2;
}

static void print(const struct cost *real, const struct cost *empty)
{
    printf("%.6f %.6f %.6f %.6f %ld", real->wall, real->processor, empty->wall, empty->processor, real->peak);
}

/* The commands, each behind its "--"; how many. */
static int take_programs(char **words, const char *work, int has_mark, struct program *p)
{
    int count = 0;
    for (; *words; words++)
        if (strcmp(*words, "--") == 0) {
            if (count == MOST || !words[1])
                return 0;
            *words = NULL;
            p[count].words = words + 1;
            snprintf(p[count].output, sizeof p[count].output, "%s/output%d", work, count);
            if (has_mark)
                snprintf(p[count].said, sizeof p[count].said, "%s/said%d", work, count);
            else
                strcpy(p[count].said, "/dev/null");
            count++;
        } else if (count == 0) {
            return 0;
        }
    return count;
}

static void run_round(int round, const char *list, const char *empty, const char *mark, const struct program *p, int count)
{
    struct cost real[MOST] = { { 0, 0, 0 } }, nothing[MOST] = { { 0, 0, 0 } };
    char path[4096];
    FILE *paths = fopen(list, "r");
    int k, turn = round;
    if (!paths)
        die(list);
    for (; fgets(path, sizeof path, paths); turn++) {
        path[strcspn(path, "\n")] = 0;
        for (k = 0; k < count; k++)
            run(&p[(turn + k) % count], empty, &nothing[(turn + k) % count]);
        for (k = 0; k < count; k++)
            run(&p[(turn + k) % count], path, &real[(turn + k) % count]);
        compare(p[0].output, p[1].output, path);
        if (*mark)
            compare_marked(p[0].said, p[1].said, mark, path);
        if (count > 2)
            compare_length(p[0].output, p[2].output, path);
    }
    fclose(paths);
    for (k = 0; k < count; k++) {
        if (k > 0)
            putchar(' ');
        print(&real[k], &nothing[k]);
    }
    printf("\n");
    fflush(stdout);
}

int main(int argc, char **argv)
{
    struct program p[MOST];
    int rounds, round, count;
    if (argc > 2 && strcmp(argv[1], "peak") == 0)
        return peak(argv + 2);
    count = argc < 7 ? 0 : take_programs(argv + 6, argv[4], *argv[5] != 0, p);
    if (count < 2)
        return fprintf(stderr, "usage: see the top of time.c\n"), 2;
    rounds = atoi(argv[1]);
    for (round = 0; round < rounds; round++)
        run_round(round, argv[2], argv[3], argv[5], p, count);
    return 0;
}
