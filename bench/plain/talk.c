/* A plain partner for a live end (bench/live), by its first word:
 *
 *   echo                       writes each line back, and `waits 0` after it, before it reads the next
 *   drive FILE PROGRAM WORD..  tells the program the lines of a file, each when the one before it is answered, and
 *                              prints the microseconds from the first line to the last answer
 */
#include <fcntl.h>
#include <stdio.h>
#include <stdlib.h>
#include <string.h>
#include <sys/stat.h>
#include <sys/wait.h>
#include <time.h>
#include <unistd.h>

enum { ROOM = 1 << 16 };

static void fail(const char *what)
{
    perror(what);
    exit(3);
}

static void write_all(int file, const char *bytes, size_t count)
{
    while (count) {
        ssize_t written = write(file, bytes, count);
        if (written <= 0)
            fail("write");
        bytes += written;
        count -= written;
    }
}

static int echo(void)
{
    static char line[ROOM], answer[ROOM + 16];
    while (fgets(line, sizeof line, stdin)) {
        size_t count = strlen(line);
        memcpy(answer, line, count);
        memcpy(answer + count, "waits 0\n", 8);
        write_all(1, answer, count + 8);
    }
    return 0;
}

/* Whether the last line of an answer is there. */
static int is_answered(const char *answer, size_t count)
{
    if (count == 0 || answer[count - 1] != '\n')
        return 0;
    size_t begin = count - 1;
    while (begin && answer[begin - 1] != '\n')
        begin--;
    return count - begin > 6 && memcmp(answer + begin, "waits ", 6) == 0;
}

static void read_answer(int file)
{
    static char answer[ROOM];
    size_t count = 0;
    while (!is_answered(answer, count)) {
        ssize_t more = read(file, answer + count, sizeof answer - count);
        if (more <= 0)
            fail("read");
        count += more;
    }
}

static char *read_file(const char *path, size_t *size)
{
    struct stat about;
    int file = open(path, O_RDONLY);
    if (file < 0 || fstat(file, &about))
        fail(path);
    char *bytes = malloc(about.st_size + 1);
    for (*size = 0; *size < (size_t)about.st_size;) {
        ssize_t more = read(file, bytes + *size, about.st_size - *size);
        if (more <= 0)
            fail(path);
        *size += more;
    }
    close(file);
    return bytes;
}

static double now(void)
{
    struct timespec time;
    clock_gettime(CLOCK_MONOTONIC, &time);
    return time.tv_sec * 1e6 + time.tv_nsec / 1e3;
}

static int drive(const char *path, char **program)
{
    size_t size;
    char *lines = read_file(path, &size);
    int there[2], back[2];
    if (pipe(there) || pipe(back))
        fail("pipe");
    pid_t child = fork();
    if (child == 0) {
        dup2(there[0], 0);
        dup2(back[1], 1);
        close(there[0]), close(there[1]), close(back[0]), close(back[1]);
        execv(program[0], program);
        fail(program[0]);
    }
    close(there[0]);
    close(back[1]);
    double begun = now();
    for (char *line = lines; line < lines + size;) {
        char *end = memchr(line, '\n', lines + size - line);
        if (!end)
            break;
        write_all(there[1], line, end + 1 - line);
        read_answer(back[0]);
        line = end + 1;
    }
    printf("%.0f\n", now() - begun);
    close(there[1]);
    int status;
    waitpid(child, &status, 0);
    return WIFEXITED(status) ? WEXITSTATUS(status) : 3;
}

int main(int count, char **words)
{
    if (count == 2 && strcmp(words[1], "echo") == 0)
        return echo();
    if (count > 3 && strcmp(words[1], "drive") == 0)
        return drive(words[2], words + 3);
    fprintf(stderr, "talk: echo, or drive FILE PROGRAM WORD..\n");
    return 2;
}
