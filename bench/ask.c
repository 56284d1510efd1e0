// Measures how fast a program answers addresses on its standard input.
//
// ask batch|pingpong|file ADDRESSES LENGTHS COMMAND.. sends the lines of the file ADDRESSES. Each
// line of the file LENGTHS has the number of bytes of one answer. The first address is sent and
// answered before the clock starts, so that loading is not measured. A batch is sent as fast as the
// program reads it. In ping-pong the next address is sent when all bytes of an answer have arrived.
// If an answer ends early or no byte arrives for two minutes, the result line starts with `failed`.
//
// With `file`, the program reads the addresses from a file and writes the answers to a file, and
// what counts is its CPU time, less that of a run with the first address only.
#define _GNU_SOURCE
#include <fcntl.h>
#include <signal.h>
#include <stdint.h>
#include <stdio.h>
#include <stdlib.h>
#include <string.h>
#include <sys/resource.h>
#include <sys/stat.h>
#include <sys/wait.h>
#include <time.h>
#include <unistd.h>

enum { MOST_ADDRESSES = 1 << 22 };

static int to_program, from_program;
static volatile size_t answered; // bytes of answers
static size_t lengths[MOST_ADDRESSES], length_count; // bytes of each answer

static double now(void) {
    struct timespec time;
    clock_gettime(CLOCK_MONOTONIC, &time);
    return time.tv_sec + time.tv_nsec / 1e9;
}

static pid_t start(char **command) {
    int in[2], out[2];
    if (pipe(in) || pipe(out)) exit(1);
    pid_t program = fork();
    if (program == 0) {
        dup2(in[0], 0);
        dup2(out[1], 1);
        for (int i = 0; i < 2; i++) { close(in[i]); close(out[i]); }
        execvp(command[0], command);
        perror(command[0]);
        _exit(127);
    }
    close(in[0]);
    close(out[1]);
    signal(SIGPIPE, SIG_IGN);
    to_program = in[1];
    from_program = out[0];
    return program;
}

// Sends bytes until the program stops reading.
static void send_all(const char *bytes, size_t count) {
    while (count) {
        ssize_t sent = write(to_program, bytes, count);
        if (sent <= 0) return;
        bytes += sent;
        count -= sent;
    }
}

// Prints why the answers stopped, after the number of bytes that arrived. Exits.
static void fail(const char *why) {
    printf("failed: %s after %zu bytes of answers\n", why, answered);
    fflush(stdout);
    _exit(1);
}

// Fails if no byte arrived since the minute before.
static void check_progress(int signal) {
    static size_t before = SIZE_MAX;
    (void)signal;
    if (answered == before) fail("silent");
    before = answered;
    alarm(60);
}

// Reads `wanted` bytes of answers.
static void read_bytes(size_t wanted) {
    static char buffer[1 << 16];
    while (wanted) {
        size_t free_bytes = wanted < sizeof buffer ? wanted : sizeof buffer;
        ssize_t count = read(from_program, buffer, free_bytes);
        if (count <= 0) fail("ended");
        answered += count;
        wanted -= count;
    }
}

// Reads the lengths of the answers from a file into `lengths`.
static void read_lengths(const char *path) {
    FILE *file = fopen(path, "r");
    if (!file) exit(1);
    size_t length;
    while (length_count < MOST_ADDRESSES && fscanf(file, "%zu", &length) == 1)
        lengths[length_count++] = length;
    fclose(file);
}

// Returns the number of bytes of all answers from a number on.
static size_t bytes_from(size_t first) {
    size_t sum = 0;
    for (size_t i = first; i < length_count; i++) sum += lengths[i];
    return sum;
}

// Returns the number of reads and writes of a process.
static long calls_of(pid_t program) {
    char path[64], line[128];
    long sum = 0, count;
    snprintf(path, sizeof path, "/proc/%d/io", program);
    FILE *file = fopen(path, "r");
    if (!file) return 0;
    while (fgets(line, sizeof line, file))
        if (sscanf(line, "syscr: %ld", &count) == 1 || sscanf(line, "syscw: %ld", &count) == 1)
            sum += count;
    fclose(file);
    return sum;
}

// Returns the peak memory of a process in MiB.
static long peak_of(pid_t program) {
    char path[64], line[128];
    long kilobytes = 0;
    snprintf(path, sizeof path, "/proc/%d/status", program);
    FILE *file = fopen(path, "r");
    if (!file) return 0;
    while (fgets(line, sizeof line, file)) sscanf(line, "VmHWM: %ld", &kilobytes);
    fclose(file);
    return kilobytes / 1024;
}

// Sends each address after the previous answer.
static void ping_pong(char *line) {
    for (size_t i = 1; i < length_count; i++) {
        char *next = strchr(line, '\n') + 1;
        send_all(line, next - line);
        read_bytes(lengths[i]);
        line = next;
    }
}

// Sends all addresses while it reads `wanted` bytes of answers.
static void batch(char *first, char *end, size_t wanted) {
    if (fork() == 0) {
        send_all(first, end - first);
        _exit(0);
    }
    read_bytes(wanted);
}

// Runs a program with its standard input and output in files, and returns its CPU time in seconds.
// Fails if its answers do not have `wanted` bytes.
static double run_files(char **command, const char *from, const char *to, size_t wanted) {
    pid_t program = fork();
    if (program == 0) {
        int in = open(from, O_RDONLY), out = open(to, O_WRONLY | O_CREAT | O_TRUNC, 0644);
        if (in < 0 || out < 0) _exit(126);
        dup2(in, 0);
        dup2(out, 1);
        execvp(command[0], command);
        _exit(127);
    }
    struct rusage used;
    int status;
    if (wait4(program, &status, 0, &used) < 0) exit(1);
    struct stat file;
    answered = stat(to, &file) ? 0 : (size_t)file.st_size;
    if (answered != wanted) fail("ended");
    return used.ru_utime.tv_sec + used.ru_stime.tv_sec
        + (used.ru_utime.tv_usec + used.ru_stime.tv_usec) / 1e6;
}

// Prints the rate of answers from a file to a file. `first` is the length of the first line.
static void ask_files(char **command, const char *addresses, const char *text, size_t first) {
    char one[4096], to[4096];
    snprintf(one, sizeof one, "%s.first", addresses);
    snprintf(to, sizeof to, "%s.answers", addresses);
    FILE *file = fopen(one, "w");
    if (!file || fwrite(text, 1, first, file) != first || fclose(file)) exit(1);
    double loading = run_files(command, one, to, lengths[0]);
    double all = run_files(command, addresses, to, bytes_from(0));
    printf("%.0f answers a second of CPU time, %zu bytes\n",
        (length_count - 1) / (all - loading), answered);
    remove(one);
    remove(to);
}

int main(int argc, char **argv) {
    if (argc < 5) return 2;
    FILE *file = fopen(argv[2], "r");
    if (!file) return 1;
    static char text[1 << 26];
    char *end = text + fread(text, 1, sizeof text, file), *rest = strchr(text, '\n') + 1;
    read_lengths(argv[3]);
    if (length_count < 2) fail("no lengths of answers");
    if (!strcmp(argv[1], "file")) {
        ask_files(argv + 4, argv[2], text, rest - text);
        return 0;
    }
    size_t wanted = bytes_from(1);
    struct sigaction watch = {.sa_handler = check_progress, .sa_flags = SA_RESTART};
    sigaction(SIGALRM, &watch, NULL);
    alarm(60);
    double begin = now();
    pid_t program = start(argv + 4);
    send_all(text, rest - text);
    read_bytes(lengths[0]);
    double loaded = now();
    long calls = calls_of(program);
    int in_turn = !strcmp(argv[1], "pingpong");
    if (in_turn) ping_pong(rest);
    else batch(rest, end, wanted);
    double done = now();
    calls = in_turn ? calls_of(program) - calls : 0;
    long peak = peak_of(program);
    size_t asked = length_count - 1;
    printf("%.0f answers a second", asked / (done - loaded));
    if (calls) printf(", %.2f reads and writes an answer", (double)calls / asked);
    printf(", first answer after %.0f ms", 1000 * (loaded - begin));
    if (peak) printf(", peak %ld MiB", peak);
    printf(", %zu bytes\n", answered);
    kill(program, 9);
    return 0;
}
