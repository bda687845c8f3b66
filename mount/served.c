#include "served.h"

#include <errno.h>
#include <fcntl.h>
#include <signal.h>
#include <stdarg.h>
#include <stdio.h>
#include <stdlib.h>
#include <string.h>
#include <sys/uio.h>
#include <sys/wait.h>
#include <unistd.h>

// The line that the program begins with. Another version has another number.
#define GREETING "pumpgrape 1"

// More than any line of a request or an answer has.
enum { LINE_MAX_BYTES = 128 };

void (*served_lost)(void);

static struct {
    pid_t pid;
    // The program's standard input, output and error; -1 once it can't be asked.
    int to, from, errors;
    // What was read of its output and isn't taken yet.
    char read[65536];
    size_t at, end;
} served = {.to = -1, .from = -1, .errors = -1};

// What each cause is for a system call. All others are EIO.
static const struct {
    const char *cause;
    int error;
} CAUSES[] = {
    {"RootFixed", EBUSY},     {"NoParent", ENOENT},     {"NameTaken", EEXIST},  {"NotFound", ENOENT},
    {"IsDirectory", EISDIR},  {"FileLong", EFBIG},      {"NotEmpty", ENOTEMPTY}, {"InodesSpent", ENOSPC},
    {"VersionsSpent", EROFS}, {"Memory", ENOMEM},       {"NoSpace", ENOSPC},
};

static int can_ask(void) { return served.to >= 0; }

static void hang_up(void) {
    if (can_ask()) {
        close(served.to);
        close(served.from);
        served.to = served.from = -1;
    }
}

// The program has ended, or isn't understood: nothing can be asked any more.
static int give_up(void) {
    hang_up();
    if (served_lost != NULL)
        served_lost();
    return -EIO;
}

// Sends all the bytes of the parts, which it uses up.
static int send_all(struct iovec *parts, int count) {
    while (count > 0) {
        if (parts->iov_len == 0) {
            parts++, count--;
            continue;
        }
        ssize_t sent = writev(served.to, parts, count);
        if (sent < 0 && errno != EINTR)
            return give_up();
        for (size_t left = sent > 0 ? (size_t)sent : 0; left > 0;) {
            size_t step = left < parts->iov_len ? left : parts->iov_len;
            parts->iov_base = (char *)parts->iov_base + step;
            parts->iov_len -= step;
            left -= step;
            if (parts->iov_len == 0)
                parts++, count--;
        }
    }
    return 0;
}

// Waits for more of the output.
static int read_more(void) {
    ssize_t got;
    do
        got = read(served.from, served.read, sizeof served.read);
    while (got < 0 && errno == EINTR);
    if (got <= 0)
        return give_up();
    served.at = 0;
    served.end = (size_t)got;
    return 0;
}

int served_take(void *bytes, size_t count) {
    char *to = bytes;
    while (count > 0) {
        if (!can_ask() || (served.at == served.end && read_more() != 0))
            return -EIO;
        size_t step = served.end - served.at < count ? served.end - served.at : count;
        if (to != NULL) {
            memcpy(to, served.read + served.at, step);
            to += step;
        }
        served.at += step;
        count -= step;
    }
    return 0;
}

// Takes a line of the output, with a null byte in place of its line feed.
static int take_line(char line[LINE_MAX_BYTES]) {
    for (size_t at = 0; at < LINE_MAX_BYTES; at++) {
        if (served_take(line + at, 1) != 0)
            return -EIO;
        if (line[at] == '\n') {
            line[at] = '\0';
            return 0;
        }
    }
    return give_up();
}

// Reads the words after `ok`: numbers, of `stat` after a letter.
static int parse_ok(const char *words, struct answer *answer) {
    if (strncmp(words, " d ", 3) == 0 || strncmp(words, " f ", 3) == 0) {
        answer->letter = words[1];
        words += 2;
    }
    for (int at = 0; *words != '\0'; at++) {
        char *end;
        if (at == ANSWER_NUMBERS || words[0] != ' ' || words[1] < '0' || words[1] > '9')
            return give_up();
        answer->numbers[at] = strtoull(words + 1, &end, 10);
        if (answer->numbers[at] > UINT32_MAX)
            return give_up();
        words = end;
    }
    return 0;
}

// Reads the line of an answer.
static int parse_answer(const char *line, struct answer *answer) {
    memset(answer, 0, sizeof *answer);
    if (strncmp(line, "ok", 2) == 0)
        return parse_ok(line + 2, answer);
    if (strcmp(line, "malformed") == 0)
        return -EINVAL;
    if (strcmp(line, "memory") == 0)
        return -ENOMEM;
    if (strncmp(line, "refused ", 8) != 0)
        return give_up();
    for (size_t at = 0; at < sizeof CAUSES / sizeof CAUSES[0]; at++)
        if (strcmp(line + 8, CAUSES[at].cause) == 0)
            return -CAUSES[at].error;
    return -EIO;
}

int served_ask(struct answer *answer, struct counted first, struct counted second, const char *form, ...) {
    char line[LINE_MAX_BYTES];
    va_list words;
    va_start(words, form);
    int length = vsnprintf(line, sizeof line, form, words);
    va_end(words);
    struct iovec parts[] = {
        {line, (size_t)length}, {(void *)first.bytes, first.count}, {(void *)second.bytes, second.count}};
    if (!can_ask() || send_all(parts, 3) != 0 || take_line(line) != 0)
        return -EIO;
    return parse_answer(line, answer);
}

void served_said(char *text, size_t size) {
    size_t length = 0;
    ssize_t got = 1;
    while (length + 1 < size && got > 0) {
        got = read(served.errors, text + length, size - 1 - length);
        length += got > 0 ? (size_t)got : 0;
        if (got < 0 && errno == EINTR)
            got = 1;
    }
    while (length > 0 && text[length - 1] == '\n')
        length--;
    text[length] = '\0';
}

// Waits for the program's end; its status, or 1 where a signal ended it.
static int wait_for_end(void) {
    int status;
    while (waitpid(served.pid, &status, 0) < 0)
        if (errno != EINTR)
            return 1;
    return WIFEXITED(status) ? WEXITSTATUS(status) : 1;
}

// Tells why the program can't be used; answers the status to end with.
static int refuse(const char *program) {
    char text[4096];
    hang_up();
    int status = wait_for_end();
    served_said(text, sizeof text);
    if (text[0] != '\0')
        fprintf(stderr, "%s\n", text);
    else
        fprintf(stderr, "pumpgrape-mount: %s doesn't serve as wanted: it has to begin with '%s'\n", program, GREETING);
    return status != 0 ? status : 1;
}

// In the child: becomes the program. It has a session of its own, so that a Ctrl-C on the terminal ends the mount
// in order and doesn't end the program below it.
static void become(const char *program, const char *image, const char *sector_size, int pipes[3][2]) {
    char *words[] = {(char *)program, "serve", (char *)image, "--sector-size", (char *)sector_size, NULL};
    if (sector_size == NULL)
        words[3] = NULL;
    setsid();
    signal(SIGPIPE, SIG_DFL);
    if (dup2(pipes[0][0], 0) >= 0 && dup2(pipes[1][1], 1) >= 0 && dup2(pipes[2][1], 2) >= 0)
        execvp(program, words);
    dprintf(2, "pumpgrape-mount: %s: %s\n", program, strerror(errno));
    _exit(2);
}

int served_start(const char *program, const char *image, const char *sector_size, struct answer *limits) {
    int pipes[3][2];
    for (int at = 0; at < 3; at++)
        if (pipe2(pipes[at], O_CLOEXEC) != 0)
            return perror("pumpgrape-mount: pipe"), 1;
    signal(SIGPIPE, SIG_IGN);
    served.pid = fork();
    if (served.pid < 0)
        return perror("pumpgrape-mount: fork"), 1;
    if (served.pid == 0)
        become(program, image, sector_size, pipes);
    close(pipes[0][0]);
    close(pipes[1][1]);
    close(pipes[2][1]);
    served.to = pipes[0][1];
    served.from = pipes[1][0];
    served.errors = pipes[2][0];
    // What is said there is read only once the program has ended, or where it has come already.
    fcntl(served.errors, F_SETFL, O_NONBLOCK);
    char line[LINE_MAX_BYTES];
    struct counted none = {NULL, 0};
    if (take_line(line) != 0 || strcmp(line, GREETING) != 0 || served_ask(limits, none, none, "limits\n") != 0)
        return refuse(program);
    return limits->numbers[0] > 0 ? 0 : refuse(program);
}

int served_end(void) {
    struct answer answer;
    struct counted none = {NULL, 0};
    int error = served_ask(&answer, none, none, "unmount\n");
    hang_up();
    return wait_for_end() == 0 && error == 0 ? 0 : 1;
}
