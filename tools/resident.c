// Runs the program of its second word with the words after it, and writes to the file of the first how many KiB of memory the
// program had resident at most. bench/speed compiles it: what Python starts itself is counted with Python's own memory.
#define _DEFAULT_SOURCE
#include <stdio.h>
#include <sys/resource.h>
#include <sys/wait.h>
#include <unistd.h>

int main(int count, char **words) {
    if (count < 3)
        return 2;
    pid_t child = fork();
    if (child == 0) {
        execv(words[2], words + 2);
        _exit(127);
    }
    int status;
    struct rusage used;
    if (child < 0 || wait4(child, &status, 0, &used) != child)
        return 1;
    FILE *told = fopen(words[1], "w");
    if (!told || fprintf(told, "%ld\n", used.ru_maxrss) < 0 || fclose(told) != 0)
        return 1;
    return WIFEXITED(status) ? WEXITSTATUS(status) : 1;
}
