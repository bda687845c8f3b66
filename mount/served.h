// A client of `jffs_volume serve`: starts it over a volume in a file, and asks one request after another
// through its pipes. docs/TOOLS.md, "Served", has the requests.
#ifndef PUMPGRAPE_SERVED_H
#define PUMPGRAPE_SERVED_H

#include <stddef.h>
#include <stdint.h>

enum { ANSWER_NUMBERS = 5 };

// What stands after `ok`: of `stat` the letter, and the numbers; those that aren't there are 0.
struct answer {
    char letter;
    uint64_t numbers[ANSWER_NUMBERS];
};

// Bytes that a request's line counts.
struct counted {
    const void *bytes;
    size_t count;
};

// Is called once the program can't be asked any more, though no unmount was asked for; NULL where nobody asks.
extern void (*served_lost)(void);

// Starts PROGRAM over the volume in IMAGE, whose sector size may be NULL, and asks for the limits. Answers 0; or
// the status to end with, once it has told on standard error why it can't be.
int served_start(const char *program, const char *image, const char *sector_size, struct answer *limits);

// Sends a line, as printf makes it, with the bytes that it counts, and takes the line of the answer. Answers 0, or
// an errno below 0: -EINVAL where the request was malformed, and -EIO always once the program can't be asked.
__attribute__((format(printf, 4, 5)))
int served_ask(struct answer *answer, struct counted first, struct counted second, const char *form, ...);

// Takes so many bytes of an answer, after its line; with NULL they are dropped. Answers 0 or -EIO.
int served_take(void *bytes, size_t count);

// Reads what the program has written on its standard error, as far as it is there, up to size - 1 bytes; its end
// is a null byte, and no line feed stands before that.
void served_said(char *text, size_t size);

// Asks for the unmount, and waits for the end of the program. Answers 0 where the log is clean and its status is 0.
int served_end(void);

#endif
