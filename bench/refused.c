/* Runs a program once for each number of REFUSED, each time with the allocation of that number refused; 0 refuses none, and
 * 1-9 is nine numbers. Those between the two marks of crates/template_tests/src/growths.rt, and the marks, have no number.
 *
 * Preloaded, it is there before the program begins, and forks for each run: so many at once as JOBS has. On the descriptor
 * that TOLD has, it tells a line of each: the number, how the run ended, how many allocations it asked for, and how many marks
 * it set, which a run that was ended does not say (0 0). A run ends `well`, for want of memory where it says one of the lines
 * of SAID, or with the status that waitpid has of it. */
#define _GNU_SOURCE
#include <dlfcn.h>
#include <stdio.h>
#include <stdlib.h>
#include <string.h>
#include <sys/mman.h>
#include <sys/wait.h>
#include <unistd.h>

enum { WIDEST = 1 << 16 };

/* The sizes that are marks: what is asked for behind the one is spared, behind the other it is not. */
enum { SPARED = 7368787, REFUSED = 7368791 };

struct counts {
    long asked, marks;
};

static struct counts so_far;
static long refused;
static int is_spared;
static struct counts *told;
static void *(*next_malloc)(size_t);
static void *(*next_realloc)(void *, size_t);

static int is_refused(size_t size) {
    if (!next_malloc) {
        next_malloc = dlsym(RTLD_NEXT, "malloc");
        next_realloc = dlsym(RTLD_NEXT, "realloc");
    }
    if (size == SPARED || size == REFUSED) {
        is_spared = size == SPARED;
        so_far.marks++;
        return 0;
    }
    return !is_spared && ++so_far.asked == refused;
}

void *malloc(size_t size) { return is_refused(size) ? NULL : next_malloc(size); }

void *realloc(void *block, size_t size) { return is_refused(size) ? NULL : next_realloc(block, size); }

__attribute__((destructor)) static void tell(void) {
    if (told) {
        *told = so_far;
    }
}

/* Whether a text has one of the lines of another. */
static int has_line_of(const char *text, size_t length, const char *lines) {
    for (const char *end; *lines; lines = *end ? end + 1 : end) {
        end = strchrnul(lines, '\n');
        if (end != lines && memmem(text, length, lines, (size_t)(end - lines))) {
            return 1;
        }
    }
    return 0;
}

/* One run, in a process of its own; answers there, to go on as the program, and here once the run has ended. */
static int is_the_run(long number, const char *said, int answers) {
    static char text[WIDEST];
    size_t length = 0;
    int ends[2], status;
    if (pipe(ends)) {
        _exit(2);
    }
    *told = (struct counts){0, 0};
    pid_t run = fork();
    if (run < 0) {
        _exit(2);
    }
    if (!run) {
        dup2(ends[1], 1);
        dup2(ends[1], 2);
        close(ends[0]);
        close(ends[1]);
        so_far = (struct counts){0, 0};
        refused = number;
        return 1;
    }
    close(ends[1]);
    for (ssize_t count; (count = read(ends[0], text + length, WIDEST - length)) > 0;) {
        length += (size_t)count;
        if (length == WIDEST) { /* the end of what it says tells how it ended */
            length /= 2;
            memcpy(text, text + length, length);
        }
    }
    close(ends[0]);
    if (waitpid(run, &status, 0) != run) {
        _exit(2);
    }
    if (!status) {
        dprintf(answers, "%ld well %ld %ld\n", number, told->asked, told->marks);
    } else if (has_line_of(text, length, said)) {
        dprintf(answers, "%ld want %ld %ld\n", number, told->asked, told->marks);
    } else {
        dprintf(answers, "%ld %d %ld %ld\n", number, status, told->asked, told->marks);
    }
    return 0;
}

__attribute__((constructor)) static void begin(void) {
    const char *numbers = getenv("REFUSED"), *said = getenv("SAID"), *jobs = getenv("JOBS"), *answers = getenv("TOLD");
    if (!numbers || !said || !jobs || !answers) {
        return;
    }
    for (int job = 0, all = atoi(jobs); job < all; job++) {
        pid_t worker = fork();
        if (worker < 0) {
            _exit(2);
        }
        if (worker) {
            continue;
        }
        told = mmap(NULL, sizeof *told, PROT_READ | PROT_WRITE, MAP_SHARED | MAP_ANONYMOUS, -1, 0);
        if (told == MAP_FAILED) {
            _exit(2);
        }
        char *end;
        long at = 0;
        for (long number = strtol(numbers, &end, 10); end != numbers; number = strtol(numbers = end, &end, 10)) {
            long last = *end == '-' ? strtol(end + 1, &end, 10) : number;
            for (; number <= last; number++, at++) {
                if (at % all == job && is_the_run(number, said, atoi(answers))) {
                    return;
                }
            }
        }
        _exit(0);
    }
    int ended, status;
    for (status = 0; wait(&ended) > 0;) {
        status |= ended;
    }
    _exit(status != 0);
}
