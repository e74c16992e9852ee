// Goes below a program by LD_PRELOAD and refuses it memory: bin/refused says what for.
//
// The program is run once for each row of the file REFUSED_ROWS that doesn't begin with a tab, and of these for every
// REFUSED_LANES-th, from the one behind the first REFUSED_LANE on. A row is its line on standard input, or, where the program
// was called with words, as many words as it was called with, cut at the row's tabs, with its escapes `\\`, `\n`, `\r`, `\t`
// undone; then a row that has another number of them is passed over.
// At each growth of memory (malloc, calloc, realloc) the run forks: the child is refused this growth and no other, and goes
// on to its end; then the run goes on with the growth granted. Each end is a line on the descriptor 3: the row's number, the
// growth's (0: none was refused), the status or the signal, and what stands on standard output and on standard error.
#define _GNU_SOURCE
#include <errno.h>
#include <fcntl.h>
#include <stdio.h>
#include <stdlib.h>
#include <string.h>
#include <sys/mman.h>
#include <sys/resource.h>
#include <sys/wait.h>
#include <unistd.h>

extern void *__libc_malloc(size_t), *__libc_calloc(size_t, size_t), *__libc_realloc(void *, size_t);

enum { LONGEST = 1 << 16, SECONDS = 20 };

static long row, growth;
static int is_armed;
static char line[5 * LONGEST], said[LONGEST];

static void give_up(const char *what) {
    dprintf(3, "stopped: %s: %s\n", what, strerror(errno));
    _exit(99);
}

// Puts what a stream got at the end of the record, on one line.
static size_t put(size_t length, int stream) {
    ssize_t got = pread(stream, said, sizeof said, 0);
    line[length++] = '\t';
    for (ssize_t i = 0; i < got; i++) {
        char c = said[i];
        const char *escape = c == '\\' ? "\\\\" : c == '\n' ? "\\n" : c == '\r' ? "\\r" : c == '\t' ? "\\t" : NULL;
        if (escape) line[length++] = escape[0];
        line[length++] = escape ? escape[1] : c;
    }
    return length;
}

// Writes the record of a run.
static void record(long refused, int status) {
    size_t length = (size_t)snprintf(line, sizeof line, "%ld\t%ld\t%s%d", row, refused, WIFEXITED(status) ? "" : "signal ",
                                     WIFEXITED(status) ? WEXITSTATUS(status) : WTERMSIG(status));
    length = put(length, 1);
    length = put(length, 2);
    line[length++] = '\n';
    for (size_t from = 0; from < length;) {
        ssize_t wrote = write(3, line + from, length - from);
        if (wrote <= 0) _exit(99);
        from += (size_t)wrote;
    }
}

// Tries this growth refused, in a child, and answers whether this process is that child.
static int is_refused(void) {
    if (!is_armed) return 0;
    off_t places[3];
    for (int i = 0; i < 3; i++) places[i] = lseek(i, 0, SEEK_CUR);
    growth++;
    pid_t child = fork();
    if (child == 0) {
        is_armed = 0;
        errno = ENOMEM;
        return 1;
    }
    int status;
    if (child < 0 || waitpid(child, &status, 0) != child) give_up("fork");
    record(growth, status);
    for (int i = 0; i < 3; i++) {
        if (i > 0 && ftruncate(i, places[i])) give_up("ftruncate");
        lseek(i, places[i], SEEK_SET);
    }
    return 0;
}

void *malloc(size_t size) { return is_refused() ? NULL : __libc_malloc(size); }
void *calloc(size_t count, size_t size) { return is_refused() ? NULL : __libc_calloc(count, size); }
void *realloc(void *old, size_t size) { return is_refused() ? NULL : __libc_realloc(old, size); }

static char *unescaped(char *text) {
    char *to = text;
    for (char *from = text; *from; from++) {
        if (*from == '\\' && from[1]) {
            from++;
            *to++ = *from == 'n' ? '\n' : *from == 'r' ? '\r' : *from == 't' ? '\t' : *from;
        } else {
            *to++ = *from;
        }
    }
    *to = '\0';
    return text;
}

// Makes a row the program's words; answers whether it has as many as the program was called with.
static int are_words(char *text, int count, char **words) {
    int found = 0;
    for (char *word; (word = strsep(&text, "\t"));) {
        if (++found < count) words[found] = unescaped(word);
    }
    return found + 1 == count;
}

__attribute__((constructor)) static void run_rows(int count, char **words) {
    const char *name = getenv("REFUSED_ROWS");
    if (!name) return;
    long lane = atol(getenv("REFUSED_LANE")), lanes = atol(getenv("REFUSED_LANES")), counted = 0;
    int file = open(name, O_RDONLY | O_CLOEXEC);
    off_t size = lseek(file, 0, SEEK_END);
    char *rows = mmap(NULL, (size_t)size + 1, PROT_READ | PROT_WRITE, MAP_PRIVATE, file, 0);
    if (file < 0 || size <= 0 || rows == MAP_FAILED) give_up(name);
    setrlimit(RLIMIT_CPU, &(struct rlimit){SECONDS, SECONDS});
    for (int i = 0; i < 3; i++) {
        if (dup2(memfd_create("stream", 0), i) != i) give_up("memfd_create");
    }
    for (char *text = rows, *next; text < rows + size; text = next) {
        char *end = memchr(text, '\n', (size_t)(rows + size - text));
        if (!end) give_up("a row without an end");
        next = end + 1;
        row++;
        if (*text == '\t' || counted++ % lanes != lane) continue;
        for (int i = 0; i < 3; i++) {
            if (ftruncate(i, 0)) give_up("ftruncate");
            lseek(i, 0, SEEK_SET);
        }
        if (count == 1) {
            if (pwrite(0, text, (size_t)(next - text), 0) != next - text) give_up("pwrite");
        } else {
            *end = '\0';
            if (!are_words(text, count, words)) continue;
        }
        pid_t child = fork();
        if (child == 0) {
            is_armed = 1;
            return;
        }
        int status;
        if (child < 0 || waitpid(child, &status, 0) != child) give_up("fork");
        record(0, status);
    }
    _exit(0);
}
