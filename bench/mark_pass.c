/* The yardstick of trees: one plain pass with a stack over the marks of a file of ASCII text, which are found before the
   clock runs. It keeps level and partner of each mark, and prints how many nanoseconds of the processor the pass took,
   the best of five. */
#include <stdio.h>
#include <stdlib.h>
#include <time.h>

enum { LIMIT = 200, KINDS = 3 };

struct mark {
    int line, col, kind, opens;
};

struct row {
    int level, partner;
};

struct entry {
    int row, kind;
};

static int kind_of(const char *texts, int c) {
    for (int kind = 0; kind < KINDS; kind++)
        if (texts[kind] == c) return kind;
    return -1;
}

static long nanoseconds(void) {
    struct timespec now;
    clock_gettime(CLOCK_PROCESS_CPUTIME_ID, &now);
    return now.tv_sec * 1000000000L + now.tv_nsec;
}

static int pass(const struct mark *marks, int count, struct row *rows) {
    struct entry open[LIMIT];
    int depth = 0, made = 0;
    for (int at = 0; at < count; at++) {
        if (marks[at].opens && depth < LIMIT) {
            rows[made] = (struct row){depth, -1};
            open[depth++] = (struct entry){made++, marks[at].kind};
        } else if (!marks[at].opens) {
            int last = depth - 1;
            while (last >= 0 && open[last].kind != marks[at].kind) last--;
            rows[made] = (struct row){last < 0 ? depth : last, last < 0 ? -1 : open[last].row};
            if (last >= 0) {
                rows[open[last].row].partner = made;
                depth = last;
            }
            made++;
        }
    }
    return made;
}

int main(int count, char **words) {
    FILE *file = count == 2 ? fopen(words[1], "rb") : NULL;
    if (!file) return 1;
    fseek(file, 0, SEEK_END);
    long size = ftell(file);
    rewind(file);
    char *text = malloc(size + 1);
    struct mark *marks = malloc((size + 1) * sizeof *marks);
    struct row *rows = malloc((size + 1) * sizeof *rows);
    if (!text || !marks || !rows || fread(text, 1, size, file) != (size_t)size) return 1;
    int line = 0, col = 0, found = 0;
    for (long at = 0; at < size; at++, col++) {
        int opener = kind_of("{[(", text[at]), closer = kind_of("}])", text[at]);
        if (text[at] == '\n') {
            line++;
            col = -1;
        } else if (opener >= 0 || closer >= 0) {
            marks[found++] = (struct mark){line, col, opener >= 0 ? opener : closer, opener >= 0};
        }
    }
    long best = -1, levels = 0;
    int made = 0;
    for (int turn = 0; turn < 5; turn++) {
        long start = nanoseconds();
        made = pass(marks, found, rows);
        long took = nanoseconds() - start;
        if (best < 0 || took < best) best = took;
    }
    for (int at = 0; at < made; at++) levels += rows[at].level;
    printf("marks %d\nrows %d\nlevels %ld\npass %ld\n", found, made, levels, best);
    return 0;
}
