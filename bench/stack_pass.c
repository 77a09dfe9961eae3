/* The yardstick of pair_brackets: one plain pass with a stack over a file of ASCII text. It keeps a row for each
   bracket, as the program does, and prints those of the last line as the program would. */
#include <stdio.h>
#include <stdlib.h>

enum { LIMIT = 200, KINDS = 3 };

struct row {
    int line, col, level, own, colour;
};

struct entry {
    int row, kind;
};

static int kind_of(const char *texts, int c) {
    for (int kind = 0; kind < KINDS; kind++)
        if (texts[kind] == c) return kind;
    return -1;
}

static int count_of_kind(const struct entry *entries, int depth, int kind) {
    int count = 0;
    for (int at = 0; at < depth; at++) count += entries[at].kind == kind;
    return count;
}

int main(int count, char **words) {
    FILE *file = count == 2 ? fopen(words[1], "rb") : NULL;
    if (!file) return 1;
    fseek(file, 0, SEEK_END);
    long size = ftell(file);
    rewind(file);
    char *text = malloc(size + 1);
    struct row *rows = malloc((size + 1) * sizeof *rows);
    if (!text || !rows || fread(text, 1, size, file) != (size_t)size) return 1;

    struct entry open[LIMIT];
    int depth = 0, line = 0, col = 0, made = 0;
    for (long at = 0; at < size; at++, col++) {
        int opener = kind_of("{[(", text[at]), closer = kind_of("}])", text[at]);
        if (text[at] == '\n') {
            line++;
            col = -1;
        } else if (opener >= 0 && depth < LIMIT) {
            rows[made] = (struct row){line, col, depth, count_of_kind(open, depth, opener), 6};
            open[depth++] = (struct entry){made++, opener};
        } else if (closer >= 0) {
            int last = depth - 1;
            while (last >= 0 && open[last].kind != closer) last--;
            if (last < 0) {
                rows[made++] = (struct row){line, col, depth, 0, 6};
            } else {
                struct row *partner = &rows[open[last].row];
                partner->colour = last % 6;
                rows[made++] = (struct row){line, col, last, partner->own, last % 6};
                depth = last;
            }
        }
    }

    const char *between = "";
    printf("{\"brackets\":[");
    for (int at = 0; at < made; at++) {
        struct row r = rows[at];
        if (r.line != line) continue;
        printf("%s[%d,%d,%d,%d,%d,%d]", between, r.line, r.col, r.col + 1, r.level, r.own, r.colour);
        between = ",";
    }
    printf("]}\n");
    return 0;
}
