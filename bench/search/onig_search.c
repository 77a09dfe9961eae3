/* Searches lines by patterns with Oniguruma: the commands and answers of the program search_bench, with the processor's
   time of this thread in nanoseconds behind each count. Text is UTF-8, places are told in characters. */
#include <oniguruma.h>
#include <stdint.h>
#include <stdio.h>
#include <stdlib.h>
#include <string.h>
#include <time.h>

typedef struct {
    unsigned char *bytes;
    size_t length;
    uint32_t *chars; /* which character each byte belongs to */
} Text;

static Text *patterns, *lines;
static size_t pattern_count, line_count, pattern_room, line_room;
static OnigRegex *compiled;
static uint32_t *numbers;
static uint64_t searches, matches, spent, sum;

static uint64_t now(void)
{
    struct timespec t;
    clock_gettime(CLOCK_THREAD_CPUTIME_ID, &t);
    return (uint64_t)t.tv_sec * 1000000000u + (uint64_t)t.tv_nsec;
}

static Text plain(const char *field)
{
    size_t n = strlen(field);
    Text text = {malloc(n + 1), 0, NULL};
    for (size_t i = 0; i < n; i++) {
        char c = field[i];
        if (c == '\\') {
            c = field[++i];
            c = c == 't' ? '\t' : c == 'n' ? '\n' : c == 'r' ? '\r' : c;
        }
        text.bytes[text.length++] = (unsigned char)c;
    }
    text.chars = malloc((text.length + 1) * sizeof *text.chars);
    uint32_t k = 0;
    for (size_t i = 0; i < text.length; i++) {
        if (i && (text.bytes[i] & 0xc0) != 0x80)
            k++;
        text.chars[i] = k;
    }
    text.chars[text.length] = text.length ? k + 1 : 0;
    return text;
}

static uint64_t mixed(uint64_t hash, uint64_t next)
{
    hash ^= next + 0x9e3779b97f4a7c15u + (hash << 6) + (hash >> 2);
    hash *= 0xff51afd7ed558ccdu;
    return hash ^ hash >> 33;
}

static void note(OnigRegion *groups, size_t row, uint32_t number, int show)
{
    uint32_t *chars = lines[row].chars;
    uint64_t hash = mixed(mixed(0x1234567, row), number);
    for (int g = 0; g < groups->num_regs; g++) {
        hash = mixed(hash, groups->beg[g] < 0 ? ~0u : chars[groups->beg[g]]);
        hash = mixed(hash, groups->end[g] < 0 ? ~0u : chars[groups->end[g]]);
    }
    matches++;
    sum += hash;
    if (!show)
        return;
    printf("%zu %u", row, number);
    for (int g = 0; g < groups->num_regs; g++)
        if (groups->beg[g] < 0)
            printf(" -1 -1");
        else
            printf(" %u %u", chars[groups->beg[g]], chars[groups->end[g]]);
    printf("\n");
}

/* where the search goes on behind a match */
static const OnigUChar *behind(OnigRegion *groups, const OnigUChar *start, const OnigUChar *at, const OnigUChar *end)
{
    const OnigUChar *to = start + groups->end[0];
    if (groups->end[0] > groups->beg[0] && to > at)
        return to;
    if (to > at)
        at = to;
    return at < end ? at + ONIGENC_MBC_ENC_LEN(ONIG_ENCODING_UTF8, at) : end + 1;
}

static void each(void)
{
    OnigRegion *groups = onig_region_new();
    for (size_t i = 0; i < pattern_count; i++)
        for (size_t row = 0; row < line_count; row++) {
            const OnigUChar *start = lines[row].bytes, *end = start + lines[row].length, *at = start;
            while (at <= end) {
                searches++;
                int found = onig_search(compiled[i], start, end, at, end, groups, ONIG_OPTION_NONE);
                if (found < 0) {
                    spent += found != ONIG_MISMATCH;
                    break;
                }
                note(groups, row, numbers[i], 0);
                at = behind(groups, start, at, end);
            }
        }
    onig_region_free(groups, 1);
}

/* As vscode-oniguruma does: each pattern is searched for, and the earliest match counts. */
static void all(int show)
{
    OnigRegion *groups = onig_region_new(), *best = onig_region_new(), *other;
    for (size_t row = 0; row < line_count; row++) {
        const OnigUChar *start = lines[row].bytes, *end = start + lines[row].length, *at = start;
        while (at <= end) {
            int which = -1, where = 0;
            searches++;
            for (size_t i = 0; i < pattern_count; i++) {
                int found = onig_search(compiled[i], start, end, at, end, groups, ONIG_OPTION_NONE);
                if (found < 0) {
                    spent += found != ONIG_MISMATCH;
                    continue;
                }
                if (which < 0 || found < where) {
                    which = (int)i;
                    where = found;
                    other = groups;
                    groups = best;
                    best = other;
                    if (start + found == at)
                        break;
                }
            }
            if (which < 0)
                break;
            note(best, row, numbers[which], show);
            at = behind(best, start, at, end);
        }
    }
    onig_region_free(groups, 1);
    onig_region_free(best, 1);
}

static int compile(OnigRegex *into, Text text)
{
    OnigErrorInfo error;
    return onig_new(into, text.bytes, text.bytes + text.length, ONIG_OPTION_CAPTURE_GROUP, ONIG_ENCODING_UTF8,
                    ONIG_SYNTAX_ONIGURUMA, &error);
}

static void add_pattern(char *line)
{
    char *field = strchr(line, '\t');
    if (!field)
        return;
    *field++ = 0;
    if (pattern_count == pattern_room) {
        pattern_room = pattern_room ? 2 * pattern_room : 64;
        patterns = realloc(patterns, pattern_room * sizeof *patterns);
        compiled = realloc(compiled, pattern_room * sizeof *compiled);
        numbers = realloc(numbers, pattern_room * sizeof *numbers);
    }
    Text text = plain(field);
    if (compile(&compiled[pattern_count], text)) {
        printf("refused %s\n", line);
        return;
    }
    numbers[pattern_count] = (uint32_t)atol(line);
    patterns[pattern_count++] = text;
}

static void add_line(char *field)
{
    if (line_count == line_room) {
        line_room = line_room ? 2 * line_room : 1024;
        lines = realloc(lines, line_room * sizeof *lines);
    }
    lines[line_count++] = plain(field);
}

static uint64_t read_again(long times)
{
    uint64_t read = 0;
    for (long k = 0; k < times; k++)
        for (size_t i = 0; i < pattern_count; i++) {
            OnigRegex one;
            if (!compile(&one, patterns[i])) {
                read++;
                onig_free(one);
            }
        }
    return read;
}

int main(void)
{
    OnigEncoding use[1] = {ONIG_ENCODING_UTF8};
    onig_initialize(use, 1);
    onig_set_warn_func(onig_null_warn);
    onig_set_verb_warn_func(onig_null_warn);
    char *line = NULL;
    size_t room = 0;
    ssize_t n;
    while ((n = getline(&line, &room, stdin)) > 0) {
        if (line[n - 1] == '\n')
            line[--n] = 0;
        searches = matches = spent = sum = 0;
        uint64_t start = now();
        switch (line[0]) {
        case 'c':
            for (size_t i = 0; i < pattern_count; i++)
                onig_free(compiled[i]);
            pattern_count = line_count = 0;
            break;
        case 'p':
            add_pattern(line + 2);
            break;
        case 't':
            add_line(line + 2);
            break;
        case 'D':
            all(1);
            printf("end\n");
            break;
        case 'R': {
            uint64_t read = read_again(atol(line + 2));
            printf("read patterns=%llu ns=%llu\n", (unsigned long long)read, (unsigned long long)(now() - start));
            break;
        }
        case 'E':
        case 'A':
            if (line[0] == 'E')
                each();
            else
                all(0);
            printf("%s searches=%llu matches=%llu spent=%llu sum=%016llx ns=%llu\n", line[0] == 'E' ? "each" : "all",
                   (unsigned long long)searches, (unsigned long long)matches, (unsigned long long)spent,
                   (unsigned long long)sum, (unsigned long long)(now() - start));
        }
        fflush(stdout);
    }
    return 0;
}
