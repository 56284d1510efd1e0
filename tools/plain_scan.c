// Answers addresses by looking through all rows and scopes of an object, in file order.
//
// plain_scan ROWS SCOPES FILES ASKED reads what `measure rows`, `scope-table` and `files`
// print, and of what `measure frames` prints the addresses. It prints the frames of each of
// them in the same form.
#define _GNU_SOURCE
#include <stdint.h>
#include <stdio.h>
#include <stdlib.h>
#include <string.h>

struct row {
    uint64_t address;
    int end;
    char *place; // PATH:LINE
};

struct range {
    uint64_t from, to;
};

struct scope {
    int inlined;
    const char *name, *call_line;
    size_t first_range, past_range, end;
    const char *file; // the call file's path, or ??
};

static struct row *rows;
static struct scope *scopes;
static struct range *ranges;
static char **files; // as STMT_LIST TAB NUMBER TAB PATH, sorted
static size_t row_count, scope_count, range_count, file_count;

// The lines of a file, each ended by a NUL.
static char **lines_of(const char *path, size_t *count) {
    FILE *file = fopen(path, "r");
    char **lines = NULL, *line = NULL;
    size_t capacity = 0, size = 0;
    ssize_t length;
    *count = 0;
    if (!file) { perror(path); exit(1); }
    while ((length = getline(&line, &size, file)) > 0) {
        if (*count == capacity) {
            capacity = capacity ? 2 * capacity : 1024;
            lines = realloc(lines, capacity * sizeof *lines);
        }
        line[length - 1] = 0;
        lines[(*count)++] = line;
        line = NULL;
        size = 0;
    }
    fclose(file);
    return lines;
}

static void read_rows(const char *path) {
    char **lines = lines_of(path, &row_count);
    rows = calloc(row_count + 1, sizeof *rows);
    for (size_t i = 0; i < row_count; i++) {
        char *rest;
        rows[i].address = strtoull(lines[i], &rest, 16);
        rows[i].place = rest + 1;
        rows[i].end = !strcmp(rest + 1, "end");
    }
}

static int compare_texts(const void *a, const void *b) {
    return strcmp(*(char *const *)a, *(char *const *)b);
}

// Reads the files. Puts a NUL between the two numbers of each and its path.
static void read_files(const char *path) {
    files = lines_of(path, &file_count);
    for (size_t i = 0; i < file_count; i++) strchr(strchr(files[i], '\t') + 1, '\t')[0] = 0;
    qsort(files, file_count, sizeof *files, compare_texts);
}

static const char *file_at(const char *stmt_list, const char *number) {
    char wanted[64], *key = wanted;
    if (!strcmp(number, "-") || !strcmp(stmt_list, "-")) return "??";
    snprintf(wanted, sizeof wanted, "%s\t%s", stmt_list, number);
    char **found = bsearch(&key, files, file_count, sizeof *files, compare_texts);
    return found ? *found + strlen(*found) + 1 : "??";
}

static void read_ranges(struct scope *scope, char *text) {
    static size_t capacity;
    scope->first_range = range_count;
    for (char *at = text; *text != '-' && *at;) {
        if (range_count == capacity) {
            capacity = capacity ? 2 * capacity : 1024;
            ranges = realloc(ranges, capacity * sizeof *ranges);
        }
        ranges[range_count].from = strtoull(at, &at, 16);
        ranges[range_count].to = strtoull(at + 1, &at, 16);
        range_count++;
        if (*at == ',') at++;
    }
    scope->past_range = range_count;
}

// Exits if a scope's number is not its index, or if its root is after it or before the root of the
// previous scope.
static void check_scope(size_t position, uint64_t offset, uint64_t number, uint64_t root) {
    static uint64_t last_root;
    if (number == position && last_root <= root && root <= offset) {
        last_root = root;
        return;
    }
    fprintf(stderr, "scope %zu at %lx: number %lu, root %lx\n", position, (unsigned long)offset,
            (unsigned long)number, (unsigned long)root);
    exit(1);
}

// OFFSET KIND NAME LINKAGE_NAME RANGES CALL_FILE CALL_LINE END STMT_LIST NUMBER ROOT
static void read_scopes(const char *path) {
    char **lines = lines_of(path, &scope_count);
    scopes = calloc(scope_count + 1, sizeof *scopes);
    for (size_t i = 0; i < scope_count; i++) {
        char *fields[11], *rest = lines[i];
        for (int n = 0; n < 11; n++) fields[n] = strsep(&rest, "\t");
        check_scope(i, strtoull(fields[0], NULL, 16), strtoull(fields[9], NULL, 10),
                    strtoull(fields[10], NULL, 16));
        scopes[i].inlined = !strcmp(fields[1], "inlined");
        scopes[i].name = strcmp(fields[2], "-") ? fields[2] : "??";
        scopes[i].call_line = strcmp(fields[6], "-") ? fields[6] : "0";
        scopes[i].end = strtoull(fields[7], NULL, 10);
        scopes[i].file = file_at(fields[8], fields[5]);
        read_ranges(&scopes[i], fields[4]);
    }
}

static int holds(const struct scope *scope, uint64_t address) {
    for (size_t i = scope->first_range; i < scope->past_range; i++)
        if (ranges[i].from <= address && address < ranges[i].to) return 1;
    return 0;
}

// The first row in file order that covers an address, as PATH:LINE.
static const char *row_of(uint64_t address) {
    for (size_t i = 0; i + 1 < row_count; i++)
        if (!rows[i].end && rows[i].address <= address && address < rows[i + 1].address)
            return rows[i].place;
    return NULL;
}

// The numbers of the scopes around an address: the first subprogram that holds it, then again and
// again the first inlined subroutine below the last one that does.
static size_t chain_of(uint64_t address, size_t *chain) {
    size_t length = 0, i = 0;
    while (i < scope_count && (scopes[i].inlined || !holds(&scopes[i], address))) i++;
    if (i == scope_count) return 0;
    for (chain[length++] = i++; i < scopes[chain[length - 1]].end; i++)
        if (scopes[i].inlined && holds(&scopes[i], address)) chain[length++] = i;
    return length;
}

static void answer(uint64_t address) {
    size_t chain[256], length = chain_of(address, chain);
    const char *row = row_of(address);
    printf("%lx\n", (unsigned long)address);
    if (!length) {
        if (row) printf("\t??\t%s\n", row);
        return;
    }
    printf("\t%s\t%s\n", scopes[chain[length - 1]].name, row ? row : "??:0");
    for (size_t i = length - 1; i > 0; i--) {
        const struct scope *called = &scopes[chain[i]], *caller = &scopes[chain[i - 1]];
        printf("\t%s\t%s:%s\n", caller->name, called->file, called->call_line);
    }
}

int main(int argc, char **argv) {
    size_t count;
    if (argc != 5) return 2;
    read_rows(argv[1]);
    read_files(argv[3]);
    read_scopes(argv[2]);
    char **asked = lines_of(argv[4], &count);
    for (size_t i = 0; i < count; i++)
        if (asked[i][0] != '\t') answer(strtoull(asked[i], NULL, 16));
    return 0;
}
