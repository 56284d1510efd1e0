// The text of replies: names, paths and lines.
#ifndef REPLY_TEXT_HPP
#define REPLY_TEXT_HPP
#include "index.hpp"
#include <cstdio>
#include <cstdlib>
#include <cstring>
#include <unistd.h>

static const struct section *object_sections;

static void use_sections(const struct section *sections) { object_sections = sections; }

static const char *text_at(uint32_t place, uint8_t section) {
    return section ? (const char *)object_sections[section].start + place : "";
}

// A reply, which is written at once. A reply of this project's objects fits.
class Reply {
    static const size_t capacity = 1 << 16;
    char bytes[capacity], *end = bytes;

    static bool is_control(unsigned char byte) { return byte < 32 || byte == 127; }

    // Returns whether eight bytes have a control character.
    static bool has_control(const char *text) {
        const uint64_t ones = ~0ull / 255, tops = 128 * ones;
        uint64_t word;
        memcpy(&word, text, sizeof word);
        uint64_t deleted = word ^ 127 * ones;
        return (((word - 32 * ones) & ~word) | ((deleted - ones) & ~deleted)) & tops;
    }

    // The same for any number of bytes. The last eight overlap those before them.
    static bool has_control(const char *text, const char *last) {
        bool found = false;
        if (last - text < 8) {
            for (; text < last; text++) found |= is_control(*text);
            return found;
        }
        for (const char *at = text; last - at >= 8; at += 8) found |= has_control(at);
        return found | has_control(last - 8);
    }

public:
    // Appends a string as it is.
    void put(const char *text) { put_bytes(text, strlen(text)); }

    void put_bytes(const char *text, size_t length) {
        if (length > size_t(bytes + capacity - end)) abort();
        memcpy(end, text, length);
        end += length;
    }

    // Appends a string with `?` for each control character.
    void put_printable(const char *text) {
        char *start = end;
        put(text);
        if (!has_control(start, end)) return;
        for (char *at = start; at < end; at++)
            if (is_control(*at)) *at = '?';
    }

    void put_number(uint64_t number) {
        char digits[20], *first = digits + sizeof digits;
        do *--first = '0' + number % 10;
        while (number /= 10);
        put_bytes(first, digits + sizeof digits - first);
    }

    void put_address(uint64_t address) {
        char text[20];
        put_bytes(text, snprintf(text, sizeof text, "0x%016lx\n", (unsigned long)address));
    }

    void write_out() {
        for (char *at = bytes; at < end;) {
            ssize_t count = write(1, at, end - at);
            if (count <= 0) exit(1);
            at += count;
        }
        end = bytes;
    }
};

// Appends a part of a path, after a slash unless it is the first. An empty part is left out.
static void put_part(Reply &reply, const struct path &path, bool &is_first) {
    const char *text = text_at(path.place, path.section);
    if (!*text) return;
    if (!is_first) reply.put("/");
    is_first = false;
    reply.put_printable(text);
}

static bool is_absolute(const struct path &path) {
    return *text_at(path.place, path.section) == '/';
}

// Appends the path of a file: a relative one is preceded by its directory, and a relative directory
// by the first one.
static void put_path(Reply &reply, const struct line_program &program, uint64_t file) {
    const struct path &path = paths[program.files + file];
    const struct path *directories = &paths[program.directories];
    bool is_first = true;
    if (!is_absolute(path)) {
        const struct path &directory = directories[path.directory];
        if (path.directory && !is_absolute(directory)) put_part(reply, directories[0], is_first);
        put_part(reply, directory, is_first);
    }
    put_part(reply, path, is_first);
    if (is_first) reply.put("??");
}

static void put_line(Reply &reply, uint64_t line) {
    reply.put(":");
    reply.put_number(line);
    reply.put("\n");
}

// Returns the last program whose first row is at or before a row.
static const struct line_program &program_of_row(uint32_t row) {
    size_t low = 0, high = program_count;
    while (high - low > 1) {
        size_t middle = low + (high - low) / 2;
        if (programs[middle].first_row <= row) low = middle;
        else high = middle;
    }
    return programs[low];
}

// Appends the position of a row, which may be `nothing`.
static void put_row(Reply &reply, uint32_t number) {
    if (number == nothing) return reply.put("??:0\n");
    const struct row &row = rows.items[number];
    put_path(reply, program_of_row(number), file_of(&row));
    put_line(reply, row.line);
}

// Appends the position of the call of a scope.
static void put_call(Reply &reply, const struct scope &scope) {
    struct call call = {scope.call_file, scope.call_line};
    if (scope.calls & IS_WIDE) call = wide_calls[scope.call_file];
    const struct line_program *program = program_of_scope(&scope);
    if (program && scope.calls & HAS_FILE) put_path(reply, *program, call.file);
    else reply.put("??");
    put_line(reply, scope.calls & HAS_LINE ? call.line : 0);
}

// Appends the name of a scope and a line feed.
static void put_name(Reply &reply, const struct scope &scope) {
    const char *name = text_at(scope.name, scope.name_section);
    if (*name) reply.put_printable(name);
    else reply.put("??");
    reply.put("\n");
}
#endif
