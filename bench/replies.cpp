// Answers the addresses on standard input with plain C++, in the format of addr2line, so that the
// rate of our program can be compared with it. Each reply is written before the next line is
// served. replies -e OBJECT [-f -i] [-a]
#include "prefetch.hpp"
#include "reply_text.hpp"
#include "timing.h"
#include <unistd.h>

// The scopes at an address from the innermost one outward, as far as the outermost subprogram.
struct Chain {
    uint32_t scopes[256], count = 0;

    // The processor fetches the names of all scopes at once.
    Chain(uint32_t scope, uint64_t at) {
        uint32_t passed = 0;
        for (; scope != nothing; scope = parents[scope]) {
            if (!covers(scope, at)) continue;
            const struct scope &found = ::scopes[scope];
            __builtin_prefetch(text_at(found.name, found.name_section));
            scopes[passed++] = scope;
            if (!found.inlined) count = passed;
        }
    }
};

// Appends the functions and positions of an address.
static void put_frames(Reply &reply, const Segment &segment, uint64_t at) {
    if (segment.row != nothing) __builtin_prefetch(&rows.items[segment.row]);
    Chain chain(segment.scope, at);
    if (!chain.count) {
        reply.put("??\n");
        return put_row(reply, segment.row);
    }
    uint32_t inner = nothing;
    for (uint32_t i = 0; i < chain.count; i++) {
        uint32_t scope = chain.scopes[i];
        if (i + 1 < chain.count && !scopes[scope].inlined) continue;
        put_name(reply, scopes[scope]);
        if (inner == nothing) put_row(reply, segment.row);
        else put_call(reply, scopes[inner]);
        inner = scope;
    }
}

static void put_reply(Reply &reply, const Segment *segment, uint64_t at, bool has_functions) {
    if (!segment) return reply.put(has_functions ? "??\n??:0\n" : "??:0\n");
    if (has_functions) put_frames(reply, *segment, at);
    else put_row(reply, segment->row);
}

// Serves the lines on standard input.
static void serve(bool has_functions, bool has_addresses) {
    static char piece[4096], line[4096];
    Buckets buckets;
    Prefetch prefetch(buckets, has_functions);
    size_t length = 0;
    Reply reply;
    for (ssize_t count; (count = read(0, piece, sizeof piece)) > 0;)
        for (ssize_t i = 0; i < count; i++) {
            if (!length) prefetch.before_line(piece + i, piece + count);
            if (piece[i] != '\n') {
                if (length < sizeof line - 1) line[length++] = piece[i];
                continue;
            }
            line[length] = 0;
            length = 0;
            uint64_t at = strtoull(line, NULL, 16);
            if (has_addresses) reply.put_address(at);
            put_reply(reply, buckets.find(at), at, has_functions);
            reply.write_out();
        }
}

int main(int argc, char **argv) {
    static struct section found[SECTION_COUNT];
    const char *path = NULL;
    bool has_functions = false, has_addresses = false;
    for (int option; (option = getopt(argc, argv, "e:fia")) != -1;) {
        if (option == 'e') path = optarg;
        has_functions |= option == 'f';
        has_addresses |= option == 'a';
    }
    if (!path) return 2;
    uint64_t size;
    const uint8_t *bytes = file_bytes(path, &size);
    if (find_sections(bytes, size, found) || read_lines(found)) return 1;
    if (read_scopes(found) || join()) return 1;
    make_index();
    use_sections(found);
    serve(has_functions, has_addresses);
    return 0;
}
