// Reads the line programs of an object with a plain interpreter that makes the same checks as our
// reader and stores the same rows, and prints the time.
#include "line_headers.h"
#include "timing.h"

enum {
    DW_LNS_copy = 1, DW_LNS_advance_pc, DW_LNS_advance_line, DW_LNS_set_file,
    DW_LNS_const_add_pc = 8, DW_LNS_fixed_advance_pc
};

enum { DW_LNE_end_sequence = 1, DW_LNE_set_address };

struct machine {
    unsigned __int128 address;
    __int128 line;
    uint64_t file, previous; // of the previous row
    uint8_t has_row, is_dead;
};

static const struct machine at_start = {.line = 1, .file = 1};
static const uint64_t dropped = ~0ull; // the tombstone address of dead code

struct rows rows;
struct line_program *programs;
size_t program_count;
static size_t program_room;

// Appends the row of the registers, or the end of the sequence, unless the sequence is dead code.
static inline void add_row(struct bytes *b, struct machine *m, uint64_t file_count, int end) {
    m->has_row = 1;
    if (m->is_dead) return;
    uint64_t address = (uint64_t)m->address;
    if (m->address >> 64) return fail(b, OVERFLOWS);
    if (address < m->previous) return fail(b, GOES_BACK);
    if (!end && (unsigned __int128)m->line >> 32) return fail(b, LINE_RANGE);
    if (!end && m->file >= file_count) return fail(b, FILE_INDEX);
    m->previous = address;
    rows.items = grown(rows.items, rows.count, &rows.room, sizeof *rows.items);
    rows.items[rows.count++] = (struct row){address, (uint32_t)program_count,
        end ? 0 : (uint32_t)m->file, end ? 0 : (uint32_t)m->line, end};
}

static void extended(struct bytes *b, struct machine *m) {
    uint64_t length = uleb(b);
    const uint8_t *body = b->at;
    if (!length) fail(b, EXTENDED);
    skip(b, length);
    if (b->bad) return;
    if (body[0] == DW_LNE_end_sequence) {
        if (length != 1) return fail(b, EXTENDED);
        add_row(b, m, 0, 1);
        *m = at_start;
    } else if (body[0] == DW_LNE_set_address) {
        uint64_t address;
        if (length != 9) return fail(b, EXTENDED);
        memcpy(&address, body + 1, sizeof address);
        if (!m->has_row) m->is_dead = address == dropped;
        m->address = address;
    }
}

static inline void standard(struct bytes *b, struct machine *m, const struct header *header,
    uint8_t opcode) {
    switch (opcode) {
    case 0: extended(b, m); return;
    case DW_LNS_copy: add_row(b, m, header->file_count, 0); return;
    case DW_LNS_advance_pc:
        m->address += (unsigned __int128)header->minimum_length * uleb(b);
        return;
    case DW_LNS_advance_line: m->line += sleb(b); return;
    case DW_LNS_set_file: m->file = uleb(b); return;
    case DW_LNS_const_add_pc: m->address += header->constant_advance; return;
    case DW_LNS_fixed_advance_pc: m->address += fixed(b, 2); return;
    default: for (int i = 0; i < header->lengths[opcode]; i++) uleb(b);
    }
}

// Runs a program and appends its rows.
static enum cause run(struct bytes b, const struct header *header) {
    struct machine m = at_start;
    while (b.at < b.end) {
        uint8_t opcode = *b.at++;
        if (opcode >= header->opcode_base) {
            m.address += header->special[opcode].address;
            m.line += header->special[opcode].line;
            add_row(&b, &m, header->file_count, 0);
        } else
            standard(&b, &m, header, opcode);
    }
    if (b.bad) return b.bad;
    return m.has_row ? SEQUENCE_OPEN : GOOD;
}

int read_lines(const struct section *found) {
    static struct header header;
    sections = found;
    struct bytes b = {found[LINE].start, found[LINE].start + found[LINE].size, GOOD};
    while (b.at < b.end) {
        struct line_program program = {.offset = b.at - found[LINE].start};
        enum cause cause = read_header(&b, &header, &program);
        if (!cause) cause = run(header.instructions, &header);
        if (cause) return refuse(LINE, cause, program.offset);
        programs = grown(programs, program_count, &program_room, sizeof program);
        programs[program_count++] = program;
    }
    return 0;
}

#ifndef WHOLE
int main(int argc, char **argv) {
    struct section found[SECTION_COUNT];
    uint64_t size;
    if (argc != 2) return 2;
    const uint8_t *bytes = file_bytes(argv[1], &size);
    struct timespec start = now();
    if (find_sections(bytes, size, found) || read_lines(found)) return 1;
    printf("%zu rows, %ld us\n", rows.count, microseconds(start, now()));
    return 0;
}
#endif
