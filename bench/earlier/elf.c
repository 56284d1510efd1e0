// The sections of an ELF file, and the refusals of its tables.
#define _GNU_SOURCE
#include "object.h"
#include <elf.h>
#include <stdio.h>
#include <string.h>

static const char *const names[SECTION_COUNT] = {
    "elf", ".debug_info", ".debug_abbrev", ".debug_line", ".debug_line_str", ".debug_str",
    ".debug_str_offsets", ".debug_addr", ".debug_rnglists"
};

static const char *const words[] = {
    "good", "not-elf", "class", "type", "table", "section-twice", "compressed", "no-load", "range",
    "short", "leb", "length", "version", "unit-type", "address-size", "segment", "abbrev-code",
    "abbrev-twice", "form", "attr-twice", "attr-form", "two-roots", "tree-open", "too-deep",
    "string", "index", "base", "range-backwards", "overflow", "pc-and-ranges", "reference",
    "origin-depth", "line-params", "opcode-lengths", "extended", "file-format", "dir-index",
    "file-index", "goes-back", "sequence-open", "stmt-list", "call-file", "too-many", "line-range",
    "children", "range-kind"
};

int refuse(enum section_name section, enum cause cause, uint64_t at) {
    fprintf(stderr, "refused object %s %s at %lu\n", names[section], words[cause],
        (unsigned long)at);
    return 1;
}

static int is_outside(uint64_t size, uint64_t offset, uint64_t length) {
    return length > size || offset > size - length;
}

static int has_sections(const Elf64_Ehdr *header) { return header->e_shnum || header->e_shoff; }

static enum cause judge_header(const uint8_t *bytes, uint64_t size, Elf64_Ehdr *header) {
    if (size > 1 << 30) return TOO_MANY;
    if (size < sizeof *header || memcmp(bytes, ELFMAG, SELFMAG)) return NOT_ELF;
    memcpy(header, bytes, sizeof *header);
    const unsigned char *ident = header->e_ident;
    if (ident[EI_CLASS] != ELFCLASS64 || ident[EI_DATA] != ELFDATA2LSB) return CLASS;
    if (ident[EI_VERSION] != EV_CURRENT) return CLASS;
    if (header->e_type != ET_EXEC && header->e_type != ET_DYN) return FILE_TYPE;
    uint64_t segments = header->e_phnum * sizeof(Elf64_Phdr);
    if (header->e_phnum == PN_XNUM) return TABLE;
    if (segments && header->e_phentsize != sizeof(Elf64_Phdr)) return TABLE;
    if (segments && is_outside(size, header->e_phoff, segments)) return TABLE;
    if (!has_sections(header)) return GOOD;
    uint64_t sections = header->e_shnum * sizeof(Elf64_Shdr);
    if (!sections || header->e_shnum >= SHN_LORESERVE) return TABLE;
    if (header->e_shentsize != sizeof(Elf64_Shdr)) return TABLE;
    if (header->e_shstrndx >= header->e_shnum) return TABLE;
    return is_outside(size, header->e_shoff, sections) ? TABLE : GOOD;
}

static int judge_segments(const uint8_t *bytes, const Elf64_Ehdr *header) {
    int loads = 0;
    for (int i = 0; i < header->e_phnum; i++) {
        uint64_t at = header->e_phoff + i * sizeof(Elf64_Phdr);
        Elf64_Phdr segment;
        memcpy(&segment, bytes + at, sizeof segment);
        if (segment.p_type != PT_LOAD || !segment.p_memsz) continue;
        if (segment.p_vaddr > UINT64_MAX - segment.p_memsz) return refuse(ELF, RANGE, at);
        loads++;
    }
    return loads ? 0 : refuse(ELF, NO_LOAD, 0);
}

static struct section section_of(const uint8_t *bytes, const Elf64_Shdr *header) {
    const uint8_t *start = bytes + header->sh_offset;
    const uint8_t *nul = header->sh_size ? memrchr(start, 0, header->sh_size) : NULL;
    return (struct section){start, header->sh_size, nul ? nul - start + 1 : 0};
}

// Returns the section of this name, or ELF if it is not needed.
static enum section_name wanted(const char *name) {
    for (int i = INFO; i < SECTION_COUNT; i++)
        if (!strcmp(name, names[i])) return i;
    return ELF;
}

// Checks that a section has bytes in the file, is not compressed and is inside the file.
static enum cause judge_section(const Elf64_Shdr *header, uint64_t size) {
    if (header->sh_type == SHT_NOBITS) return TABLE;
    if (header->sh_flags & SHF_COMPRESSED) return COMPRESSED;
    return is_outside(size, header->sh_offset, header->sh_size) ? TABLE : GOOD;
}

static int find_wanted(const uint8_t *bytes, uint64_t size, const Elf64_Ehdr *file,
    struct section texts, struct section *sections) {
    int seen[SECTION_COUNT] = {0};
    for (int i = 0; i < file->e_shnum; i++) {
        uint64_t at = file->e_shoff + i * sizeof(Elf64_Shdr);
        Elf64_Shdr header;
        memcpy(&header, bytes + at, sizeof header);
        if (header.sh_name >= texts.texts_end) return refuse(ELF, TABLE, at);
        enum section_name name = wanted((const char *)texts.start + header.sh_name);
        if (name == ELF) continue;
        if (seen[name]++) return refuse(ELF, SECTION_TWICE, at);
        enum cause cause = judge_section(&header, size);
        if (cause) return refuse(ELF, cause, at);
        sections[name] = section_of(bytes, &header);
    }
    return 0;
}

int find_sections(const uint8_t *bytes, uint64_t size, struct section *sections) {
    Elf64_Ehdr file;
    Elf64_Shdr header;
    enum cause cause = judge_header(bytes, size, &file);
    if (cause) return refuse(ELF, cause, 0);
    if (judge_segments(bytes, &file)) return 1;
    for (int i = 0; i < SECTION_COUNT; i++) sections[i] = (struct section){bytes, 0, 0};
    if (!has_sections(&file)) return 0;
    uint64_t at = file.e_shoff + file.e_shstrndx * sizeof header;
    memcpy(&header, bytes + at, sizeof header);
    if (judge_section(&header, size)) return refuse(ELF, TABLE, at);
    return find_wanted(bytes, size, &file, section_of(bytes, &header), sections);
}
