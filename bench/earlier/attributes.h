// The used attributes, their allowed forms, and their values.
#include "forms.h"

enum slot {
    AT_NAME, AT_LINKAGE_NAME, AT_LOW_PC, AT_HIGH_PC, AT_RANGES, AT_CALL_FILE, AT_CALL_LINE,
    AT_ORIGIN, AT_SPECIFICATION, AT_STMT_LIST, AT_STR_OFFSETS_BASE, AT_ADDR_BASE, AT_RNGLISTS_BASE,
    UNUSED
};

enum {
    DW_AT_name = 0x03, DW_AT_stmt_list = 0x10, DW_AT_low_pc = 0x11, DW_AT_high_pc = 0x12,
    DW_AT_abstract_origin = 0x31, DW_AT_specification = 0x47, DW_AT_ranges = 0x55,
    DW_AT_call_file = 0x58, DW_AT_call_line = 0x59, DW_AT_linkage_name = 0x6e,
    DW_AT_str_offsets_base = 0x72, DW_AT_addr_base = 0x73, DW_AT_rnglists_base = 0x74
};

// The values of the used attributes of an entry, with their forms. The value of a string in the
// entry is its offset.
struct values {
    uint32_t has; // one bit for each slot
    uint8_t forms[UNUSED];
    uint64_t numbers[UNUSED];
};

static inline int has(const struct values *values, enum slot slot) {
    return values->has >> slot & 1;
}

static enum slot slot_of(uint64_t name) {
    switch (name) {
    case DW_AT_name: return AT_NAME;
    case DW_AT_linkage_name: return AT_LINKAGE_NAME;
    case DW_AT_low_pc: return AT_LOW_PC;
    case DW_AT_high_pc: return AT_HIGH_PC;
    case DW_AT_ranges: return AT_RANGES;
    case DW_AT_call_file: return AT_CALL_FILE;
    case DW_AT_call_line: return AT_CALL_LINE;
    case DW_AT_abstract_origin: return AT_ORIGIN;
    case DW_AT_specification: return AT_SPECIFICATION;
    case DW_AT_stmt_list: return AT_STMT_LIST;
    case DW_AT_str_offsets_base: return AT_STR_OFFSETS_BASE;
    case DW_AT_addr_base: return AT_ADDR_BASE;
    case DW_AT_rnglists_base: return AT_RNGLISTS_BASE;
    default: return UNUSED;
    }
}

static inline int is_address(uint64_t form) {
    return form == DW_FORM_addr || form == DW_FORM_addrx
        || (form >= DW_FORM_addrx1 && form <= DW_FORM_addrx4);
}

static int is_string(uint64_t form) {
    return form == DW_FORM_string || form == DW_FORM_strp || form == DW_FORM_line_strp
        || form == DW_FORM_strx || (form >= DW_FORM_strx1 && form <= DW_FORM_strx4);
}

static int is_count(uint64_t form) {
    return (form >= DW_FORM_data2 && form <= DW_FORM_data8) || form == DW_FORM_data1
        || form == DW_FORM_sdata || form == DW_FORM_udata || form == DW_FORM_implicit_const;
}

static int is_reference(uint64_t form) {
    return (form >= DW_FORM_ref_addr && form <= DW_FORM_ref_udata) || form == DW_FORM_ref_sig8;
}

// Returns whether a form is allowed for an attribute. An unused attribute may have any form.
static int accepts(enum slot slot, uint64_t form) {
    switch (slot) {
    case AT_NAME: case AT_LINKAGE_NAME: return is_string(form);
    case AT_LOW_PC: return is_address(form);
    case AT_HIGH_PC: return is_address(form) || is_count(form);
    case AT_CALL_FILE: case AT_CALL_LINE: return is_count(form);
    case AT_ORIGIN: case AT_SPECIFICATION: return is_reference(form);
    case AT_RANGES: return form == DW_FORM_sec_offset || form == DW_FORM_rnglistx;
    case UNUSED: return 1;
    default: return form == DW_FORM_sec_offset;
    }
}
