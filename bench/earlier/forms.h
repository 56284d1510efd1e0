// The forms of values (DWARF 5, 7.5.6) and their layouts.
#ifndef FORMS_H
#define FORMS_H
#include "bytes.h"

enum {
    DW_FORM_addr = 0x01, DW_FORM_block2 = 0x03, DW_FORM_block4, DW_FORM_data2, DW_FORM_data4,
    DW_FORM_data8, DW_FORM_string, DW_FORM_block, DW_FORM_block1, DW_FORM_data1, DW_FORM_flag,
    DW_FORM_sdata, DW_FORM_strp, DW_FORM_udata, DW_FORM_ref_addr, DW_FORM_ref1, DW_FORM_ref2,
    DW_FORM_ref4, DW_FORM_ref8, DW_FORM_ref_udata, DW_FORM_indirect, DW_FORM_sec_offset,
    DW_FORM_exprloc, DW_FORM_flag_present, DW_FORM_strx, DW_FORM_addrx, DW_FORM_data16 = 0x1e,
    DW_FORM_line_strp, DW_FORM_ref_sig8, DW_FORM_implicit_const, DW_FORM_loclistx,
    DW_FORM_rnglistx, DW_FORM_strx1 = 0x25, DW_FORM_strx2, DW_FORM_strx3, DW_FORM_strx4,
    DW_FORM_addrx1, DW_FORM_addrx2, DW_FORM_addrx3, DW_FORM_addrx4, FORM_COUNT
};

// UNKNOWN is the layout of unsupported forms. The value of CONSTANT is in the declaration.
enum layout {
    UNKNOWN, FIXED, OFFSET, SIGNED, UNSIGNED, TEXT, BLOCK1, BLOCK2, BLOCK4, LONG_BLOCK, CONSTANT,
    INDIRECT
};

struct form {
    uint8_t layout, width;
};

static const struct form forms[FORM_COUNT] = {
    [DW_FORM_addr] = {FIXED, 8}, [DW_FORM_block2] = {BLOCK2, 0}, [DW_FORM_block4] = {BLOCK4, 0},
    [DW_FORM_data2] = {FIXED, 2}, [DW_FORM_data4] = {FIXED, 4}, [DW_FORM_data8] = {FIXED, 8},
    [DW_FORM_string] = {TEXT, 0}, [DW_FORM_block] = {LONG_BLOCK, 0},
    [DW_FORM_block1] = {BLOCK1, 0}, [DW_FORM_data1] = {FIXED, 1}, [DW_FORM_flag] = {FIXED, 1},
    [DW_FORM_sdata] = {SIGNED, 0}, [DW_FORM_strp] = {OFFSET, 0}, [DW_FORM_udata] = {UNSIGNED, 0},
    [DW_FORM_ref_addr] = {OFFSET, 0}, [DW_FORM_ref1] = {FIXED, 1}, [DW_FORM_ref2] = {FIXED, 2},
    [DW_FORM_ref4] = {FIXED, 4}, [DW_FORM_ref8] = {FIXED, 8}, [DW_FORM_ref_udata] = {UNSIGNED, 0},
    [DW_FORM_indirect] = {INDIRECT, 0}, [DW_FORM_sec_offset] = {OFFSET, 0},
    [DW_FORM_exprloc] = {LONG_BLOCK, 0}, [DW_FORM_flag_present] = {FIXED, 0},
    [DW_FORM_strx] = {UNSIGNED, 0}, [DW_FORM_addrx] = {UNSIGNED, 0},
    [DW_FORM_data16] = {FIXED, 16}, [DW_FORM_line_strp] = {OFFSET, 0},
    [DW_FORM_ref_sig8] = {FIXED, 8}, [DW_FORM_implicit_const] = {CONSTANT, 0},
    [DW_FORM_loclistx] = {UNSIGNED, 0}, [DW_FORM_rnglistx] = {UNSIGNED, 0},
    [DW_FORM_strx1] = {FIXED, 1}, [DW_FORM_strx2] = {FIXED, 2}, [DW_FORM_strx3] = {FIXED, 3},
    [DW_FORM_strx4] = {FIXED, 4}, [DW_FORM_addrx1] = {FIXED, 1}, [DW_FORM_addrx2] = {FIXED, 2},
    [DW_FORM_addrx3] = {FIXED, 3}, [DW_FORM_addrx4] = {FIXED, 4},
};

// Returns the layout of a form if offsets have this width.
static inline struct form form_of(uint64_t number, uint8_t width) {
    struct form form = number < FORM_COUNT ? forms[number] : (struct form){UNKNOWN, 0};
    return form.layout == OFFSET ? (struct form){FIXED, width} : form;
}

// Returns whether the values of a form are in the entry.
static inline int is_direct(struct form form) {
    return form.layout != UNKNOWN && form.layout != CONSTANT && form.layout != INDIRECT;
}

// Skips a value of variable width.
static inline void pass(struct bytes *b, enum layout layout) {
    switch (layout) {
    case SIGNED: sleb(b); return;
    case UNSIGNED: uleb(b); return;
    case TEXT: pass_text(b); return;
    case BLOCK1: skip(b, fixed(b, 1)); return;
    case BLOCK2: skip(b, fixed(b, 2)); return;
    case BLOCK4: skip(b, fixed(b, 4)); return;
    default: skip(b, uleb(b));
    }
}
#endif
