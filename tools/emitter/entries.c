#include "entries.h"

#include <inttypes.h>

#define TABLE ((spur_address)255 << 30)
#define ROOT (TABLE + ((spur_address)255 << 20))

static const char *const access_names[] = {"load", "store", "tas"};
static const char *const fault_names[] = {"align",      "unmapped",  "missing", "leaving",
                                          "protection", "reference", "dirty"};
static const char *const layer_names[] = {"data", "pte", "root"};
static const char *const need_names[] = {"read", "write"};

spur_address spur_block_of(spur_address at) { return at & ~(spur_address)31; }

spur_address spur_page_of(spur_address at) { return at & ~(spur_address)4095; }

spur_address spur_entry_of(spur_address at) { return TABLE + 4 * (at >> 12); }

enum spur_layer spur_layer_of(spur_address at) {
    if (at < TABLE) {
        return SPUR_DATA;
    }
    return at < ROOT ? SPUR_PTE : SPUR_ROOT;
}

int spur_header(FILE *to, unsigned boards, unsigned frames, unsigned lines) {
    return fprintf(to, "%%trace 1 %u %u %u\n", boards, frames, lines);
}

/* A line of a word: its kind, board, address and value. */
static int word_line(FILE *to, const char *kind, unsigned board, spur_address word, uint32_t value) {
    return fprintf(to, "%s %u %010" PRIx64 " %08" PRIx32 "\n", kind, board, word, value);
}

/* A line of a block or a page: its kind, board and address. */
static int place_line(FILE *to, const char *kind, unsigned board, spur_address at) {
    return fprintf(to, "%s %u %010" PRIx64 "\n", kind, board, at);
}

int spur_load(FILE *to, unsigned board, spur_address word, uint32_t value) {
    return word_line(to, "load", board, word, value);
}

int spur_store(FILE *to, unsigned board, spur_address word, uint32_t value) {
    return word_line(to, "store", board, word, value);
}

int spur_tas(FILE *to, unsigned board, spur_address word, uint32_t old) {
    return word_line(to, "tas", board, word, old);
}

int spur_fault(FILE *to, unsigned board, enum spur_fault kind, enum spur_access access, spur_address byte) {
    return fprintf(to, "fault %u %s %s %010" PRIx64 "\n", board, fault_names[kind], access_names[access], byte);
}

int spur_fill(FILE *to, unsigned board, enum spur_need need, spur_address block) {
    return fprintf(to, "fill %u %s %s %010" PRIx64 "\n", board, layer_names[spur_layer_of(block)], need_names[need],
                   block);
}

int spur_claim(FILE *to, unsigned board, spur_address block) { return place_line(to, "claim", board, block); }

int spur_writeback(FILE *to, unsigned board, spur_address block) { return place_line(to, "writeback", board, block); }

int spur_refresh(FILE *to, unsigned board, spur_address block) { return place_line(to, "refresh", board, block); }

int spur_flush(FILE *to, unsigned board, unsigned holder, spur_address block) {
    return fprintf(to, "flush %u %u %010" PRIx64 "\n", board, holder, block);
}

int spur_leave(FILE *to, unsigned board, spur_address page) { return place_line(to, "leave", board, page); }

int spur_out(FILE *to, unsigned board, spur_address page) { return place_line(to, "out", board, page); }

int spur_in(FILE *to, unsigned board, spur_address page, unsigned frame) {
    return fprintf(to, "in %u %010" PRIx64 " %u\n", board, page, frame);
}

int spur_setref(FILE *to, unsigned board, spur_address page) { return place_line(to, "setref", board, page); }

int spur_setdirty(FILE *to, unsigned board, spur_address page) { return place_line(to, "setdirty", board, page); }

int spur_clearref(FILE *to, unsigned board, spur_address page) { return place_line(to, "clearref", board, page); }
