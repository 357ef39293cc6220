/* Writes the lines of a trace: a function for its first line, and one for each kind of entry.
 *
 * For a simulator that wants its history judged: call the function where the simulator does the thing. Nothing is looked after here but the
 * form of the lines; what an entry may follow is in docs/TRACE.md. Boards count from 0. An address is a global one, of a word for an access,
 * of the first byte of a block or of a page else; block_of and page_of below make one of any byte of it.
 *
 * Each function gives what fprintf gives: a negative number where the line could not be written.
 */
#ifndef SPUR_ENTRIES_H
#define SPUR_ENTRIES_H

#include <stdint.h>
#include <stdio.h>

typedef uint64_t spur_address; /* below 2^38 */

enum spur_access { SPUR_LOAD, SPUR_STORE, SPUR_TAS };
enum spur_fault {
    SPUR_ALIGN,
    SPUR_UNMAPPED,
    SPUR_MISSING,
    SPUR_LEAVING,
    SPUR_PROTECTION,
    SPUR_REFERENCE,
    SPUR_DIRTY
};
enum spur_layer { SPUR_DATA, SPUR_PTE, SPUR_ROOT };
enum spur_need { SPUR_READ, SPUR_WRITE };

/* Addresses: the first byte of a block and of a page, the page-table entry of an address, and what a block holds. */
spur_address spur_block_of(spur_address at);
spur_address spur_page_of(spur_address at);
spur_address spur_entry_of(spur_address at);
enum spur_layer spur_layer_of(spur_address at);

/* The first line. */
int spur_header(FILE *to, unsigned boards, unsigned frames, unsigned lines);

/* The four entries of a program. */
int spur_load(FILE *to, unsigned board, spur_address word, uint32_t value);
int spur_store(FILE *to, unsigned board, spur_address word, uint32_t value);
int spur_tas(FILE *to, unsigned board, spur_address word, uint32_t old);
int spur_fault(FILE *to, unsigned board, enum spur_fault kind, enum spur_access access, spur_address byte);

/* The five entries of blocks. The layer of a fill is that of its address. */
int spur_fill(FILE *to, unsigned board, enum spur_need need, spur_address block);
int spur_claim(FILE *to, unsigned board, spur_address block);
int spur_writeback(FILE *to, unsigned board, spur_address block);
int spur_refresh(FILE *to, unsigned board, spur_address block);
int spur_flush(FILE *to, unsigned board, unsigned holder, spur_address block);

/* The six entries of the pager. */
int spur_leave(FILE *to, unsigned board, spur_address page);
int spur_out(FILE *to, unsigned board, spur_address page);
int spur_in(FILE *to, unsigned board, spur_address page, unsigned frame);
int spur_setref(FILE *to, unsigned board, spur_address page);
int spur_setdirty(FILE *to, unsigned board, spur_address page);
int spur_clearref(FILE *to, unsigned board, spur_address page);

#endif
