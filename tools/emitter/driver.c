/* A small simulator that writes its history: the run of the text of `./spur gen N BOARDS PAGES`, its boards taking turns, one access each.
 *
 *     driver N BOARDS PAGES FRAMES LINES > TRACE
 *
 * It keeps the caches' states, the pages' entries and the words of the program, and computes from them what it emits: which blocks are
 * filled, claimed and written back, which faults come, which page a clock puts out, and what is loaded. It has nothing of the program's code.
 */
#include "entries.h"

#include <stdlib.h>

enum state { INVALID, UNOWNED, NONEXCLUSIVE, EXCLUSIVE };

struct line {
    spur_address block;
    enum state state;
    int dirty; /* the line's copy of the page's dirty bit */
};

struct page {
    int resident, referenced, dirty, leaving;
    unsigned frame;
};

enum { MOST_BOARDS = 12, MOST_PAGES = 512, MOST_LINES = 4096, MOST_FRAMES = 3900, FIRST_FRAME = 65, PAGE = 4096, BLOCK = 32, ROUNDS = 2 };

static struct line caches[MOST_BOARDS][MOST_LINES];
static struct page pages[MOST_PAGES];
static int in_frame[MOST_FRAMES]; /* the page in a frame and one more, or 0 */
static uint32_t words[MOST_PAGES][MOST_BOARDS];
static unsigned boards, page_count, frames, lines, hand;

static struct line *line_of(unsigned board, spur_address at) { return &caches[board][at / BLOCK % lines]; }

static enum state state_of(unsigned board, spur_address at) {
    struct line *line = line_of(board, at);
    return line->state != INVALID && line->block == spur_block_of(at) ? line->state : INVALID;
}

static struct page *page_of(spur_address at) { return &pages[at / PAGE]; }

static spur_address entry_block(spur_address at) { return spur_block_of(spur_entry_of(at)); }

/* The other boards see a transaction: their copies go, or the one that is exclusive is so no more. */
static void others_see(unsigned board, spur_address at, int exclusive) {
    for (unsigned other = 0; other < boards; other++) {
        if (other == board || state_of(other, at) == INVALID) {
            continue;
        }
        if (exclusive) {
            line_of(other, at)->state = INVALID;
        } else if (line_of(other, at)->state == EXCLUSIVE) {
            line_of(other, at)->state = NONEXCLUSIVE;
        }
    }
}

static void fill(unsigned board, spur_address at, enum spur_need need) {
    struct line *line = line_of(board, at);
    if (line->state >= NONEXCLUSIVE) {
        spur_writeback(stdout, board, line->block);
    }
    spur_fill(stdout, board, need, spur_block_of(at));
    others_see(board, at, need == SPUR_WRITE);
    line->block = spur_block_of(at);
    line->state = need == SPUR_WRITE ? EXCLUSIVE : UNOWNED;
    line->dirty = spur_layer_of(at) != SPUR_DATA || page_of(at)->dirty;
}

static void own_alone(unsigned board, spur_address at) {
    if (state_of(board, at) != EXCLUSIVE) {
        spur_claim(stdout, board, spur_block_of(at));
        others_see(board, at, 1);
        line_of(board, at)->state = EXCLUSIVE;
    }
}

/* Brings the block of a page's entry, by the block of the root entry. */
static void fetch_entry(unsigned board, spur_address at) {
    spur_address block = entry_block(at);
    if (state_of(board, block) != INVALID) {
        return;
    }
    if (state_of(board, entry_block(block)) == INVALID) {
        fill(board, entry_block(block), SPUR_READ);
    }
    fill(board, block, SPUR_READ);
}

/* What comes before each entry of the pager: its board owns the block of the page's entry alone. */
static void prepare(unsigned board, spur_address at) {
    fetch_entry(board, at);
    own_alone(board, entry_block(at));
}

/* Flushes the blocks of a page out of all caches. */
static void flush_page(unsigned board, spur_address at) {
    for (unsigned holder = 0; holder < boards; holder++) {
        for (spur_address block = at; block < at + PAGE; block += BLOCK) {
            if (state_of(holder, block) != INVALID) {
                spur_flush(stdout, board, holder, block);
                line_of(holder, block)->state = INVALID;
            }
        }
    }
}

/* A frame for a page: one that is free, or else that of the first page that the clock finds without a reference. */
static unsigned free_frame(unsigned board) {
    for (unsigned frame = 0; frame < frames; frame++) {
        if (!in_frame[frame]) {
            return frame;
        }
    }
    for (;; hand = (hand + 1) % frames) {
        spur_address at = (spur_address)(in_frame[hand] - 1) * PAGE;
        prepare(board, at);
        if (page_of(at)->referenced) {
            spur_clearref(stdout, board, at);
            page_of(at)->referenced = 0;
            continue;
        }
        spur_leave(stdout, board, at);
        flush_page(board, at);
        prepare(board, at);
        spur_out(stdout, board, at);
        page_of(at)->resident = page_of(at)->dirty = 0;
        in_frame[hand] = 0;
        return hand;
    }
}

static void page_in(unsigned board, spur_address at) {
    unsigned frame = free_frame(board);
    prepare(board, at);
    spur_in(stdout, board, spur_page_of(at), FIRST_FRAME + frame);
    *page_of(at) = (struct page){.resident = 1, .referenced = 1, .frame = frame};
    in_frame[frame] = (int)(at / PAGE) + 1;
}

/* Does the first thing that an access still wants, and tells whether there was none. */
static int step(unsigned board, enum spur_access access, spur_address at) {
    struct page *page = page_of(at);
    struct line *line = line_of(board, at);
    enum spur_need need = access == SPUR_LOAD ? SPUR_READ : SPUR_WRITE;
    int there = state_of(board, at) != INVALID;
    if (there && (need == SPUR_READ || line->dirty)) {
        if (need == SPUR_WRITE) {
            own_alone(board, at);
        }
        return 1;
    }
    if (state_of(board, entry_block(at)) == INVALID) {
        fetch_entry(board, at);
    } else if (!page->resident) {
        spur_fault(stdout, board, SPUR_MISSING, access, at);
        page_in(board, at);
    } else if (!page->referenced) {
        spur_fault(stdout, board, SPUR_REFERENCE, access, at);
        prepare(board, at);
        spur_setref(stdout, board, spur_page_of(at));
        page->referenced = 1;
    } else if (need == SPUR_WRITE && !page->dirty) {
        spur_fault(stdout, board, SPUR_DIRTY, access, at);
        prepare(board, at);
        spur_setdirty(stdout, board, spur_page_of(at));
        page->dirty = 1;
    } else if (there) {
        spur_refresh(stdout, board, spur_block_of(at));
        line->dirty = 1;
    } else {
        fill(board, at, need);
    }
    return 0;
}

/* One access of a board: its accesses are a load and a store of its word in each page, in each round. */
static void access_word(unsigned board, unsigned number, uint32_t add) {
    unsigned page = number / 2 % page_count;
    spur_address at = (spur_address)page * PAGE + 4 * board;
    enum spur_access access = number % 2 ? SPUR_STORE : SPUR_LOAD;
    while (!step(board, access, at)) {
    }
    if (access == SPUR_LOAD) {
        spur_load(stdout, board, at, words[page][board]);
    } else {
        words[page][board] += add;
        spur_store(stdout, board, at, words[page][board]);
    }
}

/* A number of the command line in a range. */
static unsigned long number(const char *word, unsigned long least, unsigned long most) {
    char *end;
    unsigned long value = strtoul(word, &end, 10);
    if (*word < '0' || *word > '9' || *end || value < least || value > most) {
        fprintf(stderr, "driver: %s is no number from %lu to %lu\n", word, least, most);
        exit(2);
    }
    return value;
}

int main(int count, char **given) {
    if (count != 6) {
        fprintf(stderr, "usage: driver N BOARDS PAGES FRAMES LINES > TRACE\n");
        return 2;
    }
    unsigned long start = number(given[1], 0, 4294967295ul);
    boards = (unsigned)number(given[2], 1, MOST_BOARDS);
    page_count = (unsigned)number(given[3], 1, MOST_PAGES);
    frames = (unsigned)number(given[4], 1, MOST_FRAMES);
    lines = (unsigned)number(given[5], 16, MOST_LINES);
    if (lines & (lines - 1)) {
        fprintf(stderr, "driver: the lines are a power of two\n");
        return 2;
    }
    spur_header(stdout, boards, frames, lines);
    for (unsigned access = 0; access < 2 * ROUNDS * page_count; access++) {
        for (unsigned board = 0; board < boards; board++) {
            access_word(board, access, (uint32_t)((start + 17 * board) % 1000 + 1));
        }
    }
    return fflush(stdout) || ferror(stdout) ? 5 : 0;
}
