// What the files here share: the table and the image at hand (tables.c), the calls of both sides on them (bench.c), and
// the count of what was compared (answers.c).
#include "plain.h"

int printf(const char *format, ...);
int snprintf(char *to, usize size, const char *format, ...);
int fflush(void *stream);
void give_up(const char *why);

enum { MOST = 2048, MOST_EDGES = 8192, MOST_BYTES = 61457, BEHIND = 64 };
#define MOST_COUNTED 1099511627775ul
#define ALL 4294967295u

// ---- tables.c

// The table at hand with its lengths, which may have one vertex and one edge more than a table can have.
struct table {
    const char *name;
    usize n, m;
    u32 starts[MOST + 2], targets[MOST_EDGES + 1];
    u64 counts[MOST + 1];
    u16 lengths[MOST + 1];
};
extern struct table table;

// The image at hand, which may be that of a table with one vertex and one edge more, and may be lent with a byte more.
extern u8 image[MOST_BYTES + 14 + 4 + 1 + BEHIND];

// How many numbers of each slice are lent: of those that are read, and of those that are stored to.
struct lent {
    usize starts, targets, counts, lengths, image;
    usize out, starts2, targets2, counts2, lengths2, image2;
};
extern struct lent lent;

// The pair to be judged, and the budget of the fold.
struct asked {
    u32 s, t, budget;
};
extern struct asked asked;

// Each makes the table at hand. Lent is all of it, and all the room there is; asked is a fold of all, and the first
// vertex with the last, or with make_arms the superbubble. No image is lent.
void make_chain(usize n);
void make_cycle(usize n);
void make_comb(usize n);
void make_nested(usize n);
void make_ring(usize n);
void make_bare_edges(usize n);
void make_layers(usize n);
void make_two_arms(usize n, usize inner);
void make_random(const char *name, usize n, usize m, _Bool cycles);
void make_graph(char letter);
void make_superbubbles(usize n);
void make_arms(usize n, u32 t);
void make_drawn(u32 which, u32 most, _Bool ring);

// Makes the image of the table at hand, sound or not, of version 2 with its lengths, and lends it.
void make_image(u32 version);

// ---- bench.c

// What one side answers: the number, the other fields, and the slices that are stored to.
struct answers {
    u32 number, size, version;
    usize found, folded, left, vertices, edges, length;
    _Bool yes;
    u32 out[2 * MOST + 2], starts2[MOST + 2], targets2[MOST_EDGES + 1];
    u64 counts2[MOST + 1];
    u16 lengths2[MOST + 1];
    u32 sizes[64 * 64]; // of every pair, where n is at most 64
    u8 image2[sizeof image];
};
extern struct answers ours, theirs;

// The calls of a side on the table or the image at hand, by what is lent and asked.
#define CALLS_AT_HAND(NAME)                                                                                          \
    void NAME##_looks(void);                                                                                         \
    void NAME##_loads(void);                                                                                         \
    void NAME##_writes(void);                                                                                        \
    void NAME##_writes_lengths(void);                                                                                \
    void NAME##_lists(void);                                                                                         \
    void NAME##_judges(void);                                                                                        \
    void NAME##_folds(void);                                                                                         \
    void NAME##_folds_weakest(void);                                                                                 \
    void NAME##_folds_rings(void);                                                                                   \
    void NAME##_folds_rings_weakest(void);

CALLS_AT_HAND(gohardim)
CALLS_AT_HAND(plain)

// Calls both sides. Says whether their answers are the same, with all the memory that was lent for them, and the table
// and the image are as before. Of an image's memory it looks at what is lent and at 64 bytes behind that.
_Bool agree(void (*our)(void), void (*their)(void));

// ---- answers.c

extern int passed, failed;
void count(_Bool right, const char *operation, const char *what);
void same(const char *operation, void (*our)(void), void (*their)(void));
void compare_answers(void);
