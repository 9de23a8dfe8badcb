// Times the library's look, load and two writes, list, judge and four folds against the same in plain C, on the tables
// of tables.c and their images of both versions, sets the folds that take rings against twice the list and their walks,
// and looks how deep the library's calls reach into the stack. The two sides take turns, the fastest of many rounds
// counts, and each answer is compared: a difference ends the run. With the argument `answers` nothing is timed: it
// compares the answers on the same tables and on those of answers.c, looks whether the stack stays below 96 KB and that
// of the folds is the same on each table without a cycle, and on each ring, to 1 KB, and prints the count.
#include "bench.h"

struct timespec {
    long seconds, nanoseconds;
};
int clock_gettime(int clock, struct timespec *now);
void exit(int status);

void give_up(const char *why) {
    printf("bench: %s\n", why);
    fflush(0);
    exit(1);
}

// ---- the calls, on the table or the image at hand; each side has its own answers

struct answers ours, theirs;

#define FOLDS(NAME, FOLD, ANSWERS)                                                                                   \
    void NAME(void) {                                                                                                \
        struct answers *a = &ANSWERS;                                                                                \
        a->number = FOLD(table.starts, lent.starts, table.targets, lent.targets, table.counts, lent.counts,          \
                         asked.budget, a->starts2, lent.starts2, a->targets2, lent.targets2, a->counts2,             \
                         lent.counts2, &a->folded, &a->left, &a->edges);                                             \
    }

#define SIDE(NAME, ANSWERS)                                                                                          \
    void NAME##_looks(void) {                                                                                        \
        struct answers *a = &ANSWERS;                                                                                \
        a->number = NAME##_look(image, lent.image, &a->version, &a->vertices, &a->edges);                            \
    }                                                                                                                \
    void NAME##_loads(void) {                                                                                        \
        struct answers *a = &ANSWERS;                                                                                \
        a->number = NAME##_load(image, lent.image, a->starts2, lent.starts2, a->targets2, lent.targets2, a->counts2, \
                                lent.counts2, a->lengths2, lent.lengths2, &a->version, &a->vertices, &a->edges);     \
    }                                                                                                                \
    void NAME##_writes(void) {                                                                                       \
        struct answers *a = &ANSWERS;                                                                                \
        a->number = NAME##_write(table.starts, lent.starts, table.targets, lent.targets, table.counts, lent.counts,  \
                                 a->image2, lent.image2, &a->length);                                                \
    }                                                                                                                \
    void NAME##_writes_lengths(void) {                                                                               \
        struct answers *a = &ANSWERS;                                                                                \
        a->number = NAME##_write_lengths(table.starts, lent.starts, table.targets, lent.targets, table.counts,       \
                                         lent.counts, table.lengths, lent.lengths, a->image2, lent.image2,           \
                                         &a->length);                                                                \
    }                                                                                                                \
    void NAME##_lists(void) {                                                                                        \
        struct answers *a = &ANSWERS;                                                                                \
        a->number = NAME##_list(table.starts, lent.starts, table.targets, lent.targets, a->out, lent.out,            \
                                &a->found);                                                                          \
    }                                                                                                                \
    void NAME##_judges(void) {                                                                                       \
        struct answers *a = &ANSWERS;                                                                                \
        a->number = NAME##_judge(table.starts, lent.starts, table.targets, lent.targets, asked.s, asked.t, &a->yes,  \
                                 &a->size);                                                                          \
    }                                                                                                                \
    static void NAME##_judges_each(void) { /* every pair */                                                          \
        struct answers *a = &ANSWERS;                                                                                \
        for (asked.s = 0; asked.s < table.n; asked.s++)                                                              \
            for (asked.t = 0; asked.t < table.n; asked.t++) {                                                        \
                NAME##_judges();                                                                                     \
                a->sizes[asked.s * 64 + asked.t] = 2 * a->size + a->yes;                                             \
            }                                                                                                        \
    }                                                                                                                \
    FOLDS(NAME##_folds, NAME##_fold, ANSWERS)                                                                        \
    FOLDS(NAME##_folds_weakest, NAME##_fold_weakest, ANSWERS)                                                        \
    FOLDS(NAME##_folds_rings, NAME##_fold_rings, ANSWERS)                                                            \
    FOLDS(NAME##_folds_rings_weakest, NAME##_fold_rings_weakest, ANSWERS)

SIDE(gohardim, ours)
SIDE(plain, theirs)

// Writes over what an earlier call left where the next one will have its working arrays: with n and 1 in turns, which
// mean something in each of them.
static __attribute__((noinline)) void soil_stack(void) {
    u64 soiled[1 << 13];
    for (usize k = 0; k < 1 << 13; k++) soiled[k] = 1ul << 32 | table.n;
    __asm__ volatile("" : : "r"(soiled) : "memory");
}

static usize answers_size(void) { // with as much of the image as is looked at
    return __builtin_offsetof(struct answers, image2) + lent.image2 + BEHIND;
}

static _Bool same_answers(void) {
    return memcmp(&ours, &theirs, answers_size()) == 0;
}

_Bool agree(void (*our)(void), void (*their)(void)) {
    static struct table table_before;
    static u8 image_before[sizeof image];
    enum { UNTOUCHED = 1 }; // each byte before a call: one that a _Bool can have, too
    memcpy(&table_before, &table, sizeof table);
    memcpy(image_before, image, lent.image + BEHIND);
    memset(&ours, UNTOUCHED, answers_size());
    memset(&theirs, UNTOUCHED, answers_size());
    soil_stack();
    our();
    soil_stack();
    their();
    return same_answers() && memcmp(&table, &table_before, sizeof table) == 0 &&
           memcmp(image, image_before, lent.image + BEHIND) == 0;
}

// ---- time

static double now(void) { // in microseconds
    struct timespec t;
    clock_gettime(1, &t);
    return t.seconds * 1e6 + t.nanoseconds / 1e3;
}

static double timed(void (*call)(void), int times) { // microseconds for one call
    double from = now();
    for (int k = 0; k < times; k++) call();
    return (now() - from) / times;
}

struct times {
    double ours, theirs;
};

// Lets the calls take turns and hands out the time of each in its fastest round. A round takes a millisecond or one
// call, and there are enough rounds for `budget` microseconds, but at least 20.
enum { MOST_CALLS = 4 };
static void take_turns(void (*const *calls)(void), usize calls_len, double *best, double budget) {
    int times[MOST_CALLS];
    double all = 0; // of one round each
    for (usize k = 0; k < calls_len; k++) {
        double once = timed(calls[k], 1);
        times[k] = once > 1000 ? 1 : 1 + (int)(1000 / once);
        all += once * times[k];
        best[k] = 1e30;
    }
    for (int rounds = 20 + (int)(budget / all); rounds > 0; rounds--)
        for (usize k = 0; k < calls_len; k++) {
            double time = timed(calls[k], times[k]);
            if (time < best[k]) best[k] = time;
        }
}

static struct times measure(void (*our)(void), void (*their)(void), double budget) {
    if (!agree(our, their)) give_up("the library and the plain C differ");
    void (*const sides[])(void) = {our, their};
    double best[2];
    take_turns(sides, 2, best, budget);
    if (!same_answers()) give_up("the library and the plain C differ");
    return (struct times){best[0], best[1]};
}

static double worst;
static _Bool timing = 1;

static void row_of(usize calls, const char *operation, void (*our)(void), void (*their)(void)) {
    if (!timing) {
        same(operation, our, their);
        return;
    }
    struct times t = measure(our, their, 2e6);
    double ratio = t.ours / t.theirs;
    if (ratio > worst) worst = ratio;
    printf("%-20s %-10s %6lu %6lu %12.2f %12.2f %7.3f\n", operation, table.name, table.n, table.m, t.ours / calls,
           t.theirs / calls, ratio);
    fflush(0);
}

static void row(const char *operation, void (*our)(void), void (*their)(void)) {
    row_of(1, operation, our, their);
}

// Look, load and write of the table at hand, in both versions, each in a row or by its depth.
static void look_load_and_write(void (*shown)(const char *operation, void (*our)(void), void (*their)(void))) {
    make_image(1);
    shown("look", gohardim_looks, plain_looks);
    shown("load", gohardim_loads, plain_loads);
    shown("write", gohardim_writes, plain_writes);
    make_image(2);
    shown("look, lengths", gohardim_looks, plain_looks);
    shown("load, lengths", gohardim_loads, plain_loads);
    shown("write, lengths", gohardim_writes_lengths, plain_writes_lengths);
}

static void list(void) {
    row("list", gohardim_lists, plain_lists);
}

// The folds, one of each version: first those that refuse rings, then those that take them.
enum { REFUSING = 0, TAKING = 2, FOLD_COUNT = 4, VERSIONS = 2 };
static const struct {
    const char *name;
    void (*our)(void), (*their)(void);
} folds[FOLD_COUNT] = {
    {"fold", gohardim_folds, plain_folds},
    {"fold, weakest", gohardim_folds_weakest, plain_folds_weakest},
    {"fold, rings", gohardim_folds_rings, plain_folds_rings},
    {"fold, rings, weakest", gohardim_folds_rings_weakest, plain_folds_rings_weakest},
};

static void fold(usize k) { // of the folds
    folds[k].our();
    const char *accepted = asked.budget == 0 ? "fold, budget 0" : folds[k].name;
    row(ours.number == 9 ? "fold, refused 9" : accepted, folds[k].our, folds[k].their);
}

static void folds_from(usize first) {
    for (usize k = first; k < FOLD_COUNT; k++) fold(k);
}

static void list_and_folds_from(usize first) {
    list();
    folds_from(first);
}

static void list_and_folds_of_version_1(void) {
    list();
    fold(REFUSING);
    fold(TAKING);
}

static void make_acyclic(usize n) {
    make_random("acyclic", n, 4 * n, 0);
}

static void make_cyclic(usize n) {
    make_random("random", n, 4 * n, 1);
}

static void make_arms_of_1(usize n) {
    make_two_arms(n, 1);
}

// The tables that are timed, but for the arms of 64. Of the first ones, rings at their end, the stack is looked at.
enum { DEEP_RINGS = 3, DEEP = 5, FULL = 10 };
static const struct {
    void (*make)(usize);
    usize n;
} full[FULL] = {{make_chain, 2048}, {make_nested, 2040}, {make_comb, 2048}, {make_ring, 2040}, {make_bare_edges, 2040},
                {make_cycle, 2048}, {make_acyclic, 2048}, {make_cyclic, 2048}, {make_layers, 2048},
                {make_arms_of_1, 2048}};

static void heading(void) {
    printf("%-20s %-10s %6s %6s %12s %12s %7s\n", "operation", "table", "n", "m", "verified us", "plain C us", "ratio");
}

static void compare(void) {
    make_chain(2048);
    look_load_and_write(row);
    list_and_folds_from(REFUSING);
    asked.budget = 0;
    fold(REFUSING);
    make_cycle(2048);
    list_and_folds_of_version_1();
    make_nested(2040);
    look_load_and_write(row);
    list_and_folds_from(REFUSING);
    make_comb(2048);
    list_and_folds_from(REFUSING);
    make_acyclic(2048);
    look_load_and_write(row);
    list_and_folds_from(REFUSING);
    make_cyclic(2048);
    list_and_folds_of_version_1();
    make_layers(2048);
    folds_from(REFUSING);
    for (usize inner = 1; inner <= 64; inner *= 64) {
        make_two_arms(2048, inner);
        folds_from(REFUSING);
    }
    make_ring(2040);
    list_and_folds_from(TAKING);
    make_bare_edges(2040);
    list_and_folds_from(TAKING);
    make_nested(64);
    look_load_and_write(row);
    row_of(table.n * table.n, "judge, each pair", gohardim_judges_each, plain_judges_each);
    make_nested(2040);
    row("judge, one pair", gohardim_judges, plain_judges);
    make_comb(2048);
    row("judge, one pair", gohardim_judges, plain_judges);
}

// ---- growth

static void grow(const char *operation, void (*our)(void), void (*their)(void), void (*make_it)(usize)) {
    double before = 0;
    for (usize n = 256; n <= 2048; n *= 2) {
        make_it(n);
        struct times t = measure(our, their, 5e5);
        printf("%-12s %-10s %6lu %6lu %12.2f", operation, table.name, table.n, table.m, t.ours);
        if (before > 0)
            printf(" %7.2f\n", t.ours / before);
        else
            printf(" %7s\n", "-");
        fflush(0);
        before = t.ours;
    }
}

static void growth(void) {
    printf("\ngrowth: the time against that of half as many vertices\n");
    printf("%-12s %-10s %6s %6s %12s %7s\n", "operation", "table", "n", "m", "verified us", "factor");
    grow("list", gohardim_lists, plain_lists, make_chain);
    grow("list", gohardim_lists, plain_lists, make_nested);
    grow("list", gohardim_lists, plain_lists, make_comb);
    grow("fold", gohardim_folds, plain_folds, make_chain);
    grow("fold", gohardim_folds, plain_folds, make_nested);
    grow("fold", gohardim_folds, plain_folds, make_comb);
    grow("fold, rings", gohardim_folds_rings, plain_folds_rings, make_ring);
    grow("fold, rings", gohardim_folds_rings, plain_folds_rings, make_bare_edges);
}

// ---- the cost of the folds that take rings

// The superbubbles of the table at hand that have a bare edge and an interior.
static struct {
    u32 s, t;
} bare[MOST];
static usize bare_found;

// All that an entrance leads to lies in its superbubble: so with a bare edge and one edge more there is an interior.
static void find_bare(void) {
    bare_found = 0;
    gohardim_lists();
    for (usize k = 0; k < ours.found; k++) {
        u32 s = ours.out[2 * k], t = ours.out[2 * k + 1], from = table.starts[s], to = table.starts[s + 1];
        for (u32 e = from; e < to; e++) {
            if (table.targets[e] != t || to - from == 1) continue;
            bare[bare_found].s = s;
            bare[bare_found].t = t;
            bare_found++;
        }
    }
}

static void walk_each(void) { // from each exit to its entrance
    for (usize k = 0; k < bare_found; k++)
        plain_reaches(table.starts, table.targets, table.n, bare[k].t, bare[k].s);
}

static void cost(void) { // on the table at hand; the library's calls and the walks take turns
    find_bare();
    void (*const calls[])(void) = {folds[TAKING].our, folds[TAKING + 1].our, gohardim_lists, walk_each};
    double times[MOST_CALLS] = {0};
    take_turns(calls, bare_found == 0 ? 3 : 4, times, 1e6);
    double list = times[2], walks = times[3];
    for (usize k = 0; k < VERSIONS; k++)
        printf("%-20s %-10s %6lu %6lu %12.2f %12.2f %6lu %12.2f %7.3f\n", folds[TAKING + k].name, table.name, table.n,
               table.m, times[k], list, bare_found, walks, times[k] / (2 * list + walks));
    fflush(0);
}

static void costs(void) {
    printf("\nrings: the time against twice the list and, in plain C, one walk from exit to entrance of each\n"
           "superbubble with a bare edge and an interior\n");
    printf("%-20s %-10s %6s %6s %12s %12s %6s %12s %7s\n", "operation", "table", "n", "m", "verified us", "list us",
           "walks", "walks us", "part");
    for (usize k = 0; k < FULL; k++) {
        full[k].make(full[k].n);
        cost();
    }
}

// ---- stack

enum { STACK = 1 << 20, PAINT = 0xa5, MOST_STACK = 96 * 1024, MOST_APART = 1024 };
static u8 stack[STACK] __attribute__((aligned(64)));

// Calls on a painted stack; the distance from its top to the lowest byte that is not paint any more.
static usize deepest(void (*call)(void)) {
    memset(stack, PAINT, STACK);
    u8 *top = stack + STACK;
    __asm__ volatile("movq %%rsp, %%rbx\n\tmovq %0, %%rsp\n\tcallq *%1\n\tmovq %%rbx, %%rsp"
                     : "+r"(top), "+r"(call)
                     :
                     : "rax", "rbx", "rcx", "rdx", "rsi", "rdi", "r8", "r9", "r10", "r11",
                       "xmm0", "xmm1", "xmm2", "xmm3", "xmm4", "xmm5", "xmm6", "xmm7", "xmm8", "xmm9", "xmm10",
                       "xmm11", "xmm12", "xmm13", "xmm14", "xmm15", "memory", "cc");
    usize low = 0;
    while (low < STACK && stack[low] == PAINT) low++;
    if (low == 0) give_up("a call went through the painted stack");
    return STACK - low;
}

static void depth(const char *operation, void (*our)(void), void (*their)(void)) { // of the library's call
    usize bytes = deepest(our);
    if (!timing)
        count(bytes < MOST_STACK, operation, "the stack reaches 96 KB");
    else
        printf("%-20s %-10s %6lu %6lu %10lu %10lu\n", operation, table.name, table.n, table.m, bytes, deepest(their));
}

static void depths(void) {
    make_acyclic(2048);
    look_load_and_write(depth);
    usize least[2] = {STACK, STACK}, most[2] = {0, 0}; // of the folds, without a cycle and on a ring
    for (usize k = 0; k < DEEP; k++) {
        _Bool ring = k >= DEEP_RINGS;
        full[k].make(full[k].n);
        depth("list", gohardim_lists, plain_lists);
        depth("judge", gohardim_judges, plain_judges);
        for (usize i = ring ? TAKING : REFUSING; i < FOLD_COUNT; i++) {
            depth(folds[i].name, folds[i].our, folds[i].their);
            usize bytes = deepest(folds[i].our);
            if (bytes < least[ring]) least[ring] = bytes;
            if (bytes > most[ring]) most[ring] = bytes;
        }
    }
    for (usize ring = 0; ring < 2 && !timing; ring++)
        count(most[ring] - least[ring] < MOST_APART, "fold", "the stack differs from table to table by 1 KB");
}

int main(int arguments, char **argument) {
    timing = arguments < 2 || strcmp(argument[1], "answers") != 0;
    if (!timing) {
        printf("answers of the library and of the plain C, and the library's stack\n");
        compare();
        compare_answers();
        depths();
        printf("%d passed, %d failed\n", passed, failed);
        return failed != 0;
    }
    heading();
    compare();
    printf("largest ratio: %.3f\n", worst);
    growth();
    costs();
    printf("\nstack, in bytes\n");
    printf("%-20s %-10s %6s %6s %10s %10s\n", "operation", "table", "n", "m", "verified", "plain C");
    depths();
    return 0;
}
