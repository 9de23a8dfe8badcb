// Whether the library and the plain C give the same answers, asked where a wrong one would differ: on the graphs A to
// N, on small tables and rings full of superbubbles and ties, on damaged tables and damaged images of both versions,
// with exact room and one less, and on both sides of each limit. Every comparison is counted, and takes in all the
// memory that was lent.
#include "bench.h"

// ---- the count

int passed, failed;

void count(_Bool right, const char *operation, const char *what) {
    if (right) {
        passed++;
        return;
    }
    failed++;
    if (failed <= 20) // enough to find out why
        printf("%s, %s, n = %lu, m = %lu: %s\n", operation, table.name, table.n, table.m, what);
}

void same(const char *operation, void (*our)(void), void (*their)(void)) {
    _Bool right = agree(our, their);
    char what[80];
    snprintf(what, sizeof what, "the library and the plain C differ (numbers %u and %u)", ours.number, theirs.number);
    count(right, operation, what);
}

// ---- one comparison of each call; bit k of its numbers says that it gave number k

#define COMPARED(CALL, NAME, CALLS)                                                                                  \
    static u32 CALL##_numbers;                                                                                       \
    static void CALL(void) {                                                                                         \
        same(NAME, gohardim_##CALLS, plain_##CALLS);                                                                 \
        CALL##_numbers |= 1u << ours.number;                                                                         \
    }

COMPARED(look, "look", looks)
COMPARED(load, "load", loads)
COMPARED(write, "write", writes)
COMPARED(write_lengths, "write, lengths", writes_lengths)
COMPARED(list, "list", lists)
COMPARED(judge, "judge", judges)
COMPARED(fold, "fold", folds)
COMPARED(fold_weakest, "fold, weakest", folds_weakest)
COMPARED(fold_rings, "fold, rings", folds_rings)
COMPARED(fold_rings_weakest, "fold, rings, weakest", folds_rings_weakest)

static void look_and_load(void) { // the image at hand
    look();
    load();
}

static void look_and_load_both(void) { // the image of each version
    for (u32 version = 1; version <= 2; version++) {
        make_image(version);
        look_and_load();
    }
}

static void write_both(void) {
    write();
    write_lengths();
}

static void each_fold(void) { // of both versions, with rings refused and with rings taken
    fold();
    fold_weakest();
    fold_rings();
    fold_rings_weakest();
}

static void each_call(void) { // on the table at hand, and on its images
    look_and_load_both();
    write_both();
    list();
    judge();
    each_fold();
}

// ---- a table that is not damaged: rooms, budgets and pairs

static void lend_exact_room(u32 version) { // and the image of this version
    make_image(version);
    lent.out = 2 * table.n;
    lent.starts2 = table.n + 1;
    lent.targets2 = table.m;
    lent.counts2 = table.n;
    lent.lengths2 = version == 2 ? table.n : 0;
    lent.image2 = lent.image;
}

static void with_one_less(usize *length, void (*call)(void)) {
    if (*length == 0) return;
    --*length;
    call();
    ++*length;
}

static void load_and_each_fold(void) {
    look_and_load_both();
    each_fold();
}

static void compare_rooms(void) { // more than is needed, none, exactly that of each version, and each alone one less
    each_call();
    lent.out = lent.starts2 = lent.targets2 = lent.counts2 = lent.lengths2 = lent.image2 = 0;
    each_call();
    lend_exact_room(1);
    each_call();
    with_one_less(&lent.image2, write_both);
    lend_exact_room(2);
    each_call();
    with_one_less(&lent.out, list);
    with_one_less(&lent.starts2, load_and_each_fold);
    with_one_less(&lent.targets2, load_and_each_fold);
    with_one_less(&lent.counts2, load_and_each_fold);
    with_one_less(&lent.lengths2, look_and_load_both);
    with_one_less(&lent.image2, write_both);
}

static void compare_there_and_back(void) { // what is loaded is the table, and what is written is its image
    for (u32 version = 1; version <= 2; version++) {
        make_image(version);
        gohardim_loads();
        _Bool loaded = ours.number == 0 && ours.version == version && ours.vertices == table.n &&
                       ours.edges == table.m &&
                       memcmp(ours.starts2, table.starts, (table.n + 1) * sizeof *table.starts) == 0 &&
                       memcmp(ours.targets2, table.targets, table.m * sizeof *table.targets) == 0 &&
                       memcmp(ours.counts2, table.counts, table.n * sizeof *table.counts) == 0;
        if (version == 2)
            loaded = loaded && memcmp(ours.lengths2, table.lengths, table.n * sizeof *table.lengths) == 0;
        count(loaded, "load", "not the table of the image");
        version == 2 ? gohardim_writes_lengths() : gohardim_writes();
        _Bool written = ours.number == 0 && ours.length == lent.image && memcmp(ours.image2, image, lent.image) == 0;
        count(written, "write", "not the image of the table");
    }
}

static void compare_budgets(void) { // 0, 1, 2, 3, and the powers of four; the rooms are compared with ALL
    struct asked before = asked;
    for (asked.budget = 0; asked.budget < 4; asked.budget++) each_fold();
    for (asked.budget = 4; asked.budget != 0; asked.budget *= 4) each_fold();
    asked = before;
}

static void compare_superbubbles(void) { // each that is listed is judged
    struct asked before = asked;
    static u32 pairs[2 * MOST];
    gohardim_lists();
    usize found = ours.found;
    memcpy(pairs, ours.out, 2 * found * sizeof *pairs);
    for (usize k = 0; k < found; k++) {
        asked.s = pairs[2 * k];
        asked.t = pairs[2 * k + 1];
        judge();
    }
    asked = before;
}

static void compare_pairs(void) { // each, and those with n and n + 1, which are no vertices
    struct asked before = asked;
    for (asked.s = 0; asked.s < table.n + 2; asked.s++)
        for (asked.t = 0; asked.t < table.n + 2; asked.t++) judge();
    asked = before;
}

// ---- a table that is damaged at one place

static void with_each_number(u32 *place, u32 most) {
    u32 before = *place;
    for (u32 number = 0; number <= most; number++) {
        *place = number;
        each_call();
    }
    *place = before;
}

static void with_largest_sums(u64 *count) { // reached, passed by one, and so large that the sum of 64 bits is small
    u64 before = *count, others = 0;
    for (usize v = 0; v < table.n; v++) others += table.counts[v];
    others -= before;
    *count = MOST_COUNTED - others;
    each_call();
    ++*count;
    each_call();
    *count = 0 - others;
    each_call();
    *count = before;
}

static void with_some_lengths(u16 *length) { // 0, which is refused, and those next to it or with a byte that is 0
    static const u16 some[] = {0, 1, 255, 256, 65280, 65535};
    u16 before = *length;
    for (usize k = 0; k < sizeof some / sizeof *some; k++) {
        *length = some[k];
        look_and_load_both();
        write_both();
    }
    *length = before;
}

static void compare_damages(void) {
    usize *const lengths[] = {&lent.starts,  &lent.targets,  &lent.counts,  &lent.lengths,  &lent.out,
                              &lent.starts2, &lent.targets2, &lent.counts2, &lent.lengths2, &lent.image2};
    lend_exact_room(2);
    for (usize k = 0; k < sizeof lengths / sizeof *lengths; k++) {
        with_one_less(lengths[k], each_call);
        ++*lengths[k];
        each_call();
        --*lengths[k];
    }
    for (usize v = 0; v <= table.n; v++) with_each_number(&table.starts[v], table.m + 1);
    for (usize k = 0; k < table.m; k++) with_each_number(&table.targets[k], table.n);
    for (usize v = 0; v < table.n; v++) with_largest_sums(&table.counts[v]);
    for (usize v = 0; v < table.n; v++) with_some_lengths(&table.lengths[v]);
}

// ---- an image that is cut short, has a byte more, is damaged at one byte, or has another version

static void compare_image_damages(u32 version) {
    lend_exact_room(version);
    usize length = lent.image;
    for (lent.image = 0; lent.image <= length + 1; lent.image++) look_and_load();
    lent.image = length;
    for (usize k = 0; k < length; k++) {
        u8 before = image[k];
        const u8 others[] = {before + 1, before - 1, before ^ 128, 0};
        for (usize i = 0; i < sizeof others; i++) {
            image[k] = others[i];
            look_and_load();
        }
        image[k] = before;
    }
}

static void compare_versions(void) { // up to 259, in an image as long as version 1 asks for, and version 2
    make_graph('K');
    for (u32 version = 1; version <= 2; version++) {
        make_image(version);
        for (u32 other = 0; other < 260; other++) {
            image[3] = other;
            image[4] = other >> 8;
            look_and_load();
        }
    }
}

static void compare_image_limits(u32 version) { // n and m at their limits and past them, in an image that lacks a byte
    make_graph('A');
    for (table.n = MOST; table.n <= MOST + 1; table.n++)
        for (table.m = MOST_EDGES; table.m <= MOST_EDGES + 1; table.m++) {
            make_image(version);
            lent.image--;
            look_and_load();
        }
}

// ---- of several numbers the first: graph K with every choice of twelve damages, each of which earns one number; the
// last two are of its lengths, and a choice with them is put to their write alone

static void compare_choices(void) {
    for (u32 choice = 0; choice < 1u << 12; choice++) {
        make_graph('K');
        lend_exact_room(2);
        if (choice & 1) lent.starts = 0;                               // 1
        if (choice & 2) lent.targets = MOST_EDGES + 1;                 // 2
        if (choice & 4) table.starts[0] = 1;                           // 3
        if (choice & 8) table.targets[7] = table.n;                    // 4
        if (choice & 16) table.targets[1] = table.targets[0];          // 5
        if (choice & 32) lent.counts--;                                // 6
        if (choice & 64) table.counts[0] = MOST_COUNTED;               // 7
        if (choice & 128) lent.out--, lent.counts2--, lent.image2 = 0; // 8
        if (choice & 256) table.targets[2] = 1;                        // 9, by a self-loop
        if (choice & 512) asked.s = table.n;                           // 13
        if (choice & 1024) lent.lengths--;                             // 6
        if (choice & 2048) table.lengths[3] = 0;                       // 20
        choice < 1u << 10 ? each_call() : write_lengths();
    }
}

static void compare_image_choices(u32 version) {
    for (u32 choice = 0; choice < 1u << 11; choice++) {
        make_graph('K');
        lend_exact_room(version);
        if (choice & 32) table.starts[0] = 1;                  // 3
        if (choice & 64) table.targets[7] = table.n;           // 4
        if (choice & 128) table.targets[1] = table.targets[0]; // 5
        if (choice & 256) table.counts[0] = MOST_COUNTED;      // 7
        if (choice & 512) table.lengths[3] = 0;                // 20, of version 2
        if (choice & 1024) lent.targets2--;                    // 8
        make_image(version);
        if (choice & 1) image[2]++;    // 10
        if (choice & 2) image[4]++;    // 11
        if (choice & 4) image[8]++;    // 1
        if (choice & 8) image[12]++;   // 2
        if (choice & 16) lent.image--; // 12
        look_and_load();
    }
}

// ---- the largest counts by which two arms can differ, on the second the larger one

static void compare_halves(void) {
    make_graph('D');
    table.counts[0] = table.counts[3] = 0;
    table.counts[1] = MOST_COUNTED / 2;
    table.counts[2] = MOST_COUNTED / 2 + 1;
    each_fold();
}

// ---- the largest tables, and those one larger

static void compare_limits(void) {
    for (usize n = MOST; n <= MOST + 1; n++) {
        make_chain(n);
        compare_rooms();
        with_largest_sums(&table.counts[n - 1]);
        with_some_lengths(&table.lengths[0]);
        with_some_lengths(&table.lengths[n / 2]);
        with_some_lengths(&table.lengths[n - 1]);
    }
    make_superbubbles(MOST);
    compare_budgets();
    compare_superbubbles();
    make_bare_edges(MOST);
    each_fold();
    for (usize m = MOST_EDGES; m <= MOST_EDGES + 1; m++) {
        make_random("acyclic", 200, m, 0);
        compare_rooms();
        make_random("random", 100, m, 1);
        compare_rooms();
    }
}

// ---- numbers far too large

static void with_far_numbers(u32 *place, void (*call)(void)) {
    u32 before = *place;
    *place = 1u << 31;
    call();
    *place = ALL;
    call();
    *place = before;
}

static void compare_far(void) {
    make_graph('K');
    with_far_numbers(&asked.s, judge);
    with_far_numbers(&asked.t, judge);
    for (usize v = 0; v <= table.n; v++) with_far_numbers(&table.starts[v], each_call);
    for (usize k = 0; k < table.m; k++) with_far_numbers(&table.targets[k], each_call);
}

// ---- images: each byte of a header, too, can make a number far too large

static void compare_images(void) {
    for (char letter = 'A'; letter <= 'L'; letter++) {
        make_graph(letter);
        compare_there_and_back();
        compare_image_damages(1);
        compare_image_damages(2);
    }
    make_random("acyclic", MOST, MOST_EDGES, 0);
    compare_there_and_back();
    compare_rooms();
    compare_versions();
    for (u32 version = 1; version <= 2; version++) {
        compare_image_limits(version);
        compare_image_choices(version);
    }
}

// ---- all of it

void compare_answers(void) {
    for (char letter = 'A'; letter <= 'N'; letter++) {
        make_graph(letter);
        compare_rooms();
        compare_budgets();
        compare_pairs();
        compare_damages();
    }
    for (u32 which = 0; which < 300; which++) {
        make_drawn(which, 12, 0);
        compare_rooms();
        compare_budgets();
        compare_pairs();
        if (which < 10) compare_damages();
        make_drawn(which, 12, 1);
        compare_budgets();
    }
    for (u32 which = 0; which < 50; which++) {
        make_drawn(which, 200, 0);
        compare_rooms();
        compare_superbubbles();
        make_drawn(which, 200, 1);
        compare_budgets();
    }
    for (u32 t = 0; t < 300; t++) {
        make_arms(300, t);
        each_call();
    }
    for (usize inner = 1; inner <= 40; inner++) {
        make_two_arms(300, inner);
        compare_budgets();
    }
    for (usize n = 4; n <= 300; n += 4) {
        make_ring(n);
        compare_budgets();
        make_bare_edges(n);
        compare_budgets();
    }
    compare_choices();
    compare_halves();
    compare_limits();
    // A side that takes a number far too large reads far outside of what it was lent, and may not come back.
    if (failed == 0) compare_far();
    if (failed == 0) compare_images();
    table.name = "all cases together";
    const u32 of_image = 0xbf | 7u << 10 | 1u << 20, of_table = 0x1ff;
    count(look_numbers == of_image, "look", "the numbers given are not 0 to 5, 7, 10 to 12 and 20");
    count(load_numbers == (of_image | 1u << 8), "load", "the numbers given are not 0 to 5, 7, 8, 10 to 12 and 20");
    count(write_numbers == of_table, "write", "the numbers given are not 0 to 8");
    count(write_lengths_numbers == (of_table | 1u << 20), "write, lengths", "the numbers given are not 0 to 8 and 20");
    count(list_numbers == (0x3f | 1u << 8), "list", "the numbers given are not 0 to 5 and 8");
    count(judge_numbers == (0x3f | 1u << 13), "judge", "the numbers given are not 0 to 5 and 13");
    count(fold_numbers == 0x3ff, "fold", "the numbers given are not 0 to 9");
    count(fold_weakest_numbers == 0x3ff, "fold, weakest", "the numbers given are not 0 to 9");
    count(fold_rings_numbers == of_table, "fold, rings", "the numbers given are not 0 to 8");
    count(fold_rings_weakest_numbers == of_table, "fold, rings, weakest", "the numbers given are not 0 to 8");
}
