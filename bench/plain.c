// Look, load and the two writes, list, judge and the four folds in plain C: the algorithms of the crates step by step,
// with the same checks, the same working arrays and the same answers. The measure that the library is held against.
#include "plain.h"

enum { MOST = 2048, MOST_EDGES = 8192 };
static const u64 MOST_COUNTED = 1099511627775;

// ---- the check of a table

static u32 check(const u32 *starts, usize starts_len, const u32 *targets, usize m) {
    if (starts_len == 0 || starts_len > MOST + 1) return 1;
    if (m > MOST_EDGES) return 2;
    usize n = starts_len - 1;
    if (starts[0] != 0) return 3;
    for (usize v = 0; v < n; v++)
        if (starts[v + 1] < starts[v]) return 3;
    if (starts[n] != m) return 3;
    for (usize k = 0; k < m; k++)
        if (targets[k] >= n) return 4;
    for (usize v = 0; v < n; v++)
        for (usize k = starts[v]; k + 1 < starts[v + 1]; k++)
            if (targets[k + 1] <= targets[k]) return 5;
    return 0;
}

static u32 check_counts(const u64 *counts, usize counts_len, usize n) {
    if (counts_len != n) return 6;
    u64 rest = MOST_COUNTED;
    for (usize v = 0; v < n; v++) {
        if (counts[v] > rest) return 7;
        rest -= counts[v];
    }
    return 0;
}

// ---- look, load and write

enum { HEADER = 13 };

// How many lengths an image has: one a vertex in version 2, and else none.
static usize length_count(u32 version, usize n) {
    return version == 2 ? n : 0;
}

static usize image_length(u32 version, usize n, usize m) {
    return HEADER + 4 * (n + 1) + 4 * m + 8 * n + 2 * length_count(version, n);
}

static u16 half_word(const u8 *from) {
    return from[0] | from[1] << 8;
}

static u32 word(const u8 *from) {
    return half_word(from) | (u32)half_word(from + 2) << 16;
}

static u64 long_word(const u8 *from) {
    return word(from) | (u64)word(from + 4) << 32;
}

static void put_half_word(u8 *to, u16 x) {
    to[0] = x;
    to[1] = x >> 8;
}

static void put_word(u8 *to, u32 x) {
    put_half_word(to, x);
    put_half_word(to + 2, x >> 16);
}

static void put_long_word(u8 *to, u64 x) {
    put_word(to, x);
    put_word(to + 4, x >> 32);
}

// 10, 11, 1, 2, 12, or 0 with version, n and m.
static u32 check_header(const u8 *image, usize image_len, u32 *version, usize *n, usize *m) {
    if (image_len < HEADER || image[0] != 'S' || image[1] != 'B' || image[2] != 'T') return 10;
    *version = half_word(image + 3);
    if (*version != 1 && *version != 2) return 11;
    *n = word(image + 5);
    if (*n > MOST) return 1;
    *m = word(image + 9);
    if (*m > MOST_EDGES) return 2;
    if (image_len != image_length(*version, *n, *m)) return 12;
    return 0;
}

static void lay(const u8 *image, usize n, usize m, usize lengths_len, u32 *starts, u32 *targets, u64 *counts,
                u16 *lengths) {
    const u8 *at = image + HEADER;
    for (usize v = 0; v < n + 1; v++) starts[v] = word(at + 4 * v);
    at += 4 * (n + 1);
    for (usize k = 0; k < m; k++) targets[k] = word(at + 4 * k);
    at += 4 * m;
    for (usize v = 0; v < n; v++) counts[v] = long_word(at + 8 * v);
    at += 8 * n;
    for (usize v = 0; v < lengths_len; v++) lengths[v] = half_word(at + 2 * v);
}

// 3, 4, 5, 7, 20, or 0, of table and lengths where they stand in the image.
static u32 check_in_place(const u8 *image, u32 version, usize n, usize m) {
    const u8 *starts = image + HEADER, *targets = starts + 4 * (n + 1), *counts = targets + 4 * m;
    const u8 *lengths = counts + 8 * n;
    if (word(starts) != 0) return 3;
    for (usize v = 0; v < n; v++)
        if (word(starts + 4 * (v + 1)) < word(starts + 4 * v)) return 3;
    if (word(starts + 4 * n) != m) return 3;
    for (usize k = 0; k < m; k++)
        if (word(targets + 4 * k) >= n) return 4;
    for (usize v = 0; v < n; v++)
        for (usize k = word(starts + 4 * v); k + 1 < word(starts + 4 * (v + 1)); k++)
            if (word(targets + 4 * (k + 1)) <= word(targets + 4 * k)) return 5;
    u64 rest = MOST_COUNTED;
    for (usize v = 0; v < n; v++) {
        u64 count = long_word(counts + 8 * v);
        if (count > rest) return 7;
        rest -= count;
    }
    for (usize v = 0; v < length_count(version, n); v++)
        if (half_word(lengths + 2 * v) == 0) return 20;
    return 0;
}

u32 plain_look(const u8 *image, usize image_len, u32 *version, usize *vertices, usize *edges) {
    *version = 0;
    *vertices = *edges = 0;
    u32 said;
    usize n, m;
    u32 number = check_header(image, image_len, &said, &n, &m);
    if (number != 0) return number;
    number = check_in_place(image, said, n, m);
    if (number != 0) return number;
    *version = said;
    *vertices = n;
    *edges = m;
    return 0;
}

u32 plain_load(const u8 *image, usize image_len, u32 *starts, usize starts_len, u32 *targets, usize targets_len,
               u64 *counts, usize counts_len, u16 *lengths, usize lengths_len, u32 *version, usize *vertices,
               usize *edges) {
    u32 number = plain_look(image, image_len, version, vertices, edges);
    if (number != 0) return number;
    usize n = *vertices, m = *edges, needed = length_count(*version, n);
    if (starts_len < n + 1 || targets_len < m || counts_len < n || lengths_len < needed) {
        *version = 0;
        *vertices = *edges = 0;
        return 8;
    }
    lay(image, n, m, needed, starts, targets, counts, lengths);
    return 0;
}

// Writes the image of a version; in version 1 the lengths are none.
static u32 write(u32 version, const u32 *starts, usize starts_len, const u32 *targets, usize m, const u64 *counts,
                 usize counts_len, const u16 *lengths, usize lengths_len, u8 *image, usize image_len, usize *length) {
    *length = 0;
    u32 number = check(starts, starts_len, targets, m);
    if (number != 0) return number;
    usize n = starts_len - 1;
    if (lengths_len != length_count(version, n)) return 6;
    number = check_counts(counts, counts_len, n);
    if (number != 0) return number;
    for (usize v = 0; v < lengths_len; v++)
        if (lengths[v] == 0) return 20;
    if (image_len < image_length(version, n, m)) return 8;
    image[0] = 'S';
    image[1] = 'B';
    image[2] = 'T';
    put_half_word(image + 3, version);
    put_word(image + 5, n);
    put_word(image + 9, m);
    u8 *at = image + HEADER;
    for (usize v = 0; v < n + 1; v++) put_word(at + 4 * v, starts[v]);
    at += 4 * (n + 1);
    for (usize k = 0; k < m; k++) put_word(at + 4 * k, targets[k]);
    at += 4 * m;
    for (usize v = 0; v < n; v++) put_long_word(at + 8 * v, counts[v]);
    at += 8 * n;
    for (usize v = 0; v < lengths_len; v++) put_half_word(at + 2 * v, lengths[v]);
    *length = image_length(version, n, m);
    return 0;
}

u32 plain_write(const u32 *starts, usize starts_len, const u32 *targets, usize m, const u64 *counts, usize counts_len,
                u8 *image, usize image_len, usize *length) {
    return write(1, starts, starts_len, targets, m, counts, counts_len, 0, 0, image, image_len, length);
}

u32 plain_write_lengths(const u32 *starts, usize starts_len, const u32 *targets, usize m, const u64 *counts,
                        usize counts_len, const u16 *lengths, usize lengths_len, u8 *image, usize image_len,
                        usize *length) {
    return write(2, starts, starts_len, targets, m, counts, counts_len, lengths, lengths_len, image, image_len, length);
}

// ---- the search from an entrance to its exit

// How many edges lead to each vertex.
static void count_parents(const u32 *targets, usize m, u32 *parents, usize n) {
    memset(parents, 0, n * sizeof *parents);
    for (usize k = 0; k < m; k++) parents[targets[k]]++;
}

static _Bool holds(const u32 *row, const u32 *end, u32 v) {
    while (row < end && *row != v) row++;
    return row < end;
}

// Visits a vertex once all its parents are, until one is ready and no other is reached. Answers whether there is an
// exit; how many were visited is handed out in either case, and what is left of the parents is whole again.
static _Bool search(const u32 *starts, const u32 *targets, const u32 *parents, u32 *left, u32 *order, u32 s,
                    u32 *exit, usize *visited) {
    usize head = 0, tail = 1, waiting = 0;
    _Bool found = 0;
    order[0] = s;
    while (head < tail) {
        u32 v = order[head];
        const u32 *row = targets + starts[v], *end = targets + starts[v + 1];
        if (holds(row, end, s)) break;
        if (head != 0 && tail == head + 1 && waiting == 0) {
            *exit = v;
            found = 1;
            break;
        }
        if (row == end) break;
        for (const u32 *edge = row; edge < end; edge++) {
            u32 u = *edge, all = parents[u], some = left[u];
            order[tail] = u;
            left[u] = some - 1;
            tail += some == 1;
            waiting += (some != 1 && some - 1 < all) - (some != 0 && some < all);
        }
        head++;
    }
    *visited = head;
    for (usize k = head; k > 0; k--) {
        u32 v = order[k - 1];
        for (usize e = starts[v]; e < starts[v + 1]; e++) left[targets[e]]++;
    }
    return found;
}

// ---- list and judge

u32 plain_list(const u32 *starts, usize starts_len, const u32 *targets, usize m, u32 *out, usize out_len,
               usize *found) {
    *found = 0;
    u32 number = check(starts, starts_len, targets, m);
    if (number != 0) return number;
    usize n = starts_len - 1;
    if (out_len < 2 * n) return 8;
    u32 parents[MOST], left[MOST], order[MOST];
    count_parents(targets, m, parents, n);
    memcpy(left, parents, n * sizeof *left);
    usize pairs = 0;
    for (u32 s = 0; s < n; s++) {
        u32 t;
        usize visited;
        if (search(starts, targets, parents, left, order, s, &t, &visited)) {
            out[2 * pairs] = s;
            out[2 * pairs + 1] = t;
            pairs++;
        }
    }
    *found = pairs;
    return 0;
}

u32 plain_judge(const u32 *starts, usize starts_len, const u32 *targets, usize m, u32 s, u32 t, _Bool *yes,
                u32 *size) {
    *yes = 0;
    *size = 0;
    u32 number = check(starts, starts_len, targets, m);
    if (number != 0) return number;
    usize n = starts_len - 1;
    if (s >= n || t >= n) return 13;
    u32 parents[MOST], left[MOST], order[MOST];
    count_parents(targets, m, parents, n);
    memcpy(left, parents, n * sizeof *left);
    u32 exit;
    usize visited;
    if (!search(starts, targets, parents, left, order, s, &exit, &visited) || exit != t) return 0;
    u64 words[MOST / 64] = {0};
    for (usize k = 0; k < visited; k++) words[order[k] / 64] |= 1ul << order[k] % 64;
    words[t / 64] |= 1ul << t % 64;
    u32 sum = 0;
    for (usize i = 0; i < MOST / 64; i++) sum += __builtin_popcountl(words[i]);
    *yes = 1;
    *size = sum;
    return 0;
}

// ---- fold

// Visits a vertex and, depth first, what it leads to; for each vertex on the path but the last `places` has the place
// in its row. Answers whether a vertex on the path was met again.
static _Bool closes(const u32 *starts, const u32 *targets, u8 *colours, u16 *path, u16 *places, u32 root) {
    if (colours[root] != 0) return 0;
    colours[root] = 1;
    path[0] = root;
    usize depth = 0, v = root, place = 0;
    for (;;) {
        const u32 *row = targets + starts[v];
        usize length = starts[v + 1] - starts[v];
        while (place < length && colours[row[place]] == 2) place++;
        if (place < length) {
            u32 next = row[place];
            if (colours[next] == 1) return 1;
            colours[next] = 1;
            places[depth] = place;
            depth++;
            path[depth] = next;
            v = next;
            place = 0;
        } else {
            colours[v] = 2;
            if (depth == 0) return 0;
            depth--;
            v = path[depth];
            place = places[depth];
        }
    }
}

static _Bool has_cycle(const u32 *starts, const u32 *targets, usize n) {
    u8 colours[MOST];
    u16 path[MOST], places[MOST];
    memset(colours, 0, n);
    for (u32 v = 0; v < n; v++)
        if (closes(starts, targets, colours, path, places, v)) return 1;
    return 0;
}

// Whether a path leads from one vertex to another: breadth first, each vertex in the queue once, and ended where the
// other one is met.
_Bool plain_reaches(const u32 *starts, const u32 *targets, usize n, u32 from, u32 to) {
    if (from == to) return 1;
    u8 marks[MOST];
    u16 queue[MOST];
    memset(marks, 0, n);
    marks[from] = 1;
    queue[0] = from;
    usize tail = 1;
    for (usize head = 0; head < tail; head++) {
        u32 v = queue[head];
        for (usize e = starts[v]; e < starts[v + 1]; e++) {
            u32 u = targets[e];
            if (u == to) return 1;
            if (marks[u]) continue;
            marks[u] = 1;
            queue[tail++] = u;
        }
    }
    return 0;
}

// Whether a superbubble with an interior is never itself folded: it has a bare edge, and its exit reaches its entrance.
static _Bool is_skipped(const u32 *starts, const u32 *targets, usize n, u32 s, u32 t) {
    return holds(targets + starts[s], targets + starts[s + 1], t) && plain_reaches(starts, targets, n, t, s);
}

// Whether a table with a cycle is refused or taken.
enum rings { REFUSED, TAKEN };

// The exit of each candidate, by its entrance, and n for every other vertex: of the superbubbles with an interior, where
// rings are taken without those that are skipped, the outermost.
static usize find_candidates(enum rings rings, const u32 *starts, const u32 *targets, usize n, const u32 *parents,
                             u32 *left, u32 *order, u32 *exits) {
    memset(exits, 0, n * sizeof *exits);
    for (u32 s = 0; s < n; s++) {
        u32 t;
        usize visited;
        if (exits[s] == n) continue;
        if (!search(starts, targets, parents, left, order, s, &t, &visited) || visited < 2 ||
            (rings == TAKEN && is_skipped(starts, targets, n, s, t))) {
            exits[s] = n;
            continue;
        }
        exits[s] = t;
        for (usize k = 1; k < visited; k++) exits[order[k]] = n;
    }
    usize found = 0;
    for (usize s = 0; s < n; s++) found += exits[s] < n;
    return found;
}

// How the kept path is chosen: by the largest sum of its inner counts, or by the largest smallest one of them.
enum choosing { SUM, WEAKEST };

// What a path gains that goes on to u: `end` at the exit; else by the sum the count of u more than the best from u, and
// by the weakest the smaller of that best and one more than the count, so that the bare edge, 0, is below every arm.
static u64 worth(enum choosing by, const u64 *counts, const u64 *best, u32 t, u64 end, u32 u) {
    if (u == t) return end;
    if (by == SUM) return counts[u] + best[u];
    return counts[u] + 1 < best[u] ? counts[u] + 1 : best[u];
}

// The best that a path gains from each visited vertex on, and the first child that leads to it, the last vertex first.
// The exit gains the bound, and nothing from the entrance.
static void settle(enum choosing by, const u32 *starts, const u32 *targets, const u64 *counts, const u32 *visited,
                   usize visited_len, u32 t, u64 bound, u64 *best, u32 *next) {
    for (usize k = visited_len; k > 0; k--) {
        u32 v = visited[k - 1];
        u64 end = k == 1 ? 0 : bound;
        const u32 *row = targets + starts[v], *row_end = targets + starts[v + 1];
        u32 child = *row;
        u64 gain = worth(by, counts, best, t, end, child);
        for (const u32 *edge = row + 1; edge < row_end; edge++) {
            u64 more = worth(by, counts, best, t, end, *edge);
            if (more > gain) {
                child = *edge;
                gain = more;
            }
        }
        best[v] = gain;
        next[v] = child;
    }
}

// Keeps the best path through the visited vertices to t: the next vertex of each kept one, n + 1 for a dropped one. The
// inner vertices of the path share what is dropped: to each the quotient, and to the first ones, as many as the
// remainder, one more. By the weakest a second round asks of no vertex more than the best path has, so that all paths
// as strong are equal, and the first child leads along the kept one.
static void keep_path(enum choosing by, const u32 *starts, const u32 *targets, const u64 *counts, usize n,
                      const u32 *visited, usize visited_len, u32 t, u64 *best, u32 *next, u64 *counts2) {
    u64 bound = by == SUM ? 0 : MOST_COUNTED + 1;
    settle(by, starts, targets, counts, visited, visited_len, t, bound, best, next);
    if (by == WEAKEST) settle(by, starts, targets, counts, visited, visited_len, t, best[visited[0]], best, next);
    u32 kept = next[visited[0]];
    u64 inner = 0, dropped = 0;
    for (usize k = 1; k < visited_len; k++) {
        u32 v = visited[k];
        if (v == kept) {
            kept = next[v];
            inner++;
        } else {
            next[v] = n + 1;
            counts2[v] = 0;
            dropped += counts[v];
        }
    }
    if (inner == 0) return;
    u64 quotient = dropped / inner, remainder = dropped % inner;
    u32 v = visited[0];
    for (u64 j = 0; j < inner; j++) {
        v = next[v];
        counts2[v] = counts[v] + quotient + (j < remainder);
    }
}

// Writes the edges that stay: of a row all where next is n, else the one to next, or none.
static usize write_table(const u32 *starts, const u32 *targets, usize n, const u32 *next, u32 *starts2,
                         u32 *targets2) {
    usize at = 0;
    for (usize v = 0; v < n; v++) {
        starts2[v] = at;
        if (next[v] < n)
            targets2[at++] = next[v];
        else if (next[v] == n)
            for (usize k = starts[v]; k < starts[v + 1]; k++) targets2[at++] = targets[k];
    }
    starts2[n] = at;
    return at;
}

static u32 fold(enum rings rings, enum choosing by, const u32 *starts, usize starts_len, const u32 *targets, usize m,
                const u64 *counts, usize counts_len, u32 budget, u32 *starts2, usize starts2_len, u32 *targets2,
                usize targets2_len, u64 *counts2, usize counts2_len, usize *folded, usize *left_over, usize *edges) {
    *folded = *left_over = *edges = 0;
    u32 number = check(starts, starts_len, targets, m);
    if (number != 0) return number;
    usize n = starts_len - 1;
    number = check_counts(counts, counts_len, n);
    if (number != 0) return number;
    if (starts2_len < n + 1 || targets2_len < m || counts2_len < n) return 8;
    if (rings == REFUSED && has_cycle(starts, targets, n)) return 9;
    u32 parents[MOST], left[MOST], order[MOST], exits[MOST], next[MOST];
    u64 best[MOST];
    count_parents(targets, m, parents, n);
    memcpy(left, parents, n * sizeof *left);
    usize found = find_candidates(rings, starts, targets, n, parents, left, order, exits);
    for (usize v = 0; v < n; v++) next[v] = n;
    memcpy(counts2, counts, n * sizeof *counts);
    usize done = 0;
    for (u32 s = 0; s < n; s++) {
        u32 t;
        usize visited;
        if (exits[s] >= n || done >= budget) continue;
        search(starts, targets, parents, left, order, s, &t, &visited);
        keep_path(by, starts, targets, counts, n, order, visited, t, best, next, counts2);
        done++;
    }
    *edges = write_table(starts, targets, n, next, starts2, targets2);
    *folded = done;
    *left_over = found - done;
    return 0;
}

#define FOLD(NAME, RINGS, BY)                                                                                        \
    u32 NAME(const u32 *starts, usize starts_len, const u32 *targets, usize m, const u64 *counts, usize counts_len,  \
             u32 budget, u32 *starts2, usize starts2_len, u32 *targets2, usize targets2_len, u64 *counts2,           \
             usize counts2_len, usize *folded, usize *left_over, usize *edges) {                                     \
        return fold(RINGS, BY, starts, starts_len, targets, m, counts, counts_len, budget, starts2, starts2_len,     \
                    targets2, targets2_len, counts2, counts2_len, folded, left_over, edges);                         \
    }

FOLD(plain_fold, REFUSED, SUM)
FOLD(plain_fold_weakest, REFUSED, WEAKEST)
FOLD(plain_fold_rings, TAKEN, SUM)
FOLD(plain_fold_rings_weakest, TAKEN, WEAKEST)
