// The calls of the library, and the same calls in plain C. The kit has no C headers, so the few names that are needed
// stand here.
#include "gohardim.h"

typedef gohardim_u8 u8;
typedef gohardim_u16 u16;
typedef gohardim_u32 u32;
typedef gohardim_u64 u64;
typedef gohardim_size usize;

__typeof__(gohardim_look) plain_look;
__typeof__(gohardim_load) plain_load;
__typeof__(gohardim_write) plain_write;
__typeof__(gohardim_write_lengths) plain_write_lengths;
__typeof__(gohardim_list) plain_list;
__typeof__(gohardim_judge) plain_judge;
__typeof__(gohardim_fold) plain_fold;
__typeof__(gohardim_fold_weakest) plain_fold_weakest;
__typeof__(gohardim_fold_rings) plain_fold_rings;
__typeof__(gohardim_fold_rings_weakest) plain_fold_rings_weakest;

// The walk of the folds that take rings, by itself, so that it can be timed.
_Bool plain_reaches(const u32 *starts, const u32 *targets, usize n, u32 from, u32 to);

void *memset(void *to, int byte, usize size);
void *memcpy(void *restrict to, const void *restrict from, usize size);
int memcmp(const void *a, const void *b, usize size);
int strcmp(const char *a, const char *b);
