// What the work on a map of another library needs: the parts by their numbers, and keys one after another.
#include <stddef.h>
#include <stdint.h>
#ifdef __cplusplus
extern "C" {
#endif
void bench_begin(size_t part);
#ifdef __cplusplus
}
#endif
enum { INSERT, GET, GET_MUT, MATCH, WALK, BACK, BELOW, CLONE, WALK_CLONE, DROP_CLONE, REMOVE, AGAIN, CLEAR };

static inline size_t from(const uint64_t *ends, size_t at) { return at ? ends[at - 1] : 0; }
static inline size_t len(const uint64_t *ends, size_t at) { return ends[at] - from(ends, at); }
