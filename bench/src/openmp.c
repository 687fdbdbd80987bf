// Lives of dependent tasks under libgomp, on one thread.
#include <stdint.h>
#include <time.h>

struct openmp_lives {
    uint64_t nanoseconds;  // of all lives together
    uint64_t begun_early;  // tasks that ran within their own creation, and so were never alive
    uint64_t others_run;   // other tasks that ran while the lives were timed
};

static uint64_t now(void) {
    struct timespec t;
    clock_gettime(CLOCK_MONOTONIC, &t);
    return (uint64_t)t.tv_sec * 1000000000u + (uint64_t)t.tv_nsec;
}

// Carries out so many lives on the last cell, beside alive - 1 tasks on the other cells: with the region's own task, which
// creates them all, alive tasks are unfinished. Those tasks run after the last life. There are at least two cells.
struct openmp_lives openmp_lives(uint64_t *cells, uint32_t count, uint32_t alive, uint64_t lives) {
    struct openmp_lives result = {0, 0, 0};
    uint64_t others_run = 0;
    uint32_t last = count - 1;
#pragma omp parallel num_threads(1) shared(result, others_run)
    {
        for (uint32_t k = 1; k < alive; k++) {
            uint64_t *cell = &cells[k % last];
#pragma omp task depend(inout : cell[0]) firstprivate(cell) shared(others_run)
            {
                *cell += 1;
                others_run += 1;
            }
        }
        uint64_t *cell = &cells[last];

        // One life by hand, to see that a task is kept until it is waited for.
        uint64_t before = *cell;
#pragma omp task depend(inout : cell[0]) firstprivate(cell)
        *cell += 1;
        result.begun_early = *cell - before;
#pragma omp taskwait depend(inout : cell[0])

        uint64_t start = now();
        for (uint64_t i = 0; i < lives; i++) {
#pragma omp task depend(inout : cell[0]) firstprivate(cell)
            *cell += 1;
#pragma omp taskwait depend(inout : cell[0])
        }
        result.nanoseconds = now() - start;
        result.others_run = others_run;
    }
    return result;
}
