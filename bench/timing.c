// Times the making of a large pipe map, a distance in it, a distance in a pile of three links over it, and draws on a full book.
// Build and run: bench/run
#include <stdint.h>
#include <stdio.h>
#include <time.h>

uint32_t timing_maps(uint32_t turns);
uint64_t timing_distances(uint32_t turns);
uint64_t timing_three_links(uint32_t turns);
uint32_t timing_trunk_draws(uint32_t turns);
uint32_t timing_map_draws(uint32_t turns);

static double seconds(void) {
    struct timespec t;
    clock_gettime(CLOCK_MONOTONIC, &t);
    return (double)t.tv_sec + (double)t.tv_nsec * 1e-9;
}

// Prints what one turn took beside its limit, both in nanoseconds.
static int within(const char *what, double took, double limit) {
    printf("%-40s %12.1f ns, limit %12.1f ns\n", what, took, limit);
    return took <= limit;
}

// What one distance took, without the making of the source.
static double each(uint64_t (*ask)(uint32_t), uint32_t turns) {
    double start = seconds();
    uint64_t none = ask(0);
    double made = seconds();
    uint64_t sum = ask(turns);
    double end = seconds();
    if (none != 0 || sum == 0) {
        printf("no memory\n");
        return 1e300;
    }
    return ((end - made) - (made - start)) / turns * 1e9;
}

// What one draw on a full book took, without the making of the book.
static double draw(uint32_t (*draws)(uint32_t), uint32_t turns) {
    double start = seconds();
    draws(0);
    double made = seconds();
    uint32_t drawn = draws(turns);
    double end = seconds();
    if (drawn != turns) {
        printf("not drawn\n");
        return 1e300;
    }
    return ((end - made) - (made - start)) / turns * 1e9;
}

int main(void) {
    const uint32_t maps = 200, asks = 4000000, times = 2000;
    double start = seconds();
    uint32_t made = timing_maps(maps);
    double one = (seconds() - start) / maps * 1e9;
    int ok = made == maps;
    ok &= within("a map of 64 stations and 200 pipes", one, 5e6);
    ok &= within("a distance in it", each(timing_distances, asks), 100);
    ok &= within("a distance under three links", each(timing_three_links, asks), 10e3);
    ok &= within("a draw on a full book over a trunk", draw(timing_trunk_draws, times), 1e6);
    ok &= within("a draw on a full book over a map", draw(timing_map_draws, times), 1e6);
    return ok ? 0 : 1;
}
