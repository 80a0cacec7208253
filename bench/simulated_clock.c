/* A simulated clock for real programs: the real time and monotonic clocks that a program reads, and what it sets and slews.
 *
 * Loaded in front of the C library (LD_PRELOAD), it takes the place of the calls that read and set clocks. What they do is kept
 * in a file that all such programs share (TSBANK_CLOCK), and this machine's own clocks are never set. So a daemon that
 * steps and slews does so as it is, to a clock that others see.
 *
 *     cc -shared -fPIC -O2 -o simulated_clock.so bench/simulated_clock.c -ldl
 */
#define _GNU_SOURCE
#include <dlfcn.h>
#include <errno.h>
#include <fcntl.h>
#include <stdint.h>
#include <stdlib.h>
#include <string.h>
#include <sys/mman.h>
#include <sys/syscall.h>
#include <sys/time.h>
#include <sys/timex.h>
#include <time.h>
#include <unistd.h>

#define NANO 1000000000LL

/* The monotonic clock showed `mono` when the quartz showed `raw`, and gains `rate` nanoseconds a nanosecond since then. Real time
 * is ahead of it by `shift`. `turn` is odd while this is being changed; `steps` counts how often the clock was set. */
struct clock_state {
    volatile uint64_t turn;
    volatile int64_t raw, mono, shift;
    volatile double rate;
    volatile int64_t steps, tick, freq;
};

static struct clock_state *state;

static int64_t kernel(clockid_t which) {
    struct timespec at;
    syscall(SYS_clock_gettime, which, &at);
    return at.tv_sec * NANO + at.tv_nsec;
}

__attribute__((constructor)) static void begin(void) {
    const char *path = getenv("TSBANK_CLOCK");
    int file = path ? open(path, O_RDWR) : -1;
    if (file < 0)
        return;
    void *mapped = mmap(NULL, sizeof *state, PROT_READ | PROT_WRITE, MAP_SHARED, file, 0);
    close(file);
    if (mapped != MAP_FAILED)
        state = mapped;
}

/* The monotonic and the real time now. */
static void now(int64_t *mono, int64_t *real) {
    uint64_t turn;
    do {
        turn = __atomic_load_n(&state->turn, __ATOMIC_ACQUIRE) & ~1ULL;
        int64_t raw = kernel(CLOCK_MONOTONIC_RAW);
        *mono = state->mono + (raw - state->raw) + (int64_t)((raw - state->raw) * state->rate);
        *real = *mono + state->shift;
        __atomic_thread_fence(__ATOMIC_ACQUIRE);
    } while (turn != state->turn);
}

static void turn_rate(double rate) {
    int64_t mono, real, raw = kernel(CLOCK_MONOTONIC_RAW);
    now(&mono, &real);
    __atomic_fetch_add(&state->turn, 1, __ATOMIC_ACQ_REL);
    state->mono = state->mono + (raw - state->raw) + (int64_t)((raw - state->raw) * state->rate);
    state->raw = raw;
    state->rate = rate;
    __atomic_fetch_add(&state->turn, 1, __ATOMIC_ACQ_REL);
}

static void step(int64_t by) {
    __atomic_fetch_add(&state->turn, 1, __ATOMIC_ACQ_REL);
    state->shift += by;
    state->steps += by != 0;
    __atomic_fetch_add(&state->turn, 1, __ATOMIC_ACQ_REL);
}

int clock_gettime(clockid_t which, struct timespec *at) {
    int64_t mono, real;
    if (!state)
        return syscall(SYS_clock_gettime, which, at);
    now(&mono, &real);
    int64_t told;
    if (which == CLOCK_REALTIME || which == CLOCK_REALTIME_COARSE)
        told = real;
    else if (which == CLOCK_MONOTONIC || which == CLOCK_MONOTONIC_COARSE)
        told = mono;
    else if (which == CLOCK_BOOTTIME)
        told = mono + kernel(CLOCK_BOOTTIME) - kernel(CLOCK_MONOTONIC);
    else
        return syscall(SYS_clock_gettime, which, at);
    at->tv_sec = told / NANO;
    at->tv_nsec = told % NANO;
    return 0;
}

int gettimeofday(struct timeval *at, void *zone) {
    struct timespec told;
    (void)zone;
    clock_gettime(CLOCK_REALTIME, &told);
    at->tv_sec = told.tv_sec;
    at->tv_usec = told.tv_nsec / 1000;
    return 0;
}

time_t time(time_t *at) {
    struct timespec told;
    clock_gettime(CLOCK_REALTIME, &told);
    if (at)
        *at = told.tv_sec;
    return told.tv_sec;
}

int clock_settime(clockid_t which, const struct timespec *to) {
    int64_t mono, real;
    if (!state || which != CLOCK_REALTIME) {
        errno = EPERM;
        return -1;
    }
    now(&mono, &real);
    step(to->tv_sec * NANO + to->tv_nsec - real);
    return 0;
}

int settimeofday(const struct timeval *to, const struct timezone *zone) {
    (void)zone;
    struct timespec told = {to->tv_sec, to->tv_usec * 1000};
    return clock_settime(CLOCK_REALTIME, &told);
}

int adjtimex(struct timex *asked) {
    if (!state) {
        errno = EPERM;
        return -1;
    }
    if (asked->modes & ADJ_SETOFFSET)
        step(asked->time.tv_sec * NANO + asked->time.tv_usec * (asked->modes & ADJ_NANO ? 1 : 1000));
    if (asked->modes & ADJ_TICK)
        state->tick = asked->tick;
    if (asked->modes & ADJ_FREQUENCY)
        state->freq = asked->freq;
    if (asked->modes & (ADJ_TICK | ADJ_FREQUENCY))
        turn_rate((state->tick - 10000) / 10000.0 + state->freq / 65536.0 * 1e-6);
    struct timespec told;
    clock_gettime(CLOCK_REALTIME, &told);
    asked->offset = 0;
    asked->freq = state->freq;
    asked->tick = state->tick;
    asked->maxerror = asked->esterror = 0;
    asked->constant = 0;
    asked->precision = 1;
    asked->tolerance = 500 << 16;
    asked->status = 0;
    asked->time.tv_sec = told.tv_sec;
    asked->time.tv_usec = told.tv_nsec / 1000;
    return TIME_OK;
}

int ntp_adjtime(struct timex *asked) { return adjtimex(asked); }

int clock_adjtime(clockid_t which, struct timex *asked) {
    if (which != CLOCK_REALTIME) {
        errno = EINVAL;
        return -1;
    }
    return adjtimex(asked);
}
