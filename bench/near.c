/* Costs of the sequences near to some minutes, by docs/FORMATS.md alone: for bench/near.py.
 *
 * It shares nothing with tsbank, and tries every sequence that it is handed. A cost table is the default one.
 */
#include <stdlib.h>
#include <string.h>

#define SECONDS 1200
#define SYMBOLS 6
#define LENGTH 62
#define NEVER 0x3fffffff

/* The tenths in which the carrier is low, as bits, by station (dcf77, msf, wwvb, jjy) and symbol (0, 1, 2, 3, -, M); -1 where the
 * station doesn't send it. */
static const int low_tenths[4][SYMBOLS] = {
    {0x001, 0x003, -1, -1, 0x000, -1},
    {0x001, 0x005, 0x003, 0x007, -1, 0x01f},
    {0x003, 0x01f, -1, -1, -1, 0x0ff},
    {0x300, 0x3e0, -1, -1, -1, 0x3fc},
};

struct receiver {
    const long *at;
    const char *level;
    int count, station, delay, weight;
};

/* The phase to which most edges lie near that begin a second. */
int phase_of(const struct receiver *receivers, int count, long start, int seconds) {
    static int seen[1000];
    memset(seen, 0, sizeof seen);
    for (int r = 0; r < count; r++) {
        const struct receiver *one = receivers + r;
        char before = one->station == 3 ? 'L' : 'H', after = one->station == 3 ? 'H' : 'L';
        for (int n = 1; n < one->count; n++) {
            long at = one->at[n] - start - one->delay;
            if (one->level[n - 1] == before && one->level[n] == after && at >= 0 && at < 1000L * seconds)
                seen[at % 1000]++;
        }
    }
    long best = -1;
    int phase = 0;
    for (int p = 0; p < 1000; p++) {
        long sum = 0;
        for (int d = -49; d < 50; d++)
            sum += (long)seen[(p + d + 1000) % 1000] * (50 - abs(d));
        if (sum > best) {
            best = sum;
            phase = p;
        }
    }
    return phase;
}

/* Adds what each symbol costs a receiver in each slot. */
static void add_costs(const struct receiver *one, long begin, int seconds, int slots[][SYMBOLS]) {
    static int low[10 * SECONDS], known[10 * SECONDS];
    memset(low, 0, sizeof low);
    memset(known, 0, sizeof known);
    for (int n = 0; n + 1 < one->count; n++) {
        long from = one->at[n] - begin, to = one->at[n + 1] - begin;
        if (one->level[n] == 'X' || to <= 0 || from >= 1000L * seconds)
            continue;
        if (from < 0)
            from = 0;
        if (to > 1000L * seconds)
            to = 1000L * seconds;
        while (from < to) {
            long tenth = from / 100, end = 100 * (tenth + 1) < to ? 100 * (tenth + 1) : to;
            known[tenth] += end - from;
            low[tenth] += one->level[n] == 'L' ? end - from : 0;
            from = end;
        }
    }
    for (int k = 0; k < seconds; k++)
        for (int s = 0; s < SYMBOLS; s++) {
            int waves = low_tenths[one->station][s];
            for (int t = 0; t < 10 && waves >= 0; t++)
                if (known[10 * k + t] == 100)
                    slots[k][s] += one->weight * (waves >> t & 1 ? 100 - low[10 * k + t] : low[10 * k + t]);
        }
}

/* What each character of a telegram costs in each slot: 0 to 3, then - and M, then ? (0 or 1) and * (not scored). */
#define CHARACTERS 8

static void set_costs(int slots[][SYMBOLS], int seconds, int costs[][CHARACTERS]) {
    for (int k = 0; k < seconds; k++) {
        memcpy(costs[k], slots[k], sizeof slots[k]);
        costs[k][6] = slots[k][0] < slots[k][1] ? slots[k][0] : slots[k][1];
        costs[k][7] = 0;
    }
}

/* The two cheapest of the sequences that begin in some of these minutes, whose telegrams stand one behind the other. `found` gets
 * of each its cost, its minute's place and its second; those that cost as much as its second cost at the begin, or more, aren't
 * looked for. Of a telegram each second is the number of its character, and CHARACTERS ends it. A bank here has one station. */
void search(const struct receiver *receivers, int count, long start, int seconds, int phase, const char *telegrams, int minutes,
            int found[6]) {
    static int slots[SECONDS][SYMBOLS], costs[SECONDS][CHARACTERS];
    memset(slots, 0, sizeof slots);
    for (int r = 0; r < count; r++)
        add_costs(receivers + r, start + phase + receivers[r].delay, seconds, slots);
    set_costs(slots, seconds, costs);
    for (int first = 0; first + (seconds + 59) / 60 < minutes; first++)
        for (int second = 0; telegrams[LENGTH * first + second] != CHARACTERS; second++) {
            int cost = 0;
            const char *minute = telegrams + LENGTH * first, *at = minute + second;
            for (int k = 0; k < seconds && cost < found[3]; k++) {
                cost += costs[k][(int)*at++];
                if (*at == CHARACTERS)
                    at = minute += LENGTH;
            }
            if (cost < found[0]) {
                if (found[0] < found[3])
                    memcpy(found + 3, found, 3 * sizeof *found);
                found[0] = cost;
                found[1] = first;
                found[2] = second;
            } else if (cost < found[3]) {
                found[3] = cost;
                found[4] = first;
                found[5] = second;
            }
        }
}
