/* Keys that the hash tables of the program put close to each other: the hasher has a fixed seed, folds a product of 128 bits, and a table
   takes the low bits of the folded hash for the place and the high byte for the tag. `collide KIND COUNT PLACES WITHIN` writes COUNT keys
   of one tag, whose place among PLACES (a power of two) is below WITHIN. `collide sums COUNT` writes preferences of three entries whose
   maps have one sum of Fowler, Noll and Vo, in all its 64 bits. */
#include <stdint.h>
#include <stdio.h>
#include <stdlib.h>
#include <string.h>

static const uint64_t MULTIPLIER = 0x9e3779b97f4a7c15, SEED = 0x243f6a8885a308d3, PRIME = 1099511628211, INVERSE = 0xce965057aff6957b;
static const char SIGNS[] = "abcdefghijklmnopqrstuvwxyzABCDEFGHIJKLMNOPQRSTUVWXYZ0123456789-.";
static uint64_t wanted, places, within, found;

static uint64_t fold(uint64_t a, uint64_t b) {
    unsigned __int128 product = (unsigned __int128)a * b;
    return (uint64_t)product ^ (uint64_t)(product >> 64);
}

/* The state after one more byte, number, or long number. */
static uint64_t u8(uint64_t state, uint64_t byte) { return fold(state ^ byte * 0x10101, MULTIPLIER ^ 2); }
static uint64_t u32(uint64_t state, uint64_t number) { return fold(state ^ (number | number << 32), MULTIPLIER ^ 8); }
static uint64_t u64(uint64_t state, uint64_t number) { return fold(state ^ number, MULTIPLIER ^ 16); }

static int meets(uint64_t state) {
    uint32_t hash = (uint32_t)(state ^ state >> 32);
    if (hash >> 24 != 7 || (hash & (places - 1)) >= within) return 0;
    ++found;
    return 1;
}

static void names(void) {
    char name[9] = "a......0";
    for (uint64_t number = 1; number < 1ull << 36 && found < wanted; ++number) {
        uint64_t rest = number, bytes;
        for (int place = 6; place > 0; --place, rest >>= 6) name[place] = SIGNS[rest & 63];
        memcpy(&bytes, name, 8);
        if (meets(u8(u64(SEED, bytes), 0xff))) puts(name);
    }
}

/* Numbers behind a first one, if there is one. */
static void numbers(uint64_t state) {
    for (uint64_t number = 1; number < 1ull << 32 && found < wanted; ++number)
        if (meets(u32(state, number))) printf("%u\n", (unsigned)number);
}

/* Addresses of lists of one rule: it permits one address. */
static void rules(void) {
    uint64_t state = u8(u64(SEED, 1), 1);
    for (uint64_t number = 1; number < 1ull << 32 && found < wanted; ++number)
        if (meets(u64(u64(u8(u32(state, number), 32), 0), 0))) printf("%u\n", (unsigned)number);
}

/* Preferences of maps of one entry, as `compress` looks up what it writes. */
static void entries(void) {
    uint64_t state = u64(u64(u8(u8(u32(u64(SEED, 1), 10), 1), 0), 0), 1);
    for (uint64_t number = 1; number < 1ull << 32 && found < wanted; ++number)
        if (meets(u8(u64(u64(u32(state, number), 0), 0), 0))) printf("%u\n", (unsigned)number);
}

/* Three places of routers that originate a prefix of BGP. */
static void origins(void) {
    for (uint64_t last = 2; last < 4096; ++last)
        for (uint64_t first = 0; first < last; ++first) {
            uint64_t state = u64(u32(u64(SEED, 3), first), 0);
            for (uint64_t second = first + 1; second < last; ++second) {
                if (!meets(u64(u64(u32(u64(u32(state, second), 0), last), 0), 0))) continue;
                printf("%u.%u.%u\n", (unsigned)first, (unsigned)second, (unsigned)last);
                if (found == wanted) return;
            }
        }
}

static uint64_t mixed(uint64_t sum, uint64_t number) { return (sum ^ number) * PRIME; }

static uint64_t until_preference(uint64_t sum, uint64_t sequence) { return mixed(mixed(mixed(sum, sequence), 1), 6); }

static uint64_t until_next(uint64_t sum) { return mixed(mixed(mixed(sum, 10), 11), 0); }

/* What was mixed with a number before it was multiplied to this sum. */
static uint64_t undone(uint64_t sum, uint64_t number) {
    return sum * INVERSE ^ number;
}

static int by_sum(const void *a, const void *b) {
    const uint64_t *one = a, *other = b;
    return (*one > *other) - (*one < *other);
}

/* A preference changes the low half of a sum at will: so two sums meet if their high halves do. Those after four million first preferences
   are kept in order, and the sums before the third preference, from which it leads to one sum, are traced back to them. */
static void sums(void) {
    enum { MANY = 1 << 22, SHIFT = 42 };
    uint64_t(*kept)[2] = malloc(sizeof(uint64_t[MANY][2]));
    uint32_t *begins = calloc(MANY + 1, sizeof *begins);
    if (kept == 0 || begins == 0) return;
    for (uint64_t first = 0; first < MANY; ++first) {
        kept[first][0] = until_preference(until_next(mixed(until_preference(0, 10), first)), 20);
        kept[first][1] = first;
    }
    qsort(kept, MANY, sizeof *kept, by_sum);
    for (uint64_t place = 0; place < MANY; ++place) ++begins[(kept[place][0] >> SHIFT) + 1];
    for (uint64_t part = 0; part < MANY; ++part) begins[part + 1] += begins[part];
    for (uint64_t third = 0; third < 1ull << 32 && found < wanted; ++third) {
        uint64_t sum = SEED ^ third;
        for (int step = 0; step < 3; ++step) sum = undone(sum, (const uint64_t[]){6, 1, 30}[step]);
        for (int step = 0; step < 4; ++step) sum = undone(sum, (const uint64_t[]){0, 11, 10, 0}[step]);
        for (uint64_t place = begins[sum >> SHIFT]; place < begins[(sum >> SHIFT) + 1] && found < wanted; ++place) {
            if (kept[place][0] >> 32 != sum >> 32) continue;
            ++found;
            printf("%u.%u.%u\n", (unsigned)kept[place][1], (unsigned)(kept[place][0] ^ sum), (unsigned)third);
        }
    }
}

int main(int count, char **words) {
    if (count < 3) return 2;
    wanted = strtoull(words[2], 0, 10);
    places = count > 3 ? strtoull(words[3], 0, 10) : 1;
    within = count > 4 ? strtoull(words[4], 0, 10) : 1;
    if (strcmp(words[1], "names") == 0) names();
    if (strcmp(words[1], "numbers") == 0) numbers(SEED);
    if (strcmp(words[1], "neighbors") == 0) numbers(u32(SEED, 0));
    if (strcmp(words[1], "subnets") == 0) numbers(u32(SEED, 32));
    if (strcmp(words[1], "rules") == 0) rules();
    if (strcmp(words[1], "entries") == 0) entries();
    if (strcmp(words[1], "origins") == 0) origins();
    if (strcmp(words[1], "sums") == 0) sums();
    return found == wanted ? 0 : 1;
}
