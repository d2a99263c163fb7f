// The same book as a plain C program, without contracts or proofs: what the benchmark measures `book` against.
#include <stdint.h>
#include <stdio.h>
#include <string.h>
#include <unistd.h>

enum { BLANK, TRADING, CLOSED, SETTLED };
enum { ACCOUNTS = 64, ENTITIES = 64, OFFERS = 32, BLOCK = 65536, LONGEST = 64 };

typedef struct { int open; unsigned loaded[2]; int64_t sum; } Account;
typedef struct { unsigned number, account, method; uint32_t level; } Entity;
typedef struct { unsigned number, seller, buyer; uint32_t amount; } Offer;

static const uint8_t KJ[] = {0, 13, 25, 35, 46, 53, 59, 65, 70, 74, 78, 82, 85, 88, 91, 93, 95, 96, 98, 99, 100};
static const uint8_t KH[] = {0, 45, 73, 88, 94, 100};
static const unsigned SHARE[] = {0, 0, 85, 70, 25};
static const int LENGTHS[] = {5, 2, 12, 10, 9, 4, 4, 23, 1, 9, 2};
static const int STAGES[] = {1 << BLANK, 1 << TRADING, 1 << TRADING, 1 << TRADING, 1 << TRADING, 1 << TRADING, 1 << TRADING,
                             1 << TRADING | 1 << CLOSED, 1 << TRADING, 1 << CLOSED, 1 << SETTLED};

static int stage, entities, offers;
static unsigned n, security;
static uint32_t shortage_price, surplus_price, paid_price;
static uint32_t holding[ACCOUNTS + 1];
static Account account[ACCOUNTS + 1];
static Entity entity[ENTITIES];
static Offer offer[OFFERS];

static uint8_t answer[32];
static int length;

static void put(uint64_t value, int width) {
    for (int i = width - 1; i >= 0; i--) answer[length++] = value >> (8 * i);
}

static void refuse(int layer, int number, int place) {
    length = 0;
    put(layer, 1), put(number, 1), put(place, 2);
}

static uint64_t rounded(uint64_t a, uint64_t b) { return a / b + (10 * (a % b) / b >= 6); }

static uint32_t level_of(unsigned method, uint32_t power, unsigned hours, unsigned days) {
    if (method != 1) return rounded((uint64_t)power * SHARE[method], 10000);
    uint64_t half_hours = rounded(hours, 5), tenths = rounded(days, 10);
    if (half_hours > 20) half_hours = 20;
    if (tenths > 50) tenths = 50;
    uint64_t day = tenths / 10, more = tenths % 10;
    uint64_t kh = more ? rounded(KH[day] * (10 - more) + KH[day + 1] * more, 10) : KH[day];
    return rounded((uint64_t)power * KJ[half_hours] * kh, 1000000);
}

// The place of the record with a number, or of the first above it; `found` tells which.
#define SEARCH(records, count, wanted, at, found) \
    int at = 0, high_##at = count; \
    while (at < high_##at) { \
        int middle = (at + high_##at) / 2; \
        if (records[middle].number < wanted) at = middle + 1; else high_##at = middle; \
    } \
    int found = at < count && records[at].number == wanted

static int known(unsigned a) { return a >= 1 && a <= ACCOUNTS; }

static int64_t gap_of(int a, uint32_t *obligation) {
    int64_t sum = account[a].sum;
    uint64_t reference = sum > 0 ? (uint64_t)sum / (100000ull * n) : 0;
    *obligation = rounded(reference * security, 100000);
    return (int64_t)holding[a] - *obligation;
}

static int post_level(unsigned a, uint32_t old, uint32_t new) {
    if (new < old && old - new > holding[a]) return refuse(4, 4, a), 0;
    holding[a] += new - old;
    return 1;
}

static void certify(unsigned e, unsigned a, unsigned method, uint32_t power, unsigned hours, unsigned days) {
    if (e < 1) return refuse(3, 2, 1);
    if (!known(a)) return refuse(3, 2, 2);
    if (method < 1 || method > 4) return refuse(3, 2, 3);
    if (power > 99999999) return refuse(3, 2, 4);
    if (hours > 240) return refuse(3, 2, 5);
    if (days > 700) return refuse(3, 2, 6);
    if (!account[a].open) return refuse(3, 3, 2);
    SEARCH(entity, entities, e, at, found);
    if (found) return refuse(3, 4, 1);
    if (entities == ENTITIES) return refuse(3, 6, 0);
    uint32_t level = level_of(method, power, hours, days);
    post_level(a, 0, level);
    memmove(entity + at + 1, entity + at, (entities++ - at) * sizeof *entity);
    entity[at] = (Entity){e, a, method, level};
    put(level, 4);
}

static void rebalance(unsigned e, uint32_t power, unsigned hours, unsigned days) {
    if (e < 1) return refuse(3, 2, 1);
    if (power > 99999999) return refuse(3, 2, 2);
    if (hours > 240) return refuse(3, 2, 3);
    if (days > 700) return refuse(3, 2, 4);
    SEARCH(entity, entities, e, at, found);
    if (!found) return refuse(3, 5, 1);
    uint32_t level = level_of(entity[at].method, power, hours, days);
    if (!post_level(entity[at].account, entity[at].level, level)) return;
    entity[at].level = level;
    put(level, 4);
}

static void make_offer(unsigned o, unsigned seller, unsigned buyer, uint32_t amount) {
    if (o < 1) return refuse(3, 2, 1);
    if (!known(seller)) return refuse(3, 2, 2);
    if (!known(buyer)) return refuse(3, 2, 3);
    if (amount < 1 || amount > 99999999) return refuse(3, 2, 4);
    if (!account[seller].open) return refuse(3, 3, 2);
    if (!account[buyer].open) return refuse(3, 3, 3);
    if (seller == buyer) return refuse(3, 7, 3);
    SEARCH(offer, offers, o, at, found);
    if (found) return refuse(3, 4, 1);
    if (offers == OFFERS) return refuse(3, 6, 0);
    if (amount > holding[seller]) return refuse(4, 4, seller);
    holding[seller] -= amount;
    memmove(offer + at + 1, offer + at, (offers++ - at) * sizeof *offer);
    offer[at] = (Offer){o, seller, buyer, amount};
    put(holding[seller], 4);
}

static void end_offer(unsigned o, unsigned a, int accept) {
    if (o < 1) return refuse(3, 2, 1);
    if (!known(a)) return refuse(3, 2, 2);
    SEARCH(offer, offers, o, at, found);
    if (!found) return refuse(3, 5, 1);
    if (a != (accept ? offer[at].buyer : offer[at].seller)) return refuse(3, 7, 2);
    holding[a] += offer[at].amount;
    offers--;
    memmove(offer + at, offer + at + 1, (offers - at) * sizeof *offer);
    put(holding[a], 4);
}

static void load(unsigned a, unsigned sort, unsigned step, uint32_t metered, uint32_t shed, int32_t gradient,
                 unsigned coefficient, int real, int extreme) {
    int losses = sort == 2;
    if (!known(a)) return refuse(3, 2, 1);
    if (sort != 1 && sort != 2) return refuse(3, 2, 2);
    if (step < 1 || step > n) return refuse(3, 2, 3);
    if (metered > 99999999) return refuse(3, 2, 4);
    if (shed > (losses ? 0 : 99999999)) return refuse(3, 2, 5);
    if (gradient < -9999999 || gradient > 9999999) return refuse(3, 2, 6);
    if (losses ? coefficient != 1000 : coefficient > 9999) return refuse(3, 2, 7);
    if (real < -5000 || real > 5000) return refuse(3, 2, 8);
    if (extreme < -5000 || extreme > 5000) return refuse(3, 2, 9);
    if (!account[a].open) return refuse(3, 3, 1);
    if (step != account[a].loaded[sort - 1] + 1) return refuse(3, 8, 3);
    account[a].loaded[sort - 1]++;
    int64_t degrees = losses ? extreme - real : real - extreme;
    account[a].sum += 100000ll * ((int64_t)metered + shed) + (int64_t)gradient * coefficient * degrees;
}

static void settle(uint32_t shortage, uint32_t surplus) {
    if (shortage > 9999999) return refuse(3, 2, 1);
    if (surplus > 9999999) return refuse(3, 2, 2);
    uint64_t short_of = 0, over = 0;
    for (int a = 1; a <= ACCOUNTS; a++) {
        if (!account[a].open) continue;
        for (int sort = 0; sort < 2; sort++)
            if (account[a].loaded[sort] && account[a].loaded[sort] < n) return refuse(3, 9, a);
    }
    for (int a = 1; a <= ACCOUNTS; a++) {
        uint32_t obligation;
        if (!account[a].open) continue;
        int64_t gap = gap_of(a, &obligation);
        if (gap < 0) short_of -= gap; else over += gap;
    }
    uint64_t collected = short_of * shortage;
    paid_price = over && collected / over < surplus ? collected / over : surplus;
    uint64_t paid = over * paid_price;
    shortage_price = shortage, surplus_price = surplus, stage = SETTLED;
    put(paid_price, 4), put(collected, 8), put(paid, 8), put(collected - paid, 8);
}

static void report(unsigned a) {
    if (!known(a)) return refuse(3, 2, 1);
    if (!account[a].open) return refuse(3, 3, 1);
    uint32_t obligation;
    int64_t gap = gap_of(a, &obligation);
    put(holding[a], 4), put(obligation, 4), put(gap, 4), put(gap * (gap < 0 ? shortage_price : paid_price), 8);
}

static void call(const uint8_t *f) {
#define U2(i) ((unsigned)f[i] << 8 | f[i + 1])
#define U4(i) ((uint32_t)U2(i) << 16 | U2(i + 2))
    if (!(STAGES[f[0]] >> stage & 1)) return refuse(3, 1, 0);
    put(0, 1), put(f[0], 1);
    switch (f[0]) {
    case 0:
        if (U2(1) < 1 || U2(1) > 400) return refuse(3, 2, 1);
        if (U2(3) > 2000) return refuse(3, 2, 2);
        n = U2(1), security = U2(3), stage = TRADING;
        return;
    case 1:
        if (!known(f[1])) return refuse(3, 2, 1);
        if (account[f[1]].open) return refuse(3, 4, 1);
        account[f[1]].open = 1;
        return;
    case 2: return certify(U2(1), f[3], f[4], U4(5), f[9], U2(10));
    case 3: return rebalance(U2(1), U4(3), f[7], U2(8));
    case 4: return make_offer(U2(1), f[3], f[4], U4(5));
    case 5: return end_offer(U2(1), f[3], 1);
    case 6: return end_offer(U2(1), f[3], 0);
    case 7: return load(f[1], f[2], U2(3), U4(5), U4(9), (int32_t)U4(13), U2(17), (int16_t)U2(19), (int16_t)U2(21));
    case 8:
        put(offers, 2);
        for (int i = 0; i < offers; i++) holding[offer[i].seller] += offer[i].amount;
        offers = 0, stage = CLOSED;
        return;
    case 9: return settle(U4(1), U4(5));
    default: return report(f[1]);
    }
}

static int digit(uint8_t c) { return c >= '0' && c <= '9' ? c - '0' : c >= 'a' && c <= 'f' ? c - 'a' + 10 : -1; }

static void answer_line(const uint8_t *line, int count) {
    uint8_t frame[32];
    length = 0;
    if (count > LONGEST) return refuse(1, 1, 64);
    for (int i = 0; i < count; i++)
        if (digit(line[i]) < 0) return refuse(1, 2, i);
    if (count % 2) return refuse(1, 3, count);
    if (!count) return refuse(2, 1, 0);
    for (int i = 0; i < count / 2; i++) frame[i] = digit(line[2 * i]) << 4 | digit(line[2 * i + 1]);
    if (frame[0] > 10) return refuse(2, 2, frame[0]);
    if (count / 2 != LENGTHS[frame[0]]) return refuse(2, 3, count / 2);
    call(frame);
}

static uint8_t in[BLOCK], out[BLOCK], line[LONGEST + 1];
static int written;

static void flush(void) {
    for (int from = 0; from < written;) {
        ssize_t done = write(1, out + from, written - from);
        if (done <= 0) _exit(1);
        from += done;
    }
    written = 0;
}

static void write_answer(void) {
    static const char digits[] = "0123456789abcdef";
    if (written > BLOCK - 65) flush();
    for (int i = 0; i < length; i++) out[written++] = digits[answer[i] >> 4], out[written++] = digits[answer[i] & 15];
    out[written++] = '\n';
}

int main(void) {
    int held = 0;
    for (ssize_t count; (count = read(0, in, BLOCK)) > 0; flush()) {
        for (ssize_t i = 0; i < count; i++) {
            if (in[i] == '\n') answer_line(line, held), write_answer(), held = 0;
            else if (held <= LONGEST) line[held++] = in[i];
        }
    }
    if (held) answer_line(line, held), write_answer(), flush();
    return 0;
}
