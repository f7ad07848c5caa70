/* The same job as rse8080_settle, as a careful C programmer would write it: every check of document 01 in its order, then one pass that
 * settles into a buffer of its own, which is copied out where nothing was refused. It is what the benchmark compares with, and is not
 * proved. */
#include "careful.h"

#include "rse8080.h"

#include <string.h>

typedef struct {
    const uint8_t *body;
    uint32_t kind, flag, days, points, count;
    int32_t hub;
    uint32_t tier;   /* of the day */
    uint32_t upward; /* M */
    int64_t surcharge, shown; /* S over 400,000, and in cents */
} area_t;

typedef struct {
    int64_t on, off, down, surcharge, credit;
} amounts_t;

#define MISSING INT32_MIN
#define REFUSED(number, place) ((uint64_t)(number) * 1000000u + (uint64_t)(place))

static inline uint32_t word(const uint8_t *bytes, size_t i)
{
    uint32_t w;
    memcpy(&w, bytes + 4 * i, 4);
    return w;
}

static inline int within(uint32_t w, int32_t most)
{
    int32_t z = (int32_t)w;
    return -most <= z && z <= most;
}

int careful_real_date(uint32_t date)
{
    static const uint8_t lengths[12] = {31, 28, 31, 30, 31, 30, 31, 31, 30, 31, 30, 31};
    uint32_t year = date / 10000, month = date / 100 % 100, day = date % 100;
    uint32_t most;
    if (year < 2000 || year > 2099 || month < 1 || month > 12) {
        return 0;
    }
    most = lengths[month - 1];
    if (month == 2 && ((year % 4 == 0 && year % 100 != 0) || year % 400 == 0)) {
        most = 29;
    }
    return 1 <= day && day <= most;
}

static uint64_t check_hour(const uint8_t *body, size_t start, size_t at, uint32_t points, uint32_t count)
{
    size_t i, w = at;
    uint32_t running = 0;
    for (i = 0; i < 6; i++, w++) {
        if (word(body, w) > 2500000) {
            return REFUSED(9, start + w);
        }
    }
    if (word(body, w) > 50000000) {
        return REFUSED(9, start + w);
    }
    w++;
    if (!within(word(body, w), 20000000)) {
        return REFUSED(9, start + w);
    }
    w++;
    for (i = 0; i < 12 * points; i++, w += 2) {
        uint32_t price = word(body, w + 1);
        if (word(body, w) > 10000000) {
            return REFUSED(9, start + w);
        }
        if (!within(price, 20000000) && (int32_t)price != MISSING) {
            return REFUSED(9, start + w + 1);
        }
    }
    for (i = 0; i < count; i++, w++) {
        uint32_t demand = word(body, w);
        if (demand > 100000000) {
            return REFUSED(9, start + w);
        }
        running += demand;
        if (running > 100000000) {
            return REFUSED(10, start + w);
        }
    }
    return 0;
}

static uint64_t check_body(const uint8_t *body, size_t start, size_t size, uint32_t *ciso)
{
    uint32_t kind = word(body, 0), points = word(body, 5), count = word(body, 6), before = 0;
    size_t i, at, hour;
    if (kind > 1 || *ciso + kind > 1) {
        return REFUSED(7, start);
    }
    *ciso += kind;
    if (word(body, 1) > 1) {
        return REFUSED(7, start + 1);
    }
    if (word(body, 2) > 30) {
        return REFUSED(7, start + 2);
    }
    if (!within(word(body, 3), 200000)) {
        return REFUSED(7, start + 3);
    }
    if (!within(word(body, 4), 200000)) {
        return REFUSED(7, start + 4);
    }
    if (points < 1 || points > 2) {
        return REFUSED(7, start + 5);
    }
    if (count < 1 || count > (kind == 0 ? 1 : 64)) {
        return REFUSED(7, start + 6);
    }
    if (size != 7 + count + 24 * (8 + 24 * points + count)) {
        return REFUSED(6, start + 6);
    }
    for (i = 0; i < count; i++) {
        uint32_t number = word(body, 7 + i);
        if (number <= before || number > INT32_MAX) {
            return REFUSED(8, start + 7 + i);
        }
        before = number;
    }
    at = 7 + count;
    for (hour = 0; hour < 24; hour++) {
        uint64_t answer = check_hour(body, start, at, points, count);
        if (answer != 0) {
            return answer;
        }
        at += 8 + 24 * points + count;
    }
    return 0;
}

static uint64_t check(const uint8_t *file, size_t length)
{
    size_t size = length / 4, k, n, due;
    uint32_t before = 0, ciso = 0;
    if (length < 16 || length > 65536 || length % 4 != 0) {
        return REFUSED(1, 0);
    }
    if (word(file, 0) != 1) {
        return REFUSED(2, 0);
    }
    if (!careful_real_date(word(file, 1))) {
        return REFUSED(4, 1);
    }
    n = word(file, 2);
    if (n < 1 || n > 8 || 4 + 3 * n > size) {
        return REFUSED(3, 2);
    }
    if (word(file, 3) != 0 && word(file, 3) != 4194240) {
        return REFUSED(5, 3);
    }
    due = 4 + 3 * n;
    for (k = 0; k < n; k++) {
        size_t at = 4 + 3 * k;
        uint32_t number = word(file, at), start = word(file, at + 1), words = word(file, at + 2);
        if (number <= before || number > INT32_MAX) {
            return REFUSED(6, at);
        }
        before = number;
        if (start != due) {
            return REFUSED(6, at + 1);
        }
        if (words < 800 || words > 2951 || (k + 1 == n ? due + words != size : due + words > size)) {
            return REFUSED(6, at + 2);
        }
        due += words;
    }
    for (k = 0; k < n; k++) {
        size_t start = word(file, 5 + 3 * k);
        uint64_t answer = check_body(file + 4 * start, start, word(file, 6 + 3 * k), &ciso);
        if (answer != 0) {
            return answer;
        }
    }
    return 0;
}

static inline uint32_t upward_of(const uint8_t *hour)
{
    return word(hour, 0) + word(hour, 1) + word(hour, 2) + word(hour, 3);
}

static inline uint32_t downward_of(const uint8_t *hour)
{
    return word(hour, 4) + word(hour, 5);
}

static inline uint32_t tier_of(uint32_t upward, uint32_t requirement)
{
    if (upward == 0) {
        return 0;
    }
    if (upward <= 10000 || 100 * (uint64_t)upward <= requirement) {
        return 1;
    }
    return 2 * upward <= requirement ? 2 : 3;
}

static inline int peak_hour(uint32_t peak, size_t h)
{
    return peak != 0 && 6 <= h && h <= 21;
}

/* m * (1 + d/100) for a tier, in four-hundredths. */
static inline int64_t scaled_multiplier(const area_t *a, uint32_t tier)
{
    return (tier == 2 ? 5 : 8) * (100 + (int64_t)a->days);
}

static inline area_t read_area(uint32_t peak, const uint8_t *body)
{
    area_t a;
    int32_t hub_a = (int32_t)word(body, 3), hub_b = (int32_t)word(body, 4);
    size_t h, width;
    const uint8_t *hour;
    a.body = body;
    a.kind = word(body, 0);
    a.flag = word(body, 1);
    a.days = word(body, 2);
    a.hub = hub_a < hub_b ? hub_b : hub_a;
    a.points = word(body, 5);
    a.count = word(body, 6);
    a.tier = a.upward = 0;
    width = 4 * (size_t)(8 + 24 * a.points + a.count);
    hour = body + 4 * (size_t)(7 + a.count);
    for (h = 0; h < 24; h++, hour += width) {
        if (peak_hour(peak, h)) {
            uint32_t upward = upward_of(hour), tier = tier_of(upward, word(hour, 6));
            a.tier = tier > a.tier ? tier : a.tier;
            a.upward = upward > a.upward ? upward : a.upward;
        }
    }
    a.surcharge = (int64_t)a.upward * a.hub * scaled_multiplier(&a, a.tier);
    a.surcharge = a.surcharge < 0 ? 0 : a.surcharge;
    a.shown = careful_rounded(a.surcharge, 400000);
    return a;
}

/* The load-weighted price of L load points. Returns 0, or its refusal: 16 with fewer than 9L of its 12L prices, 11 with no quantity
 * under them. */
static uint32_t price_of(const uint8_t *pairs, size_t points, int64_t *price)
{
    int64_t value = 0;
    uint32_t quantity = 0;
    size_t i, present = 0;
    for (i = 0; i < 12 * points; i++) {
        uint32_t q = word(pairs, 2 * i);
        int32_t p = (int32_t)word(pairs, 2 * i + 1);
        if (p != MISSING) {
            value += (int64_t)q * p;
            quantity += q;
            present++;
        }
    }
    if (present < 9 * points) {
        return 16;
    }
    if (quantity == 0) {
        return 11;
    }
    *price = careful_rounded(value, quantity);
    return 0;
}

static inline int price_needed(const area_t *a, int peak, uint32_t tier)
{
    return a->flag == 1 && (peak ? a->tier >= 2 && tier == 0 : tier >= 2);
}

/* The amounts of an hour. Returns 0, or what a needed price refuses. */
static inline uint32_t amounts_of(const area_t *a, uint32_t peak_word, const uint8_t *hour, size_t h, amounts_t *amounts)
{
    int peak = peak_hour(peak_word, h);
    uint32_t upward = upward_of(hour), tier = tier_of(upward, word(hour, 6)), downward;
    int64_t price = 0;
    amounts->on = amounts->off = amounts->down = amounts->surcharge = amounts->credit = 0;
    if (a->flag != 1) {
        return 0;
    }
    if (price_needed(a, peak, tier)) {
        uint32_t refusal = price_of(hour + 32, a->points, &price);
        if (refusal != 0) {
            return refusal;
        }
    }
    if (peak && a->tier >= 2) {
        int64_t credit = tier == 0 ? (int64_t)a->upward * price * 4 : 0;
        int64_t due = a->surcharge - credit;
        amounts->on = due <= 0 ? 0 : careful_rounded(due, 400000);
        amounts->surcharge = a->shown;
        amounts->credit = careful_rounded(credit, 400000);
    }
    if (!peak && tier >= 2) {
        int64_t due = (int64_t)upward * price * scaled_multiplier(a, tier);
        amounts->off = due <= 0 ? 0 : careful_rounded(due, 40000000);
    }
    downward = downward_of(hour);
    if (downward > 10000) {
        int64_t due = (int64_t)downward * (int32_t)word(hour, 7);
        amounts->down = due >= 0 ? 0 : careful_rounded(due, 100000);
    }
    return 0;
}

static uint32_t total_demand(const area_t *a, const uint8_t *demands)
{
    uint32_t total = 0, i;
    for (i = 0; i < a->count; i++) {
        total += word(demands, i);
    }
    return total;
}

static inline uint8_t *put(uint8_t *to, int64_t number)
{
    memcpy(to, &number, 8);
    return to + 8;
}

/* The 24 hours of an area, up to the first refusal. */
static uint64_t settle_area(uint32_t peak, const uint8_t *body, size_t start, uint8_t **end)
{
    area_t a = read_area(peak, body);
    size_t width = 8 + 24 * (size_t)a.points + a.count, at = 7 + a.count, h;
    uint8_t *to = *end;
    for (h = 0; h < 24; h++, at += width) {
        const uint8_t *hour = body + 4 * at, *demands = hour + 4 * (8 + 24 * (size_t)a.points);
        amounts_t amounts;
        int64_t amount;
        uint32_t refusal = amounts_of(&a, peak, hour, h, &amounts);
        if (refusal != 0) {
            return REFUSED(refusal, start + at + 8);
        }
        amount = amounts.on + amounts.off + amounts.down;
        to = put(to, amounts.on);
        to = put(to, amounts.off);
        to = put(to, amounts.down);
        to = put(to, amounts.surcharge);
        to = put(to, amounts.credit);
        if (a.kind == 1) {
            uint32_t total = total_demand(&a, demands), running = 0, i;
            int64_t before = 0;
            if (amount != 0 && total == 0) {
                return REFUSED(12, start + at + 8 + 24 * (size_t)a.points);
            }
            for (i = 0; i < a.count; i++) {
                int64_t up_to = 0;
                running += word(demands, i);
                if (amount != 0) {
                    up_to = careful_rounded(amount * running, total);
                }
                to = put(to, up_to - before);
                before = up_to;
            }
        } else {
            to = put(to, amount);
        }
    }
    *end = to;
    return 0;
}

size_t careful_numbers_needed(const uint8_t *file)
{
    size_t needed = 0, n = word(file, 2), k;
    for (k = 0; k < n; k++) {
        needed += 24 * RSE8080_HOUR_NUMBERS((size_t)word(file, word(file, 5 + 3 * k) + 6));
    }
    return needed;
}

uint64_t careful_settle(const uint8_t *file, size_t file_len, uint8_t *statement, size_t statement_len)
{
    uint8_t settled[RSE8080_MOST_STATEMENT_BYTES], *end = settled;
    uint64_t answer = check(file, file_len);
    size_t needed, n, k;
    uint32_t peak;
    if (answer != 0) {
        return answer;
    }
    n = word(file, 2);
    peak = word(file, 3);
    needed = careful_numbers_needed(file);
    if (statement_len / 8 < needed) {
        return REFUSED(13, needed);
    }
    for (k = 0; k < n; k++) {
        size_t start = word(file, 5 + 3 * k);
        answer = settle_area(peak, file + 4 * start, start, &end);
        if (answer != 0) {
            return answer;
        }
    }
    memcpy(statement, settled, 8 * needed);
    return 0;
}

static inline int no_demand(const area_t *a, const uint8_t *demands)
{
    uint32_t i = 0;
    while (i < a->count && word(demands, i) == 0) {
        i++;
    }
    return i == a->count;
}

/* Adds what an area pays in its 24 hours, and notes where it passes, up to the first refusal. */
static uint64_t collect_area(uint32_t peak, const uint8_t *body, size_t start, uint32_t area_bit, careful_collected_t *collected)
{
    area_t a = read_area(peak, body);
    size_t width = 8 + 24 * (size_t)a.points + a.count, at = 7 + a.count, h;
    for (h = 0; h < 24; h++, at += width) {
        const uint8_t *hour = body + 4 * at;
        amounts_t amounts;
        uint32_t refusal = amounts_of(&a, peak, hour, h, &amounts);
        if (refusal != 0) {
            return REFUSED(refusal, start + at + 8);
        }
        if (a.kind == 1 && amounts.on + amounts.off + amounts.down != 0 && no_demand(&a, hour + 4 * (8 + 24 * (size_t)a.points))) {
            return REFUSED(12, start + at + 8 + 24 * (size_t)a.points);
        }
        collected->amount[h][0] += amounts.on + amounts.off;
        collected->amount[h][1] += amounts.down;
        if (a.flag == 1) {
            collected->passing[h][0] |= upward_of(hour) == 0 ? area_bit : 0;
            collected->passing[h][1] |= downward_of(hour) == 0 ? area_bit : 0;
        }
    }
    return 0;
}

uint64_t careful_collect(const uint8_t *file, size_t file_len, careful_collected_t *collected)
{
    /* A file that the check accepts needs numbers, and is refused with 13 where none are lent. */
    uint64_t answer = careful_settle(file, file_len, NULL, 0);
    size_t k;
    if (answer / 1000000u != 13) {
        return answer;
    }
    memset(collected, 0, sizeof *collected);
    collected->areas = word(file, 2);
    for (k = 0; k < collected->areas; k++) {
        size_t start = word(file, 5 + 3 * k);
        answer = collect_area(word(file, 3), file + 4 * start, start, (uint32_t)1 << k, collected);
        if (answer != 0) {
            return answer;
        }
    }
    return 0;
}
