/* The calls by which clang counts with 128 bits on WebAssembly. */
typedef unsigned u32;
typedef unsigned long long u64;
typedef unsigned __int128 u128;

typedef union {
    u128 all;
    struct {
        u64 low, high;
    } half;
} two;

static two halves(u64 low, u64 high) {
    two it;
    it.half.low = low;
    it.half.high = high;
    return it;
}

static two of(u128 all) {
    two it;
    it.all = all;
    return it;
}

/* The product of two words, by their halves. */
static two product(u64 a, u64 b) {
    u64 al = (u32)a, ah = a >> 32, bl = (u32)b, bh = b >> 32;
    u64 low = al * bl, one = al * bh, other = ah * bl, high = ah * bh;
    u64 middle = (low >> 32) + (u32)one + (u32)other;
    return halves((middle << 32) | (u32)low, high + (one >> 32) + (other >> 32) + (middle >> 32));
}

u128 __multi3(u128 a, u128 b) {
    two x = of(a), y = of(b), it = product(x.half.low, y.half.low);
    it.half.high += x.half.low * y.half.high + x.half.high * y.half.low;
    return it.all;
}

static u128 shifted_left(u128 a, int by) {
    two it = of(a);
    if (by >= 64) return halves(0, it.half.low << (by - 64)).all;
    if (by == 0) return a;
    return halves(it.half.low << by, (it.half.high << by) | (it.half.low >> (64 - by))).all;
}

static u128 shifted_right(u128 a, int by) {
    two it = of(a);
    if (by >= 64) return halves(it.half.high >> (by - 64), 0).all;
    if (by == 0) return a;
    return halves((it.half.low >> by) | (it.half.high << (64 - by)), it.half.high >> by).all;
}

u128 __ashlti3(u128 a, int by) { return shifted_left(a, by); }
u128 __lshrti3(u128 a, int by) { return shifted_right(a, by); }

static int is_below(two a, two b) { return a.half.high < b.half.high || (a.half.high == b.half.high && a.half.low < b.half.low); }

/* Long division, bit by bit. */
static u128 divided(u128 number, u128 by, u128 *rest) {
    two quotient = {0}, left = {0}, divisor = of(by), from = of(number);
    for (int bit = 127; bit >= 0; bit--) {
        u64 next = (bit >= 64 ? from.half.high >> (bit - 64) : from.half.low >> bit) & 1, carry = left.half.high >> 63;
        left = halves((left.half.low << 1) | next, (left.half.high << 1) | (left.half.low >> 63));
        if (!carry && is_below(left, divisor)) continue;
        left = halves(left.half.low - divisor.half.low, left.half.high - divisor.half.high - (left.half.low < divisor.half.low));
        if (bit >= 64)
            quotient.half.high |= 1ull << (bit - 64);
        else
            quotient.half.low |= 1ull << bit;
    }
    *rest = left.all;
    return quotient.all;
}

u128 __udivti3(u128 number, u128 by) {
    u128 rest;
    return divided(number, by, &rest);
}

u128 __umodti3(u128 number, u128 by) {
    u128 rest;
    divided(number, by, &rest);
    return rest;
}
