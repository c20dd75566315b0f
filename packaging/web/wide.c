/* Arithmetic of 128 bits that the compiler calls by these names for processors without it, as its own library has it. The compiler's
   library is not there for WebAssembly. No proof covers this; tests/check/web.py holds it against a processor's own. */

typedef __UINT64_TYPE__ uint64_t;
typedef __int128 wide;
typedef union {
    wide whole;
    struct {
        uint64_t low, high;
    } part;
} halves;

wide __multi3(wide a, wide b);
wide __ashlti3(wide a, int by);
wide __lshrti3(wide a, int by);

/* The product of two halves, by four products of their own halves. */
static halves product(uint64_t a, uint64_t b) {
    uint64_t mask = 0xffffffff, a_low = a & mask, a_high = a >> 32, b_low = b & mask, b_high = b >> 32;
    uint64_t low = a_low * b_low, first = a_low * b_high, second = a_high * b_low;
    uint64_t middle = (low >> 32) + (first & mask) + (second & mask);
    halves it;
    it.part.low = middle << 32 | (low & mask);
    it.part.high = a_high * b_high + (first >> 32) + (second >> 32) + (middle >> 32);
    return it;
}

wide __multi3(wide a, wide b) {
    halves x = {a}, y = {b}, it = product(x.part.low, y.part.low);
    it.part.high += x.part.high * y.part.low + x.part.low * y.part.high;
    return it.whole;
}

/* `by` is at least 0 and below 128. */
wide __ashlti3(wide a, int by) {
    halves x = {a}, it;
    it.part.low = by & 64 ? 0 : x.part.low << by;
    it.part.high = by & 64 ? x.part.low << (by & 63) : by ? x.part.high << by | x.part.low >> (64 - by) : x.part.high;
    return it.whole;
}

wide __lshrti3(wide a, int by) {
    halves x = {a}, it;
    it.part.high = by & 64 ? 0 : x.part.high >> by;
    it.part.low = by & 64 ? x.part.high >> (by & 63) : by ? x.part.low >> by | x.part.high << (64 - by) : x.part.low;
    return it.whole;
}
