/* The arithmetic of 128 bits that the compiled library calls by name: there is no libgcc here. None of these may
   multiply or shift 128 bits by a variable itself: the compiler would make that a call of the same function. */
typedef unsigned long long half;
typedef unsigned int u32;
typedef unsigned __int128 whole;

static whole joined(half high, half low) { return (whole)high << 64 | low; }

whole __multi3(whole x, whole y) {
    half a = x, b = y, low_a = (u32)a, high_a = a >> 32, low_b = (u32)b, high_b = b >> 32;
    half first = low_a * low_b, second = high_a * low_b + (first >> 32), third = low_a * high_b + (u32)second;
    half high = high_a * high_b + (second >> 32) + (third >> 32) + a * (half)(y >> 64) + (half)(x >> 64) * b;
    return joined(high, third << 32 | (u32)first);
}

/* (A shift by 1 and by 63 - n is one by 64 - n that is defined at 0.) */
whole __ashlti3(whole x, int n) {
    half high = x >> 64, low = x;
    return n & 64 ? joined(low << (n & 63), 0) : joined(high << n | low >> 1 >> (63 - n), low << n);
}

whole __lshrti3(whole x, int n) {
    half high = x >> 64, low = x;
    return n & 64 ? high >> (n & 63) : joined(high >> n, low >> n | high << 1 << (63 - n));
}
