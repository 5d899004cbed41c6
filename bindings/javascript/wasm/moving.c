/* Moves bytes whose number isn't known before (copies.py): up to 64 by loads and stores at both ends, since an engine
   calls a function for each `memory.copy`. All are loaded before one is stored, so they may overlap. */
typedef unsigned int u32;
typedef unsigned char u8;
typedef unsigned short __attribute__((aligned(1), may_alias)) u16;
typedef unsigned int __attribute__((aligned(1), may_alias)) u32_anywhere;
typedef unsigned long long __attribute__((aligned(1), may_alias)) u64;
typedef u8 __attribute__((vector_size(16), aligned(1), may_alias)) u128;

/* The bytes at both ends, which meet in the middle or overlap there. */
#define MOVE(type)                                               \
    do {                                                         \
        u32 behind = length - sizeof(type);                      \
        type first = *(const type *)from;                        \
        type last = *(const type *)(from + behind);              \
        *(type *)to = first;                                     \
        *(type *)(to + behind) = last;                           \
    } while (0)

static void move_two_pairs(u8 *to, const u8 *from, u32 length) {
    u128 first = *(const u128 *)from, second = *(const u128 *)(from + 16);
    u128 third = *(const u128 *)(from + length - 32), last = *(const u128 *)(from + length - 16);
    *(u128 *)to = first;
    *(u128 *)(to + 16) = second;
    *(u128 *)(to + length - 32) = third;
    *(u128 *)(to + length - 16) = last;
}

void move_bytes(u8 *to, const u8 *from, u32 length) {
    if (length > 64)
        __builtin_memmove(to, from, length);
    else if (length > 32)
        move_two_pairs(to, from, length);
    else if (length >= 16)
        MOVE(u128);
    else if (length >= 8)
        MOVE(u64);
    else if (length >= 4)
        MOVE(u32_anywhere);
    else if (length >= 2)
        MOVE(u16);
    else if (length)
        *to = *from;
}
