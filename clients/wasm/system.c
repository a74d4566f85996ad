// What the engine needs of a system: memory, and no streams. It is part of what is trusted.
//
// A block has 16 << n bytes or 24 << n, behind 16 bytes that say which; a free block waits in the list of its size. A test has
// a request refused by `tab_refuse`.
typedef unsigned long long u64;
typedef unsigned char u8;
typedef __SIZE_TYPE__ size;
typedef unsigned __int128 u128;
extern u8 __heap_base;
struct tried { u64 ok; u64 at; };

static size end;
static u64 until;
static void *waiting[64];

static int class_of(size n) {
    int c = 0;
    size s = 16;
    while (s < n) {
        if (s + s / 2 >= n) return 2 * c + 1;
        s *= 2;
        c++;
    }
    return 2 * c;
}

static size size_of(int c) {
    size s = (size)16 << (c / 2);
    return c & 1 ? s + s / 2 : s;
}

// Sees that the memory has bytes up to this place: a quarter more than it has, or what is wanted.
static int reach(size place) {
    size have = __builtin_wasm_memory_size(0) * 65536;
    if (place <= have) return 1;
    size more = (place - have + 65535) / 65536, quarter = have / 65536 / 4;
    if (more < quarter && __builtin_wasm_memory_grow(0, quarter) != (size)-1) return 1;
    return __builtin_wasm_memory_grow(0, more) != (size)-1;
}

static void *get(u64 n) {
    if (n > 0x40000000) return 0;
    int c = class_of((size)n);
    if (waiting[c]) {
        void *block = waiting[c];
        waiting[c] = *(void **)block;
        return block;
    }
    if (!end) end = ((size)&__heap_base + 15) & ~(size)15;
    size need = size_of(c) + 16;
    if (end + need < end || !reach(end + need)) return 0;
    u8 *block = (u8 *)end + 16;
    end += need;
    *(int *)(block - 16) = c;
    return block;
}

static void put(void *block) {
    if (!block) return;
    int c = *(int *)((u8 *)block - 16);
    *(void **)block = waiting[c];
    waiting[c] = block;
}

// What the engine asks for, and does not get where that request is to be refused.
static void *wanted(u64 n) { return until && !--until ? 0 : get(n); }

static u64 nothing[2];

struct tried rattle_alloc(u64 n, u64 align) {
    void *block = wanted(n ? n : align);
    return (struct tried){block != 0, (u64)(size)(block ? block : nothing)};
}

void rattle_dealloc(void *block) { put(block); }

struct tried rattle_realloc(void *block, u64 old, u64 n, u64 align) {
    u64 want = n ? n : align;
    size have = size_of(*(int *)((u8 *)block - 16));
    if (have >= want && want > have / 4) return (struct tried){1, (u64)(size)block};
    void *moved = wanted(want);
    if (!moved) return (struct tried){0, (u64)(size)nothing};
    __builtin_memcpy(moved, block, old < want ? (size)old : (size)want);
    put(block);
    return (struct tried){1, (u64)(size)moved};
}

int rattle_errno(void) { return 5; }
long long read(int file, void *bytes, u64 n) { return -1; }
long long write(int file, const void *bytes, u64 n) { return -1; }

// For the page: room for bytes that it hands over, how far blocks reach; and for a test, that the request of this number from
// now on is refused, once: it gives how many were left of the number before.
void *tab_room(size n) { return get(n ? n : 1); }
void tab_unroom(void *block) { put(block); }
size tab_used(void) { return end; }
u64 tab_refuse(u64 number) {
    u64 left = until;
    until = number;
    return left;
}

// What the compiler calls for numbers of 128 bits.
u128 __multi3(u128 a, u128 b) {
    u64 al = a, ah = a >> 64, bl = b, bh = b >> 64, x0 = (unsigned)al, x1 = al >> 32, y0 = (unsigned)bl, y1 = bl >> 32;
    u64 p00 = x0 * y0, p01 = x0 * y1, p10 = x1 * y0, p11 = x1 * y1, mid = (p00 >> 32) + (unsigned)p01 + (unsigned)p10;
    u64 lo = (mid << 32) | (unsigned)p00, hi = p11 + (p01 >> 32) + (p10 >> 32) + (mid >> 32) + al * bh + ah * bl;
    return (u128)hi << 64 | lo;
}

u128 __ashlti3(u128 a, int n) {
    u64 l = a, h = a >> 64;
    if (n & 64) h = l << (n & 63), l = 0;
    else if (n) h = h << n | l >> (64 - n), l <<= n;
    return (u128)h << 64 | l;
}

u128 __lshrti3(u128 a, int n) {
    u64 l = a, h = a >> 64;
    if (n & 64) l = h >> (n & 63), h = 0;
    else if (n) l = l >> n | h << (64 - n), h >>= n;
    return (u128)h << 64 | l;
}

// A quotient, bit by bit: a program asks for it at a `muldiv` alone.
u128 __udivti3(u128 a, u128 b) {
    u64 al = a, ah = a >> 64, bl = b, bh = b >> 64, rl = 0, rh = 0;
    for (int i = 0; i < 128; i++) {
        u64 top = rh >> 63;
        rh = rh << 1 | rl >> 63, rl = rl << 1 | ah >> 63, ah = ah << 1 | al >> 63, al <<= 1;
        if (top || rh > bh || (rh == bh && rl >= bl)) rh -= bh + (rl < bl), rl -= bl, al |= 1;
    }
    return (u128)ah << 64 | al;
}

__int128 __divti3(__int128 a, __int128 b) {
    u128 q = __udivti3(a < 0 ? -(u128)a : (u128)a, b < 0 ? -(u128)b : (u128)b);
    return (a < 0) != (b < 0) ? -q : q;
}
