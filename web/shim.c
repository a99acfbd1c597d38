// What a compiled program calls of the C library and of the system, for WebAssembly with a 64-bit memory: a heap over that memory,
// and words, files and output, which the page has. The page makes an instance for each run, so nothing is ever given back to it.
typedef unsigned long Size;
typedef long Count;

#define TO_PAGE(name) __attribute__((export_name(#name))) name
#define OF_PAGE(name) __attribute__((import_module("page"), import_name(#name))) page_##name

// Numbers of Linux that a program may ask for after a call that failed.
enum { NO_SUCH_FILE = 2, IS_NO_FILE_TO_SEEK_IN = 29 };

// The heap. A block has a power of two of bytes, 16 at least, and in front of it 16 more that keep which power. What is freed goes to
// the list of its power, and is given out again from there.
enum { FRONT = 16, SMALLEST = 4, POWERS = 40, PAGE = 65536 };

struct Block {
    union {
        Size power;
        char front[FRONT];
    };
    struct Block *next; // where it is free: the next one of its list
};

extern char __heap_base;
static struct Block *free_blocks[POWERS];
static char *unused;
static char *end;

static unsigned power_for(Size bytes) {
    return bytes <= 1ul << SMALLEST ? SMALLEST : 64 - __builtin_clzl(bytes - 1);
}

// Grows the memory by so many bytes in whole pages.
static int grow(Size bytes) {
    Size pages = (bytes + PAGE - 1) / PAGE;
    if (__builtin_wasm_memory_grow(0, pages) == (Size)-1)
        return 0;
    end += pages * PAGE;
    return 1;
}

// Has so many unused bytes, if the page has them. It asks for a quarter of what there is, so that growing is rare.
static int has_unused(Size bytes) {
    if (!unused) {
        unused = (char *)(((Size)&__heap_base + FRONT - 1) / FRONT * FRONT);
        end = (char *)(__builtin_wasm_memory_size(0) * PAGE);
    }
    if ((Size)(end - unused) >= bytes)
        return 1;
    Size ample = (Size)end / 4;
    return (ample > bytes && grow(ample)) || grow(bytes);
}

static struct Block *block_of(void *start) {
    return (struct Block *)((char *)start - FRONT);
}

static void *allocate(Size bytes) {
    unsigned power = power_for(bytes);
    if (power >= POWERS)
        return 0;
    struct Block *block = free_blocks[power];
    if (block) {
        free_blocks[power] = block->next;
    } else {
        Size whole = FRONT + (1ul << power);
        if (!has_unused(whole))
            return 0;
        block = (struct Block *)unused;
        unused += whole;
        block->power = power;
    }
    return (char *)block + FRONT;
}

void *memcpy(void *to, const void *from, Size bytes) {
    __builtin_memcpy(to, from, bytes);
    return to;
}

void *memmove(void *to, const void *from, Size bytes) {
    __builtin_memmove(to, from, bytes);
    return to;
}

void *memset(void *to, int byte, Size bytes) {
    __builtin_memset(to, byte, bytes);
    return to;
}

// Whether there is memory, and where. Where there is none the pointer is to a byte that belongs to nobody.
struct Tried {
    _Bool ok;
    void *start;
};

static struct Tried tried(void *start) {
    static char nothing;
    return (struct Tried){start != 0, start ? start : &nothing};
}

struct Tried rattle_alloc(Size bytes, Size align) {
    (void)align; // 16 at most, which every block has
    return tried(allocate(bytes));
}

void rattle_dealloc(void *start) {
    struct Block *block = block_of(start);
    block->next = free_blocks[block->power];
    free_blocks[block->power] = block;
}

struct Tried rattle_realloc(void *start, Size kept, Size bytes, Size align) {
    (void)align;
    if (power_for(bytes) <= block_of(start)->power)
        return tried(start);
    void *larger = allocate(bytes);
    if (larger) {
        memcpy(larger, start, kept);
        rattle_dealloc(start);
    }
    return tried(larger);
}

// The system, as the page has it.
int OF_PAGE(open)(const char *path, Size length);
Count OF_PAGE(read)(int file, void *into, Size room);
Count OF_PAGE(write)(int file, const void *from, Size bytes);
Count OF_PAGE(word)(Size number, void *into, Size room);

static int error;

int open(const char *path, int flags, ...) {
    (void)flags; // programs only read
    Size length = 0;
    while (path[length])
        length++;
    int file = page_open(path, length);
    if (file < 0)
        error = NO_SUCH_FILE;
    return file;
}

Count read(int file, void *into, Size room) {
    return page_read(file, into, room);
}

Count write(int file, const void *from, Size bytes) {
    return page_write(file, from, bytes);
}

int close(int file) {
    (void)file;
    return 0;
}

Count lseek(int file, Count to, int whence) {
    (void)file, (void)to, (void)whence;
    error = IS_NO_FILE_TO_SEEK_IN;
    return -1;
}

Count rattle_arg(Size number, void *into, Size room) {
    return page_word(number, into, room);
}

// There is no environment.
Count rattle_env(const char *name, void *into, Size room) {
    (void)name, (void)into, (void)room;
    return -1;
}

Count rattle_env_at(Size number, void *into, Size room) {
    (void)number, (void)into, (void)room;
    return -1;
}

int rattle_errno(void) {
    return error;
}

void rattle_set_errno(int number) {
    error = number;
}

int __xpg_strerror_r(int number, char *into, Size room) {
    (void)number;
    if (room)
        into[0] = 0;
    return 0;
}

// There are no signals.
Count __sysv_signal(int number, Count to) {
    (void)number, (void)to;
    return 0;
}

extern int main(void);

int TO_PAGE(run)(void) {
    return main();
}
