/* A heap that refuses one allocation, for `refuse_memory.py`: it is linked into a program in the place of the kit's, and
   is told by a shared file, which the environment's REFUSALS names, which allocation from here on it refuses. */
typedef unsigned long size;
typedef struct { _Bool ok; void *p; } tried;

void *malloc(size), *realloc(void *, size), *mmap(void *, size, int, int, int, long);
void free(void *);
char *getenv(const char *);
int open(const char *, int, ...);

static struct { size left, made, refused; } unshared, *ledger = &unshared;
static char nothing;

__attribute__((constructor)) static void share(void) {
    const char *path = getenv("REFUSALS");
    int file = path ? open(path, 2) : -1;
    if (file >= 0) ledger = mmap(0, sizeof unshared, 3, 1, file, 0);
}

static int refuses(void) {
    ledger->made += 1;
    if (ledger->left == 0 || --ledger->left != 0) return 0;
    ledger->refused += 1;
    return 1;
}

static tried answer(void *p) { return p ? (tried){1, p} : (tried){0, &nothing}; }

tried rattle_alloc(size n, size a) { return answer(refuses() ? 0 : malloc(n ? n : a)); }

tried rattle_realloc(void *p, size kept, size n, size a) {
    return answer(refuses() ? 0 : realloc(p, n ? n : a));
}

void rattle_dealloc(void *p) { free(p); }
