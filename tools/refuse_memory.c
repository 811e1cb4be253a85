/* Preloaded into a program, this refuses its REFUSE-th request for memory, and each one after it if REFUSE_ALL is set.
   If TELL is a descriptor, the number of requests is written there at the end. */
typedef __SIZE_TYPE__ size_t;

extern void *__libc_malloc(size_t size);
extern void *__libc_realloc(void *old, size_t size);
extern char *getenv(const char *name);
extern long atol(const char *text);
extern int dprintf(int descriptor, const char *format, ...);

static long refused, refuses_all, requests;

__attribute__((constructor)) static void begin(void)
{
    const char *number = getenv("REFUSE");
    refused = number ? atol(number) : 0;
    refuses_all = getenv("REFUSE_ALL") != 0;
}

static int is_refused(void)
{
    requests++;
    return refused && (requests == refused || (refuses_all && requests > refused));
}

void *malloc(size_t size)
{
    return is_refused() ? 0 : __libc_malloc(size);
}

void *realloc(void *old, size_t size)
{
    return is_refused() ? 0 : __libc_realloc(old, size);
}

__attribute__((destructor)) static void end(void)
{
    const char *descriptor = getenv("TELL");
    if (descriptor) {
        dprintf((int)atol(descriptor), "%ld\n", requests);
    }
}
