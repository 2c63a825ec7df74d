/* What second.c uses of the C library, so that the kit's clang compiles it on a machine without C headers. */
typedef __SIZE_TYPE__ size_t;
void *memcpy(void *to, const void *from, size_t n);
void *memset(void *to, int byte, size_t n);
int memcmp(const void *a, const void *b, size_t n);
