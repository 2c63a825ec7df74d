/* As string.h. */
long read(int file, void *to, __SIZE_TYPE__ n);
long write(int file, const void *from, __SIZE_TYPE__ n);
