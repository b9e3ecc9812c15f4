/* What the compiler may call for copies and loops over bytes. */
typedef __SIZE_TYPE__ size;
void *memcpy(void *to, const void *from, size count) {
  char *at = to;
  for (const char *byte = from; count > 0; count--) *at++ = *byte++;
  return to;
}
void *memmove(void *to, const void *from, size count) {
  if (to <= from) return memcpy(to, from, count);
  while (count-- > 0) ((char *)to)[count] = ((const char *)from)[count];
  return to;
}
void *memset(void *to, int value, size count) {
  for (char *at = to; count > 0; count--) *at++ = value;
  return to;
}
int memcmp(const void *one, const void *other, size count) {
  const unsigned char *a = one, *b = other;
  for (; count > 0; count--, a++, b++)
    if (*a != *b) return *a - *b;
  return 0;
}
