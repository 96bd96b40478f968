/* The plain C lookup that the proved one is measured beside. */
#include <stddef.h>
#include <stdint.h>

int64_t plain_lookup(const uint8_t *book, size_t book_length, const uint8_t *serial, size_t serial_length);
