/* names.h: the names of fields and registers, which may stand for their numbers in a line. */
#ifndef NAMES_H
#define NAMES_H

#include <stddef.h>
#include <stdint.h>

/* The field's number, or 0 where no field has this name. */
int64_t field_named(const unsigned char *name, size_t length);

/* The register's word address, or 0 where no register has this name. */
int64_t register_named(const unsigned char *name, size_t length);

#endif
