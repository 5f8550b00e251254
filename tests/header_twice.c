/* Includes include/moesi.h twice, beside header_test.c: the header guards itself, its helpers don't clash. */

#include "moesi.h"
#include "moesi.h"

uint64_t header_twice(uint64_t line);

uint64_t header_twice(uint64_t line)
{
    return moesi_order_device_read(line);
}
