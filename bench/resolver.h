/* The functions of the library that are measured, in plain C. */
#ifndef RESOLVER_H
#define RESOLVER_H

#include <stdbool.h>
#include <stddef.h>
#include <stdint.h>

#include "yebkuzan.h"

/* `test` says whether the record's form is tested. */
uint32_t c_well_formed(const YebkuzanRecord *r);
YebkuzanEnabled c_enable(const YebkuzanRecord *r, uint32_t level, const YebkuzanGrants *g, bool test);
YebkuzanReach c_reach_table(const YebkuzanRecord *r, bool test);
YebkuzanEnabled c_enable_by_table(const YebkuzanRecord *r, const YebkuzanRows *table, uint32_t level, const YebkuzanGrants *g, bool test);
YebkuzanWritten c_chain(
    const YebkuzanRecord *r, uint32_t level, const YebkuzanGrants *g, uint32_t position, uint8_t *out, size_t size, bool test);

#endif
