/* For a compiler that comes without the headers of C: what the programs here use of <stddef.h>. */
#ifndef STDDEF_H
#define STDDEF_H

typedef __SIZE_TYPE__ size_t;

#endif
