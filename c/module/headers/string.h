/* What heap_module.c takes of string.h: the toolchain's clang makes memory.copy of it. */
#ifndef SDM_MODULE_STRING_H
#define SDM_MODULE_STRING_H

#define memcpy __builtin_memcpy

#endif
