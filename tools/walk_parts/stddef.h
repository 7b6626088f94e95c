/* What the C files of the module need of this header: the kit's clang has none. */
typedef __SIZE_TYPE__ size_t;
#define NULL ((void *)0)
