/* For the kit's compiler, which comes without headers. */
typedef __SIZE_TYPE__ size_t;
#define NULL ((void *)0)
