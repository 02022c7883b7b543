/* Sizes of the library are of 64 bits, as on the machines that it is proved for. Pointers have 32. */
#pragma once
typedef unsigned long long size_t;
#define NULL ((void *)0)
#define offsetof(type, member) __builtin_offsetof(type, member)
