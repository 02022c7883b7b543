/* Included before all else when scripts/release compiles an extension. These functions of glibc have newer versions since 2.32 and
 * 2.34, which do the same. In their first version each glibc for the processor has them, so the extension loads with an older one,
 * too. */
#ifdef __aarch64__
#define FIRST "GLIBC_2.17"
#else
#define FIRST "GLIBC_2.2.5"
#endif
__asm__(".symver pthread_attr_getstack, pthread_attr_getstack@" FIRST);
__asm__(".symver pthread_attr_setstacksize, pthread_attr_setstacksize@" FIRST);
__asm__(".symver pthread_create, pthread_create@" FIRST);
__asm__(".symver pthread_getattr_np, pthread_getattr_np@" FIRST);
__asm__(".symver pthread_join, pthread_join@" FIRST);
__asm__(".symver pthread_sigmask, pthread_sigmask@" FIRST);
#undef FIRST
