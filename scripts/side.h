#ifdef LEFT
#define WHICH 1
#undef LEFT
static inline int left(void) { return WHICH; }
#else
#define WHICH 2
static inline int right(void) { return WHICH; }
#endif
