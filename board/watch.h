/* The stack and the instructions that a call takes: measured on a bare board, passed over elsewhere. */
#ifdef BARE
register uintptr_t stack_pointer __asm__("sp");

/* Read in the caller's own frame. */
#define watch_begin() watch_from(stack_pointer)

void watch_from(uintptr_t called_with);
void watch_end(void);
void watch_report(const char *function);
#else
#define watch_begin()
#define watch_end()
#define watch_report(function)
#endif
