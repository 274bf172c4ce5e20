/* What the chip reads first: the top of the stack, and where to begin, which is the start of newlib. The emulator loads RAM with the rest. */
extern unsigned _estack;
extern void _start(void);
__attribute__((section(".vectors"), used)) static const void *const vectors[16] = {&_estack, (const void *)_start};

/* newlib calls these around main; there is nothing to do. */
void _init(void) {}
void _fini(void) {}
