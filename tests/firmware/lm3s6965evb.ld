/* The memory of the board lm3s6965evb, for picolibc. */
__flash = 0x00000000;
__flash_size = 0x00040000;
__ram = 0x20000000;
__ram_size = 0x00010000;
__stack_size = 0x2000;
INCLUDE picolibc.ld
