/* The memory of the boards mps2-an385 and mps2-an386, for picolibc. */
__flash = 0x00000000;
__flash_size = 0x00400000;
__ram = 0x20000000;
__ram_size = 0x00400000;
__stack_size = 0x4000;
INCLUDE picolibc.ld
