/* The memory of the RISC-V board virt, for picolibc. */
__flash = 0x80000000;
__flash_size = 0x00400000;
__ram = 0x80400000;
__ram_size = 0x00400000;
__stack_size = 0x4000;
INCLUDE picolibc.ld
