/* qemu's virt with a RISC-V processor of 32 bits. Its RAM is divided as that of the other board. */
MEMORY {
    ROM (rx) : ORIGIN = 0x80000000, LENGTH = 256K
    RAM (rwx) : ORIGIN = 0x80100000, LENGTH = 64K
}
INCLUDE sections.ld
