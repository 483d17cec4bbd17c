/* A board with a Cortex-M3, as qemu's lm3s6965evb: 256 KiB of flash memory and 64 KiB of RAM. */
MEMORY {
    ROM (rx) : ORIGIN = 0x00000000, LENGTH = 256K
    RAM (rwx) : ORIGIN = 0x20000000, LENGTH = 64K
}
INCLUDE sections.ld
