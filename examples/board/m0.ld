/* BBC micro:bit, an nRF51822 with a Cortex-M0: qemu's machine `microbit`. Real parts of the family also have 32 KB of RAM. */
MEMORY
{
    FLASH (rx) : ORIGIN = 0x00000000, LENGTH = 256K
    RAM (rw) : ORIGIN = 0x20000000, LENGTH = DEFINED(ram_bytes) ? ram_bytes : 16K
}
INCLUDE sections.ld
