/* Netduino 2, an STM32F205 with a Cortex-M3: qemu's machine `netduino2`. */
MEMORY
{
    FLASH (rx) : ORIGIN = 0x08000000, LENGTH = 1024K
    RAM (rw) : ORIGIN = 0x20000000, LENGTH = 128K
}
INCLUDE sections.ld
