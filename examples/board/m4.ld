/* Netduino Plus 2, an STM32F405 with a Cortex-M4: qemu's machine `netduinoplus2`. Its core memory (64 KB at 0x10000000) is left alone. */
MEMORY
{
    FLASH (rx) : ORIGIN = 0x08000000, LENGTH = 1024K
    RAM (rw) : ORIGIN = 0x20000000, LENGTH = 128K
}
INCLUDE sections.ld
