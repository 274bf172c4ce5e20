/* The memory of a micro:bit, a board with a Cortex-M0: 256 KB of flash from 0 on, 16 KB of RAM. Nothing has a first value in RAM. */
ENTRY(_start)
MEMORY {
    FLASH (rx) : ORIGIN = 0, LENGTH = 256K
    RAM (rwx) : ORIGIN = 0x20000000, LENGTH = 16K
}
SECTIONS {
    .vectors : { KEEP(*(.vectors)) } > FLASH
    .text : { *(.text*) *(.rodata*) KEEP(*(.init)) KEEP(*(.fini)) *(.ARM.ex*) } > FLASH
    .init_array : { __init_array_start = .; KEEP(*(.init_array*)) __init_array_end = .; } > FLASH
    .fini_array : { __fini_array_start = .; KEEP(*(.fini_array*)) __fini_array_end = .; } > FLASH
    .data : { *(.data*) } > RAM
    .bss (NOLOAD) : { __bss_start__ = .; *(.bss*) *(COMMON) __bss_end__ = .; } > RAM
    end = .; _end = .; __end__ = .;
    _estack = ORIGIN(RAM) + LENGTH(RAM);
    __stack = _estack;
}
