/* Where an application lies on the kernel machine.
 *
 * Code is at 0 to 65,535. Instructions are fetched from it, and nothing else reaches it: no load, no store. So everything that is
 * read as data stands in RAM, constants, strings and the tables of `switch` too. RAM is 0x100000 to 0x13FFFF. There is no code
 * that starts an application up: a run begins with the variables' values in their places, and all other RAM 0.
 *
 * Stacks (OS_STACK in ucos3.h) stand behind the variables, and are not stored in the executable. Above them RAM is free up to
 * 0x140000, which is the default stack pointer of timers' callbacks. */
OUTPUT_ARCH(riscv)
ENTRY(code_start)

MEMORY
{
    code (rx) : ORIGIN = 0x00000000, LENGTH = 64K
    ram (rw) : ORIGIN = 0x00100000, LENGTH = 256K
}

PHDRS
{
    code PT_LOAD FLAGS(5);
    ram PT_LOAD FLAGS(6);
}

SECTIONS
{
    /* The first 64 bytes are EBREAK: so no function stands at 0, and a call of a null pointer stops its task with a trap. So is
       a task stopped whose entry was given by the name of a task or an object, which is a small number. */
    .text 0x00000000 :
    {
        code_start = .;
        LONG(0x00100073) LONG(0x00100073) LONG(0x00100073) LONG(0x00100073)
        LONG(0x00100073) LONG(0x00100073) LONG(0x00100073) LONG(0x00100073)
        LONG(0x00100073) LONG(0x00100073) LONG(0x00100073) LONG(0x00100073)
        LONG(0x00100073) LONG(0x00100073) LONG(0x00100073) LONG(0x00100073)
        *(.text .text.*)
        . = ALIGN(4);
        code_end = .;
    } > code :code

    .data 0x00100000 :
    {
        ram_start = .;
        *(.rodata .rodata.* .srodata .srodata.*)
        *(.data .data.* .sdata .sdata.*)
        . = ALIGN(4);
    } > ram :ram

    .bss (NOLOAD) :
    {
        *(.sbss .sbss.* .bss .bss.* COMMON)
        . = ALIGN(16);
        variables_end = .;
    } > ram :ram

    .stacks (NOLOAD) :
    {
        KEEP(*(.stacks))
        stacks_end = .;
    } > ram :NONE

    ram_end = 0x00140000;

    .riscv.attributes 0 : { *(.riscv.attributes) }

    /DISCARD/ :
    {
        *(.comment .note .note.* .eh_frame .eh_frame_hdr)
    }
}

ASSERT(code_end <= 0x00010000, "the code has more than 65,536 bytes")
ASSERT(variables_end <= ram_end, "constants and variables have more than 262,144 bytes")
ASSERT(stacks_end <= ram_end, "the stacks end above RAM: make them smaller, or take 0x140000 for one of them")
