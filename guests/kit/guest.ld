/* A guest in memory: code and constants from 00010000 on, readable and executable; data behind them on pages of their
   own, readable and writable. The heap, 1 MiB, begins at the page behind `_end`; stacks lie elsewhere. */
OUTPUT_ARCH(riscv)
ENTRY(_start)

PHDRS
{
    code PT_LOAD FLAGS(5);
    data PT_LOAD FLAGS(6);
}

SECTIONS
{
    . = 0x00010000;
    .text : {
        KEEP(*(.text.start)) *(.text .text.*)
        PROVIDE(etext = .); PROVIDE(_etext = .); PROVIDE(__etext = .);
    } :code
    .rodata : { *(.rodata .rodata.* .srodata .srodata.*) } :code

    /* What crt0.S calls before main, in the order of the priorities, and then those without one. */
    .constructors : {
        PROVIDE_HIDDEN(__preinit_array_start = .);
        KEEP(*(.preinit_array))
        PROVIDE_HIDDEN(__preinit_array_end = .);
        PROVIDE_HIDDEN(__init_array_start = .);
        KEEP(*(SORT_BY_INIT_PRIORITY(.init_array.*))) KEEP(*(.init_array))
        PROVIDE_HIDDEN(__init_array_end = .);
    } :code

    /* Each part that isn't empty ends with a whole word: an atomic byte is accessed by its word. */
    . = ALIGN(0x1000);
    .data : { *(.data .data.*) . = ALIGN(. != 0 ? 4 : 1); } :data
    .sdata : { __global_pointer$ = . + 0x800; *(.sdata .sdata.*) . = ALIGN(. != 0 ? 4 : 1); } :data
    PROVIDE(edata = .); PROVIDE(_edata = .); PROVIDE(__bss_start = .);
    .sbss (NOLOAD) : { *(.sbss .sbss.* .scommon) . = ALIGN(. != 0 ? 4 : 1); } :data
    .bss (NOLOAD) : { *(.bss .bss.* COMMON) . = ALIGN(. != 0 ? 4 : 1); } :data
    _end = .;
    PROVIDE(end = .); PROVIDE(__bss_end = .);
    PROVIDE(__heap_start = ALIGN(0x1000)); PROVIDE(__heap_end = ALIGN(0x1000) + 0x100000);

    .thread_local : { *(.tdata .tdata.* .tbss .tbss.*) }
    .old_constructors : { KEEP(*(.ctors .ctors.*)) }
    /* Nothing is run behind main. */
    /DISCARD/ : { *(.fini_array .fini_array.* .dtors .dtors.*) }
    /DISCARD/ : { *(.comment .note .note.* .eh_frame .eh_frame_hdr) }
}

ASSERT(SIZEOF(.thread_local) == 0, "a guest has no thread-local data")
ASSERT(SIZEOF(.constructors) == 0 || DEFINED(romain_runs_constructors),
       "link kit/crt0.S in the place of kit/start.S: it runs the constructors")
ASSERT(SIZEOF(.old_constructors) == 0, "constructors belong into .init_array, not into .ctors")
ASSERT(_end - 0x00010000 <= 0x00400000, "a guest takes at most 4 MiB of memory")
