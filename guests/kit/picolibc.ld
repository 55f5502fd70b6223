/* With guest.ld, for programs with kit/picolibc.c: what thread-local data begins with lies among the constants, for each thread
   to copy, and room for that of thread 0 among the data. The names are those that picolibc asks for. */
SECTIONS
{
    .tdata : ALIGN(16) { __tdata_source = .; *(.tdata .tdata.*) } :code
    .tbss (NOLOAD) : { *(.tbss .tbss.*) } :code
}
INSERT AFTER .rodata;

__tdata_size = SIZEOF(.tdata);
__tbss_offset = ALIGN(SIZEOF(.tdata), ALIGNOF(.tbss));
__tbss_size = SIZEOF(.tbss);
__tls_size = __tbss_offset + __tbss_size;

SECTIONS
{
    .thread_zero (NOLOAD) : ALIGN(16) { __thread_zero = .; . = . + __tls_size; } :data
}
INSERT BEFORE .bss;

ASSERT(MAX(ALIGNOF(.tdata), ALIGNOF(.tbss)) <= 16, "thread-local data is aligned to 16 bytes at most, as stacks are")
