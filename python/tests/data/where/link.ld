/* Code from the beginning of the memory on, then data; the stack grows down from its end. */
ENTRY(_start)
MEMORY { ram : ORIGIN = 0x80000000, LENGTH = 64K }
PHDRS { all PT_LOAD; }
SECTIONS
{
  .text : { *(.start) *(.text*) } > ram :all
  .rodata : { *(.rodata* .srodata*) } > ram :all
  .data : { *(.data* .sdata*) } > ram :all
  .bss : { *(.bss* .sbss* COMMON) } > ram :all
  __stack = ORIGIN(ram) + LENGTH(ram);
}
