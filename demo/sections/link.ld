/* Code and the start values of .data in one memory, .data and .bss in another. The start-up code copies the values. */
ENTRY(_start)

MEMORY
{
  rom : ORIGIN = 0x20000000, LENGTH = 64K
  ram : ORIGIN = 0x80000000, LENGTH = 64K
}

/* Without FILEHDR and PHDRS: no segment begins with the headers of the file. */
PHDRS
{
  code PT_LOAD FLAGS(5);
  data PT_LOAD FLAGS(6);
  zeros PT_LOAD FLAGS(6);
}

SECTIONS
{
  .text : { *(.start) *(.text*) *(.rodata* .srodata*) . = ALIGN(4); } > rom :code
  .data : {
    __data = .;
    *(.data* .sdata*)
    . = ALIGN(4);
    __data_end = .;
  } > ram AT> rom :data
  __data_rom = LOADADDR(.data);
  /* `AT> ram`: else its load address would be after that of .data. */
  .bss : {
    __bss = .;
    *(.bss* .sbss* COMMON)
    . = ALIGN(4);
    __bss_end = .;
  } > ram AT> ram :zeros
  __stack = ORIGIN(ram) + LENGTH(ram);
  /DISCARD/ : { *(.comment .riscv.attributes) }
}
