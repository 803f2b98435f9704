/* An owner's memory: 16 KB from 0 on, code first, then data, and at the end a stack of at least 256 bytes. */
MEMORY { memory : ORIGIN = 0, LENGTH = 16K }
ENTRY(_start)
SECTIONS {
  .text : { KEEP(*(.start)) *(.text .text.*) } > memory
  .rodata : { *(.rodata .rodata.* .srodata .srodata.*) } > memory
  .data : { *(.data .data.* .sdata .sdata.*) } > memory
  .bss : { *(.sbss .sbss.* .bss .bss.* COMMON) } > memory
  .stack (NOLOAD) : { . += 256; } > memory
  /DISCARD/ : { *(.comment) *(.riscv.attributes) *(.note*) *(.eh_frame*) }
}
