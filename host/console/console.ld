/* A guest in one piece from 1 MiB on, entered by PVH (boot.s). archive_start and archive_end bound the driver's code. */
ENTRY(guest_start)
PHDRS {
  code PT_LOAD FLAGS(5);
  note PT_NOTE FLAGS(4);
  data PT_LOAD FLAGS(6);
}
SECTIONS {
  . = 0x100000;
  .note.Xen : { KEEP(*(.note.Xen)) } :code :note
  .text : {
    *(.boot)
    archive_start = .;
    *console.o(.text .text.*)
    archive_end = .;
    *(.text .text.*)
  } :code
  .rodata : { *(.rodata .rodata.*) } :code
  . = ALIGN(4096);
  .data : { *(.data .data.*) *(.got .got.*) } :data
  .bss : { *(.bss .bss.*) *(COMMON) } :data
  . = ALIGN(4096);
  guest_end = .;
  /DISCARD/ : { *(.eh_frame*) *(.comment) *(.note.GNU*) *(.note.gnu*) }
}
