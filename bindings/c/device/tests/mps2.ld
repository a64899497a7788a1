/* QEMU's mps2-an385 and mps2-an386: code from address 0, memory from 0x20000000. For mps2-an505 __flash and __ram say where. */
MEMORY {
  FLASH (rx) : ORIGIN = DEFINED(__flash) ? __flash : 0, LENGTH = 4M
  RAM (rwx) : ORIGIN = DEFINED(__ram) ? __ram : 0x20000000, LENGTH = 4M
}
ENTRY(_start)
SECTIONS {
  .text : { KEEP(*(.vectors)) *(.text*) *(.rodata*) KEEP(*(.init)) KEEP(*(.fini)) } > FLASH
  .ARM.extab : { *(.ARM.extab*) } > FLASH
  __exidx_start = .;
  .ARM.exidx : { *(.ARM.exidx*) } > FLASH
  __exidx_end = .;
  .init_array : { KEEP(*(.preinit_array)) KEEP(*(.init_array*)) KEEP(*(.fini_array*)) } > RAM
  .data : { *(.data*) } > RAM
  .bss : { __bss_start__ = .; *(.bss*) *(COMMON) __bss_end__ = .; } > RAM
  end = .;
  __end__ = .;
  _end = .;
}
