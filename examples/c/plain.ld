/* The memory of the machine `plain`: 1 MiB from 0x10000 on. At its end is a stack of 4,096 bytes for
   each core, of which `plain` has one. For other machines: --defsym=cores=N leaves room for the stacks
   of N cores, --defsym=stack=N has stacks of N bytes (memory.stack of the machine), and
   --defsym=memory=N a memory of N bytes (memory.size). */

ENTRY(_start)

PHDRS
{
  code PT_LOAD FLAGS(5);
  data PT_LOAD FLAGS(6);
}

SECTIONS
{
  base = 0x10000;
  end_of_memory = base + (DEFINED(memory) ? memory : 0x100000);
  stack_bytes = DEFINED(stack) ? stack : 4096;
  bytes_of_stacks = stack_bytes * (DEFINED(cores) ? cores : 1);
  stacks = end_of_memory - bytes_of_stacks;

  /* Addresses and places in the file are equal modulo the size of a page, so that qemu can map the
     file as Linux does. The headers are not loaded: memory begins at base. */
  . = base + SIZEOF_HEADERS;
  .text :
  {
    *(.text.start)
    *(.text .text.*)
    *(.rodata .rodata.* .srodata .srodata.*)
  } :code

  . += 0x1000;
  /* What each core has of its own where the library is linked: these bytes, and then zeros, behind 16
     bytes for the core's number. */
  .tdata : { *(.tdata .tdata.*) } :data
  .tbss : { *(.tbss .tbss.* .tcommon) } :data
  thread_data = ADDR(.tdata);
  thread_data_end = thread_data + SIZEOF(.tdata);
  thread_storage = ALIGN(16 + ALIGN(SIZEOF(.tdata), 16) + SIZEOF(.tbss), 16);
  .data :
  {
    *(.data .data.*)
    __global_pointer$ = . + 0x800;
    *(.sdata .sdata.*)
  } :data
  .bss (NOLOAD) :
  {
    *(.sbss .sbss.* .scommon)
    *(.bss .bss.* COMMON)
  } :data
  end_of_program = .;
  heap_start = ALIGN(16);
  heap_end = stacks;

  PROVIDE(call_main = main);
  /DISCARD/ : { *(.comment .note .note.* .eh_frame .riscv.attributes .init_array .fini_array) }

  ASSERT(bytes_of_stacks <= end_of_memory - base && end_of_program <= stacks, "the program reaches into the stacks")
  ASSERT(SIZEOF(.tdata) + SIZEOF(.tbss) == 0 || DEFINED(library_start),
         "thread-local storage needs LIBRARY=1")
}
