/* Each side's functions lie in three pages of their own, laid out alike: the emulator is slower where a loop crosses
   from one page to the next, and that is no matter of the code. */
SECTIONS
{
  .text.verified : ALIGN(4096)
  {
    *libcalls.a:*(.text.folding* .text.search*)
    . = ALIGN(4096);
    *libcalls.a:*(.text.gohardim_look .text.gohardim_load .text.gohardim_write* .text.image* .text.in_place*
                  .text.writing*)
    . = ALIGN(4096);
    *libcalls.a:*(.text .text.*)
  }
  .text.plain : ALIGN(4096)
  {
    *plain.o(.text.fold .text.search)
    . = ALIGN(4096);
    *plain.o(.text.plain_look .text.plain_load .text.plain_write* .text.write)
    . = ALIGN(4096);
    *plain.o(.text .text.*)
  }
}
INSERT AFTER .text;
