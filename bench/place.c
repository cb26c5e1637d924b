/* So many bytes before all other code of the bench, so that one run after another has its loops at other places of a page. */
#define TEXT(x) #x
#define BYTES(x) TEXT(x)
__asm__(".text\n\t.space " BYTES(PLACE));
