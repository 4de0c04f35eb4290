/* what stands elsewhere in the kernel's image, which isn't compiled here */
char *saved_command_line;
unsigned int saved_command_line_len;
static int again __attribute__((used)) = 1;
static const char of[] __attribute__((used, section(".modinfo"))) = "cmdline.license=GPL";
