/* what stands in the kernel's init/main.c, which isn't compiled here */
char *saved_command_line;
