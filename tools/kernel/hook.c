// SPDX-License-Identifier: GPL-2.0
/* A hook of its own on version_proc_show(), which does nothing. Its ftrace_ops is in the module, so the next one that is
 * registered, a livepatch's, points there. */
#include <linux/module.h>
#include <linux/ftrace.h>

static void notrace hooked(unsigned long ip, unsigned long parent, struct ftrace_ops *ops, struct ftrace_regs *regs)
{
}

static struct ftrace_ops ops = { .func = hooked, };

static int hook_init(void)
{
	static unsigned char name[] = "version_proc_show";
	int status = ftrace_set_filter(&ops, name, sizeof(name) - 1, 0);

	return status ? status : register_ftrace_function(&ops);
}

static void hook_exit(void)
{
	unregister_ftrace_function(&ops);
}
module_init(hook_init);
module_exit(hook_exit);
MODULE_LICENSE("GPL");
