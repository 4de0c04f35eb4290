// SPDX-License-Identifier: GPL-2.0
/* The other half of the module twins. */
#include <linux/module.h>

static int both = 3;

static noinline int twice(void)
{
	asm volatile("" ::: "memory");
	return 4;
}

static int get_warm(char *buf, const struct kernel_param *kp)
{
	return sprintf(buf, "%d %d\n", twice(), READ_ONCE(both));
}

static int set_warm(const char *text, const struct kernel_param *kp)
{
	return kstrtoint(text, 0, &both);
}

static const struct kernel_param_ops warm_ops = { .get = get_warm, .set = set_warm };
module_param_cb(warm, &warm_ops, NULL, 0644);
