// SPDX-License-Identifier: GPL-2.0
/*
 * One half of the module twins, which has two functions `twice`, and a function and a variable `both`. This `twice` is
 * cold: it lies behind the other one, but the linker has put it first into the table of symbols.
 */
#include <linux/module.h>

static noinline __cold int twice(void)
{
	asm volatile("" ::: "memory");
	return 1;
}

static noinline int both(void)
{
	asm volatile("" ::: "memory");
	return 2;
}

static int get_cold(char *buf, const struct kernel_param *kp)
{
	return sprintf(buf, "%d %d\n", twice(), both());
}

static const struct kernel_param_ops cold_ops = { .get = get_cold };
module_param_cb(cold, &cold_ops, NULL, 0444);

static int __init twins_init(void) { return 0; }
static void __exit twins_exit(void) { }
module_init(twins_init);
module_exit(twins_exit);
MODULE_DESCRIPTION("functions of one name");
MODULE_LICENSE("GPL");
