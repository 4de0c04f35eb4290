// SPDX-License-Identifier: GPL-2.0
/* A livepatch of busy_step() in the module busy. */
#include <linux/delay.h>
#include <linux/livepatch.h>
#include <linux/module.h>

static void livepatch_busy_step(void)
{
	msleep(500);
	barrier();
}

static struct klp_func funcs[] = {
	{ .old_name = "busy_step", .new_func = livepatch_busy_step, },
	{ }
};
static struct klp_object objs[] = { { .name = "busy", .funcs = funcs, }, { } };
static struct klp_patch patch = { .mod = THIS_MODULE, .objs = objs, };

static int __init busy_fix_init(void) { return klp_enable_patch(&patch); }
static void __exit busy_fix_exit(void) { }
module_init(busy_fix_init);
module_exit(busy_fix_exit);
MODULE_LICENSE("GPL");
MODULE_INFO(livepatch, "Y");
