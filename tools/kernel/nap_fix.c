// SPDX-License-Identifier: GPL-2.0
/* A cumulative livepatch of nap() in the module nap. */
#include <linux/livepatch.h>
#include <linux/module.h>

void nap_until_woken(void);

static void livepatch_nap(void)
{
	nap_until_woken();
	barrier();
}

static struct klp_func funcs[] = {
	{ .old_name = "nap", .new_func = livepatch_nap, },
	{ }
};
static struct klp_object objs[] = { { .name = "nap", .funcs = funcs, }, { } };
static struct klp_patch patch = { .mod = THIS_MODULE, .objs = objs, .replace = true, };

static int __init nap_fix_init(void) { return klp_enable_patch(&patch); }
static void __exit nap_fix_exit(void) { }
module_init(nap_fix_init);
module_exit(nap_fix_exit);
MODULE_LICENSE("GPL");
MODULE_INFO(livepatch, "Y");
