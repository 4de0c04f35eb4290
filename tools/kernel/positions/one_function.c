// SPDX-License-Identifier: GPL-2.0
/* A livepatch of one function: FUNCTION of OBJECT at POSITION. The Makefile defines these. */
#include <linux/livepatch.h>
#include <linux/module.h>

static int fix(void) { return 77; }

static struct klp_func funcs[] = {
	{ .old_name = FUNCTION, .new_func = fix, .old_sympos = POSITION }, { }
};
static struct klp_object objs[] = {
	{ .name = OBJECT, .funcs = funcs }, { }
};
static struct klp_patch patch = { .mod = THIS_MODULE, .objs = objs };

static int __init one_function_init(void) { return klp_enable_patch(&patch); }
static void __exit one_function_exit(void) { }
module_init(one_function_init);
module_exit(one_function_exit);
MODULE_DESCRIPTION("a livepatch of one function");
MODULE_LICENSE("GPL");
MODULE_INFO(livepatch, "Y");
