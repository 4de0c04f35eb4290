// SPDX-License-Identifier: GPL-2.0
/* A module with a kernel thread that sleeps in a function of the module, busy_step(). */
#include <linux/delay.h>
#include <linux/kthread.h>
#include <linux/module.h>

static struct task_struct *thread;
static uint step_ms = 3000;
module_param(step_ms, uint, 0);
MODULE_PARM_DESC(step_ms, "how long busy_step() sleeps");

static noinline void busy_step(void)
{
	msleep(step_ms);
	barrier();
}

static int busy_loop(void *unused)
{
	while (!kthread_should_stop()) {
		busy_step();
		msleep(200);
	}
	return 0;
}

static int __init busy_init(void)
{
	thread = kthread_run(busy_loop, NULL, "busy_loop");
	return PTR_ERR_OR_ZERO(thread);
}

static void __exit busy_exit(void)
{
	kthread_stop(thread);
}
module_init(busy_init);
module_exit(busy_exit);
MODULE_LICENSE("GPL");
