// SPDX-License-Identifier: GPL-2.0
/* A module with a kernel thread, napper, that sleeps in nap(), a function of the module, until somebody writes to
 * /sys/module/nap/parameters/wake. Its sleep is interruptible, and yet no signal ends it. */
#include <linux/delay.h>
#include <linux/kthread.h>
#include <linux/module.h>
#include <linux/wait.h>

static struct task_struct *thread;
static DECLARE_WAIT_QUEUE_HEAD(bed);
static bool is_woken, ends;

void nap_until_woken(void);
/* A livepatch of nap() sleeps here, too. */
void nap_until_woken(void)
{
	wait_event_interruptible(bed, is_woken || ends);
	is_woken = false;
}
EXPORT_SYMBOL_GPL(nap_until_woken);

static noinline void nap(void)
{
	nap_until_woken();
	barrier();
}

static int napper(void *unused)
{
	while (!kthread_should_stop()) {
		nap();
		/* outside of nap(), and for longer than from one try of a transition to the next */
		msleep(1500);
	}
	return 0;
}

static int wake(const char *value, const struct kernel_param *param)
{
	is_woken = true;
	wake_up_all(&bed);
	return 0;
}

static const struct kernel_param_ops wake_ops = { .set = wake, };
module_param_cb(wake, &wake_ops, NULL, 0200);
MODULE_PARM_DESC(wake, "wakes napper");

static int __init nap_init(void)
{
	thread = kthread_run(napper, NULL, "napper");
	return PTR_ERR_OR_ZERO(thread);
}

static void __exit nap_exit(void)
{
	ends = true;
	wake_up_all(&bed);
	kthread_stop(thread);
}
module_init(nap_init);
module_exit(nap_exit);
MODULE_LICENSE("GPL");
