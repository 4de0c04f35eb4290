/* pool: a process whose 100 threads wait in eventfd_read(). The first is called nginx, the others worker.
 * Each byte read from the FIFO of its only argument wakes them all. */
#define _GNU_SOURCE
#include <fcntl.h>
#include <pthread.h>
#include <signal.h>
#include <stdint.h>
#include <sys/eventfd.h>
#include <sys/prctl.h>
#include <sys/stat.h>
#include <unistd.h>

#define THREADS 100

static int fd;

static void wait_for_work(void)
{
	uint64_t n;

	/* a read takes one of the hundred that a write adds: the others are left to the other threads */
	while (read(fd, &n, 8) == 8)
		sleep(1);
	_exit(1);
}

static void *worker(void *unused)
{
	prctl(PR_SET_NAME, "worker");
	wait_for_work();
	return unused;
}

int main(int argc, char **argv)
{
	uint64_t all = THREADS;
	pthread_t thread;
	int fifo;
	char c;

	fd = eventfd(0, EFD_SEMAPHORE);
	mkfifo(argv[1], 0600);
	if (!fork()) {
		prctl(PR_SET_PDEATHSIG, SIGKILL);
		prctl(PR_SET_NAME, "nginx");
		for (int i = 1; i < THREADS; i++)
			if (pthread_create(&thread, NULL, worker, NULL))
				return 1;
		wait_for_work();
	}
	fifo = open(argv[1], O_RDWR);
	while (read(fifo, &c, 1) == 1)
		if (write(fd, &all, 8) != 8)
			return 1;
	return 0;
}
