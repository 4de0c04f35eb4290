"""A kernel that is booted when something is to be played on it, and again where it didn't survive that."""
from conforming.comparing import all_compared
from conforming.kernels import Unusable
from conforming.machine import Machine
from conforming.operations import play_of


class Lab:
    """A kernel, klpsim, and a folder for what both need. `skip` makes a wrong kernel (guest/gate.c)."""

    def __init__(self, kernel, rules, room, is_kvm=False, skip=None):
        self.kernel, self.rules, self.room, self.is_kvm, self.skip = kernel, rules, room, is_kvm, skip
        self.machine = None

    def boot(self):
        """Starts to boot, if that isn't done, and doesn't wait for it."""
        if self.machine is None:
            self.machine = Machine(self.kernel, self.room, self.is_kvm, self.skip)

    def console(self, rows):
        """What the machine prints where it plays these rows."""
        self.boot()
        try:
            return self.machine.play(rows)
        except Unusable:
            self.restart()
            raise

    def restart(self):
        """Lets what is played next have a machine of its own."""
        if self.machine is not None:
            self.machine.end()
        self.machine = None

    def prepared(self, cases, first=0, is_ordered=True):
        """What the rules say of the cases, which are numbered from `first`, and the player's rows for each."""
        sides = [self.rules.of(it, is_ordered) for it in cases]
        return sides, [play_of(case, number, own) for number, (case, own) in enumerate(zip(cases, sides), first)]

    def played(self, cases, is_ordered=True):
        """What became of each line of the cases."""
        sides, plays = self.prepared(cases, is_ordered=is_ordered)
        return all_compared(cases, sides, self.survived(plays, 0)[0])

    def survived(self, plays, first):
        """What is printed where these scripts are played, numbered from `first`, and which of them the kernel doesn't
        survive, each as its number, its line and the reason. Those behind are played on a fresh machine."""
        printed, ended, at = [], [], first
        while at < first + len(plays):
            try:
                return printed + self.console(sum(plays[at - first:], [])), ended
            except Unusable as why:
                scripts = [row for row in why.printed if row.startswith("S ")]
                lines = [row for row in why.printed if row.startswith("Q ")]
                if not scripts or not lines:
                    raise
                printed += why.printed
                at = int(scripts[-1][2:]) + 1
                ended.append((at - 1, lines[-1].split()[1], why))
        return printed, ended
