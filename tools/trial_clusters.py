"""Clusters on this machine, for trials: Slurm with a controller and nodes, Dask with a scheduler and workers. All daemons listen on the
loopback alone, live in one folder, and end with their cluster. A node of Slurm is a daemon in a process namespace of its own where that
is allowed, so that killing it kills its tasks as a machine that fails does."""
import getpass
import os
import shutil
import signal
import socket
import subprocess
import sys
import time

SLURM_PROGRAMS = ["munged", "slurmctld", "slurmd", "sbatch", "squeue", "scontrol"]
NAMESPACE = ["unshare", "--pid", "--fork", "--kill-child", "--mount-proc"]
MOST_SECONDS = 300
CONFIG = """ClusterName=trial
SlurmctldHost=localhost(127.0.0.1)
SlurmctldPort={port}
SlurmUser={user}
SlurmdUser={user}
AuthType=auth/munge
AuthInfo=socket={folder}/munge.sock
CredType=cred/munge
StateSaveLocation={folder}/state
SlurmdSpoolDir={folder}/%n
SlurmdPidFile={folder}/%n.pid
SlurmctldPidFile={folder}/slurmctld.pid
ProctrackType=proctrack/linuxproc
TaskPlugin=task/none
SwitchType=switch/none
MpiDefault=none
JobAcctGatherType=jobacct_gather/none
SelectType=select/cons_tres
SelectTypeParameters=CR_CPU
SlurmdTimeout=10
KillWait=2
ReturnToService=2
MessageTimeout=30
SchedulerParameters=sched_interval=2,batch_sched_delay=0,bf_interval=2
PartitionName=all Nodes=ALL Default=YES MaxTime=INFINITE State=UP
"""


def sbin_path():
    return f"{os.environ['PATH']}:/usr/sbin:/sbin"


def has_slurm():
    return all(shutil.which(name, path=sbin_path()) for name in SLURM_PROGRAMS)


def python_with_dask():
    """A Python that has `distributed`, or nothing."""
    for python in [sys.executable, "/usr/bin/python3"]:
        if os.path.exists(python) and subprocess.run([python, "-c", "import distributed"], stderr=subprocess.DEVNULL).returncode == 0:
            return python
    return None


def free_ports(count):
    held = [socket.socket() for _ in range(count)]
    for one in held:
        one.bind(("127.0.0.1", 0))
    ports = [one.getsockname()[1] for one in held]
    for one in held:
        one.close()
    return ports


def wait_until(holds, what, most_seconds=MOST_SECONDS, pause=0.2):
    end = time.monotonic() + most_seconds
    while not holds():
        if time.monotonic() > end:
            raise RuntimeError(f"{what}: not within {most_seconds} s")
        time.sleep(pause)


class Daemons:
    """Processes that this one started, and that end with it."""

    def __init__(self, folder):
        self.folder, self.running = folder, {}
        os.makedirs(folder, exist_ok=True)

    def start(self, name, words, env=None):
        with open(f"{self.folder}/{name}.log", "ab") as log:
            self.running[name] = subprocess.Popen(words, stdin=subprocess.DEVNULL, stdout=log, stderr=log, env=env, cwd=self.folder)

    def kill(self, name):
        process = self.running.pop(name)
        process.kill()
        process.wait()

    def begin(self):
        """Starts the processes that a cluster begins with."""

    def __enter__(self):
        signal.signal(signal.SIGTERM, lambda *_: sys.exit("stopped by a signal"))
        try:
            self.begin()
        except BaseException:
            self.__exit__()
            raise
        return self

    def __exit__(self, *_):
        for name in reversed(list(self.running)):
            self.kill(name)


class Slurm(Daemons):
    """A controller and nodes of one processor each."""

    def __init__(self, folder, nodes, program):
        super().__init__(folder)
        self.nodes = [f"n{number}" for number in range(1, nodes + 1)]
        self.env = {**os.environ, "PATH": sbin_path(), "SLURM_CONF": f"{folder}/slurm.conf", "PAPCALC": program}

    def begin(self):
        controller, *ports = free_ports(len(self.nodes) + 1)
        self.write_config(controller, ports)
        self.start_munge()
        self.start("slurmctld", ["slurmctld", "-D"], self.env)
        for node in self.nodes:
            self.start_node(node)
        wait_until(lambda: self.states().count("idle") == len(self.nodes), "the nodes are up")

    def write_config(self, controller, ports):
        for name in ["state", *self.nodes]:
            os.makedirs(f"{self.folder}/{name}", exist_ok=True)
        with open(f"{self.folder}/slurm.conf", "w", encoding="ascii") as config:
            config.write(CONFIG.format(port=controller, user=getpass.getuser(), folder=self.folder))
            for node, port in zip(self.nodes, ports):
                config.write(f"NodeName={node} NodeHostname=localhost NodeAddr=127.0.0.1 Port={port} CPUs=1 State=UNKNOWN\n")

    def start_munge(self):
        with open(os.open(f"{self.folder}/munge.key", os.O_WRONLY | os.O_CREAT, 0o600), "wb") as key:
            key.write(os.urandom(128))
        files = [f"--{kind}={self.folder}/munge.{end}" for kind, end in
                 [("key-file", "key"), ("socket", "sock"), ("pid-file", "pid"), ("log-file", "log"), ("seed-file", "seed")]]
        self.start("munged", ["munged", "--foreground", "--force", *files], self.env)
        wait_until(lambda: os.path.exists(f"{self.folder}/munge.sock"), "munge is up")

    def start_node(self, node):
        namespace = NAMESPACE if os.getuid() == 0 else []
        self.start(node, [*namespace, "slurmd", "-D", "-N", node], self.env)

    def namespace(self, node):
        """The process namespace of a node's daemon and its tasks."""
        return os.readlink(f"/proc/{self.running[node].pid}/ns/pid_for_children")

    def command(self, *words):
        return subprocess.run(words, env=self.env, stdout=subprocess.PIPE, stderr=subprocess.DEVNULL, encoding="utf-8").stdout

    def states(self):
        return self.command("sinfo", "-h", "-N", "-o", "%t").split()

    def submit(self, numbers, *words, options=()):
        """A job array of one task a part: a count of parts, or their numbers. Gives its own number."""
        script = os.path.join(os.path.dirname(os.path.abspath(__file__)), "cluster", "papcalc.sbatch")
        array = numbers if isinstance(numbers, str) else f"1-{numbers}"
        said = self.command("sbatch", "--parsable", f"--array={array}", f"--output={self.folder}/task-%a.log", *options, script, *words)
        return said.strip()

    def tasks(self, job, *states):
        """The tasks of a job in these states, or in any: their states by their numbers."""
        said = self.command("squeue", "-h", "-r", "-j", job, "-o", "%K %T %r")
        held = {int(line.split()[0]): line.split()[1] for line in said.splitlines()}
        return {number: state for number, state in held.items() if not states or state in states}

    def hasten(self, job):
        """Tasks that were put back into the queue start now, and not after the two minutes that Slurm lets go by."""
        for number in self.tasks(job, "PENDING"):
            self.command("scontrol", "update", f"JobId={job}_{number}", "StartTime=now")

    def wait(self, job, most_seconds=MOST_SECONDS):
        def is_over():
            self.hasten(job)
            return not self.tasks(job)
        wait_until(is_over, f"job {job} is over", most_seconds)


class Dask(Daemons):
    """A scheduler and workers of one thread each."""

    def __init__(self, folder, workers, python):
        super().__init__(folder)
        self.python, self.workers = python, workers
        self.port, = free_ports(1)
        self.address = f"tcp://127.0.0.1:{self.port}"

    def begin(self):
        scheduler = ["distributed.cli.dask_scheduler", "--host", "127.0.0.1", "--port", str(self.port), "--no-dashboard"]
        self.start("scheduler", [self.python, "-m", *scheduler])
        for name in [f"worker-{number}" for number in range(1, self.workers + 1)]:
            worker = ["distributed.cli.dask_worker", self.address, "--host", "127.0.0.1", "--nthreads", "1", "--no-dashboard", "--no-nanny",
                      "--local-directory", f"{self.folder}/{name}"]
            self.start(name, [self.python, "-m", *worker])

    def payroll(self, program, *words):
        script = os.path.join(os.path.dirname(os.path.abspath(__file__)), "cluster", "dask_payroll.py")
        return subprocess.Popen([self.python, script, "--scheduler", self.address, "--program", program, *words],
                                stdout=subprocess.DEVNULL, stderr=subprocess.PIPE, encoding="utf-8")
