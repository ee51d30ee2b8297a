"""A suite in Slurm: demo/suite/slurm.sh on a cluster of this machine alone, which the test starts and ends."""
import os
import pathlib
import shutil
import socket
import subprocess
import tempfile
from typing import List

from labtools.common.program import TOP
from tests.suite_projects import DEMO_LINES, WithLab, wait_for

PROGRAMS = "munged", "slurmctld", "slurmd", "sbatch", "sinfo"
CONFIGURATION = """\
ClusterName=lab
SlurmctldHost={host}(127.0.0.1)
SlurmUser=root
AuthType=auth/munge
AuthInfo=socket={room}/munge.socket
CredType=cred/munge
SlurmctldPort={ports[0]}
SlurmdPort={ports[1]}
SlurmctldPidFile={room}/slurmctld.pid
SlurmdPidFile={room}/slurmd.pid
SlurmctldLogFile={room}/slurmctld.log
SlurmdLogFile={room}/slurmd.log
StateSaveLocation={room}/state
SlurmdSpoolDir={room}/spool
SlurmdParameters=config_overrides
ProctrackType=proctrack/linuxproc
TaskPlugin=task/none
JobAcctGatherType=jobacct_gather/none
MpiDefault=none
ReturnToService=2
SchedulerParameters=sched_interval=1
SelectType=select/cons_tres
SelectTypeParameters=CR_CPU
NodeName={host} NodeAddr=127.0.0.1 CPUs=3 State=UNKNOWN
PartitionName=all Nodes=ALL Default=YES MaxTime=10 State=UP
"""


def free_ports(count: int) -> List[int]:
    """Ports that nobody has, as far as is known."""
    made = [socket.socket() for _ in range(count)]
    for it in made:
        it.bind(("127.0.0.1", 0))
    ports = [int(it.getsockname()[1]) for it in made]
    for it in made:
        it.close()
    return ports


class Slurm(WithLab):
    """A cluster of one node, whose daemons end with the test."""

    def setUp(self) -> None:
        super().setUp()
        missing = [it for it in PROGRAMS if not shutil.which(it)]
        if missing:
            self.skipTest(f"a suite in Slurm, without {missing[0]}")
        if os.geteuid() != 0:
            self.skipTest("a suite in Slurm, without the rights of root")
        room = tempfile.TemporaryDirectory(prefix="lab-slurm-")
        self.addCleanup(room.cleanup)
        self.cluster = pathlib.Path(room.name)
        self.environment.update(LAB_HOME=str(TOP), SLURM_CONF=str(self.cluster / "slurm.conf"))
        self.begin()

    def begin(self) -> None:
        """Starts the daemons, and waits until the node takes jobs."""
        for name in "state", "spool":
            (self.cluster / name).mkdir()
        host = socket.gethostname().partition(".")[0]
        text = CONFIGURATION.format(host=host, room=self.cluster, ports=free_ports(2))
        (self.cluster / "slurm.conf").write_text(text, encoding="ascii")
        (self.cluster / "munge.key").write_bytes(os.urandom(1024))
        (self.cluster / "munge.key").chmod(0o600)
        files = {"key-file": "key", "socket": "socket", "pid-file": "pid", "log-file": "log", "seed-file": "seed"}
        options = [f"--{option}={self.cluster}/munge.{name}" for option, name in files.items()]
        self.daemon("munged", "--foreground", "--force", *options)
        wait_for(lambda: (self.cluster / "munge.socket").exists())
        self.daemon("slurmctld", "-D")
        self.daemon("slurmd", "-D", "-N", host)
        wait_for(lambda: "idle" in self.ran("sinfo", "-h", "-o", "%T").stdout)

    def daemon(self, *words: str) -> None:
        with open(self.cluster / f"{words[0]}.out", "wb") as told:
            process = subprocess.Popen(words, env=self.environment, cwd=self.cluster, stdout=told, stderr=told)
        self.addCleanup(process.wait)
        self.addCleanup(process.terminate)

    def test_an_array_of_jobs(self) -> None:
        ran = self.ran("sbatch", "--wait", "--array=1-3", "demo/suite/slurm.sh")
        self.assertEqual(ran.returncode, 1, ran.stderr)
        results = [f"suite-{number}.xml" for number in (1, 2, 3)]
        self.expect(["--merge", "--junit", "suite.xml", *results], 1, DEMO_LINES)
        for number in 1, 2, 3:
            self.assertIn(f"suite: shard {number}/3: 2 tests, ", self.read(f"suite-{number}.txt"))
