"""Many vectors, as docs/guide.md and examples/scale say: over ssh by GNU parallel, and over the workers of a dask cluster."""
import getpass
import os
import shutil
import signal
import socket
import subprocess
import time

from farm import Farm, Work, have_dask
from program import ROOT, equal

LINES = 10_000_000


def free_port():
    """A port of the loopback address that nobody uses."""
    with socket.socket() as probe:
        probe.bind(("127.0.0.1", 0))
        return probe.getsockname()[1]


class Machine:
    """A machine to reach by ssh: a server of our own on the loopback address, with keys of its own."""

    def __init__(self, folder):
        self.folder, self.port = folder, free_port()
        for name in "host", "user":
            subprocess.run(["ssh-keygen", "-q", "-t", "ed25519", "-N", "", "-f", folder / name], check=True)
        (folder / "sshd_config").write_text(
            f"Port {self.port}\nListenAddress 127.0.0.1\nHostKey {folder}/host\nAuthorizedKeysFile {folder}/user.pub\n"
            f"PidFile {folder}/pid\nStrictModes no\nUsePAM no\nPasswordAuthentication no\nPermitRootLogin yes\n")
        (folder / "config").write_text(
            f"Host there\n  HostName 127.0.0.1\n  Port {self.port}\n  User {getpass.getuser()}\n  IdentityFile {folder}/user\n"
            f"  UserKnownHostsFile {folder}/known\n  StrictHostKeyChecking no\n  LogLevel ERROR\n")
        if os.getuid() == 0:
            os.makedirs("/run/sshd", exist_ok=True)
        self.server = subprocess.Popen([shutil.which("sshd", path="/usr/sbin:/usr/bin"), "-D", "-f", folder / "sshd_config"],
                                       stderr=subprocess.DEVNULL)

    def __enter__(self):
        for _ in range(100):
            with socket.socket() as probe:
                if probe.connect_ex(("127.0.0.1", self.port)) == 0:
                    return self
            time.sleep(0.1)
        raise AssertionError("the ssh server didn't begin")

    def __exit__(self, *_):
        self.server.terminate()
        self.server.wait()


def test_parallel_over_ssh(pim, folder):
    """The guide's line with `--sshlogin`, as it stands there, gives what one `run` gives, over an ssh server of our own."""
    if not shutil.which("parallel") or not shutil.which("sshd", path="/usr/sbin:/usr/bin"):
        return
    work = Work(pim, folder, 30_000)
    work.program.rename(folder / "wide.pim")
    work.program = folder / "wide.pim"
    work.vectors.rename(folder / "many.vectors")
    work.vectors = folder / "many.vectors"
    (folder / "pim").symlink_to(pim.path)
    command, = [line for line in (ROOT / "docs" / "guide.md").read_text().split("\n") if line.startswith("    parallel ")]
    with Machine(folder):
        shell = dict(os.environ, PARALLEL_SSH=f"ssh -F {folder}/config")
        done = subprocess.run(["bash", "-c", command], cwd=folder, env=shell, capture_output=True, timeout=120)
    equal("the notes", done.stderr, b"")
    equal("the results", done.stdout, work.plain())


def test_ten_million_lines_and_a_dead_worker(pim, folder):
    """dask's workers give what plain runs of the blocks give, also where one of them is ended on the way."""
    if not have_dask():
        return
    work = Work(pim, folder, LINES)
    with Farm(folder, 4) as farm:
        farm.wait_for_workers()
        results = work.distributed(farm, ended=True)
        equal("how the worker ended", farm.workers[0].returncode, -signal.SIGKILL)
    equal("whether the results are those of plain runs", results == work.plain(), True)
