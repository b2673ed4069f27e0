"""Daemons on loopback for tools/guide-check: sshds, and a Slurm of one controller and one node.

Each has a port, keys and a configuration of its own, in the current folder. It ends with the block that it is started for,
and where this process ends.
"""
import contextlib
import os
import pwd
import shutil
import socket
import subprocess
import time

# How many seconds a daemon may take until it answers, and until it has ended
PATIENCE = 30
USER = pwd.getpwuid(os.getuid()).pw_name


class NoAnswer(OSError):
    """A daemon that did not come up."""


def tool(name):
    """The path of a tool, also of one that only root has on the path; or None."""
    return shutil.which(name) or shutil.which(name, path="/usr/sbin:/sbin")


def free_ports(count):
    """Ports that nobody listens on."""
    with contextlib.ExitStack() as stack:
        sockets = [stack.enter_context(socket.socket()) for _ in range(count)]
        for at in sockets:
            at.bind(("127.0.0.1", 0))
        return [at.getsockname()[1] for at in sockets]


def text_of(name, text, mode=0o600):
    with open(name, "w") as file:
        file.write(text)
    os.chmod(name, mode)
    return os.path.abspath(name)


def wait_until(answers, what):
    end = time.monotonic() + PATIENCE
    while not answers():
        if time.monotonic() > end:
            raise NoAnswer("%s does not answer" % what)
        time.sleep(0.1)


@contextlib.contextmanager
def running(words, log):
    """A process for as long as the block; what it prints goes to the file `log`."""
    attended = ["setpriv", "--pdeathsig", "TERM"] if shutil.which("setpriv") else []
    with open(log, "wb") as file:
        process = subprocess.Popen([*attended, *words], stdin=subprocess.DEVNULL, stdout=file, stderr=file)
    try:
        yield process
    finally:
        end(process)


def end(process):
    process.terminate()
    try:
        process.wait(PATIENCE)
    except subprocess.TimeoutExpired:
        process.kill()
        process.wait()


def listens(port):
    with socket.socket() as at:
        return at.connect_ex(("127.0.0.1", port)) == 0


def key(name):
    """A new key, as a file."""
    subprocess.run(["ssh-keygen", "-q", "-t", "ed25519", "-N", "", "-f", name], check=True, stdin=subprocess.DEVNULL)
    return os.path.abspath(name)


@contextlib.contextmanager
def room_for_sshd():
    """The folder that an sshd of root wants, as its own start script makes it; it goes where it was not there."""
    made = os.getuid() == 0 and not os.path.exists("/run/sshd")
    if made:
        os.mkdir("/run/sshd", 0o755)
    try:
        yield
    finally:
        if made:
            os.rmdir("/run/sshd")


@contextlib.contextmanager
def ssh_hosts(names):
    """An sshd for each name; gives the words of the ssh that knows these names, and the process of each."""
    ports, own, host = free_ports(len(names)), key("own_key"), key("host_key")
    shutil.copyfile(own + ".pub", "authorized_keys")
    with open(host + ".pub") as file:
        public = " ".join(file.read().split()[:2])
    known = text_of("known_hosts", "".join("[127.0.0.1]:%d %s\n" % (port, public) for port in ports))
    config = text_of("ssh_config", "".join(
        "Host %s\nHostName 127.0.0.1\nPort %d\nUser %s\nIdentityFile %s\nIdentitiesOnly yes\nUserKnownHostsFile %s\n"
        "BatchMode yes\nConnectTimeout 10\n" % (name, port, USER, own, known) for name, port in zip(names, ports)))
    with contextlib.ExitStack() as stack:
        stack.enter_context(room_for_sshd())
        processes = {}
        for name, port in zip(names, ports):
            order = text_of("sshd." + name, "Port %d\nListenAddress 127.0.0.1\nHostKey %s\nPidFile %s\nAuthorizedKeysFile %s\n"
                            "StrictModes no\nUsePAM no\n" % (port, host, os.path.abspath("pid." + name),
                                                           os.path.abspath("authorized_keys")))
            processes[name] = stack.enter_context(running([tool("sshd"), "-D", "-e", "-f", order], "log." + name))
            wait_until(lambda at=port: listens(at), "sshd")
        yield "ssh -F " + config, processes


SLURM = """ClusterName=loop
SlurmctldHost=%(host)s(127.0.0.1)
SlurmctldPort=%(controller)d
SlurmdPort=%(node)d
SlurmUser=%(user)s
SlurmdUser=%(user)s
AuthType=auth/none
CredType=cred/none
ProctrackType=proctrack/linuxproc
TaskPlugin=task/none
JobAcctGatherType=jobacct_gather/none
SelectType=select/cons_tres
SelectTypeParameters=CR_Core
ReturnToService=2
StateSaveLocation=%(folder)s/state
SlurmdSpoolDir=%(folder)s/spool
SlurmctldPidFile=%(folder)s/slurmctld.pid
SlurmdPidFile=%(folder)s/slurmd.pid
SlurmctldLogFile=%(folder)s/slurmctld.log
SlurmdLogFile=%(folder)s/slurmd.log
NodeName=%(host)s NodeAddr=127.0.0.1 CPUs=%(processors)d State=UNKNOWN
PartitionName=main Nodes=%(host)s Default=YES MaxTime=INFINITE State=UP
"""


def said(words, environment):
    """What a command of Slurm prints, or nothing where it fails."""
    done = subprocess.run(words, env=environment, stdin=subprocess.DEVNULL, capture_output=True, timeout=PATIENCE, check=False)
    return done.stdout.decode().strip() if done.returncode == 0 else ""


@contextlib.contextmanager
def slurm():
    """A controller and a node; gives the environment that has them."""
    for name in ("state", "spool"):
        os.mkdir(name)
    controller, node = free_ports(2)
    order = text_of("slurm.conf", SLURM % {
        "host": socket.gethostname().split(".")[0], "controller": controller, "node": node, "user": USER,
        "folder": os.getcwd(), "processors": min(2, len(os.sched_getaffinity(0)))}, 0o644)
    environment = {**os.environ, "SLURM_CONF": order}
    with running([tool("slurmctld"), "-D", "-f", order], "out.slurmctld"):
        with running([tool("slurmd"), "-D", "-f", order], "out.slurmd"):
            wait_until(lambda: said(["sinfo", "-h", "-o", "%t"], environment) == "idle", "Slurm")
            try:
                yield environment
            finally:
                said(["scancel", "--partition=main"], environment)
                wait_until(lambda: not said(["squeue", "-h"], environment), "squeue")
