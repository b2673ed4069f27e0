"""What tools/guide-check tries of tools/rebuild-array: GNU parallel on this machine and over ssh, and Slurm."""
import contextlib
import os
import random
import shutil
import signal
import subprocess
import time
import daemons
import reads

REBUILD = os.path.join(reads.TOP, "tools/rebuild-array")
ARRAYS = os.path.abspath(os.environ.get("ARRAYS", os.path.join(reads.TOP, "crates/arrays/out/arrays")))
MATRIX = os.path.join(reads.TOP, "examples/rdp5.matrix")
HEAD, DEVICES, PER_DEVICE, COLUMNS = 32, 6, 4, 16
# An array of 100 stripes in images of 16, of which the last has four
STRIPES, BYTES, LOST, OF_IMAGE, IMAGES = 100, 64, 2, 16, 7
PART = PER_DEVICE * BYTES
SUMS = "images 7 stripes 100 read 76800 rows 102400\n"
# How many seconds a call of rebuild-array may take
PATIENCE = 120
# What a part of the checks needs besides the two programs: commands, and the packages of Debian that have them
NEEDS = {"parallel": (["parallel"], "parallel"),
         "ssh": (["parallel", "sshd", "ssh", "ssh-keygen"], "parallel, openssh-server and openssh-client"),
         "slurm": (["sbatch", "slurmctld", "slurmd"], "slurm-wlm")}
# An `arrays` that writes down what it gathers, takes its time, and fails where it is told to
SLOW = """#!/bin/sh
if [ "$1" = gather ]; then
  echo "$4" >>%(folder)s/gathered
  if [ -e %(folder)s/fails.$4 ]; then echo "status 9 read" >&2; exit 9; fi
  sleep 0.2
fi
exec %(arrays)s "$@"
"""


def missing(part):
    """The packages that a part of the checks lacks, or nothing."""
    commands, packages = NEEDS[part]
    return "" if all(daemons.tool(command) for command in commands) else "Debian's " + packages


class Array:
    """The device files of an array in the current folder, one of them lost, and calls of rebuild-array for it."""

    def __init__(self):
        data = random.Random("array").randbytes(STRIPES * COLUMNS * BYTES)
        with open("array.data", "wb") as file:
            file.write(data)
        image = reads.run(["encode", MATRIX, "array.data", str(STRIPES), str(BYTES)]).stdout[HEAD:]
        self.names = [os.path.abspath("disk's file %d" % device) for device in range(DEVICES)]
        self.whole = [b"".join(image[at:at + PART] for at in range(device * PART, len(image), DEVICES * PART))
                      for device in range(DEVICES)]
        for name, text in zip(self.names, self.whole):
            with open(name, "wb") as file:
                file.write(text)
        slow = SLOW % {"folder": os.getcwd(), "arrays": ARRAYS}
        self.slow = daemons.text_of("slow-arrays", slow, 0o700)
        self.lose()

    def lose(self):
        """The lost device and what was written of gatherings are gone."""
        for name in (self.names[LOST], "gathered"):
            with contextlib.suppress(FileNotFoundError):
                os.remove(name)

    def words(self, folder, *more, options=()):
        return [REBUILD, "--stripes", str(OF_IMAGE), *options, MATRIX, str(BYTES), str(LOST), folder, *self.names,
                *(["--", *more] if more else [])]

    def environment(self, **more):
        return {**os.environ, "PROGRAM": reads.PROGRAM, "ARRAYS": self.slow, **more}

    @contextlib.contextmanager
    def begun(self, words, **more):
        """A call, which ends with the block, and all that it started with it."""
        with subprocess.Popen(words, env=self.environment(**more), stdin=subprocess.DEVNULL, stdout=subprocess.PIPE,
                              stderr=subprocess.PIPE, start_new_session=True) as process:
            try:
                yield process
            finally:
                with contextlib.suppress(ProcessLookupError):
                    os.killpg(process.pid, signal.SIGKILL)

    def call(self, words, **more):
        """Status, standard output and standard error of a call."""
        with self.begun(words, **more) as process:
            sums, said = process.communicate(timeout=PATIENCE)
            return process.returncode, sums.decode(), said.decode()

    def is_whole(self):
        """Whether each device has the bytes that it had."""
        for name, wanted in zip(self.names, self.whole):
            with open(name, "rb") as file:
                if file.read() != wanted:
                    return False
        return True

    def gathered(self):
        """The first stripes of the images that were gathered, once for each time."""
        with open("gathered") as file:
            return sorted(int(line) for line in file)

    def is_done_once(self):
        return self.is_whole() and self.gathered() == list(range(0, STRIPES, OF_IMAGE))


def count_done(folder):
    return len([name for name in os.listdir(os.path.join(folder, "done")) if not name.startswith(".")])


def hosts_of(folder):
    """The hosts of the images that were done, by the log."""
    with open(os.path.join(folder, "log")) as file:
        lines = [line.split() for line in file][1:]
    return {words[1] for words in lines if words[6] == "0"}


def check_refusals(checks, array):
    """Wrong words have status 2, and what cannot be begun has status 1; each with its line, and no folder is left done."""
    good = array.words("refused")
    short = daemons.text_of("short", "x" * PART)
    odd = daemons.text_of("odd", "x" * (STRIPES * PART - 1))
    shadow = os.path.abspath("shadow")
    os.mkdir(shadow)
    daemons.text_of(os.path.join(shadow, "parallel"), "#!/bin/sh\necho other\n", 0o700)
    other_path = {"PATH": shadow + ":" + os.environ["PATH"]}
    at = good.index(array.names[0])
    cases = [([REBUILD], 2, "usage", {}), (good[:-1], 1, "has 6 devices", {}), ([*good, "more"], 1, "has 6 devices", {}),
             ([REBUILD, "--wrong", *good[1:]], 2, "no option --wrong", {}), ([REBUILD, "--plan"], 2, "has a value", {}),
             ([*good[:4], "12", *good[5:]], 2, "BYTES", {}), ([*good[:5], "2,", *good[6:]], 2, "LOST", {}),
             ([*good[:5], "6", *good[6:]], 1, "no device 6", {}),
             ([*good[:5], "0,1,2", *good[6:]], 1, "status 7 undetermined symbol 0", {}),
             ([*good[:5], "2,1", *good[6:]], 1, "status 1 usage", {}),
             ([REBUILD, *good[3:at], short, *good[at + 1:]], 1, "another device", {}),
             ([*good[:at], odd, *good[at + 1:]], 1, "by --all", {}),
             ([REBUILD, "--all", str(STRIPES + 1), *good[3:]], 1, "101 stripes take", {}),
             ([*good[:at], "/nowhere", *good[at + 1:]], 1, "no file that can be read", {}),
             ([REBUILD, "--stripes", "174763", *good[3:]], 1, "which are 174762 stripes", {}),
             ([*good[:3], "/dev/null", *good[4:]], 1, "/dev/null is no", {}),
             ([REBUILD, "--plan", MATRIX, *good[1:]], 1, "status 8 plan line 1", {}),
             (good, 1, "no program at /nowhere", {"ARRAYS": "/nowhere"}), (good, 1, "no GNU parallel", other_path)]
    for words, status, line, more in cases:
        found = array.call(words, **more)
        checks.check("rebuild-array %s" % words[1:4], found[0] == status and not found[1] and line in found[2],
                     "answered %r" % (found,))


def check_parallel(checks, array):
    """A run on this machine; the same words again, which find all done; other words for the same folder."""
    array.lose()
    for number in range(2):
        status, sums, said = array.call(array.words("run", "--jobs", "3"))
        checks.check("rebuild-array, call %d" % number, (status, sums) == (0, SUMS), said)
        checks.check("rebuild-array, call %d" % number, array.is_done_once(), "other bytes, or an image was made twice")
    found = array.call(array.words("run", options=["--all", "99"]))
    checks.check("rebuild-array", found[0] == 1 and "other words" in found[2], "goes on by other words: %r" % (found,))


def check_plan(checks, array):
    """A plan that is handed in, for two lost devices."""
    array.lose()
    lost = [1, LOST]
    plan = daemons.text_of("two.plan", reads.plan_text(MATRIX, lost))
    words = array.words("two", options=["--plan", plan])
    words[words.index(str(LOST))] = ",".join(map(str, lost))
    os.remove(array.names[lost[0]])
    status, sums, said = array.call(words)
    checks.check("rebuild-array --plan", (status, sums) == (0, SUMS.replace("76800", "102400")), said)
    checks.check("rebuild-array --plan", array.is_whole(), "other bytes")


def check_failed(checks, array):
    """An image that cannot be gathered keeps the others from nothing, and is made by the next call."""
    array.lose()
    fails = daemons.text_of("fails.48", "")
    status, sums, said = array.call(array.words("failed", "--jobs", "3"))
    checks.check("an image that fails", status == 1 and not sums and "6 of 7 images" in said, "%d %s" % (status, said))
    checks.check("an image that fails", "image 3, stripes 48 to 63: gather: status 9 read" in said, said)
    checks.check("an image that fails", array.gathered().count(48) == 3, "is not tried three times")
    os.remove(fails)
    os.remove("gathered")
    status, sums, said = array.call(array.words("failed", "--jobs", "3"))
    checks.check("an image that failed", (status, sums) == (0, SUMS), said)
    checks.check("an image that failed", array.gathered() == [48] and array.is_whole(), "is not all that was made")


def check_cut(checks, array, name):
    """A run that a signal cuts off goes on where it was, with a line of the log cut too."""
    array.lose()
    folder = "cut-" + name
    with array.begun(array.words(folder, "--jobs", "1")) as run:
        daemons.wait_until(lambda: os.path.isdir(folder + "/done") and count_done(folder), "rebuild-array")
        run.send_signal(getattr(signal, name))
        said = run.communicate(timeout=PATIENCE)[1].decode()
    done = count_done(folder)
    checks.check(name, run.returncode == 1 and done < IMAGES and "%d of 7 images" % done in said,
                 "status %d, %d images, %s" % (run.returncode, done, said))
    time.sleep(1)
    kept = sorted(int(number) * OF_IMAGE for number in os.listdir(folder + "/done") if number.isdigit())
    with open(folder + "/log", "a") as file:
        file.write("7\tcut")
    os.remove("gathered")
    status, sums, said = array.call(array.words(folder, "--jobs", "3"))
    checks.check("after " + name, (status, sums) == (0, SUMS) and array.is_whole(), said)
    checks.check("after " + name, sorted(kept + array.gathered()) == list(range(0, STRIPES, OF_IMAGE)),
                 "an image with a result was made again, or one without was not")


def check_ssh(checks, array):
    """Two hosts; then one of them dead, whose images the other makes."""
    with daemons.ssh_hosts(["one", "two"]) as (ssh, hosts):
        more = ["--ssh", ssh, "--sshlogin", "2/one,2/two"]
        for folder, wanted in (("both", {"one", "two"}), ("alone", {"two"})):
            array.lose()
            status, sums, said = array.call(array.words(folder, *more))
            checks.check("over ssh, " + folder, (status, sums) == (0, SUMS) and array.is_whole(), said)
            checks.check("over ssh, " + folder, hosts_of(folder) == wanted, "done by %s" % hosts_of(folder))
            daemons.end(hosts["one"])


def check_slurm(checks, array):
    """A job array with a task that fails, and the call that goes on."""
    array.lose()
    fails = daemons.text_of("fails.48", "")
    words = array.words("slurm", "--partition=main", options=["--slurm", "3"])
    with daemons.slurm() as environment:
        order = {"SLURM_CONF": environment["SLURM_CONF"]}
        status, sums, said = array.call(words, **order)
        checks.check("Slurm", status == 1 and not sums and "6 of 7 images" in said, "status %d, %s" % (status, said))
        os.remove(fails)
        os.remove("gathered")
        status, sums, said = array.call(words, **order)
    checks.check("Slurm", (status, sums) == (0, SUMS), said)
    checks.check("Slurm", array.gathered() == [48] and array.is_whole(), "an image was made again, or other bytes")


def check_all(checks, short):
    """Each part for which the programs and its tools are here, in a folder of its own; the short form has no daemons."""
    if not os.access(ARRAYS, os.X_OK):
        checks.pass_over("arrays")
        return
    os.mkdir("arrays")
    os.chdir("arrays")
    array = Array()
    parts = [("parallel", check_refusals), ("parallel", check_parallel), ("parallel", check_plan),
             ("parallel", check_failed), ("parallel", check_cut, "SIGTERM"), ("parallel", check_cut, "SIGHUP")]
    if not short:
        parts += [("ssh", check_ssh), ("slurm", check_slurm)]
    for need, part, *words in parts:
        if missing(need):
            checks.pass_over(need)
        else:
            checks.attempt(part, array, *words)
    os.chdir("..")
    shutil.rmtree("arrays")
