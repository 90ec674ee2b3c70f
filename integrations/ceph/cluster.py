"""A small Ceph cluster of its own for `try` and `check`: a monitor, a manager and osds over sparse files, on loopback, without authentication.

Each daemon is a child of this process, is ended by its process id, and is killed by the kernel where this process dies. The folder with all
that they write goes at the end. Needs Debian's Ceph 16.2 and python3-rados."""
import contextlib
import errno
import json
import os
import pathlib
import shutil
import signal
import socket
import subprocess
import tempfile
import time
import typing
import uuid

try:
    import rados
except ImportError:  # expect_packages tells it
    rados = None

from common import Failed, link_plugins, run

CONFIGURATION = """
[global]
fsid = {fsid}
mon_host = [v2:127.0.0.1:{port}]
mon_initial_members = a
public_addr = 127.0.0.1
cluster_addr = 127.0.0.1
auth_cluster_required = none
auth_service_required = none
auth_client_required = none
erasure_code_dir = {folder}/plugins
run_dir = {folder}/run
admin_socket = {folder}/run/$name.asok
pid_file =
log_file = {folder}/log/$name.log
crash_dir = {folder}/run
mon_cluster_log_file = {folder}/log/cluster.log
mon_data_avail_crit = 1
mon_data_avail_warn = 2
mon_allow_pool_delete = true
mon_max_pg_per_osd = 1000
osd_pool_default_size = 2
osd_pool_default_min_size = 1
osd_pool_default_pg_autoscale_mode = off
osd_crush_chooseleaf_type = 0
[client]
admin_socket =
log_file =
rados_osd_op_timeout = 900
rados_mon_op_timeout = 300
[osd]
osd_objectstore = bluestore
bluestore_block_size = 4294967296
bluestore_block_db_create = false
bluestore_block_wal_create = false
bluestore_cache_autotune = false
bluestore_cache_size = 67108864
osd_memory_target = 939524096
osd_op_num_shards = 2
osd_op_num_threads_per_shard = 1
osd_fast_shutdown_notify_mon = true
osd_heartbeat_interval = 1
osd_op_thread_suicide_timeout = 1800
bluestore_debug_inject_read_err = true
osd_max_backfills = 2
osd_recovery_max_active = 4
osd_recovery_sleep = 0
osd_recovery_sleep_hdd = 0
osd_max_scrubs = 4
osd_scrub_backoff_ratio = 0
osd_scrub_min_interval = 10000000
osd_scrub_max_interval = 10000000
osd_deep_scrub_interval = 10000000
[mgr]
mgr_data = {folder}/mgr
mgr_initial_modules =
[mon]
mon_data = {folder}/mon
mon_mgr_beacon_grace = 600
"""

# Seconds that may pass until something holds: much, since the machine may be busy with other work.
PATIENCE = 900


class Refused(Failed):
    """A command that a daemon answered with an error."""

    def __init__(self, status, message):
        super().__init__(message)
        self.status = abs(status)


class Cluster:
    """Use it by `with`. `plugin` is a libec_hijpswol.so, which is put beside Ceph's own plugins."""

    def __init__(self, plugin, osds):
        self.plugin, self.count = pathlib.Path(plugin), osds
        self.daemons = {}
        self.rados = None
        self.folder = None
        self.revived = None  # a list of osds that ended by themselves and were started again; None where none may end
        self.memory = {}  # the greatest memory of each daemon so far, in bytes

    def __enter__(self):
        self.folder = pathlib.Path(tempfile.mkdtemp(prefix="ceph-", dir=os.environ.get("TMPDIR", "/var/tmp")))
        try:
            self.configure()
            self.start_monitor()
            self.make(*range(self.count))
            self.command("osd set", key="noout")
        except BaseException:
            self.end()
            raise
        return self

    def __exit__(self, kind, error, _):
        if kind:
            self.show_logs()
        self.end()
        if rados and isinstance(error, rados.Error):
            raise Failed(f"a client's call: {error}") from error

    def configure(self):
        self.conf = self.folder / "ceph.conf"
        for name in ("log", "run", "mon", "mgr", "plugins"):
            (self.folder / name).mkdir()
        link_plugins(self.folder / "plugins", self.plugin)
        with socket.socket() as free:
            free.bind(("127.0.0.1", 0))
            self.port = free.getsockname()[1]
        self.fsid = str(uuid.uuid4())
        self.conf.write_text(CONFIGURATION.format(fsid=self.fsid, port=self.port, folder=self.folder))

    def start_monitor(self):
        address, monmap = f"[v2:127.0.0.1:{self.port}]", self.folder / "monmap"
        run("monmaptool", "--create", "--addv", "a", address, "--fsid", self.fsid, monmap)
        run("ceph-mon", "-c", self.conf, "-i", "a", "--mkfs", "--monmap", monmap)
        self.begin("mon.a", "ceph-mon", "-f", "-c", self.conf, "-i", "a")
        self.rados = rados.Rados(conffile=str(self.conf))
        self.rados.connect(timeout=PATIENCE)
        self.begin("mgr.x", "ceph-mgr", "-f", "-c", self.conf, "-i", "x")

    # ---- Daemons

    def begin(self, name, *words):
        log = open(self.folder / "log" / f"{name}.out", "ab")
        # the kernel kills the daemon where this process is gone, and Ctrl-C reaches this process alone
        command = ["setpriv", "--pdeathsig", "KILL", "nice", "-n", "10", *words]
        self.daemons[name] = subprocess.Popen(command, stdin=subprocess.DEVNULL, stdout=log, stderr=log, start_new_session=True)
        log.close()

    def begin_osd(self, osd):
        self.begin(f"osd.{osd}", "ceph-osd", "-f", "-c", self.conf, "-i", str(osd), "--osd-data", self.data_of(osd))

    def start(self, *osds):
        for osd in osds:
            self.begin_osd(osd)
        self.wait(lambda: set(osds) <= self.up(), f"start of osds {osds}")

    def stop(self, *osds):
        self.look_at_memory()
        for osd in osds:
            self.daemons[f"osd.{osd}"].terminate()
        for osd in osds:
            self.wait_ended(osd)
        # where the monitor was too busy to hear it of the osd itself
        self.command("osd down", ids=list(map(str, osds)))
        self.wait(lambda: not set(osds) & self.up(), f"stop of osds {osds}")

    def wait_ended(self, osd):
        """Waits for an osd to end; its status."""
        try:
            status = self.daemons[f"osd.{osd}"].wait(PATIENCE)
        except subprocess.TimeoutExpired:
            raise Failed(f"osd {osd} runs on") from None
        del self.daemons[f"osd.{osd}"]
        return status

    def make(self, *osds):
        """Makes osds and starts them: without data where they were there."""
        for osd in osds:
            data, new = self.data_of(osd), str(uuid.uuid4())
            if data.exists():
                shutil.rmtree(data)
                self.command("osd destroy-actual", id=osd, yes_i_really_mean_it=True)
            data.mkdir()
            self.command("osd new", uuid=new, id=osd)
            run("ceph-osd", "-c", self.conf, "-i", str(osd), "--mkfs", "--osd-uuid", new, "--osd-data", data)
        self.start(*osds)

    def look_at_memory(self):
        for name, daemon in self.daemons.items():
            with contextlib.suppress(OSError), open(f"/proc/{daemon.pid}/status", encoding="ascii") as status:
                lines = dict(line.split(":", 1) for line in status)
                peak = int(lines.get("VmHWM", "0 kB").split()[0]) * 1024
                self.memory[name] = max(self.memory.get(name, 0), peak)

    def read_from_disk(self, osd):
        """The bytes that an osd read from its disk since it was started, as the kernel counts; none of a tmpfs."""
        with open(f"/proc/{self.daemons[f'osd.{osd}'].pid}/io", encoding="ascii") as io:
            return int(dict(line.split(": ") for line in io.read().splitlines())["read_bytes"])

    def data_of(self, osd):
        return self.folder / f"osd{osd}"

    def end(self):
        """Ends all daemons, osds first, and takes the folder away."""
        for number in (signal.SIGTERM, signal.SIGHUP, signal.SIGINT, signal.SIGALRM):
            signal.signal(number, signal.SIG_IGN)
        if self.rados:
            self.rados.shutdown()
        daemons = [self.daemons[name] for name in sorted(self.daemons, reverse=True)]
        for daemon in daemons:
            daemon.terminate()
        for daemon in daemons:
            try:
                daemon.wait(30)
            except subprocess.TimeoutExpired:
                daemon.kill()
                daemon.wait()
        shutil.rmtree(self.folder)

    def show_logs(self):
        """The last lines of daemons that ended by themselves."""
        for name, daemon in self.daemons.items():
            if daemon.poll() is not None:
                log = (self.folder / "log" / f"{name}.out").read_text(errors="replace")
                print(f"{name} ended with {daemon.returncode}: {log[-1000:]}")

    # ---- Commands

    def command(self, prefix, **arguments):
        return self.answer(self.rados.mon_command, prefix, arguments)

    def manage(self, prefix, **arguments):
        return self.answer(self.rados.mgr_command, prefix, arguments)

    def ask(self, osd, prefix, **arguments):
        return self.answer(lambda *words: self.rados.osd_command(osd, *words), prefix, arguments)

    @staticmethod
    def answer(send, prefix, arguments):
        text = json.dumps({"prefix": prefix, "format": "json", **arguments})
        status, output, error = send(text, b"", 300)
        if status:
            raise Refused(status, f"{text}: {status} {error}")
        try:
            return json.loads(output) if output else None
        except ValueError:
            return output

    def wait(self, holds, what):
        end = time.monotonic() + PATIENCE
        while not holds():
            self.look_for_ended(what)
            if time.monotonic() > end:
                raise Failed(f"no {what} in {PATIENCE} s")
            time.sleep(0.2)

    def look_for_ended(self, what):
        ended = [name for name, daemon in self.daemons.items() if daemon.poll() is not None]
        if ended and (self.revived is None or not all(name.startswith("osd.") for name in ended)):
            raise Failed(f"while waiting for {what}: {', '.join(ended)} ended")
        for name in ended:
            osd = int(name.removeprefix("osd."))
            self.revived.append(osd)
            self.begin_osd(osd)

    def map(self):
        return self.command("osd dump")

    def up(self):
        return {osd["osd"] for osd in self.map()["osds"] if osd["up"]}


class Group(typing.NamedTuple):
    """A placement group as the osd that leads it tells; without a state where that osd hasn't seen the newest map."""
    pgid: str
    state: str
    acting: list
    scrubbed: str  # when its last deep scrub ended


class Pool:
    """A pool of an erasure code profile, and what it should hold. Each read is compared with that, byte by byte."""

    def __init__(self, cluster, name, profile, overwrites=False, count=8):
        self.cluster, self.name, self.count = cluster, name, count
        self.k, self.m = profile["k"], profile["m"]
        self.objects = {}
        words = [f"{key}={value}" for key, value in profile.items()] + ["crush-failure-domain=osd"]
        cluster.command("osd erasure-code-profile set", name=name, profile=words)
        cluster.command("osd pool create", pool=name, pg_num=count, pool_type="erasure", erasure_code_profile=name)
        # by default writes stop one osd earlier than they must
        cluster.command("osd pool set", pool=name, var="min_size", val=str(self.k))
        if overwrites:
            cluster.command("osd pool set", pool=name, var="allow_ec_overwrites", val="true")
        told = next(pool for pool in cluster.map()["pools"] if pool["pool_name"] == name)
        self.number, self.stripe_width = told["pool"], told["stripe_width"]
        self.wait_clean("a new pool")
        self.context = cluster.rados.open_ioctx(name)

    def delete(self):
        self.context.close()
        self.cluster.command("osd pool delete", pool=self.name, pool2=self.name, yes_i_really_really_mean_it=True)

    # ---- Objects

    def put(self, name, data):
        self.context.write_full(name, bytes(data))
        self.objects[name] = bytearray(data)

    def write(self, name, data, at):
        self.context.write(name, data, at)
        self.objects[name][at:at + len(data)] = data

    def check(self, what):
        """Reads each object whole; the bytes that were compared."""
        for name, wanted in self.objects.items():
            got = self.context.read(name, len(wanted) + 100)
            if got != bytes(wanted):
                raise Failed(f"{self.name}, {what}: {name} is wrong, {len(got)} bytes for {len(wanted)}")
        return sum(map(len, self.objects.values()))

    def chunks_len(self):
        """The bytes of all objects' chunks on one osd."""
        chunk = self.stripe_width // self.k
        return sum(-(-len(data) // self.stripe_width) * chunk for data in self.objects.values())

    # ---- Placement groups, of which the manager's figures are seconds old

    def groups(self):
        epoch = self.cluster.map()["epoch"]
        self.cluster.rados.wait_for_latest_osdmap()  # a query goes to the osd that leads the group in this process's map
        for number in range(self.count):
            pgid = f"{self.number}.{number:x}"
            query = json.dumps({"prefix": "query", "pgid": pgid, "format": "json"})
            status, output, _ = self.cluster.rados.pg_command(pgid, query, b"", 20)
            told = json.loads(output) if status == 0 else {}
            if told.get("epoch", 0) >= epoch:
                yield Group(pgid, told["state"], told["acting"], told["info"]["stats"]["last_deep_scrub_stamp"])
            else:
                yield Group(pgid, "", [], "")

    def wait_all(self, holds, what):
        self.cluster.wait(lambda: all(map(holds, self.groups())), f"{self.name}: {what}")

    def wait_active(self, after):
        self.wait_all(lambda group: group.state.startswith("active"), f"active groups after {after}")

    def wait_clean(self, after):
        self.wait_all(lambda group: group.state.startswith("active+clean"), f"clean groups after {after}")

    def wait_settled(self, after):
        """Until nothing recovers but what a stopped osd lacks."""
        def is_settled(group):
            return group.state.startswith("active") and not any(word in group.state for word in ("recover", "backfill", "peering"))
        self.wait_all(is_settled, f"settled groups after {after}")

    def scrub(self, command="pg deep-scrub", only=None):
        """Has each group scrubbed, or one only; those of the pool that are inconsistent then."""
        stamps = {group.pgid: group.scrubbed for group in self.groups() if only in (None, group.pgid)}
        asked_at = 0

        def is_done(group):
            is_at_rest = group.state.startswith("active+clean") and "scrubbing" not in group.state and "repair" not in group.state
            return is_at_rest and group.scrubbed != stamps.get(group.pgid)

        def are_done():
            nonlocal asked_at
            left = [group.pgid for group in self.groups() if not is_done(group)]
            if left and time.monotonic() > asked_at + 15:
                # again, since a request is lost where the manager takes another osd for the leader
                for pgid in stamps.keys() & left:
                    self.ask_for(command, pgid)
                asked_at = time.monotonic()
            return not left
        self.cluster.wait(are_done, f"{self.name}: {command}")
        return [group.pgid for group in self.groups() if "inconsistent" in group.state]

    def ask_for(self, command, pgid):
        """Has the manager ask for a scrub. Where it doesn't see the group's osds yet nothing is asked."""
        try:
            self.cluster.manage(command, pgid=pgid)
        except Refused as refused:
            if refused.status != errno.EAGAIN:
                raise
