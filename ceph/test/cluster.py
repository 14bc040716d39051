"""A small Ceph cluster on loopback: a monitor and OSDs on files, children of this process. There is no manager: states
of placement groups are asked of the OSDs themselves."""
import json
import os
import shutil
import signal
import subprocess
import time
import uuid

import rados

ADDRESS = '[v2:127.0.0.1:33300,v1:127.0.0.1:36789]'
PATIENCE = 300  # seconds, for a machine with much else to do
OPTIONS = """
auth_cluster_required = none
auth_service_required = none
auth_client_required = none
auth_allow_insecure_global_id_reclaim = false
public_addr = 127.0.0.1
cluster_addr = 127.0.0.1
ms_bind_ipv6 = false
rados_osd_op_timeout = 300
osd_objectstore = bluestore
bluestore_block_size = 2147483648
bluestore_fsck_on_mount = false
bluestore_debug_inject_read_err = true
osd_memory_target = 939524096
osd_crush_chooseleaf_type = 0
osd_class_update_on_start = false
osd_pool_default_pg_autoscale_mode = off
osd_recovery_sleep = 0
osd_mclock_skip_benchmark = true
osd_mclock_profile = high_recovery_ops
osd_heartbeat_grace = 300
osd_op_thread_timeout = 300
osd_op_thread_suicide_timeout = 3000
osd_op_num_shards = 2
osd_scrub_load_threshold = 1000
osd_scrub_backoff_ratio = 0
osd_scrub_interval_randomize_ratio = 0
mon_allow_pool_delete = true
mon_osd_down_out_interval = 36000
mon_data_avail_warn = 1
mon_data_avail_crit = 1
mon_max_pg_per_osd = 1000
"""


class Failed(Exception):
    pass


def wait(what, test):
    """Waits until test() is true and gives its value."""
    end = time.monotonic() + PATIENCE
    while time.monotonic() < end:
        value = test()
        if value:
            return value
        time.sleep(0.5)
    raise Failed(f'{what}: not within {PATIENCE} s')


class Cluster:
    def __init__(self, folder):
        self.folder, self.conf = folder, f'{folder}/ceph.conf'
        self.osds, self.uuids, self.mon, self.last = {}, [], None, None
        os.makedirs(f'{folder}/mon')
        os.makedirs(f'{folder}/log')
        self.fsid = str(uuid.uuid4())
        lines = {'fsid': self.fsid, 'mon_host': ADDRESS, 'run_dir': folder,
                 'admin_socket': f'{folder}/$name.asok',  # without one an OSD answers no command
                 'pid_file': '', 'log_file': f'{folder}/log/$name.log', 'mon_data': f'{folder}/mon',
                 'osd_data': f'{folder}/osd$id'}
        with open(self.conf, 'w') as out:
            out.write('[global]\n' + ''.join(f'{name} = {value}\n' for name, value in lines.items()) + OPTIONS)

    def run(self, *command):
        done = subprocess.run(command, capture_output=True, text=True)
        if done.returncode:
            raise Failed(f'{" ".join(command)}: {done.stderr[-1000:]}')

    def start(self):
        monmap = f'{self.folder}/monmap'
        self.run('monmaptool', '--create', '--fsid', self.fsid, '--addv', 'a', ADDRESS, monmap)
        self.run('ceph-mon', '--mkfs', '-i', 'a', '--monmap', monmap, '-c', self.conf)
        self.mon = subprocess.Popen(['ceph-mon', '-f', '-i', 'a', '-c', self.conf], stderr=subprocess.DEVNULL)
        self.rados = rados.Rados(conffile=self.conf, name='client.admin')
        self.rados.connect(timeout=PATIENCE)

    def stop(self):
        for child in [*self.osds.values(), self.mon]:
            if child and child.poll() is None:
                child.kill()
                child.wait()

    @staticmethod
    def answer(what, result):
        code, out, message = result
        if code:
            raise Failed(f'{what}: {code} {message}')
        out = out.decode().strip()
        return json.loads(out) if out[:1] in ('{', '[') else out

    def command(self, prefix, **more):
        text = json.dumps({'prefix': prefix, 'format': 'json', **more})
        return self.answer(text, self.rados.mon_command(text, b'', timeout=PATIENCE))

    def tell(self, osd, prefix, **more):
        text = json.dumps({'prefix': prefix, 'format': 'json', **more})
        return self.answer(text, self.rados.osd_command(osd, text, b'', timeout=PATIENCE))

    def tell_pg(self, pg, prefix):
        text = json.dumps({'prefix': prefix, 'pgid': pg, 'format': 'json'})
        return self.answer(text, self.rados.pg_command(pg, text, b'', timeout=PATIENCE))

    # OSDs

    def start_osd(self, osd):
        self.osds[osd] = subprocess.Popen(['ceph-osd', '-f', '-i', str(osd), '-c', self.conf],
                                          stdout=subprocess.DEVNULL, stderr=subprocess.DEVNULL)

    def new_drives(self, osds):
        """Empty drives in the place of these OSDs', and the OSDs started on them."""
        makers = {}
        for osd in osds:
            folder = f'{self.folder}/osd{osd}'
            shutil.rmtree(folder, ignore_errors=True)
            os.mkdir(folder)
            words = ['ceph-osd', '-i', str(osd), '-c', self.conf, '--mkfs', '--osd-uuid', self.uuids[osd]]
            makers[osd] = subprocess.Popen(words, stdout=subprocess.DEVNULL, stderr=subprocess.DEVNULL)
        for osd, maker in makers.items():
            if maker.wait():
                raise Failed(f'no store for OSD {osd}')
            self.start_osd(osd)
        self.wait_up(osds)

    def grow(self, number):
        new = range(len(self.uuids), number)
        for osd in new:
            self.uuids.append(str(uuid.uuid4()))
            self.command('osd new', uuid=self.uuids[osd], id=osd)
        self.new_drives(new)

    def wait_up(self, osds):
        def all_up():
            up = {one['osd'] for one in self.command('osd dump')['osds'] if one['up']}
            return set(osds) <= up
        wait(f'OSDs {list(osds)} up', all_up)

    def end_osd(self, osd):
        self.osds[osd].send_signal(signal.SIGKILL)
        self.osds[osd].wait()
        # without the last word a PG waits out the lease of its reads, 0.8 of the heartbeat's grace
        self.command('osd down', ids=[str(osd)], definitely_dead=True)

    def stopped(self):
        """The OSDs that ended by themselves."""
        return [osd for osd, child in self.osds.items() if child.poll() not in (None, -signal.SIGKILL)]

    def bytes_read(self, osds):
        """What the OSDs have read of objects, by their own counters: found in the cache of their store, or not."""
        total = 0
        for osd in osds:
            store = self.tell(osd, 'perf dump', logger='bluestore')['bluestore']
            total += store['buffer_hit_bytes'] + store['buffer_miss_bytes']
        return total

    def counted(self, osds):
        """What the OSDs have read, and the epoch of the cluster's map, once all of them have it."""
        epoch = self.command('osd dump')['epoch']
        wait('the newest map', lambda: all(self.tell(osd, 'status')['newest_map'] >= epoch for osd in osds))
        return self.bytes_read(osds), epoch

    # pools

    def make_pool(self, name, k, profile):
        settings = {'k': k, 'm': 2, 'crush-failure-domain': 'osd', **profile}
        self.command('osd erasure-code-profile set', name=name, profile=[f'{a}={b}' for a, b in settings.items()])
        self.command('osd pool create', pool=name, pg_num=1, pgp_num=1, pool_type='erasure', erasure_code_profile=name)
        self.command('osd pool set', pool=name, var='min_size', val=str(k))
        return self.command('osd map', pool=name, object='o')['pgid']

    def remove_pool(self, name):
        self.command('osd pool delete', pool=name, pool2=name, yes_i_really_really_mean_it=True)

    def state(self, pg):
        try:
            found = self.tell_pg(pg, 'query')
        except (Failed, rados.Error) as error:  # its primary is being chosen
            self.last = error
            return set(), {}
        return set(found['state'].split('+')), found

    def wait_state(self, pg, *wanted):
        try:
            wait(f'PG {pg} {"+".join(wanted)}', lambda: self.state(pg)[0] >= set(wanted))
        except Failed as error:
            raise Failed(f'{error}: it is {self.state(pg)[0]}; the last error was {self.last}') from error

    def acting(self, pool):
        return self.command('osd map', pool=pool, object='o')['acting']

    def flags(self, on):
        for flag in ('noout', 'norecover', 'nobackfill', 'noscrub', 'nodeep-scrub'):
            self.command('osd set' if on else 'osd unset', key=flag)
