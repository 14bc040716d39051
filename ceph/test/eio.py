"""What an EIO of a helper does to the rebuild of a data shard, and to a client's read (docs/CEPH.md)."""
import errno
import time

import rados

from cluster import Failed

K, CELL = 5, 4096
LOST, BAD = 2, 4  # shards: rebuilt on an empty drive, and with the EIO
OPTION = 'osd_read_ec_check_for_errors'
ENOUGH = 60  # seconds for an OSD to stop
STARTS = 2


def set_option(cluster, on):
    for osd, child in cluster.osds.items():
        if child.poll() is None:
            cluster.tell(osd, 'config set', var=OPTION, val=['true' if on else 'false'])


def prepared(cluster, make, name, reads, option):
    """A pool of one object whose shard LOST is on an empty drive and whose shard BAD answers EIO."""
    pool = make(cluster, name, K, {'plugin': 'cuzhaveli', 'w': K, **reads}, K * CELL, objects=1)
    cluster.flags(True)
    cluster.end_osd(pool.ring[LOST])
    cluster.new_drives([pool.ring[LOST]])
    cluster.wait_state(pool.pg, 'active', 'degraded')
    set_option(cluster, option)
    said = cluster.tell(pool.ring[BAD], 'injectdataerr', pool=name, objname='o0', shardid=BAD)
    if said != 'ok':
        raise Failed(f'no EIO injected: {said}')
    return pool


def errors_of(cluster, osd):
    with open(f'{cluster.folder}/log/osd.{osd}.log', errors='replace') as log:
        return sum('Error -5 reading object' in line for line in log)


def client_read(pool):
    try:
        pool.check('with an EIO')
        return 'the bytes'
    except rados.Error as error:
        if abs(error.errno) == errno.EIO:
            return 'EIO'
        raise


def survives(cluster, make, name, reads, option):
    """The rebuild ends well and no OSD stops. Gives what a client's read meanwhile got, and whether the EIO is gone."""
    pool = prepared(cluster, make, name, reads, option)
    got, met = client_read(pool), errors_of(cluster, pool.ring[BAD])
    cluster.flags(False)
    cluster.wait_state(pool.pg, 'active', 'clean')
    if errors_of(cluster, pool.ring[BAD]) == met:
        raise Failed(f'{name}: the rebuild met no EIO')
    set_option(cluster, False)
    met = errors_of(cluster, pool.ring[BAD])
    pool.check('after a rebuild that met an EIO')
    mended = errors_of(cluster, pool.ring[BAD]) == met
    if cluster.stopped():
        raise Failed(f'{name}: OSDs {cluster.stopped()} stopped')
    pool.close()
    return got, mended


def trap(cluster, make, name, reads):
    """The rebuild stops the primary OSD, and again when it is started anew. Gives how often, and the assertion."""
    pool = prepared(cluster, make, name, reads, False)
    primary = pool.ring[0]
    cluster.flags(False)
    stops = 0
    for _ in range(STARTS):
        end = time.monotonic() + ENOUGH
        while time.monotonic() < end and primary not in cluster.stopped():
            time.sleep(1)
        if primary not in cluster.stopped():
            break
        stops += 1
        cluster.start_osd(primary)
    if stops == 0:
        raise Failed(f'{name}: the primary OSD did not stop; docs/CEPH.md says that it does')
    with open(f'{cluster.folder}/log/osd.{primary}.log', errors='replace') as log:
        lines = [line for line in log if 'FAILED ceph_assert' in line]
    return stops, lines[0].split(': ', 1)[-1].strip() if lines else ''
