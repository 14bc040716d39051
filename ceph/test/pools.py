#!/usr/bin/env python3
"""pools.py K..: in the chroot, in namespaces of its own. For each K a cluster of K + 3 OSDs. Pools of this plugin, of
jerasure's liberation and of clay: objects compared healthy, with one and two OSDs down, after the rebuild on an empty
drive and after a deep scrub; the bytes that the rebuild read, by the OSDs' counters. Then what an EIO of a helper does."""
import os
import subprocess
import sys
import time

import rados

import eio
from cluster import Cluster, Failed, wait

CELL = 4096
OBJECTS = 8
OBJECT_BYTES = 8 << 20  # about so many, in whole stripes
PAPER = {5: '24.0', 7: '24.4', 11: '24.9'}  # % saved, document 000
PAPER_CELLS = {8: '24.8', 32: '24.8', 136: '24.8'}  # KiB of a cell, k = 11
TOLERANCE = 0.03  # of what is counted, which has a few reads of other things in it
start = time.monotonic()


def say(text):
    print(f'{time.monotonic() - start:5.0f} s: {text}', flush=True)


def chunk_size(profile, k):
    """What Ceph makes of it as the least chunk."""
    text = ','.join(f'{a}={b}' for a, b in {'k': k, 'm': 2, **profile}.items())
    out = subprocess.run(['ceph-erasure-code-tool', 'calc-chunk-size', text, str(k)], capture_output=True, text=True)
    return int(out.stdout.split()[-1])


def hold(name, k, read):
    """The shards read for a lost data shard must be those that the code reads."""
    busiest = -(-(3 * k - 1) // 4)
    wanted = {'jerasure': k, 'whole': k, 'clay': (k + 1) / 2, 'partial': (k + 1) * busiest / k}[name]
    if abs(read / wanted - 1) > TOLERANCE:
        raise Failed(f'{name}, k {k}: {read:.3f} shards read for a lost data shard, not {wanted:.3f}')


class Pool:
    """A pool of one PG, whose objects are compared with what was written."""

    def __init__(self, cluster, name, k, profile, unit, objects=OBJECTS):
        self.cluster, self.name, self.k, self.unit = cluster, name, k, unit
        self.pg = cluster.make_pool(name, k, {**profile, 'stripe_unit': unit})
        cluster.wait_state(self.pg, 'active', 'clean')
        self.ring = cluster.acting(name)
        self.io = cluster.rados.open_ioctx(name)
        stripes = max(1, OBJECT_BYTES // (k * unit))
        self.shard = stripes * unit
        self.objects = {f'o{n}': os.urandom(self.shard * k) for n in range(objects)}
        for key, data in self.objects.items():
            self.io.write_full(key, data)

    def check(self, when):
        for key, data in self.objects.items():
            if self.io.read(key, len(data) + 1) != data:
                raise Failed(f'{self.name}: {key} differs {when}')

    def close(self):
        self.io.close()
        self.cluster.remove_pool(self.name)


def degrade(pool, lost, other):
    """Objects with one and with two OSDs down; the second comes back."""
    cluster = pool.cluster
    cluster.end_osd(pool.ring[lost])
    cluster.wait_state(pool.pg, 'active', 'undersized')
    pool.check('with one OSD down')
    cluster.end_osd(pool.ring[other])
    wait('two OSDs missed', lambda: cluster.acting(pool.name).count(2147483647) == 2)
    cluster.wait_state(pool.pg, 'active', 'undersized')
    pool.check('with two OSDs down')
    cluster.start_osd(pool.ring[other])
    cluster.wait_up([pool.ring[other]])


def rebuild(pool, lost):
    """The OSD of that shard gets an empty drive; gives the bytes read to rebuild a shard over the bytes of a shard. What
    OSDs read of their own maps is taken off: so much for a change of the map as for changes that mean nothing."""
    cluster = pool.cluster
    x = pool.ring[lost]
    if cluster.osds[x].poll() is None:
        cluster.end_osd(x)
    cluster.new_drives([x])
    cluster.wait_state(pool.pg, 'active', 'degraded')
    helpers = [osd for osd, child in cluster.osds.items() if osd != x and child.poll() is None]
    start = cluster.counted(helpers)
    for change in ('osd set', 'osd unset') * 2:
        cluster.command(change, key='nosnaptrim')
    idle = cluster.counted(helpers)
    cluster.flags(False)
    cluster.wait_state(pool.pg, 'active', 'clean')
    end = cluster.counted(helpers)
    of_maps = (idle[0] - start[0]) / (idle[1] - start[1]) * (end[1] - idle[1])
    return (end[0] - idle[0] - of_maps) / (pool.shard * len(pool.objects))


def deep_scrub(pool):
    def stamp():
        state, found = pool.cluster.state(pool.pg)
        return found and (found['info']['stats']['last_deep_scrub_stamp'], state, found)
    old = wait('a state', stamp)[0]
    pool.cluster.tell_pg(pool.pg, 'deep_scrub')
    faked = wait('a scrub asked for', stamp)[0]
    new = wait('a deep scrub', lambda: (s := stamp()) and s[0] > max(old, faked) and 'scrubbing' not in s[1] and s)
    errors = new[2]['info']['stats']['stat_sum']['num_scrub_errors']
    if errors or 'inconsistent' in new[1]:
        raise Failed(f'{pool.name}: a deep scrub found {errors} errors, {new[1]}')


def try_pool(cluster, name, k, profile, unit, lost, ours):
    pool = Pool(cluster, name, k, profile, unit)
    pool.check('healthy')
    cluster.flags(True)
    if ours:
        degrade(pool, lost, (lost + 2) % (k + 2))
    read = rebuild(pool, lost)
    pool.check('after the rebuild')
    if ours:
        deep_scrub(pool)
        pool.check('after a deep scrub')
    pool.close()
    if cluster.stopped():
        raise Failed(f'{name}: OSDs {cluster.stopped()} stopped')
    done = 'healthy, one down, two down, rebuilt, scrubbed' if ours else 'healthy, rebuilt'
    say(f'k {k}, {name}: objects alike {done}; {read:.3f} shards read for a lost data shard')
    return read


def profiles(k):
    """Name, profile, chunk, whether it is ours. k = w throughout."""
    clay = {'plugin': 'clay', 'd': k + 1}
    jerasure = {'plugin': 'jerasure', 'technique': 'liberation', 'w': k, 'packetsize': CELL}
    ours = {'plugin': 'cuzhaveli', 'w': k}
    return [('jerasure', jerasure, chunk_size(jerasure, k), False),
            ('clay', clay, CELL * 2 ** ((k + 3) // 2), False),
            ('whole', ours, CELL * k, True),
            ('partial', {**ours, 'reads': 'partial'}, CELL * k, True)]


def by_codes(cluster, k):
    read = {}
    for number, (name, profile, unit, ours) in enumerate(profiles(k)):
        read[name] = try_pool(cluster, f'{name}{k}', k, profile, unit, 1 + number, ours)
        hold(name, k, read[name])
    row = [f'{read[name]:.2f}' for name in ('jerasure', 'whole', 'partial', 'clay')]
    saved = 100 * (1 - read['partial'] / read['jerasure'])
    return f'| {k} | ' + ' | '.join(row) + f' | {saved:.1f} % | {PAPER[k]} % |'


def by_cells(cluster, k, kib):
    profile = {'plugin': 'cuzhaveli', 'w': k, 'reads': 'partial'}
    pool = Pool(cluster, f'cells{kib}', k, profile, k * kib * 1024)
    cluster.flags(True)
    read = rebuild(pool, 3)
    pool.check('after the rebuild')
    pool.close()
    say(f'k {k}, cells of {kib} KiB: {read:.3f} shards read')
    hold('partial', k, read)
    return f'| {kib} KiB | {read:.2f} | {100 * (1 - read / k):.1f} % | {PAPER_CELLS[kib]} % |'


def with_eio(cluster):
    """The default bears an EIO of a helper; partial reads do with Ceph's option, at the price of clients' reads."""
    for name, reads, option, means in (('whole', {}, False, 'the bytes'),
                                       ('partial', {'reads': 'partial'}, True, 'EIO')):
        got, mended = eio.survives(cluster, Pool, f'eio-{name}', reads, option)
        say(f'EIO of a helper, {name} reads, {eio.OPTION} {option}: rebuilt, no OSD stopped, a client reads {got}; '
            f'the bad shard is {"mended" if mended else "left bad"}')
        if got != means:
            raise Failed(f'docs/CEPH.md says that a client reads {means}')


def into_the_trap(cluster):
    stops, assertion = eio.trap(cluster, Pool, 'eio-trap', {'reads': 'partial'})
    say(f'EIO of a helper, partial reads: the primary OSD stopped, {stops} of {eio.STARTS} times: {assertion}')


def experiments(cluster, sizes):
    codes, cells = [], []
    for k in sizes:
        cluster.grow(k + 3)
        say(f'{k + 3} OSDs up')
        if k == eio.K:
            with_eio(cluster)
        codes.append(by_codes(cluster, k))
        if k == 11:
            cells = [by_cells(cluster, k, kib) for kib in PAPER_CELLS]
    into_the_trap(cluster)
    print('\n| k | jerasure | whole | partial | clay | saved | document 000 |\n|---|---|---|---|---|---|---|')
    print('\n'.join(codes))
    if cells:
        print('\n| cell, k = 11 | partial | saved | document 000 |\n|---|---|---|---|\n' + '\n'.join(cells))


def main():
    cluster = Cluster('/cluster/c')
    try:
        cluster.start()
        experiments(cluster, [int(k) for k in sys.argv[1:]])
    except (Failed, rados.Error) as error:
        sys.exit(f'pools.py: {error}')
    finally:
        cluster.stop()


if __name__ == '__main__':
    main()
