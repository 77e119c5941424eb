"""What the large scripts have in common: lines, trees, pools, and what an incremental tells of devices."""

import json

IN = 0x10000  # the weight of a device that takes its whole share

DEVICE, HOST, RACK, ROOT = range(4)  # the types of the tree


def compact(value):
    return json.dumps(value, separators=(",", ":"))


def tree(racks, hosts, devices):
    """Gives the buckets of a tree of this many racks, hosts in each and devices in each of these, all of one weight."""
    rack_ids = [-2 - rack for rack in range(racks)]
    buckets = [bucket(-1, ROOT, rack_ids, hosts * devices)]
    host_ids = [-2 - racks - host for host in range(racks * hosts)]
    for rack, name in enumerate(rack_ids):
        buckets.append(bucket(name, RACK, host_ids[rack * hosts : (rack + 1) * hosts], devices))
    for host, name in enumerate(host_ids):
        items = list(range(host * devices, (host + 1) * devices))
        buckets.append({"id": name, "type": HOST, "alg": "uniform", "items": items})
    return buckets


def bucket(name, kind, items, devices):
    """Gives a list bucket whose items hold this many devices each."""
    return {"id": name, "type": kind, "alg": "list", "items": items, "weights": [devices * IN] * len(items)}


def copies(pool, groups):
    """Gives a pool of this many groups, with three copies on different hosts."""
    return {"id": pool, "pg_num": groups, "kind": "replicated", "size": 3, "min_size": 2, "leaf": HOST}


def told(rng, up, count, epoch):
    """Gives that this many of the devices that are up are known to have been up through the epoch."""
    return [[osd, epoch] for osd in rng.sample(up, count)]
