"""bundle.py FOLDER UIDS: the config.json of a bundle (config.md of the OCI runtime specification), whose process waits
for /tmp/go. UIDS is the host's uid of its uid 0, in a user namespace; or `host`."""
import json
import sys

CAPABILITIES = ['CAP_SETUID', 'CAP_SETGID', 'CAP_KILL']


def namespaces(uids):
    kinds = ['pid', 'ipc', 'uts', 'mount'] + (['user'] if uids != 'host' else [])
    return [{'type': kind} for kind in kinds]


def config(folder, uids):
    linux = {'namespaces': namespaces(uids)}
    if uids != 'host':
        mapping = [{'containerID': 0, 'hostID': int(uids), 'size': 65536}]
        linux.update(uidMappings=mapping, gidMappings=mapping)
    calls = '/bin/calls add kept v @s describe @u put /tmp/ready await /tmp/go print kept'
    process = {'terminal': False, 'user': {'uid': 0, 'gid': 0}, 'cwd': '/', 'env': ['PATH=/bin'],
               'noNewPrivileges': True, 'args': calls.split(),
               'capabilities': {kind: CAPABILITIES for kind in ('bounding', 'effective', 'permitted')}}
    mounts = [{'destination': '/proc', 'type': 'proc', 'source': 'proc'},
              {'destination': '/dev', 'type': 'tmpfs', 'source': 'tmpfs', 'options': ['nosuid', 'mode=755']}]
    return {'ociVersion': '1.0.2', 'process': process, 'root': {'path': 'rootfs', 'readonly': False}, 'mounts': mounts,
            'linux': linux}


json.dump(config(*sys.argv[1:]), sys.stdout)
