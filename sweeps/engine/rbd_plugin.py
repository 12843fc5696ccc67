"""A plugin of nbdkit: an image of RBD by librbd, under its exclusive lock, which it does not give away as long as it lives (as with
`rbd device map --exclusive`). With lock=0 it is as without that option: librbd hands the lock to whoever writes."""

import nbdkit
import rados
import rbd

API_VERSION = 2
given = {}
image = None


def config(key, value):
    given[key] = value


def thread_model():
    return nbdkit.THREAD_MODEL_SERIALIZE_ALL_REQUESTS


def after_fork():
    global image
    cluster = rados.Rados(conffile=given['conf'])
    cluster.connect(timeout=30)
    pool, name = given['image'].split('/')
    image = rbd.Image(cluster.open_ioctx(pool), name)
    if given['lock'] == '1':
        image.lock_acquire(rbd.RBD_LOCK_MODE_EXCLUSIVE)


def open(_):
    return 1


def get_size(_):
    return image.size()


def can_flush(_):
    return True


def can_fua(_):
    return nbdkit.FUA_EMULATE


def pread(_, buffer, offset, flags):
    buffer[:] = image.read(offset, len(buffer))


def pwrite(_, buffer, offset, flags):
    image.write(bytes(buffer), offset)


def flush(_, flags):
    image.flush()
