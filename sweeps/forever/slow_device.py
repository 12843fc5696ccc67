"""A service with a view port whose device takes as long for a sync as a check says (`slow_sync.c`)."""

import os
import select
import threading

from checking import HERE, expect, opened, served, stopped

SECONDS = 30


class SlowService:
    """A service over a new store."""

    def __init__(self, acts, folder, **how):
        os.makedirs(folder, exist_ok=True)
        self.says, self.view_port = os.path.join(folder, 'slow'), served.free_port()
        self.takes(0)
        shim = served.library(os.path.join(HERE, 'slow_sync.c'), folder)
        self.service, _ = opened(acts, folder, view_port=self.view_port, settings={'LD_PRELOAD': shim, 'SLOW': self.says}, **how)
        self.over = threading.Event()

    def takes(self, seconds):
        """From now on a sync takes so long."""
        with open(f'{self.says}.new', 'w') as file:
            file.write(str(round(1000 * seconds)))
        os.replace(f'{self.says}.new', self.says)

    def wait_sync(self):
        """Waits until one more sync that takes some time has begun."""
        ready = select.select([self.service.seen], [], [], SECONDS)[0]
        expect(ready and os.read(self.service.seen, 1) == b'.', 'no slow sync has begun')

    def keep_busy(self):
        """Has a runner ask until the service is stopped, so that each turn has a commit."""
        def ask():
            try:
                while not self.over.is_set():
                    runner = self.service.runner()
                    runner.send(b'BEAT nobody 1\n' * 1024)
                    runner.rest()
                    runner.close()
            except (OSError, served.Ended):
                pass
        threading.Thread(target=ask, daemon=True).start()

    def viewer(self, timeout=60):
        return served.Hook(self.view_port, timeout)

    def look(self, target, timeout=60):
        """The answer to a view, over a stream of its own."""
        viewer = self.viewer(timeout)
        try:
            return viewer.ask(f'GET {target} HTTP/1.1\r\nConnection: close\r\n\r\n'.encode())
        finally:
            viewer.close()

    def stop(self):
        self.over.set()
        self.takes(0)
        stopped(self.service)
