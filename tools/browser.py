"""A browser without a screen, that a program drives by two pipes: Chromium, of which Debian has two packages.

It speaks Chromium's own protocol (DevTools), in JSON that ends with a zero byte. Python's library is all it needs.
"""
import json
import os
import pathlib
import select
import shutil
import subprocess
import tempfile
import time

NAMES = ('chromium-headless-shell', 'chromium', 'chromium-browser', 'google-chrome')
WORDS = ('--headless', '--remote-debugging-pipe', '--no-sandbox', '--disable-gpu', '--disable-dev-shm-usage',
         '--no-first-run', '--disable-extensions', '--disable-background-networking', '--disable-sync', '--mute-audio')
# A busy machine may take this many seconds for one answer.
PATIENCE = float(os.environ.get('SITE_PATIENCE', '600'))


def program():
    """Returns the browser of this machine, or None."""
    return next((found for found in map(shutil.which, NAMES) if found), None)


class Browser:
    """One page of a browser. What its console says is in `said`."""

    def __init__(self):
        self.home = tempfile.TemporaryDirectory(prefix='browser-', ignore_cleanup_errors=True)
        ours, self.output = os.pipe()
        self.input, theirs = os.pipe()

        def pass_pipes():
            # The browser reads at 3 and writes at 4. Either pipe may have either number before.
            first, second = os.dup(ours), os.dup(theirs)
            high = [os.dup2(it, at, inheritable=True) for it, at in ((first, 60), (second, 61))]
            os.dup2(high[0], 3, inheritable=True)
            os.dup2(high[1], 4, inheritable=True)

        self.process = subprocess.Popen(  # pylint: disable=subprocess-popen-preexec-fn
            [program(), *WORDS, f'--user-data-dir={self.home.name}', 'about:blank'], preexec_fn=pass_pipes,
            close_fds=False, stdin=subprocess.DEVNULL, stdout=subprocess.DEVNULL, stderr=subprocess.DEVNULL)
        os.close(ours)
        os.close(theirs)
        self.number, self.rest, self.session, self.said, self.loaded = 0, b'', None, [], False
        try:
            target = self.ask('Target.createTarget', url='about:blank')['targetId']
            self.session = self.ask('Target.attachToTarget', targetId=target, flatten=True)['sessionId']
            for part in ('Page', 'Runtime', 'Log'):
                self.ask(f'{part}.enable')
        except (OSError, EOFError):
            self.__exit__()
            raise

    def __enter__(self):
        return self

    def __exit__(self, *_):
        self.process.kill()
        self.process.wait()
        os.close(self.input)
        os.close(self.output)
        self.home.cleanup()

    def messages(self, patience):
        """Returns what came within some seconds; raises TimeoutError where nothing did."""
        if not select.select([self.input], [], [], patience)[0]:
            raise TimeoutError('the browser says nothing')
        came = os.read(self.input, 1 << 20)
        if not came:
            raise EOFError('the browser ended')
        *whole, self.rest = (self.rest + came).split(b'\0')
        return [json.loads(it) for it in whole]

    def hear(self, message):
        """Keeps what an event says."""
        kind, told = message.get('method'), message.get('params', {})
        if kind == 'Page.loadEventFired':
            self.loaded = True
        elif kind == 'Runtime.exceptionThrown':
            details = told['exceptionDetails']
            self.said.append(details.get('exception', {}).get('description') or details['text'])
        elif kind == 'Runtime.consoleAPICalled' and told['type'] in ('error', 'warning', 'assert'):
            self.said.append(' '.join(str(it.get('value', it.get('description'))) for it in told['args']))
        elif kind == 'Log.entryAdded' and told['entry']['level'] in ('error', 'warning'):
            self.said.append(f"{told['entry']['text']} {told['entry'].get('url', '')}".strip())

    def ask(self, method, **words):
        """Calls a method of the browser, and returns its answer."""
        self.number += 1
        asked = {'id': self.number, 'method': method, 'params': words}
        if self.session:
            asked['sessionId'] = self.session
        text = json.dumps(asked).encode() + b'\0'
        while text:
            text = text[os.write(self.output, text):]
        answer, end = None, time.monotonic() + PATIENCE
        while answer is None:
            for message in self.messages(max(0.0, end - time.monotonic())):
                if message.get('id') == self.number:
                    answer = message
                else:
                    self.hear(message)
        if 'error' in answer:
            raise ValueError(f"{method}: {answer['error']['message']}")
        return answer['result']

    def wait(self):
        """Waits until a page is loaded."""
        end = time.monotonic() + PATIENCE
        while not self.loaded:
            for message in self.messages(max(0.0, end - time.monotonic())):
                self.hear(message)

    def open(self, file, place=''):
        """Opens a file; what its console says from now on is all that `said` has."""
        self.said, self.loaded = [], False
        self.ask('Page.navigate', url=pathlib.Path(file).resolve().as_uri() + place)
        self.wait()

    def size(self, width, height, is_phone):
        """Gives the page this size, in points."""
        self.ask('Emulation.setDeviceMetricsOverride', width=width, height=height, deviceScaleFactor=1, mobile=is_phone)

    def run(self, code):
        """Runs JavaScript in the page, waits for its promise, and returns what it gives."""
        answer = self.ask('Runtime.evaluate', expression=code, awaitPromise=True, returnByValue=True)
        if 'exceptionDetails' in answer:
            self.hear({'method': 'Runtime.exceptionThrown', 'params': answer})
        return answer['result'].get('value')

    def picture(self, file):
        """Writes a picture of the page, as PNG."""
        import base64
        pathlib.Path(file).write_bytes(base64.b64decode(self.ask('Page.captureScreenshot', format='png')['data']))
