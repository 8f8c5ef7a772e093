"""A real browser, driven over a pipe: Debian's chromium or another of its kind, without a window, by its own protocol (Chrome DevTools
Protocol). Used by the tests of the page; only Python's library is needed."""
import base64
import json
import os
import shutil
import subprocess
import tempfile

BROWSERS = ('chromium', 'chromium-browser', 'google-chrome')
WORDS = ('--headless', '--no-sandbox', '--disable-gpu', '--hide-scrollbars', '--no-first-run', '--disable-extensions',
         '--remote-debugging-pipe')
# seconds that a page may take to load before the browser is given up
PATIENCE = 120


def path():
    """The browser's path; None where there is none."""
    return next((found for found in map(shutil.which, BROWSERS) if found), None)


class Browser:
    """A browser with one page."""

    def __init__(self):
        self.folder = tempfile.TemporaryDirectory(ignore_cleanup_errors=True)
        to_browser, self.write_end = os.pipe()
        self.read_end, from_browser = os.pipe()
        # the browser reads descriptor 3 and writes descriptor 4
        command = ['sh', '-c', 'exec "$0" "$@" 3<&%d 4>&%d' % (to_browser, from_browser), path(), *WORDS, '--user-data-dir=' + self.folder.name]
        self.process = subprocess.Popen(command, pass_fds=(to_browser, from_browser), stdout=subprocess.DEVNULL, stderr=subprocess.DEVNULL)
        os.close(to_browser)
        os.close(from_browser)
        self.said, self.number, self.session = b'', 0, None
        self.errors = []
        target = self.call('Target.createTarget', url='about:blank')['targetId']
        self.session = self.call('Target.attachToTarget', targetId=target, flatten=True)['sessionId']
        for domain in ('Page', 'Runtime', 'Log', 'Accessibility'):
            self.call(domain + '.enable')

    def close(self):
        os.close(self.write_end)
        self.process.terminate()
        self.process.wait(PATIENCE)
        os.close(self.read_end)
        self.folder.cleanup()

    def message(self):
        """The next message of the browser."""
        while b'\0' not in self.said:
            more = os.read(self.read_end, 1 << 20)
            if not more:
                raise EOFError('the browser ended')
            self.said += more
        message, self.said = self.said.split(b'\0', 1)
        message = json.loads(message)
        if message.get('method') in ('Runtime.exceptionThrown',):
            self.errors.append(json.dumps(message['params'])[:500])
        return message

    def call(self, method, **params):
        self.number += 1
        message = {'id': self.number, 'method': method, 'params': params}
        if self.session:
            message['sessionId'] = self.session
        os.write(self.write_end, json.dumps(message).encode() + b'\0')
        while True:
            answer = self.message()
            if answer.get('id') == self.number:
                if 'error' in answer:
                    raise RuntimeError('%s: %s' % (method, answer['error']))
                return answer['result']

    def wait_for(self, event):
        while self.message().get('method') != event:
            pass

    # ---- what tests ask ----

    def size(self, width, height):
        self.call('Emulation.setDeviceMetricsOverride', width=width, height=height, deviceScaleFactor=1, mobile=False)

    def scripts(self, allowed):
        self.call('Emulation.setScriptExecutionDisabled', value=not allowed)

    def scheme(self, name):
        self.call('Emulation.setEmulatedMedia', features=[{'name': 'prefers-color-scheme', 'value': name}])

    def open(self, file, fragment=''):
        """Opens a file and waits until it is loaded."""
        self.call('Page.navigate', url='about:blank')
        self.wait_for('Page.loadEventFired')
        self.call('Page.navigate', url='file://' + os.path.abspath(file) + fragment)
        self.wait_for('Page.loadEventFired')

    def ask(self, expression):
        """The value of an expression of JavaScript in the page."""
        answer = self.call('Runtime.evaluate', expression=expression, returnByValue=True, awaitPromise=True)
        if 'exceptionDetails' in answer:
            raise RuntimeError(json.dumps(answer['exceptionDetails'])[:800])
        return answer['result'].get('value')

    def key(self, key):
        """A key pressed and let go."""
        text = key if len(key) == 1 else '\r' if key == 'Enter' else ''
        extra = {'windowsVirtualKeyCode': 13} if key == 'Enter' else {}
        self.call('Input.dispatchKeyEvent', type='keyDown', key=key, text=text, **extra)
        self.call('Input.dispatchKeyEvent', type='keyUp', key=key, **extra)

    def type(self, text):
        for letter in text:
            self.key(letter)

    def click(self, selector):
        x, y = self.ask('(() => { const e = document.querySelector(%s); e.scrollIntoView({block: "center"}); const r = e.getBoundingClientRect();'
                        ' return [r.x + r.width / 2, r.y + r.height / 2]; })()' % json.dumps(selector))
        for kind in ('mousePressed', 'mouseReleased'):
            self.call('Input.dispatchMouseEvent', type=kind, x=x, y=y, button='left', clickCount=1)

    def shot(self, file, whole=False):
        """A picture of the window, or of the whole page."""
        data = self.call('Page.captureScreenshot', format='png', captureBeyondViewport=whole, **(
            {'clip': dict(zip(('x', 'y', 'width', 'height', 'scale'), [0, 0] + self.ask(
                '[document.documentElement.scrollWidth, document.documentElement.scrollHeight]') + [1]))} if whole else {}))['data']
        with open(file, 'wb') as out:
            out.write(base64.b64decode(data))

    def printed(self, file):
        data = self.call('Page.printToPDF', preferCSSPageSize=True, printBackground=False)['data']
        with open(file, 'wb') as out:
            out.write(base64.b64decode(data))

    def processor(self):
        """Seconds of a processor that the page's process has taken so far."""
        return {it['name']: it['value'] for it in self.call('Performance.getMetrics')['metrics']}['ProcessTime']

    def heard(self):
        """The tree that a screen reader has, as (role, name) in order."""
        nodes = self.call('Accessibility.getFullAXTree')['nodes']
        return [(node.get('role', {}).get('value', ''), node.get('name', {}).get('value', '')) for node in nodes if not node.get('ignored')]
