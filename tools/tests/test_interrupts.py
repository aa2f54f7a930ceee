import os
import signal
import unittest

from yarrow_prompt.interrupts import Interrupts


class Heard(unittest.TestCase):
    def setUp(self):
        self.addCleanup(signal.signal, signal.SIGINT, signal.getsignal(signal.SIGINT))
        self.interrupts = Interrupts()
        self.interrupts.install()

    def press(self):
        os.kill(os.getpid(), signal.SIGINT)

    def test_where_it_is_heard_it_comes_at_once(self):
        with self.assertRaises(KeyboardInterrupt), self.interrupts.heard():
            self.press()
        with self.interrupts.heard():
            pass

    def test_elsewhere_it_waits(self):
        self.press()
        with self.assertRaises(KeyboardInterrupt), self.interrupts.heard():
            self.fail("this is not reached")
        with self.interrupts.heard():
            pass


class Hangups(unittest.TestCase):
    def setUp(self):
        for it in (signal.SIGHUP, signal.SIGTERM):
            self.addCleanup(signal.signal, it, signal.getsignal(it))
        self.interrupts = Interrupts()
        self.interrupts.leave_at_hangup()

    def test_a_hangup_ends_the_prompt_once(self):
        with self.assertRaises(SystemExit) as caught:
            os.kill(os.getpid(), signal.SIGHUP)
        self.assertEqual(caught.exception.code, 129)
        os.kill(os.getpid(), signal.SIGTERM)

    def test_an_end_is_not_hurried(self):
        self.interrupts.end()
        os.kill(os.getpid(), signal.SIGHUP)


if __name__ == "__main__":
    unittest.main()
