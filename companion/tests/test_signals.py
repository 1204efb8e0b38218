"""Signals to `./urweb serve`: they reach the program, its status comes back, and nothing is left behind."""
import signal
import subprocess
import time
import unittest

from runs import SCRIPT, SECONDS, children, fetched, free_port, is_alive, started

PAGE = b"GET /Hello/main/3 HTTP/1.1\r\nHost: h\r\nConnection: close\r\n\r\n"


class Signals(unittest.TestCase):
    def serving(self, *ignored: int) -> tuple[subprocess.Popen[bytes], int, list[int]]:
        """Starts a server, and returns it, its port and the processes below it, when it has answered."""
        port = free_port()
        child = started(SCRIPT, ["serve", "examples/hello", "--port", str(port)], ignored=ignored)
        self.addCleanup(self.ended, child)
        self.assertIn(b"<p>n is 3</p>", fetched(port, PAGE))
        below = children(child.pid)
        self.assertEqual(len(below), 1)
        return child, port, below

    def ended(self, child: subprocess.Popen[bytes]) -> None:
        child.kill()
        child.communicate(timeout=SECONDS)

    def gone(self, pids: list[int]) -> bool:
        end = time.monotonic() + SECONDS
        while any(is_alive(it) for it in pids) and time.monotonic() < end:
            time.sleep(0.02)
        return not any(is_alive(it) for it in pids)

    def test_a_signal_ends_the_program_and_is_the_status(self) -> None:
        for number in (signal.SIGINT, signal.SIGTERM, signal.SIGHUP, signal.SIGQUIT, signal.SIGUSR1):
            with self.subTest(number.name):
                child, _, below = self.serving()
                child.send_signal(number)
                out, err = child.communicate(timeout=SECONDS)
                self.assertEqual(child.returncode, -number)
                self.assertTrue(out.startswith(b"serving on 127.0.0.1:"))
                self.assertEqual(err, b"")
                self.assertTrue(self.gone(below))

    def test_a_signal_to_the_program_is_the_status(self) -> None:
        child, _, below = self.serving()
        subprocess.run(["kill", "-TERM", str(below[0])], check=True)
        child.communicate(timeout=SECONDS)
        self.assertEqual(child.returncode, -signal.SIGTERM)

    def test_the_program_ends_with_a_script_that_is_killed(self) -> None:
        child, _, below = self.serving()
        child.kill()
        child.communicate(timeout=SECONDS)
        self.assertTrue(self.gone(below))

    def test_a_signal_that_was_ignored_stays_so(self) -> None:
        child, port, below = self.serving(signal.SIGHUP)
        child.send_signal(signal.SIGHUP)
        time.sleep(0.2)
        self.assertIn(b"<p>n is 3</p>", fetched(port, PAGE))
        child.terminate()
        child.communicate(timeout=SECONDS)
        self.assertEqual(child.returncode, -signal.SIGTERM)
        self.assertTrue(self.gone(below))


if __name__ == "__main__":
    unittest.main()
