"""For tests that may end the process: each is a program of its own, which has to answer right, or raise."""
import subprocess
import sys
import unittest

START = """
import array, copy, gc, os, pickle, sys, tempfile, threading, time
import bitm
room = tempfile.mkdtemp()
path = os.path.join(room, "it")
"""


class Program(unittest.TestCase):
    def run_program(self, text, says):
        # The environment stays as it is (LD_PRELOAD of a sanitizer too).
        done = subprocess.run([sys.executable, "-X", "faulthandler", "-c", START + text], capture_output=True, text=True, timeout=600)
        self.assertEqual((done.returncode, done.stdout.split("\n")[:-1]), (0, says), done.stderr[-4000:])
