"""A part of the long session of soak.py, as long as a test may take."""
import unittest

import soak

SEED, MESSAGES, FILES = 7, 15_000, 500

# In so short a session the memory of the first tenth isn't yet what it will be.
SLACK = 4_000_000


class Soak(unittest.TestCase):
    def test_a_long_session(self):
        self.assertEqual(soak.soak(SEED, MESSAGES, FILES, SLACK), [])


if __name__ == "__main__":
    unittest.main()
