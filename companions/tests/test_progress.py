"""How far checks are, as it is said."""
import unittest

from bagitkeep.progress import Far
from bagitkeep.program import Program


class Lines(unittest.TestCase):
    def test_a_bag_that_says_it_is_huge(self) -> None:
        program = Program("bagit")
        far = Far(program, "bags", [1, 2], str, lambda _: 0)
        far.sizes[1] = 1
        program.done.append(1)
        self.assertIn("2 bags, 1 bytes of ?, 0:00:09 left", far.line(9))
        far.sizes[2] = 10**20
        self.assertIn(", ? left, at work: ", far.line(9))
