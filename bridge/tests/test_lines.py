"""The lines that are fed to a node: which of the events that wait stand in one."""
import unittest
from collections import deque

from ocpi_bridge.node.lines import Waiting, next_line


class LinesTest(unittest.TestCase):
    def test_what_waits_goes_into_a_line_as_it_came_but_for_what_stands_alone(self) -> None:
        words = ["token", "swipe", "service", "tick", "token", "token", "swipe"]
        queue = deque(Waiting({"event": word, "node": "BE/BEC"}, alone=place == 4) for place, word in enumerate(words))
        lines, number = [], 2
        while queue:
            line = next_line(queue, number)
            lines.append((line.number, line.is_array, [queue.popleft().event["event"] for _ in line.waiting]))
            number += 1
        self.assertEqual([(2, True, words[:4]), (3, False, words[4:5]), (4, True, words[5:])], lines)

    def test_a_line_is_not_longer_than_a_node_takes(self) -> None:
        queue = deque(Waiting({"event": "token", "node": "x" * 500_000}) for _ in range(3))
        line = next_line(queue, 2)
        self.assertEqual(2, len(line.waiting))
        self.assertLessEqual(len(line.text), 1_048_576)
