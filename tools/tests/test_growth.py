"""Tests the drawing that bench/growth.py makes. The expected values are by hand."""
import sys
import unittest
import xml.etree.ElementTree as ElementTree
from pathlib import Path

sys.path.insert(0, str(Path(__file__).resolve().parents[2] / "bench"))
from growth_svg import Panel, Series, drawing, linear_ticks, number_text, position


class Drawing(unittest.TestCase):
    def test_ticks_reach_the_highest_value(self):
        self.assertEqual(linear_ticks(10), [0, 2, 4, 6, 8, 10])
        self.assertEqual(linear_ticks(10.1), [0, 5, 10, 15])
        self.assertEqual(linear_ticks(640_000), [0, 200_000, 400_000, 600_000, 800_000])

    def test_numbers_are_short(self):
        texts = {0: "0", 4: "4", 4096: "4,096", 20_000: "20k", 1_500_000: "1.5M", 10**7: "10M"}
        self.assertEqual([number_text(number) for number in texts], list(texts.values()))

    def test_positions_are_linear_or_logarithmic(self):
        self.assertEqual(position(5, [0, 10], 100, 200, False), 150)
        self.assertEqual(position(5, [0, 10], 200, 100, False), 150)
        self.assertAlmostEqual(position(10, [1, 100], 100, 200, True), 150)

    def test_each_point_is_drawn(self):
        series = [Series("a < b", [(1, 10), (10, 100)]), Series("c", [(1, 20), (10, 900)])]
        panels = [Panel("title", "width", "height", [1, 10], series, has_log_heights=True)]
        top = ElementTree.fromstring(drawing(panels))
        space = "{http://www.w3.org/2000/svg}"
        circles = [(circle.get("cx"), circle.get("cy")) for circle in top.iter(f"{space}circle")]
        self.assertEqual(circles[:2], [("62.0", "205.0"), ("300.0", "131.5")])
        words = [text.text for text in top.iter(f"{space}text")]
        self.assertEqual(words[:2] + words[-2:], ["1", "10", "a < b", "c"])


if __name__ == "__main__":
    unittest.main()
