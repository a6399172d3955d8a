"""Tables drawn through the shared library. Pictures are those of the README, or worked out by hand."""

import doctest
import unittest

import papergrid

PETS = [["name", "kind", "age"], ["Ada", "cat", "3"], ["Bo", "dog", "12"]]


class Draws(unittest.TestCase):
    def test_pets(self):
        self.assertEqual(
            papergrid.draw(PETS, align="left"),
            "╭──────┬──────┬─────╮\n│ name │ kind │ age │\n├──────┼──────┼─────┤\n"
            "│ Ada  │ cat  │ 3   │\n│ Bo   │ dog  │ 12  │\n╰──────┴──────┴─────╯",
        )

    def test_markdown(self):
        self.assertEqual(
            papergrid.draw(PETS, style="markdown"),
            "| name | kind | age |\n|------|------|-----|\n| Ada  | cat  |   3 |\n| Bo   | dog  |  12 |",
        )

    def test_values(self):
        self.assertEqual(
            papergrid.draw([[1, None, 2.5], ["x"]], header=False, style="ascii", align=["right", "center", "left"]),
            "+---+--+-----+\n| 1 |  | 2.5 |\n+---+--+-----+\n| x |  |     |\n+---+--+-----+",
        )

    def test_rows(self):
        """Rows are whatever can be gone through once."""
        want = papergrid.draw([["a", "1"], ["b", "2"]])
        for rows in (
            (iter(row) for row in (["a", "1"], ["b", "2"])),
            [["a", "1"], iter(["b", "2"])],
            [dict.fromkeys(["a", "1"]), ("b", 2)],
            ["a1", "b2"],
        ):
            self.assertEqual(papergrid.draw(rows), want)

    def test_empty_texts(self):
        for rows in ([[""]], [["a"], [""]], [["\x1e"], ["", ""]]):
            lines = papergrid.draw(rows, style="none", header=False).split("\n")
            self.assertEqual(len(lines), len(rows))

    def test_many_rows(self):
        """Rows go to the library in portions."""
        rows = [[str(row), row if row == 1500 else "x", "\t" if row == 2200 else ""] for row in range(2501)]
        lines = papergrid.draw([[], *rows], style="none", header=False, align="left").split("\n")
        self.assertEqual(len(lines), 2502)
        self.assertEqual((lines[0].strip(), lines[1501], lines[2201]), ("", "15001500  ", "2200x   \\t"))
        self.assertEqual(papergrid.draw([[]] * 1001 + [["a"]], style="none").count("\n"), 1001)
        self.assertEqual(papergrid.draw([[]] * 1001), "")

    def test_empty(self):
        self.assertEqual(papergrid.draw([]), "")
        self.assertEqual(papergrid.draw([[], []]), "")
        self.assertEqual(papergrid.draw([["a"], [""]], header=False, style="ascii"), "+---+\n| a |\n+---+\n|   |\n+---+")

    def test_controls(self):
        self.assertEqual(
            papergrid.draw([["\t\x1b[1m\x85\u202e"], ["a\x1fb\x1ec"]], header=False, style="psql", align="left"),
            " \\t\\x1b[1m\\u{85}\\u{202e} \n" + 25 * "-" + "\n a\\x1fb\\x1ec" + 13 * " ",
        )

    def test_lines(self):
        self.assertEqual(
            papergrid.draw([["a\nbc", "日本"]], header=False, style="sharp"),
            "┌────┬──────┐\n│ a  │ 日本 │\n│ bc │      │\n└────┴──────┘",
        )

    def test_numbers(self):
        for text in ("1", "-1", "+1,234.5", "1e3", ".5", "5.", ""):
            self.assertTrue(papergrid._is_numeric([text, "0"]), text)
        for text in ("1,23", "e3", ".", "1 ", "x", "--1", "1,2345"):
            self.assertFalse(papergrid._is_numeric([text, "0"]), text)


class Sizes(unittest.TestCase):
    def test_sizes(self):
        table = papergrid.Table(PETS)
        self.assertEqual((table.width, table.height), (21, 6))
        self.assertEqual((table.widths, table.heights), ([6, 6, 5], [1, 1, 1]))

    def test_certificates(self):
        table = papergrid.Table(PETS)
        self.assertEqual(table.width_certificate, [(0, 0), (0, 1), (0, 2)])
        self.assertEqual([row for row, _ in table.height_certificate], [0, 1, 2])
        crossing = [["wide", "", "c"], ["d", "even", ""]]
        for least in (False, True):
            table = papergrid.Table(crossing, style="none", header=False, least=least).span(0, 0, columns=2).span(1, 1, columns=2)
            self.assertEqual(table.width_certificate is None, not least)
        self.assertEqual((table.widths, table.width, len(table.width_certificate)), ([1, 3, 1], 5, 2))

    def test_places(self):
        table = papergrid.Table(PETS)
        self.assertEqual(table.place(1, 1), papergrid.Place(column=8, line=3, width=6, height=1))
        self.assertEqual(table.cell_at(8, 3), (1, 1))
        self.assertIsNone(table.cell_at(7, 3))

    def test_span(self):
        table = papergrid.Table([["ab", "ignored"], ["c", "d"]], header=False, style="ascii").span(0, 0, columns=2)
        self.assertEqual(str(table), "+---+---+\n| ab    |\n+---+---+\n| c | d |\n+---+---+")
        with self.assertRaises(papergrid.Hidden):
            table.place(0, 1)


class Refusals(unittest.TestCase):
    def test_names(self):
        with self.assertRaisesRegex(ValueError, "no style is named 'rond'"):
            papergrid.draw(PETS, style="rond")
        with self.assertRaisesRegex(ValueError, "no alignment is named 'rigth'"):
            papergrid.draw(PETS, align="rigth")

    def test_out_of_table(self):
        table = papergrid.Table(PETS).span(0, 2, columns=2)
        with self.assertRaises(papergrid.OutOfTable) as refused:
            str(table)
        self.assertEqual(refused.exception.position, (0, 2))

    def test_settings(self):
        table = papergrid.Table(PETS, style="none")
        with self.assertRaises(papergrid.BadSetting):
            table.set("SetPaddings", "Global")
        table.set("SetAlignmentHorizontal", "Global", "Right")
        self.assertEqual(str(table).split("\n")[1], " Ada cat  3")


class Documents(unittest.TestCase):
    def test_module(self):
        tried = doctest.testmod(papergrid)
        self.assertEqual((tried.failed, tried.attempted), (0, 2))


if __name__ == "__main__":
    unittest.main()
