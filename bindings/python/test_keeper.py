#!/usr/bin/env python3
"""Tests of the Python binding: python3 bindings/python/test_keeper.py"""
import ctypes
import os
import pickle
import re
import subprocess
import sys
import tempfile
import unittest
from pathlib import Path

sys.dont_write_bytecode = True
OWN = Path(__file__).resolve().parent
sys.path.insert(0, str(OWN))

import keeper
from keeper import Keeper, Refused, image_length, import_sheet, import_sheet_into, records

# The saved sample of document 01.
SAVED = bytes.fromhex('03 00 00 00 00 00 00 00  02 01 00 00 00 00 00 00 00  03 03 00 00 00 00 00 00 00  00 02'
                      '05 08 00 00 00 00 00 00 00  2D 00 00 00 02 01 01 00')


def sample():
    """The state of document 01's sample tape."""
    got = Keeper()
    got.add_by_privileges(role=2, effective={0})
    got.add_by_privileges(role=3, effective={0, 1})
    got.declare(0, 2)
    got.assign(seat=5, role=3)
    return got


class Test(unittest.TestCase):
    def refuses(self, number, place, call, *words, **names):
        """The call is refused so, and the state stays."""
        with self.assertRaises(Refused) as caught:
            call(*words, **names)
        self.assertEqual((caught.exception.number, caught.exception.place), (number, place))
        return caught.exception


class Calls(Test):
    def test_the_sample(self):
        got = sample()
        self.refuses(29, 2, got.grant, privilege=2, role=2)
        self.assertIs(got.ask(5, 1), True)
        self.assertIs(got.record(bytes([12, 5, 1]) + bytes(29)), True)
        self.assertIs(got.record(bytes([12, 5, 2]) + bytes(29)), False)
        self.assertIs(got.record(bytes([4, 3, 9]) + bytes(29)), None)
        self.assertEqual(sample().save(), SAVED)

    def test_every_kind(self):
        got = sample()
        got.add_by_place(role=4, direct=[7], juniors={2}, seniors={3})
        self.assertEqual(got.effective(3), {0, 1, 7})
        got.grant(privilege=8, role=4)
        got.withdraw(privilege=7, role=4)
        got.remove_edge(junior=4, senior=3)
        self.assertEqual(got.effective(3), {0, 1})
        got.add_edge(junior=4, senior=3)
        self.assertEqual(got.effective(3), {0, 1, 8})
        got.remove_role(role=4, keep=True)
        self.assertEqual(got.direct(3), {1, 8})
        got.withdraw(privilege=8, role=3)
        got.lift(2, 0)
        got.unassign(seat=5, role=3)
        self.assertEqual(got.conflicts(), [])
        self.assertEqual(got.seat_roles(5), set())
        got.remove_role(role=3)
        got.remove_role(role=2)
        self.assertEqual(got.save(), Keeper().save())

    def test_refusals(self):
        got = sample()
        self.refuses(1, 0, got.record, b'')
        self.refuses(1, 0, got.record, bytes(31))
        self.refuses(2, 64, got.assign, seat=64, role=3)
        self.refuses(3, 1, got.grant, privilege=3, role=1)
        self.refuses(4, 9, got.declare, 9, 9)
        self.refuses(5, 2, got.add_edge, junior=2, senior=2)
        self.refuses(20, 2, got.add_by_privileges, role=2, effective={5})
        self.refuses(21, 9, got.assign, seat=5, role=9)
        self.refuses(22, 5, got.assign, seat=5, role=3)
        self.refuses(23, 4, got.unassign, seat=4, role=3)
        self.refuses(23, 3, got.withdraw, privilege=9, role=3)
        self.refuses(31, 3, got.withdraw, privilege=0, role=3)
        self.refuses(24, 5, got.remove_role, role=3)
        self.refuses(25, 3, got.add_edge, junior=3, senior=2)
        self.refuses(27, 9, got.add_by_place, role=9)
        said = self.refuses(28, 2, got.add_by_privileges, role=9, effective={0})
        self.assertEqual(str(said), 'refused with 28, place 2: role 2 would hold what another role holds')
        self.assertEqual(said.text, 'role 2 would hold what another role holds')
        self.assertEqual(str(pickle.loads(pickle.dumps(said))), str(said))
        self.assertEqual(got.save(), SAVED)

    def test_the_texts_are_those_of_the_rust_wrapper(self):
        source = ''.join((OWN.parent / 'rust/src' / name).read_text() for name in ['refusal.rs', 'sheet.rs'])
        rust = re.findall(r'\(\s*(\d+),\s*"([^"]*)",?\s*\)', source)
        self.assertEqual({int(number): text for number, text in rust}, keeper._TEXTS)


class WrongUses(Test):
    """Nothing but a number from 0 to 63 and a whole block ever gives a yes."""

    def setUp(self):
        self.all = Keeper()
        self.all.add_by_privileges(role=2, effective=range(64))
        for seat in range(64):
            self.all.assign(seat=seat, role=2)
            self.all.activate(seat=seat, role=2)

    def test_numbers(self):
        self.assertIs(self.all.may(63, 63), True)
        self.assertIs(self.all.may_active(63, 63), True)
        for number in [64, 255, 256, 320, 2 ** 16, 2 ** 32, 2 ** 32 + 5, 2 ** 64, 2 ** 64 + 5, -1, -251, -2 ** 32]:
            with self.subTest(number):
                for may, ask in [(self.all.may, self.all.ask), (self.all.may_active, self.all.ask_active)]:
                    self.assertIs(may(number, 0), False)
                    self.assertIs(may(0, number), False)
                    self.refuses(2, number, ask, number, 0)
                    self.refuses(2, number, ask, 0, number)
                self.refuses(2, number, self.all.assign, seat=number, role=2)
                self.refuses(2, number, self.all.exclude, number, 2)
                self.refuses(2, number, self.all.activate, seat=number, role=2)
                self.refuses(2, number, self.all.deactivate, seat=0, role=number)
                if not 0 <= number <= 255:
                    self.refuses(2, number, self.all.count_yes, [(number, 0)])
                    self.refuses(2, number, self.all.seat_holds, number)
                    self.refuses(2, number, self.all.active_roles, number)
                    self.refuses(2, number, self.all.is_excluded, 2, number)
                self.refuses(2, number, self.all.add_by_privileges, role=3, effective={number})
        self.assertEqual(self.all.count_yes([(0, 0), (64, 0), (0, 255), (63, 63)]), 2)

    def test_what_is_no_number(self):
        for word in ['5', 5.0, None, b'5', (5,)]:
            with self.subTest(word):
                self.assertRaises(TypeError, self.all.may, word, 0)
                self.assertRaises(TypeError, self.all.ask, word, 0)
                self.assertRaises(TypeError, self.all.may_active, word, 0)
                self.assertRaises(TypeError, self.all.ask_active, word, 0)
                self.assertRaises(TypeError, self.all.assign, seat=word, role=2)

    def test_a_short_block(self):
        library = keeper._library
        words = (ctypes.c_uint64 * keeper.WORDS)(*[2 ** 64 - 1] * keeper.WORDS)
        for may, ask in [(library.keeper_may, library.keeper_ask),
                         (library.keeper_may_active, library.keeper_ask_active)]:
            self.assertIs(may(words, keeper.WORDS, 0, 0), True)
            for count in range(keeper.WORDS):
                self.assertIs(may(words, count, 0, 0), False)
                self.assertEqual(ask(words, count, 0, 0), keeper.NO_STATE)

    def test_numbers_are_not_crossed(self):
        with self.assertRaises(TypeError):
            self.all.grant(1, 2)


def desk():
    """Roles 2 {0} and 3 {1} exclude each other; seat 5 has role 4 {0,1,2}, above both, and role 2 switched on."""
    got = Keeper()
    for role, effective in [(2, {0}), (3, {1}), (4, {0, 1, 2})]:
        got.add_by_privileges(role=role, effective=effective)
    got.assign(seat=5, role=4)
    got.exclude(3, 2)
    got.activate(seat=5, role=2)
    return got


class Sitting(Test):
    """Sitting down in one role: exclusions, active roles, and the question by these."""

    def test_the_question(self):
        got = desk()
        self.assertEqual([got.may_active(5, privilege) for privilege in range(3)], [True, False, False])
        self.assertEqual([got.may(5, privilege) for privilege in range(3)], [True] * 3)
        self.assertIs(got.ask_active(5, 0), True)
        self.assertIs(got.ask_active(5, 1), False)
        self.assertIs(got.may_active(256 + 5, 0), False)
        got.deactivate(seat=5, role=2)
        self.assertIs(got.may_active(5, 0), False)
        got.activate(seat=5, role=3)
        self.assertIs(got.may_active(5, 1), True)

    def test_juniors_are_reached(self):
        got = desk()
        got.remove_role(role=3)
        self.assertEqual(got.exclusions(), [])
        got.activate(seat=5, role=4)
        got.deactivate(seat=5, role=2)
        self.assertEqual(got.active_roles(5), {4})
        self.assertIs(got.may_active(5, 0), True)

    def test_refusals(self):
        got = desk()
        self.refuses(3, 1, got.exclude, 2, 1)
        self.refuses(5, 9, got.exclude, 9, 9)
        self.refuses(21, 9, got.exclude, 2, 9)
        self.refuses(22, 2, got.exclude, 2, 3)
        self.refuses(22, 3, got.exclude, 3, 2)
        self.refuses(22, 5, got.activate, seat=5, role=2)
        self.refuses(23, 5, got.deactivate, seat=5, role=4)
        said = self.refuses(34, 6, got.activate, seat=6, role=2)
        self.assertEqual(said.text, 'no role of seat 6 reaches the role')
        self.refuses(35, 3, got.exclude, 4, 3)
        self.refuses(35, 2, got.activate, seat=5, role=3)
        self.refuses(35, 2, got.add_edge, junior=3, senior=2)
        said = self.refuses(35, 2, got.activate, seat=5, role=4)
        joined = "role 2 and one that it excludes would be joined by a path or by a seat's active roles"
        self.assertEqual(said.text, joined)
        self.assertEqual((got.exclusions(), got.active_roles(5)), ([(2, 3)], {2}))

    def test_an_unassigned_role_is_switched_off(self):
        got = desk()
        got.unassign(seat=5, role=4)
        self.assertEqual(got.active_roles(5), set())
        got.assign(seat=5, role=4)
        self.assertIs(got.may_active(5, 0), False)

    def test_an_image_keeps_none_of_it(self):
        got = desk()
        image = got.save()
        self.refuses(6, 0, got.load, image[1:])
        self.assertEqual((got.exclusions(), got.active_roles(5)), ([(2, 3)], {2}))
        got.load(image)
        self.assertEqual((got.exclusions(), got.active_roles(5)), ([], set()))
        self.assertEqual(got.save(), image)

    def test_what_is_shown(self):
        got = desk()
        self.assertEqual(got.active_roles(5), {2})
        self.assertEqual((got.active_roles(6), got.active_roles(64)), (set(), set()))
        self.assertTrue(got.is_excluded(2, 3) and got.is_excluded(3, 2))
        self.assertFalse(got.is_excluded(2, 4) or got.is_excluded(2, 255))


class Images(Test):
    def test_behind_other_bytes(self):
        for front in [b'', b'lens file', SAVED]:
            self.assertEqual(Keeper(front + SAVED).save(), SAVED)
            self.assertEqual(image_length(front + SAVED), 45)
        self.assertEqual(image_length(bytearray(SAVED)), 45)

    def test_refused(self):
        got = sample()
        for number, image in [(6, b''), (6, SAVED[1:]), (7, SAVED[:8] + b'\1' + SAVED[9:]), (8, b'\1' + SAVED[1:])]:
            self.refuses(number, 0, got.load, image)
            self.refuses(number, 0, Keeper, image)
            self.refuses(number, 0, image_length, image)
        self.assertEqual(got.save(), SAVED)

    def test_a_buffer(self):
        buffer = bytearray(b'\xa5' * 50)
        self.refuses(9, 0, sample().save_into, memoryview(buffer)[:44])
        self.assertEqual(buffer, b'\xa5' * 50)
        self.assertEqual(sample().save_into(buffer), 45)
        self.assertEqual(buffer, SAVED + b'\xa5' * 5)


class Sheets(Test):
    # Roles 2 {0}, 3 {0,63} and 0 {}, quoted here and there; and their records.
    SHEET = b'"",0,"7",63\r\n2,1,0,0\r\n"3",1,"0",1\r\n0,0,0,0\r\n'
    TAPE = b''.join(bytes([2, role, *[0] * 6]) + word.to_bytes(8, 'little') + bytes(16)
                    for role, word in [(2, 1), (3, 1 | 1 << 63), (0, 0)])

    def test_a_sheet(self):
        self.assertEqual(import_sheet(self.SHEET), self.TAPE)
        self.assertEqual(import_sheet(bytearray(self.SHEET[:-2])), self.TAPE)
        self.assertEqual(import_sheet(b',5'), b'')
        got = Keeper()
        first, second, third = records(import_sheet(self.SHEET))
        self.assertIsNone(got.record(first))
        self.assertIsNone(got.record(second))
        self.refuses(3, 0, got.record, third)
        self.assertEqual((got.effective(2), got.effective(3)), ({0}, {0, 63}))

    def test_a_wrong_row(self):
        for row, text in [(1, b''), (1, b',0\n2,1\n'), (1, b',64'), (3, b',0\r\n2,1\r\n03,1'), (3, b',0\r\n2,1\r\n\r\n')]:
            with self.subTest(text):
                self.refuses(32, row, import_sheet, text)
                self.refuses(32, row, import_sheet_into, text, bytearray())
        said = self.refuses(32, 70002, import_sheet, b',0' + b'\r\n2,1' * 70000 + b'\r\n2')
        self.assertEqual(said.text, 'row 70002 is not one of a sheet, or has a number out of range')
        self.assertRaises(TypeError, import_sheet, ',0')

    def test_a_buffer(self):
        buffer = bytearray(b'\xa5' * 100)
        self.refuses(33, 0, import_sheet_into, self.SHEET, memoryview(buffer)[:95])
        self.assertEqual(buffer, b'\xa5' * 100)
        self.assertEqual(import_sheet_into(self.SHEET, memoryview(buffer)[:96]), 96)
        self.assertEqual(buffer, self.TAPE + b'\xa5' * 4)
        self.assertEqual(import_sheet_into(self.SHEET, buffer), 96)
        self.assertEqual(buffer, self.TAPE + b'\xa5' * 4)

    def test_the_room(self):
        for rows in range(50):
            self.assertEqual(len(import_sheet(b',0' + b'\r\n2,1' * rows)), 32 * rows)

    def test_records(self):
        self.assertEqual(records(bytes(64)), [bytes(32)] * 2)
        self.assertEqual(records(bytes(33)), [bytes(32), bytes(1)])
        self.assertEqual(records(b''), [])


class Shown(Test):
    def test_what_a_keeper_shows(self):
        got = sample()
        self.assertEqual(got.roles(), {2, 3})
        self.assertEqual(got.edges(), [(0, 2), (2, 3), (3, 1)])
        self.assertEqual(got.edge_count(), 3)
        self.assertEqual(got.effective(3), {0, 1})
        self.assertEqual(got.direct(3), {1})
        self.assertEqual(got.juniors(3), {2})
        self.assertEqual(got.seniors(3), {1})
        self.assertTrue(got.is_below(2, 3) and not got.is_below(3, 2))
        self.assertTrue(got.is_declared(2, 0) and not got.is_declared(0, 1))
        self.assertEqual(got.conflicts(), [(0, 2)])
        self.assertEqual(got.seat_roles(5), {3})
        self.assertEqual(got.seat_holds(5), {0, 1})

    def test_the_header_is_declared(self):
        """The header's functions have here the types that it gives them."""
        names = {'uint8_t': keeper._U8, 'uint32_t': keeper._U32, 'uint64_t': keeper._U64, 'size_t': ctypes.c_size_t,
                 'bool': keeper._BOOL}
        pointers = {'uint64_t': keeper._BLOCK, 'uint8_t': keeper._BYTES}

        def of_c(text):
            of = text.replace('const ', '').split()[0]
            return pointers[of] if '*' in text else names[of]

        header = (OWN.parent.parent / 'include/keeper.h').read_text()
        found = re.findall(r'^KEEPER_HEED (\w+) (keeper_\w+)\(([^)]*)\);', header, re.M)
        for result, name, parameters in found:
            function = getattr(keeper._library, name)
            self.assertEqual(function.restype, names[result], name)
            self.assertEqual(list(function.argtypes), [of_c(part.strip()) for part in parameters.split(',')], name)
        self.assertEqual({name for _, name, _ in found}, {*keeper._FUNCTIONS, *keeper._BLOCKLESS})
        values = dict(re.findall(r'^#define KEEPER_(\w+) (?:UINT64_C\()?(\d+)\)?$', header, re.M))
        for name in ['WORDS', 'LONGEST_IMAGE', 'RECORD', 'NO_STATE', 'NOT_SAVED', 'NOT_IMPORTED']:
            self.assertEqual(getattr(keeper, name), int(values[name]))
        refusals = re.search(r'enum keeper_refusal \{(.*?)\};', header, re.S)[1]
        self.assertEqual([int(n) for n in re.findall(r' = (\d+)', refusals)], list(keeper._TEXTS))

    def test_a_missing_library_says_what_to_run(self):
        with tempfile.TemporaryDirectory() as folder:
            environment = {**os.environ, 'KEEPER_LIBRARY': folder, 'PYTHONDONTWRITEBYTECODE': '1'}
            got = subprocess.run([sys.executable, '-c', 'import keeper'], cwd=OWN, env=environment,
                                 capture_output=True, text=True)
        self.assertIn('run `make`', got.stderr)
        self.assertNotEqual(got.returncode, 0)


if __name__ == '__main__':
    unittest.main()
