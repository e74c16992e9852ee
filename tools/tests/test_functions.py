"""Tests of edits/functions.py and edits/places.py."""

from __future__ import annotations

import unittest

from edits.edit import edits_of
from edits.functions import functions_in, holder_of
from edits.places import Place, module_of, places_of

from .made import SOURCE, Repository


class FunctionsTest(unittest.TestCase):
    def test_finds_those_with_bodies(self) -> None:
        names = ["bounded", "VecFromHeld::from", "Held::walk", "Held::step"]
        self.assertEqual(list(functions_in(SOURCE)), names)

    def test_a_function_begins_at_its_fn_and_ends_with_its_body(self) -> None:
        found = functions_in(SOURCE)["bounded"]
        body = SOURCE[found.begin : found.end]
        self.assertTrue(body.startswith("fn bounded(n: u64) -> u64\n    requires"))
        self.assertTrue(body.endswith("{\n    if n > MOST { MOST } else { n }\n}"))
        self.assertEqual(found.after, 0)

    def test_each_is_behind_the_one_before(self) -> None:
        found = list(functions_in(SOURCE).values())
        self.assertEqual([it.after for it in found[1:]], [it.end for it in found[:-1]])

    def test_finds_cycles_of_calls(self) -> None:
        cycles = [it.cycle for it in functions_in(SOURCE).values()]
        self.assertEqual(cycles, ["", "", "walk", "walk"])

    def test_names_holders_as_the_prover_does(self) -> None:
        names = {
            "impl Value {": "Value",
            "impl<'a> Machine<'a> {": "Machine",
            "impl Drop for Held {": "Held",
            "impl From<Error> for HostError {": "HostErrorFromError",
            "impl<T: Drop> From<AllocFailed<T>> for HostError {": "HostErrorFromAllocFailed",
            "impl<H, P> Evaluation<H, P> {": "Evaluation",
            "impl<F: Functions> Functions for &F {": "RefFunctions",
            "impl<T> Show for T where T: Copy {": "AnyShow",
            "impl Show for &mut std::vec::Vec<u8> {": "RefMutVecU8Show",
            "impl Show for dyn Names {": "DynNamesShow",
            "pub trait Meter: Sized {": "Meter:Sized".replace(":", "+"),
        }
        for head, name in names.items():
            self.assertEqual(holder_of(head), name, head)


class PlacesTest(Repository):
    def setUp(self) -> None:
        super().setUp()
        edits = edits_of("top", self.folder / "must-fail")
        self.places = {it.name: places_of(it, self.folder) for it in edits}

    def test_finds_the_functions_that_change(self) -> None:
        self.assertEqual(self.places["bound_is_less"], [Place("src/held.rt", "bounded", "held")])
        self.assertEqual([it.path for it in self.places["bound_is_less"]], ["held::bounded"])
        self.assertEqual([it.path for it in self.places["makes_none"]], ["VecFromHeld::from"])

    def test_a_change_outside_has_no_name(self) -> None:
        self.assertEqual(self.places["most_is_six"], [Place("src/held.rt", "", "held")])

    def test_a_cycle_of_calls_has_one_proof(self) -> None:
        place = self.places["step_ends"][0]
        self.assertEqual((place.name, place.unit(self.folder)), ("Held::step", "+walk"))
        self.assertEqual(self.places["bound_is_less"][0].unit(self.folder), "bounded")

    def test_names_modules(self) -> None:
        self.assertEqual(module_of("src/lib.rt"), "")
        self.assertEqual(module_of("src/parser/map.rt"), "parser::map")
