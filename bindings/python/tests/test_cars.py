"""The call for two cars."""

import dataclasses
import unittest

from repository import CASE_A, example

from postman import Arc, Car, Plan, Refusal, Standing, plan_call, two_cars

RING = Plan(
    3,
    [
        Arc(0, 1, Standing.MUST, 5, 9),
        Arc(1, 2, Standing.MAY, 3),
        Arc(2, 0, Standing.MAY, 2),
        Arc(1, 0, Standing.CLOSED, 1),
    ],
    edition=2,
)
"""A ring of three streets, of which the first must be driven and is slow to check, and a closed one."""

GOOD = Car((True, False), 1)


class Cars(unittest.TestCase):
    def test_each_car_has_its_marks(self) -> None:
        first, second = two_cars(RING, Car([True, False, False, False], 1), Car([False, True, True, False], 1))
        self.assertEqual(first, plan_call(RING, 1))
        self.assertEqual((first.cost, second.cost), (14, 10))

    def test_own_marks_change_nothing(self) -> None:
        file = example("town_checked.plan")
        marks = [arc.standing == Standing.MUST for arc in Plan.read(file).arcs]
        first, second = two_cars(file, Car(marks, 10), Car(marks, 3))
        self.assertEqual((first, second), (plan_call(file, 10), plan_call(file, 3)))

    def test_a_refusal_is_the_cars_own(self) -> None:
        answer = plan_call(CASE_A, 1)
        for car, number in (
            (Car(GOOD.marks, 0), 9),
            (Car(GOOD.marks, 2**64 + 1), 9),
            (Car((True,), 1), 18),
            (Car((True, False, False), 1), 18),
            (Car((2, 0), 1), 18),
            (Car((257, 0), 1), 18),
            (Car((-1, 0), 1), 18),
            (Car((), 0), 9),
            (Car((False, False), 1), 10),
        ):
            self.assertEqual(two_cars(CASE_A, GOOD, car), (answer, Refusal(number)))
            self.assertEqual(two_cars(CASE_A, car, GOOD), (Refusal(number), answer))
            self.assertEqual(two_cars(CASE_A, car, car), (Refusal(number), Refusal(number)))
        self.assertEqual(two_cars(RING, Car((0, 0, 0, 1), 1), Car((1, 0, 0, 0), 1))[0], Refusal(Refusal.BAD_MARKS))

    def test_the_files_refusals_reach_both(self) -> None:
        for file, number in ((CASE_A[:9], 1), (b"\x30\x40\x20", 2)):
            with self.assertRaises(Refusal) as caught:
                two_cars(file, GOOD, Car(GOOD.marks, 0))
            self.assertEqual(caught.exception.number, number)

    def test_a_car_does_not_change(self) -> None:
        marks = [True, False]
        car = Car(marks, 1)
        marks[0] = False
        self.assertEqual(car, GOOD)
        with self.assertRaises(dataclasses.FrozenInstanceError):
            car.budget = 2


if __name__ == "__main__":
    unittest.main()
