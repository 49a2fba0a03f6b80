"""GeoJSON in and out, and GPX."""

import json
import unittest
import xml.etree.ElementTree as ElementTree
from copy import deepcopy

from repository import ROOT

import postman
from postman import Standing, plan_call, streets
from postman.streets import ListError, drive_geojson, from_geojson
from postman.streets.csv_file import streets_text
from postman.streets.earth import placed
from postman.streets.gpx import drive_gpx

A, B, C = [-2.3, 54.2], [-2.298, 54.2], [-2.298, 54.201]
MUST, MAY, CLOSED = Standing.MUST, Standing.MAY, Standing.CLOSED


def line(*points, **properties):
    return {
        "type": "Feature",
        "properties": properties,
        "geometry": {"type": "LineString", "coordinates": list(points)},
    }


def point(where, name):
    return {"type": "Feature", "properties": {"name": name}, "geometry": {"type": "Point", "coordinates": where}}


def town(*features, **options):
    return from_geojson({"type": "FeatureCollection", "features": list(features)}, **options)


def legs(found):
    return [(s.from_corner, s.to_corner, s.standing, s.cost) for s in found.streets]


NAMES = [point(A, "A"), point(B, "B"), point(C, "C")]


class Reading(unittest.TestCase):
    def test_directions(self):
        there, back = ("A", "B", MAY, 130), ("B", "A", MAY, 130)
        for properties, wanted in [
            ({}, [there, back]),
            ({"oneway": "no"}, [there, back]),
            ({"oneway": False}, [there, back]),
            ({"oneway": None}, [there, back]),
            ({"oneway": "yes"}, [there]),
            ({"oneway": True}, [there]),
            ({"oneway": 1}, [there]),
            ({"oneway": "-1"}, [back]),
            ({"oneway": -1}, [back]),
            ({"oneway": "reverse"}, [back]),
            ({"oneway": "alternating"}, [there, back]),
            ({"oneway": "reversible"}, [there, back]),
            ({"junction": "roundabout"}, [there]),
            ({"junction": "roundabout", "oneway": "no"}, [there, back]),
            ({"highway": "motorway"}, [there]),
        ]:
            with self.subTest(properties):
                self.assertEqual(legs(town(line(A, B, **properties), *NAMES)), wanted)

    def test_a_ring_is_one_street(self):
        self.assertEqual(legs(town(line(A, B, C, A), *NAMES)), [("A", "A", MAY, 412)])

    def test_the_plan_of_a_map(self):
        value = {"type": "FeatureCollection", "features": [line(A, B, standing="must"), *NAMES]}
        found = postman.from_geojson(value)
        plan = postman.Plan.from_geojson(value)
        self.assertEqual((plan, plan.names), (found.plan, ("A", "B")))
        self.assertEqual(plan_call(plan, 1).cost, 260)
        self.assertEqual(postman.Plan.from_geojson(value, must="name").arcs[0].standing, MAY)
        drive = postman.drive_geojson(found, plan_call(plan, 1))
        self.assertEqual([one["geometry"]["coordinates"] for one in drive["features"]], [[A, B], [B, A]])

    def test_the_length_is_in_metres(self):
        self.assertEqual(town(line(B, C)).streets[0].cost, 111)
        self.assertEqual(town(line(A, B, C)).streets[0].cost, 241)
        self.assertEqual(town(line(A, A)).streets[0].cost, 1)
        self.assertEqual(town(line([1000, 2000], [1300, 2400])).streets[0].cost, 500)

    def test_the_cost_of_a_property(self):
        self.assertEqual(town(line(A, B, seconds=17), cost="seconds").streets[0].cost, 17)
        self.assertEqual(town(line(A, B, seconds="17.0"), cost="seconds").streets[0].cost, 17)

    def test_must(self):
        for properties, must, wanted in [
            ({"survey": "yes"}, "survey", [MUST, MAY]),
            ({"survey": True}, "survey", [MUST, MAY]),
            ({"survey": "no"}, "survey", [MAY, MAY]),
            ({"survey": 0}, "survey", [MAY, MAY]),
            ({}, "survey", [MAY, MAY]),
            ({"survey": 2026}, "survey=2026", [MUST, MAY]),
            ({"survey": 2025}, "survey=2026", [MAY, MAY]),
            ({"standing": "must"}, None, [MUST, MAY]),
            ({"standing": "closed"}, None, [CLOSED, CLOSED]),
            ({"standing": "must", "oneway": "-1"}, None, [MUST]),
        ]:
            with self.subTest(properties):
                found = town(line(A, B, **properties), must=must)
                self.assertEqual([street.standing for street in found.streets], wanted)
        both = town(line(A, B, survey=1), must="survey", both_ways=True)
        self.assertEqual([street.standing for street in both.streets], [MUST, MUST])

    def test_checking_makes_edition_2(self):
        found = town(line(A, B, survey=1, slow=300), must="survey", checking="slow")
        self.assertEqual((found.edition, [street.checking for street in found.streets]), (2, [300, None]))
        self.assertEqual(plan_call(found.file, 1).cost, 430)

    def test_names_of_corners(self):
        found = town(
            line(A, B, name="Elm"), line(B, C, name="Oak"), line(B, [-2.297, 54.2]), line([-2.297, 54.2], B, name="Elm")
        )
        names = [corner.name for corner in found.corners]
        self.assertEqual(names, ["Elm, end", "Elm / Oak", "Oak, end", "Elm, end (2)"])
        self.assertEqual(town(line(A, B)).corners[1].name, "corner 2")

    def test_coordinates(self):
        corners = town(line(A, B), line(B, C)).corners
        self.assertEqual([(corner.lon, corner.lat) for corner in corners], [tuple(A), tuple(B), tuple(C)])
        self.assertEqual([(corner.x, corner.y) for corner in corners], [(0, 0), (130.1, 0), (130.1, 111.2)])
        grid = town(line([1000, 2000], [1300, 2400])).corners[0]
        self.assertEqual((grid.x, grid.y, grid.lon), (1000, 2000, None))

    def test_lines_of_several_parts(self):
        several = {"type": "MultiLineString", "coordinates": [[A, B], [B, C]]}
        found = town({"type": "Feature", "properties": None, "geometry": several}, *NAMES)
        self.assertEqual([leg[:2] for leg in legs(found)], [("A", "B"), ("B", "A"), ("B", "C"), ("C", "B")])

    def test_lines_that_are_one_way_in_turns_are_noted(self):
        found = town(line(A, B, name="Elm", oneway="reversible"), line(B, C, oneway="yes"), *NAMES)
        wanted = "1 line is one way in turns, such as feature 1 (Elm), and taken for both: close the one that is shut"
        self.assertEqual(found.notes, (wanted,))

    def test_lines_through_a_corner_are_noted(self):
        middle = [-2.299, 54.2]
        found = town(line(A, middle, B, name="Elm"), line(middle, C, name="Oak"), *NAMES)
        wanted = "1 line passes through corners without ending there, such as feature 1 (Elm) at Oak, end: "
        wanted += "split them there for turns"
        self.assertEqual(found.notes, (wanted,))

    def test_wording(self):
        cases = [
            ({"type": "FeatureCollection", "features": NAMES}, {}, "GeoJSON: has no LineString; each street is one"),
            ({"type": "Topology"}, {}, "GeoJSON: is no GeoJSON: its type is neither FeatureCollection nor Feature"),
            ([], {}, "GeoJSON: is no GeoJSON: its type is neither FeatureCollection nor Feature"),
            (line(A), {}, "GeoJSON feature 1: a line needs two points"),
            (line(A, ["x", 1]), {}, "GeoJSON feature 1: its geometry is no GeoJSON"),
            (line(A, [float("nan"), 1]), {}, "GeoJSON feature 1: its geometry is no GeoJSON"),
            (line(A, [1e300, 1]), {}, "GeoJSON feature 1: its geometry is no GeoJSON"),
            (line(A, 7), {}, "GeoJSON feature 1: its geometry is no GeoJSON"),
            ({"type": "FeatureCollection", "features": 7}, {}, "GeoJSON: is no GeoJSON: its features are no list"),
            ({**line(A, B), "properties": [1]}, {}, "GeoJSON feature 1: its properties are no object"),
            (line(A, B, s=float("inf")), {"cost": "s"}, "GeoJSON feature 1: s inf is not between 0 and 65535"),
            (line(A, B, s=float("nan")), {"cost": "s"}, "GeoJSON feature 1: s nan is not between 0 and 65535"),
            (line(A, B, s="9" * 400), {"cost": "s"}, f"GeoJSON feature 1: s {'9' * 40}... is not between 0 and 65535"),
            (
                line(A, B, name="Elm", oneway="maybe"),
                {},
                "GeoJSON feature 1 (Elm): oneway maybe is none of yes, no and -1",
            ),
            (line(A, B, name="Elm"), {"cost": "s"}, "GeoJSON feature 1 (Elm): s is empty, and no number"),
            (
                line(A, B, name="Elm", s=70000),
                {"cost": "s"},
                "GeoJSON feature 1 (Elm): s 70000 is not between 0 and 65535",
            ),
            (line(A, B, name="Elm", s=1.5), {"cost": "s"}, "GeoJSON feature 1 (Elm): s 1.5 is not a whole number"),
            (line([0, 0], [0, 1]), {}, "GeoJSON feature 1: its length of 111195 m is above 65535"),
            (line(A, B, standing="shall"), {}, "GeoJSON feature 1: standing shall is none of may, must and closed"),
        ]
        for value, options, message in cases:
            with self.subTest(message):
                with self.assertRaises(ListError) as caught:
                    from_geojson(value, **options)
                self.assertEqual(str(caught.exception), message)

    def test_text_that_is_no_json(self):
        with self.assertRaises(ListError) as caught:
            from_geojson("map.geojson", data=b'{\n"type": }')
        self.assertEqual(str(caught.exception), "map.geojson: line 2, column 9: Expecting value; this is no JSON")

    def test_json_that_is_beyond_its_rules(self):
        for text, message in [
            ('{"type": NaN}', "map.geojson: NaN is no number that a plan can have"),
            ('{"type": -Infinity}', "map.geojson: -Infinity is no number that a plan can have"),
            ('{"type": 1e999}', "map.geojson: 1e999 is no number that a plan can have"),
            (f'{{"type": -{"1" * 5000}}}', f"map.geojson: -{'1' * 39}... is no number that a plan can have"),
            (
                '{"type":' * 100_000,
                "map.geojson: has too many brackets within each other; this is no JSON of a plan or a drive",
            ),
        ]:
            with self.assertRaises(ListError) as caught:
                from_geojson("map.geojson", data=text.encode())
            self.assertEqual(str(caught.exception), message)

    def test_names_that_no_table_can_hold(self):
        found = town(line(A, B, name="Elm\ud800\x00 \x1b[1mRoad"), *NAMES)
        self.assertEqual(found.streets[0].street, "Elm [1mRoad")
        self.assertEqual(streets_text(found).encode().count(b"Elm [1mRoad"), 2)


class Writing(unittest.TestCase):
    def setUp(self):
        self.town = streets.open_list(str(ROOT / "examples" / "town" / "streets.csv"))
        self.drive = plan_call(self.town.file, 100).drive

    def test_a_drive_as_geojson(self):
        value = json.loads(json.dumps(drive_geojson(self.town, self.drive)))
        self.assertEqual(drive_geojson(self.town, plan_call(self.town.file, 100)), value)
        features = value["features"]
        self.assertEqual([feature["properties"]["arc"] for feature in features], list(self.drive))
        self.assertEqual(
            sum(feature["properties"]["cost"] for feature in features), plan_call(self.town.file, 100).cost
        )
        checked = [feature["properties"]["arc"] for feature in features if feature["properties"]["checked"]]
        self.assertEqual(sorted(checked), [arc for arc, street in enumerate(self.town.streets) if street.must])
        for before, after in zip(features, features[1:] + features[:1]):
            self.assertEqual(before["geometry"]["coordinates"][1], after["geometry"]["coordinates"][0])

    def test_it_reads_back_as_a_map(self):
        again = from_geojson(
            deepcopy(drive_geojson(placed(self.town, 54.2, -2.3), self.drive)), street="street", cost="cost"
        )
        self.assertLessEqual(
            {street.street for street in again.streets}, {street.street for street in self.town.streets}
        )

    def test_without_coordinates_there_is_no_geometry(self):
        bare = streets.open_list(str(ROOT / "examples" / "town.plan"))
        features = drive_geojson(bare, plan_call(bare.file, 1).drive)["features"]
        self.assertEqual({feature["geometry"] for feature in features}, {None})

    def test_gpx(self):
        root = ElementTree.fromstring(drive_gpx(placed(self.town, 54.2, -2.3), self.drive))
        space = {"g": "http://www.topografix.com/GPX/1/1"}
        route = root.findall("g:rte/g:rtept", space)
        track = [(at.get("lat"), at.get("lon")) for at in root.findall("g:trk/g:trkseg/g:trkpt", space)]
        self.assertEqual((len(route), len(track)), (len(self.drive), len(self.drive) + 1))
        self.assertEqual(track[0], track[-1])
        self.assertEqual(route[0].find("g:name", space).text, "High Street to Corn Exchange (check)")

    def test_placed_metres_are_metres_of_the_earth(self):
        from postman.streets.geojson import on_earth

        corners = placed(self.town, 54.2, -2.3).corners
        a, b = corners[0], corners[1]
        metres = ((a.x - b.x) ** 2 + (a.y - b.y) ** 2) ** 0.5
        self.assertAlmostEqual(on_earth((a.lon, a.lat), (b.lon, b.lat)), metres, delta=0.1)

    def test_gpx_needs_degrees(self):
        with self.assertRaises(ListError) as caught:
            drive_gpx(self.town, self.drive)
        self.assertIn("corner Market Square has no lon and lat, which GPX needs", str(caught.exception))


if __name__ == "__main__":
    unittest.main()
