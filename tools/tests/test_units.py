"""Units against their definitions: NIST Special Publication 811, appendix B.8, has the foot, the mile and the hour exactly."""

import datetime
from fractions import Fraction

import pytest

from ctmtools.texts.amounts import amount_text, parts_of, rounded_parts, whole_of
from ctmtools.imports.gmns import read_folder
from ctmtools.problem import Problem
from ctmtools.texts.quantities import DAY, clock, density, duration, flow, length, speed
from ctmtools.units import MILE_KM, Units, clock_text

FOOT, MILE, HOUR = Fraction("0.3048"), Fraction("1609.344"), 3600  # m, m and s
TABLE = [(length, "1 mi", MILE / 1000), (length, "1 m", Fraction(1, 1000)), (length, "1 km", 1),
         (speed, "1 mph", MILE / 1000), (speed, "1 m/s", Fraction(HOUR, 1000)), (speed, "1 km/h", 1),
         (density, "1 vehicles/mi", 1000 / MILE), (density, "1 veh/mi", 1000 / MILE), (density, "1 veh/km", 1),
         (density, "1 vehicles/km", 1), (flow, "1 vehicles/s", HOUR), (flow, "1 veh/h", 1), (flow, "1 vehicles/h", 1),
         (duration, "1 s", 1), (duration, "1 min", 60), (duration, "1 h", HOUR)]


@pytest.mark.parametrize("read, text, wanted", TABLE, ids=[text for _, text, _ in TABLE])
def test_units_of_a_study(read, text, wanted):
    assert read(text, "key") == wanted and read(text.replace("1", "2.5"), "key") == Fraction("2.5") * wanted


def test_a_mile_of_twelve_inches_a_foot_is_one_everywhere():
    assert 5280 * FOOT == MILE and MILE_KM == float(MILE / 1000)


@pytest.mark.parametrize("read", [length, speed, density, flow, duration])
def test_a_quantity_may_be_nothing_but_not_less(read):
    assert read(0, "key") == 0
    with pytest.raises(Problem, match="isn't negative"):
        read(-1, "key")


@pytest.mark.parametrize("name, metres", [("km", 1000), ("kilometer", 1000), ("kilometers", 1000), ("m", 1), ("meter", 1),
                                          ("meters", 1), ("mi", MILE), ("mile", MILE), ("miles", MILE), ("ft", FOOT),
                                          ("feet", FOOT)])
def test_lengths_in_gmns(tmp_path, name, metres):
    found = street(tmp_path, name, "kph", metres)
    assert found.length == pytest.approx(float(1500 * metres / 1000), rel=1e-12)
    assert found.points == [(0, 0), pytest.approx((float(900 * metres / 1000), float(1200 * metres / 1000)), rel=1e-12)]


@pytest.mark.parametrize("name, kilometres", [("kph", 1), ("km/h", 1), ("kmh", 1), ("mph", MILE / 1000), ("m/s", Fraction(18, 5))])
def test_speeds_in_gmns(tmp_path, name, kilometres):
    assert street(tmp_path, "m", name).speed == pytest.approx(float(45 * kilometres), rel=1e-12)


def street(folder, length_unit, speed_unit, metres=1):
    """A link of 1,500 in one unit, of so many metres, with 45 in another, from a point to one 900 east and 1,200 north of it."""
    tables = {"config": f"long_length,speed\n{length_unit},{speed_unit}\n",
              "node": f"node_id,x_coord,y_coord\n1,0,0\n2,{float(900 * metres)},{float(1200 * metres)}\n",
              "link": "link_id,from_node_id,to_node_id,length,free_speed,lanes\na,1,2,1500,45,2\n"}
    for table, text in tables.items():
        (folder / f"{table}.csv").write_text(text)
    return read_folder(folder).streets["a"]


@pytest.mark.parametrize("seconds, always, wanted", [
    (0, False, "00:00"), (0, True, "00:00:00"), (59, False, "00:00:59"), (60, False, "00:01"), (3599.6, False, "01:00"),
    (6 * HOUR + 30 * 60 + 5, False, "06:30:05"), (DAY - 1, False, "23:59:59"), (DAY, False, "24:00"),
    (DAY + 1, False, "00:00:01 +1 day"), (2 * DAY, False, "24:00 +1 day"), (2 * DAY + HOUR, False, "01:00 +2 days")])
def test_clock_times_are_told(seconds, always, wanted):
    assert DAY == 24 * HOUR and clock_text(seconds, always) == wanted


@pytest.mark.parametrize("value, wanted", [
    ("06:30", 23400), ("6:30", 23400), ("06:30:10", 23410), ("00:00:00.5", Fraction(1, 2)), ("24:00", DAY), ("48:59:59", 2 * DAY + 3599),
    (datetime.time(6, 30, 10, 250_000), Fraction("23410.25"))])
def test_clock_times_are_read(value, wanted):
    assert clock(value, "key") == wanted


@pytest.mark.parametrize("value", ["06:60", "06:30:60", "49:00", "06", "6.30", 630, ""])
def test_no_clock_times(value):
    with pytest.raises(Problem, match="expected a clock time"):
        clock(value, "key")


def test_steps_as_hours_and_clock_times():
    known = Units(step=10, start=6 * HOUR)
    assert known.hours(720) == 2 and known.clock(90) == "06:15" and known.clock(91) == "06:15:10" and known.delay_unit == "vehicle-hours"
    assert Units(step=10).clock(6) == "00:01"
    assert Units().hours(720) == 720 and Units().clock(90) == "step 90" and Units().delay_unit == "vehicle-steps"


def test_the_times_of_a_day_are_written_without_a_date_and_those_of_two_with_one():
    known = Units(step=3600, start=0)
    assert known.stamps([0, 23]) == ["00:00:00", "23:00:00"]
    assert known.stamps([0, 24]) == ["1900-01-01 00:00:00", "1900-01-02 00:00:00"]
    assert Units().stamps([0, 24]) == ["0", "24"]


@pytest.mark.parametrize("text, parts", [
    ("0", 0), ("2.5", 2_500_000), ("0.000001", 1), ("999999999999.999999", 10**18 - 1), ("1000000000000", None), ("0.0000001", None),
    ("1.", None), (".5", None), ("-1", None)])
def test_amounts_are_read_and_written_in_millionths(text, parts):
    assert parts_of(text) == parts and (parts is None or amount_text(parts) == text)


def test_whole_numbers_have_nine_digits():
    assert whole_of("999999999") == 999_999_999 and whole_of("0") == 0 and whole_of("1000000000") is None and whole_of("1.0") is None


@pytest.mark.parametrize("vehicles, parts", [(Fraction(4, 10**7), 0), (Fraction(6, 10**7), 1), (3, 3_000_000), (Fraction(1, 3), 333_333),
                                             (Fraction(2, 3), 666_667)])
def test_the_nearest_millionth_of_a_vehicle(vehicles, parts):
    assert rounded_parts(vehicles) == parts
