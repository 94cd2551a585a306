"""The same detectors in each format: three stations over two days, in intervals of 5 min."""

import datetime
import gzip

STATIONS = ("101", "102", "103")
DAYS = (datetime.date(2019, 12, 3), datetime.date(2019, 12, 4))  # a Tuesday and a Wednesday
TIMES = range(0, 86400, 300)


def made(station, day, second):
    """Vehicles in 5 min, mph and the share of occupancy of a station, by a rule on whole numbers."""
    place, turn, slot = STATIONS.index(station), DAYS.index(day), second // 300
    return (60 + (7 * slot + 31 * place + 13 * turn) % 150, 20 + (3 * slot + place) % 50, 100 + (11 * slot + 5 * place + turn) % 900)


def rows():
    """Each day, time, station, and what it has."""
    for day in DAYS:
        for second in TIMES:
            for station in STATIONS:
                yield day, second, station, *made(station, day, second)


def clock(second):
    return f"{second // 3600:02d}:{second // 60 % 60:02d}"


def pems(wanted=lambda day, station: True, lanes=2):
    """PeMS's Station 5-Minute: no line of names, occupancy as a share, mph, and eight lanes of which some have values."""
    lines = []
    for day, second, station, count, mph, share in rows():
        if wanted(day, station):
            each = "".join(f",10,{count // lanes},{share / 1e4:.4f},{mph}.0,100" if i < lanes else ",,,,,0" for i in range(8))
            lines.append(f"{day:%m/%d/%Y} {clock(second)}:00,{station},4,101,N,ML,.5,20,100,{count},{share / 1e4:.4f},{mph}.0{each}")
    return "\n".join(lines) + "\n"


def long(head, row, separator=",", wanted=lambda day, station: True):
    """A row a station and time, as a function of its values writes it."""
    lines = [head, *(separator.join(map(str, row(*values))) for values in rows() if wanted(values[0], values[2]))]
    return "\n".join(lines) + "\n"


def counts(wanted=lambda day, station: True):
    return long("station,timestamp,count,speed (mph),occupancy (%)",
                lambda day, second, station, count, mph, share: (station, f"{day}T{clock(second)}", count, mph, share / 100), wanted=wanted)


def hourly():
    """vehicles/h and km/h, a date of its own, and the rows of the last time first."""
    text = long("Detector;Date;Time;Flow [veh/h];Speed [km/h];Occ (share)",
                lambda day, second, station, count, mph, share: (station, f"{day:%d.%m.%Y}", clock(second), count * 12,
                                                                 f"{mph * 1.609344:.6f}".replace(".", ","), f"{share / 1e4}".replace(".", ",")),
                ";")
    head, *others = text.splitlines()
    return "\r\n".join([head, *others[::-1]]) + "\r\n"


def wide():
    """A column for each quantity of each station."""
    lines = ["time," + ",".join(f"{station} count,{station} speed_mph,{station} occupancy (share)" for station in STATIONS)]
    for day in DAYS:
        for second in TIMES:
            values = (made(station, day, second) for station in STATIONS)
            lines.append(f"{day} {clock(second)}," + ",".join(f"{count},{mph},{share / 1e4}" for count, mph, share in values))
    return "\n".join(lines) + "\n"


def loops():
    """The seconds in which a loop was occupied in each interval: 300 by the share."""
    return long("station,time,volume (vehicles),speed (mph),occupied (s)",
                lambda day, second, station, count, mph, share: (station, f"{day} {clock(second)}", count, mph, f"{share * 3 / 100:.2f}"))


def write_all(folder):
    """Writes all formats, and gives for each its files and what has to be said of it."""
    def put(name, content):
        path = folder / name
        path.parent.mkdir(exist_ok=True)
        path.write_bytes(content if isinstance(content, bytes) else content.encode())
        return path

    return {"pems": ([put("pems.txt", pems())], {}),
            "pems by day, packed": ([put(f"days/d04_text_station_5min_{day:%Y_%m_%d}.txt.gz",
                                         gzip.compress(pems(lambda one, _, day=day: one == day).encode())) for day in DAYS], {}),
            "counts": ([put("counts.csv", counts())], {}), "hourly": ([put("hourly.csv", b"\xef\xbb\xbf" + hourly().encode())], {"decimal": ","}),
            "utf-16": ([put("utf16.csv", counts().encode("utf-16"))], {}), "wide": ([put("wide.csv", wide())], {}),
            "loops": ([put("loops.csv", loops())], {}),
            "by station": ([put(f"stations/{name}.csv", long(
                "time,count,speed (mph),occupancy (%)", lambda day, second, station, count, mph, share: (f"{day} {clock(second)}", count, mph, share / 100),
                wanted=lambda _, one, name=name: one == name)) for name in STATIONS], {})}
