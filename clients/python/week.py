#!/usr/bin/env python3
"""week.py PROGRAM IMAGE: puts a week of a station into a new image, a row each ten minutes, and writes its hourly means as CSV, ready to plot.

The temperature is in tenths of a degree, as flashts keeps whole numbers."""
import csv
import sys

import flashts

BEGIN = 1_700_006_400  # 2023-11-15 00:00 UTC, in seconds
CONFIGURATION = ["device 512 8", "table env 4 i16,u8 8 0 0 16 -200 25 2 0"]


def readings():
    """A week of rows: the time, the temperature, coldest at midnight, and the humidity."""
    for number in range(7 * 144):
        from_noon = abs(number % 144 - 72)
        yield BEGIN + 600 * number, 120 - 3 * from_noon, 40 + from_noon // 2


def main():
    if len(sys.argv) != 3:
        sys.exit("usage: week.py PROGRAM IMAGE")
    _, program, image = sys.argv
    with flashts.open(image, CONFIGURATION, program) as store:
        store.put_all("env", readings())
        store.flush("env")
        temperatures = store.groups("env", column=1, width=3600)
        humidities = store.groups("env", column=2, width=3600)
    table = csv.writer(sys.stdout, lineterminator="\n")
    table.writerow(["time", "temperature", "humidity"])
    for temperature, humidity in zip(temperatures, humidities):
        table.writerow([temperature.group * 3600, temperature.mean / 10, humidity.mean])


if __name__ == "__main__":
    main()
