#!/usr/bin/env python3
"""Writes an export of a chain of shops to standard output, as a till system might: a header, and a sale a line.

Usage: make.py [ROWS] [--odd]

ROWS are 100000 where nothing is said; the same number makes the same export. It has what exports have:
names with accents, commas and quotes, a town in two countries, a country with the name of its town, stores
of one name in many towns, amounts with two decimals, and refunds with negative ones. With --odd five rows
more stand in it that fit nowhere."""
import csv
import datetime
import random
import sys

ROWS, SEED = 100000, 57
FIRST, DAYS = datetime.date(2025, 1, 1), 365
TOWNS = {
    "Germany": ["Berlin", "München", "Köln", "Halle (Saale)"],
    "France": ["Paris", "Lyon", "Orléans"],
    "United States": ["Paris", "Boston"],
    "Brazil": ["São Paulo", "Rio de Janeiro"],
    "Luxembourg": ["Luxembourg"],
}
STORES = ["Station", "Market Square", 'Café "Am Eck"', "Airport, Terminal 2"]
PRODUCTS = {
    "Tea": {"Darjeeling, loose": 8.5, "Earl Grey": 4.95, "Mint": 3.2},
    "Coffee": {"Espresso": 2.1, "Crème, 500 g": 9.99, "Beans 1 kg": 17.5},
    "Cake": {"Éclair": 2.8, 'Cheesecake 12"': 24, "Lebkuchen": 5.4},
}
HEADER = ["sale", "date", "time", "country", "town", "store", "group", "product", "pieces", "amount"]
ODD = [
    ["2025-02-30", "09:00", "Germany", "Berlin", "Station", "Tea", "Mint", "1", "3.20"],
    ["2025-03-01", "09:00", "Germany", "Berlin", "Station", "Tea", "Mint", "1", "3.205"],
    ["2025-03-01", "09:00", "Germany", "", "Station", "Tea", "Mint", "1", "3.20"],
    ["2025-03-01", "09:00", "Germany", "Berlin", "Station", "Tea", "Mint|Earl Grey", "2", "8.15"],
    ["2025-03-01", "09:00", "France", "Lyon", "Station", "Cake",
     "Cake of the house with very very very ripe strawberries and cream", "1", "5.00"],
]


def sale(chance, place):
    """A sale without its number, the earlier ones the first of all."""
    date = FIRST + datetime.timedelta(int(place * DAYS))
    country = chance.choices(list(TOWNS), [40, 25, 20, 10, 5])[0]
    town, store = chance.choice(TOWNS[country]), chance.choices(STORES, [4, 3, 2, 1])[0]
    group = chance.choice(list(PRODUCTS))
    product, price = chance.choice(list(PRODUCTS[group].items()))
    pieces = chance.choices([1, 2, 3, 10, -1], [70, 15, 8, 3, 4])[0]
    time = "%02d:%02d" % (chance.randint(8, 19), chance.randint(0, 59))
    return [date.isoformat(), time, country, town, store, group, product, str(pieces), "%.2f" % (price * pieces)]


def main():
    words = [it for it in sys.argv[1:] if it != "--odd"]
    if len(words) > 1 or not all(it.isdecimal() for it in words):
        sys.exit(__doc__)
    count, chance = int(words[0]) if words else ROWS, random.Random(SEED)
    sales = [sale(chance, number / count) for number in range(count)]
    if "--odd" in sys.argv:
        sales[count // 2:count // 2] = ODD
    rows = csv.writer(sys.stdout, lineterminator="\r\n")
    rows.writerow(HEADER)
    rows.writerows([number] + it for number, it in enumerate(sales, 1))


main()
