#!/usr/bin/env python3
"""Writes the sample sheets beside this file. Listings are not computed here.

Pitches are given in degrees, lengths in mm, the ground load in N/m2,
Ce, Ct and Cesl in hundredths, the altitude in m. A site with a day is dated.
"""

import pathlib
import struct


def tenths(pitch):
    return round(10 * pitch)


def job_day(day):
    """The two further bytes of a dated site."""
    return b"" if day is None else struct.pack("<H", day)


def site(ground, ce=100, ct=100, cesl=200, situation=0, altitude=300, day=None):
    return struct.pack("<BIHHHBH", 1, ground, ce, ct, cesl, situation, altitude) + job_day(day)


def map_site(region, zone, ce=100, ct=100, cesl=200, situation=0, altitude=300, day=None):
    """A site without a ground load: region and zone of Table C.1, 1 to 8 and 1 to 5."""
    return struct.pack("<BBBHHHBH", 8, region, zone, ce, ct, cesl, situation, altitude) + job_day(day)


def monopitch(pitch, width, guard=0):
    return struct.pack("<BHBI", 2, tenths(pitch), guard, width)


def pitched(pitches, widths, guards=(0, 0)):
    return struct.pack("<BHHBBII", 3, *map(tenths, pitches), *guards, *widths)


def multi_span(*spans):
    """Each span: pitch left, pitch right, width left, width right."""
    item = struct.pack("<BB", 4, len(spans))
    for left, right, width_left, width_right in spans:
        item += struct.pack("<HHII", tenths(left), tenths(right), width_left, width_right)
    return item


def drift_roof(spans, *valleys):
    """Spans as in multi_span, then each valley between them: depth h, length b3."""
    item = multi_span(*spans)
    item = bytes([9]) + item[1:]
    for depth, length in valleys:
        item += struct.pack("<II", depth, length)
    return item


def from_right(spans):
    """The same spans, drawn from the right."""
    return [(right, left, width_right, width_left) for left, right, width_left, width_right in reversed(spans)]


def cylindrical(rise, span):
    return struct.pack("<BII", 5, rise, span)


def lower(upper_width, lower_width, step, slope_width, pitch, guard=0):
    return struct.pack("<BIIIIHB", 6, upper_width, lower_width, step, slope_width, tenths(pitch), guard)


def projection(height, left, right):
    return struct.pack("<BIII", 7, height, left, right)


def stepped(lower_width, step, upper, side):
    """A lower flat roof beside another item: that item's index, and its side, LEFT or RIGHT."""
    return struct.pack("<BIIBB", 10, lower_width, step, upper, side)


def parapet(height, width, other_width):
    """The roof behind the parapet is width long, b1; other_width is b2."""
    return struct.pack("<BIII", 11, height, width, other_width)


def small_projection(heights, widths):
    """Heights of the projection, up to 1,000, and widths of the roof, left then right."""
    return struct.pack("<BIIII", 12, *heights, *widths)


def sheet(*items, gap=0):
    """The count, the pairs, the items; gap bytes stand before each item."""
    pairs, body = b"", b""
    start = 2 + 4 * len(items)
    for item in items:
        body += gap * b"\xee"
        pairs += struct.pack("<HH", start + len(body), len(item))
        body += item
    return struct.pack("<H", len(items)) + pairs + body


LEFT, RIGHT = 0, 1
HALL = pitched((20.0, 40.0), (9_000, 6_000))
SAW = (60.0, 25.0, 2_400, 7_600)
COAST = [(25.0, 25.0, 6_000, 5_500), (25.0, 25.0, 5_000, 5_000), (25.0, 25.0, 5_500, 6_000)]
ROW = [(18.0 + span / 2, 30.0 - span / 2, 4_000 + 110 * span, 6_000 - 130 * span) for span in range(16)]
DEEP = [(35.0, 45.0, 4_500, 4_000), (45.0, 35.0, 4_000, 4_500)]
NAVES = [(25.0, 35.0, 3_000, 2_500), (15.0, 45.0, 2_000, 3_500), (30.0, 20.0, 2_800, 3_200)]
SHEDS = [monopitch(10.0, width) for width in range(3_000, 7_000, 500)]
STEPPED = [site(1_500), stepped(4_000, 2_500, 2, RIGHT), stepped(8_000, 3_500, 3, RIGHT), HALL]

SHEETS = {
    "scope": sheet(site(1_000, altitude=500), monopitch(30.0, 5_000, guard=1)),
    "scope_map": sheet(map_site(1, 2, altitude=500), monopitch(30.0, 5_000, guard=1)),
    "site_alone": sheet(site(1_500)),
    # Kind 2
    "mono_flat": sheet(site(850, ce=80, altitude=240), monopitch(5.0, 6_400)),
    "mono_steep": sheet(site(1_650, situation=1, altitude=610), monopitch(42.5, 5_200)),
    "mono_guard": sheet(site(1_650, situation=1, altitude=610), monopitch(42.5, 5_200, guard=1)),
    "mono_bare": sheet(site(2_600, altitude=1_040), monopitch(60.0, 3_800)),
    "eave_800": sheet(site(2_400, altitude=800), monopitch(25.0, 7_000)),
    "eave_801": sheet(site(2_400, altitude=801), monopitch(25.0, 7_000)),
    # Kind 3
    "pitched_hall": sheet(site(1_500), HALL),
    "pitched_falls": sheet(site(950, cesl=220, situation=1, altitude=60), pitched((15.0, 15.0), (8_500, 8_500))),
    "pitched_guards": sheet(site(2_800, altitude=1_180), pitched((35.0, 50.0), (7_200, 4_800), (1, 1))),
    "pitched_heavy": sheet(site(3_500, ce=120, altitude=1_350), pitched((18.0, 38.0), (6_000, 5_000), (0, 1))),
    "pitched_eaves": sheet(
        site(2_800, altitude=1_180),
        pitched((18.0, 42.0), (7_200, 4_800)),
        pitched((42.0, 18.0), (4_800, 7_200)),
        pitched((38.0, 52.0), (7_200, 4_800), (0, 1)),
        monopitch(42.0, 4_800),
    ),
    # Kind 4
    "spans_two": sheet(site(1_000), multi_span((25.0, 20.0, 8_000, 8_000), (10.0, 25.0, 9_000, 8_000))),
    "spans_saw": sheet(site(1_250, ce=120, altitude=450), multi_span(SAW, SAW, SAW, SAW)),
    "spans_edge": sheet(site(1_000), multi_span((45.0, 60.0, 4_000, 3_000), (59.9, 45.0, 3_000, 4_000))),
    "spans_sixteen": sheet(site(1_100, situation=1), multi_span(*[(22.0, 28.0, 6_000, 5_000)] * 16)),
    # Kind 5
    "arch_flat": sheet(site(1_000), cylindrical(3_000, 20_000)),
    "arch_steep": sheet(site(1_800, situation=1, altitude=520), cylindrical(5_000, 12_000)),
    "arch_half": sheet(site(1_350), cylindrical(9_000, 18_000)),
    "arch_edge": sheet(site(1_000), cylindrical(1_000, 3_464)),
    # Kind 6
    "lower_drift": sheet(site(1_000), lower(10_000, 20_000, 3_000, 6_000, 10.0)),
    "lower_slide": sheet(site(1_000), lower(10_000, 20_000, 3_000, 6_000, 20.0)),
    "lower_fifteen": sheet(site(1_000), lower(10_000, 20_000, 3_000, 6_000, 15.0)),
    "lower_cut": sheet(site(1_400), lower(16_000, 4_200, 3_400, 8_000, 8.0)),
    "lower_gamma": sheet(site(2_900, altitude=740), lower(18_000, 12_000, 1_800, 9_000, 12.0)),
    "lower_low": sheet(site(1_000), lower(12_000, 9_000, 300, 6_000, 5.0)),
    "lower_falls": sheet(site(1_700, situation=1), lower(22_000, 26_000, 9_000, 11_000, 45.0, guard=1)),
    "lower_tenths": sheet(
        site(688), lower(7_136, 20_000, 6_003, 6_261, 20.0), lower(8_000, 2_000, 4_500, 7_000, 25.0)
    ),
    # Kind 7
    "projection": sheet(site(1_300), projection(1_200, 8_000, 12_000)),
    "projection_cut": sheet(site(900), projection(1_500, 2_500, 9_000)),
    "projection_falls": sheet(site(2_200, situation=1), projection(3_100, 10_000, 7_500)),
    # Several roofs, with gaps
    "mixed": sheet(
        site(2_350, ce=90, ct=95, cesl=180, situation=1, altitude=1_040),
        pitched((32.0, 24.0), (7_400, 8_100), (1, 0)),
        lower(15_500, 5_200, 3_600, 8_100, 24.0),
        multi_span((20.0, 35.0, 5_000, 4_000), (35.0, 20.0, 4_000, 5_000), (20.0, 35.0, 5_000, 4_000)),
        monopitch(33.3, 4_600, guard=1),
        cylindrical(2_750, 14_000),
        projection(1_600, 3_000, 16_000),
        gap=5,
    ),
    # Kind 8
    "map_alpine": sheet(map_site(1, 2, altitude=500), HALL),
    "map_coast": sheet(map_site(8, 3, ce=80, situation=1, altitude=120), cylindrical(2_500, 16_000)),
    # Kind 9, and exceptional drifts
    "drift_both": sheet(
        site(650, ce=80, cesl=230, situation=3, altitude=40),
        drift_roof(COAST, (1_400, 15_000), (900, 15_000)),
        HALL,
        projection(1_200, 8_000, 12_000),
    ),
    "drift_alone": sheet(
        map_site(8, 3, ct=90, situation=2, altitude=60),
        drift_roof(DEEP, (3_000, 40_000)),
        multi_span(*DEEP),
    ),
    "drift_sixteen": sheet(
        site(720, cesl=210, situation=3, altitude=30),
        drift_roof(ROW, *[(600 + 120 * valley, 12_000 + 1_500 * valley) for valley in range(15)]),
    ),
    # One job drawn from either end
    "hall_from_left": sheet(
        site(1_200, cesl=220, situation=1, altitude=950),
        pitched((20.0, 40.0), (4_000, 6_000), (0, 1)),
        multi_span(*NAVES),
        projection(900, 3_000, 8_000),
    ),
    "hall_from_right": sheet(
        site(1_200, cesl=220, situation=1, altitude=950),
        pitched((40.0, 20.0), (6_000, 4_000), (1, 0)),
        multi_span(*from_right(NAVES)),
        projection(900, 8_000, 3_000),
    ),
    # The quote desk's ceiling: 8 items, 2,048 bytes
    "desk_full": sheet(site(1_000), *SHEDS[:7]).ljust(2_048, b"\xee"),
    "desk_bytes": sheet(site(1_000), *SHEDS[:7]).ljust(2_049, b"\xee"),
    "desk_items": sheet(site(1_000), *SHEDS),
    # Kind 10
    "stepped_hall": sheet(*STEPPED),
    "stepped_sides": sheet(
        site(900, cesl=220, situation=1, altitude=60),
        pitched((20.0, 35.0), (9_000, 7_000), (0, 1)),
        stepped(12_000, 4_000, 1, LEFT),
        stepped(12_000, 4_000, 1, RIGHT),
        monopitch(12.0, 6_000),
        stepped(5_000, 3_000, 4, LEFT),
        stepped(5_000, 3_000, 4, RIGHT),
    ),
    # The same job under three layouts; canonical gives stepped_hall of each
    "layout_gaps": sheet(*STEPPED, gap=7),
    "layout_tail": sheet(*STEPPED).ljust(256, b"\xee"),
    # Kind 11
    "parapet": sheet(
        site(650, ce=80, cesl=230, situation=3, altitude=40),
        parapet(1_100, 24_000, 10_000),
        parapet(2_400, 9_000, 14_000),
        parapet(3_200, 40_000, 70_000),
    ),
    # Kind 12
    "chimney": sheet(
        map_site(8, 2, ct=90, situation=2, altitude=60),
        small_projection((650, 950), (4_000, 3_200)),
        small_projection((300, 300), (6_000, 9_000)),
    ),
    # Refused
    "refused_pairs": sheet(site(1_500), HALL)[:9],
    "refused_cut": sheet(site(1_500), HALL)[:-3],
    "refused_altitude": sheet(site(3_400, altitude=1_501), HALL),
    "refused_valley": sheet(site(1_500), HALL, multi_span((45.0, 60.0, 4_000, 3_000), (60.0, 45.0, 3_000, 4_000))),
    "refused_rise": sheet(site(1_500), cylindrical(6_001, 12_000)),
    "refused_region": sheet(map_site(9, 2, altitude=500), HALL),
    "refused_map_load": sheet(map_site(8, 1, altitude=20), HALL),
    "refused_situation": sheet(site(1_500, situation=4), HALL),
    "refused_depth": sheet(
        site(1_500, situation=2),
        HALL,
        drift_roof([(45.0, 60.0, 4_000, 3_000), (60.0, 45.0, 3_000, 4_000)], (0, 12_000)),
    ),
    "refused_upper": sheet(
        site(1_500), HALL, lower(15_000, 8_000, 3_500, 6_000, 40.0), stepped(4_000, 2_500, 2, RIGHT)
    ),
    "refused_circle": sheet(
        site(1_500),
        stepped(4_000, 2_500, 2, RIGHT),
        stepped(8_000, 3_500, 3, RIGHT),
        stepped(6_000, 3_000, 2, LEFT),
        HALL,
    ),
    "refused_day": sheet(site(1_500, day=9_132), HALL),
    "refused_map_day": sheet(map_site(1, 2, altitude=500, day=9_132), HALL),
    "refused_site_byte": sheet(site(1_500) + b"\x00", HALL),
    "refused_chimney": sheet(site(650, situation=2), HALL, small_projection((650, 1_001), (4_000, 3_200))),
}

for name, content in SHEETS.items():
    pathlib.Path(__file__).with_name(name + ".sheet").write_bytes(content)
