"""make_list.py FILE: writes a scan list to FILE, as the acquisition program does.

Channel 3 is the rack with the vials, channel A (10) the probe. The rack carries a vial under the probe, the probe goes down into it
and comes up again; then the rack goes on to the next vial, and at the end both go home.
"""

import struct
import sys

CHANNEL, TARGET, DISTANCE, SPEED, DWELL = 1, 2, 3, 4, 5
RACK, PROBE = 3, 10


def channel(number):
    return struct.pack('<BHB', CHANNEL, 1, number)


def double(tag, number):
    return struct.pack('<BHd', tag, 8, number)


def move_to(number, target, speed):
    return channel(number) + double(TARGET, target) + double(SPEED, speed)


def move_by(number, distance, speed):
    return channel(number) + double(DISTANCE, distance) + double(SPEED, speed)


def dwell(milliseconds):
    return double(DWELL, milliseconds)


# A move does not wait for the one before it, so a dwell that is long enough follows it: D pulses at v pulses per second take D*1000/v
# milliseconds, rounded up.
STEPS = [
    move_to(RACK, 100, 800),     # 125 ms: the vial stands under the probe
    dwell(250),
    move_by(PROBE, -40, 300),    # 134 ms: the probe goes down
    dwell(150),
    dwell(2000),                 # the spectrum is taken
    move_by(PROBE, 40, 300),     # 134 ms: the probe comes up
    dwell(150),
    move_by(RACK, 25, 800),      # 32 ms: the next vial
    dwell(50),
    move_to(RACK, 0, 1000),      # 125 ms: home,
    move_to(PROBE, 10, 50),      # and at the same time the probe up to its rest, 200 ms
    dwell(200),
]

if len(sys.argv) != 2:
    sys.exit('usage: make_list.py FILE')
with open(sys.argv[1], 'wb') as file:
    file.write(b''.join(STEPS))
