#!/usr/bin/env python3
"""Asks the thermostat who it is, sets a temperature and reads it back, by PyVISA over libusb."""

import pyvisa

THERMOSTAT = "USB0::0x1209::0x0001::00027::INSTR"  # vendor, product and serial number

manager = pyvisa.ResourceManager("@py")
thermostat = manager.open_resource(THERMOSTAT)
thermostat.timeout = 4000  # milliseconds: TEMP? is measured for two seconds

print(thermostat.query("*IDN?").strip())
thermostat.write("SETP 27.5")
print("setpoint:", thermostat.query("SETP?").strip())
print("temperature:", thermostat.query("TEMP?").strip())
thermostat.close()
