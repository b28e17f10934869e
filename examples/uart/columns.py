#!/usr/bin/env python3
"""How many nets have pins on both sides of a column, and so must pass it."""
import vpr430

design = vpr430.read_design("uart.net", "k4n1.arch", "uart.place")
nets = [net for net in design.netlist.nets if net.is_routed]
columns = [[design.end(pin).x for pin in net.terminals()] for net in nets]
passing = [sum(min(pins) < at < max(pins) for pins in columns) for at in range(13)]
print(f"{max(passing)} nets pass column {passing.index(max(passing))}")
