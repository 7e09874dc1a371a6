#!/usr/bin/env python3
"""Checks the model of documents 01 and 02 against the values that they give and the laws it obeys.

Options and names of tests are those of unittest.
"""

import sys
import unittest

from checks.calls import Calls
from checks.headroom import Headroom
from checks.homology import Coordinates, RefusalOrder, Reports, SlicesOfCheck9
from checks.imports import Imports
from checks.lists import ListRefusalOrder, Lists, ListSlices, NoChainsRefusalOrder
from checks.meshes import Meshes
from checks.reductions import Reductions
from checks.residues import Residues, TwistedLoops
from checks.sheets import Boundaries, Sheets
from checks.surfaces import SurfaceRefusalOrder, Surfaces, SurfaceSlices, TrackedColumns
from checks.sweeps import LooseNodes, OrderOfTrial, Sweeps

__all__ = ["Boundaries", "Calls", "Coordinates", "Headroom", "Imports", "ListRefusalOrder", "Lists",
           "ListSlices", "LooseNodes", "Meshes", "NoChainsRefusalOrder", "OrderOfTrial", "Reductions",
           "RefusalOrder", "Reports", "Residues", "Sheets", "SlicesOfCheck9", "SurfaceRefusalOrder",
           "Surfaces", "SurfaceSlices", "Sweeps", "TrackedColumns", "TwistedLoops"]

if __name__ == "__main__":
    if {"-h", "--help"} & set(sys.argv[1:]):
        print(__doc__)
    unittest.main()
