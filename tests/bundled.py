"""The bundled designs: the netlist, the architecture and the placement of each. Also a copy of tools/."""
import compileall
import pathlib
import shutil

TOP = pathlib.Path(__file__).resolve().parent.parent
EXAMPLES = TOP / "examples"
SMALL = EXAMPLES / "small.arch"
UART = (EXAMPLES / "uart/uart.net", EXAMPLES / "uart/k4n1.arch", EXAMPLES / "uart/uart.place")
LUT4 = EXAMPLES / "lut4.arch"
LENGTHS = EXAMPLES / "lengths.arch"
COUNTER = (EXAMPLES / "counter.net", LUT4, EXAMPLES / "counter.place")
ADDER = (EXAMPLES / "adder.net", LUT4, EXAMPLES / "adder.place")
CROSSING = (EXAMPLES / "crossing/crossing.net", SMALL, EXAMPLES / "crossing/crossing.place")
SHIFT = (EXAMPLES / "shift.net", LUT4, EXAMPLES / "shift.place")


def copy_of_tools(folder):
    """Copies tools/ into a folder and compiles its modules, so that calls of tools don't. Returns the copy."""
    tools = pathlib.Path(shutil.copytree(TOP / "tools", pathlib.Path(folder, "tools")))
    compileall.compile_dir(tools, quiet=2)
    return tools
