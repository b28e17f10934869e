"""Random problems on random devices, and the calls that make them."""
from dataclasses import dataclass, replace

from designs import arch_text, draw_arch
from device import ONE, SINK, SOURCE, Device


def draw_device(random, nx, ny, width):
    """A device of this size. Often the pins tap all tracks, so that most sinks can be reached."""
    arch = draw_arch(random)
    if random.random() < 0.6:
        arch = replace(arch, is_absolute=False, fc_output=ONE, fc_input=ONE, fc_pad=ONE)
    return Device(arch, nx, ny, width, random.random() < 0.25)


def nodes_of(device, kind):
    return [node for node, where in enumerate(device.nodes) if where.kind == kind]


@dataclass
class Problem:
    """Nets, each a source and its sinks, ascending, on a device."""

    device: Device
    nets: list

    @staticmethod
    def draw(random, device, count, sizes):
        """This many nets, each with one of these numbers of sinks, or all that there are. Several may share a terminal, and many
        have a source of several outputs."""
        sources, sinks = nodes_of(device, SOURCE), nodes_of(device, SINK)
        wide = [source for source in sources if len(device.successors[source]) > 1] or sources
        some = random.sample(sinks, min(len(sinks), random.choice((2, 4, len(sinks)))))
        nets = []
        for _ in range(count):
            size, among = random.choice(sizes), random.choice((some, sinks))
            source = random.choice(random.choice((sources, wide)))
            nets.append((source, sorted(random.sample(among, min(size, len(among))))))
        return Problem(device, nets)

    def set_up(self, random, case):
        """Asks for the architecture, the device and the problem."""
        device, arch = self.device, self.device.arch
        classes = len(arch.groups(True)) + len(arch.groups(False))
        counts = f"{len(arch.pins)} pins, {classes} classes, {len(arch.segments)} segments, 1 switches"
        case.ask_below("arch", arch_text(arch).split("\n")[:-1], counts)
        mode = " global" if device.is_global else ""
        case.ask(f"device {device.nx} {device.ny} {device.width}{mode}", f"{len(device.nodes)} nodes")
        lines, number = [], 0
        for source, sinks in self.nets:
            number += random.choice((0, 0, 1, 5))
            lines.append(f"net {number}: {source} -> {' '.join(map(str, sinks))}")
            number += 1
        case.ask_below("problem", lines, f"{len(self.nets)} nets")
