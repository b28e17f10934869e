"use strict";

/**
 * The page that tools/draw writes: a routing on an array, with pan and zoom, and with the
 * iterations of a run if the page has them. `picture` is the only global name; it is for the
 * console and for tests/check-pictures.
 *
 * Coordinates of the layout are those of tools/picture.py: whole units, from the lower left corner
 * to the right and upward. A box is [left, low, right, high], also for a line or a point.
 */
const picture = (() => {
  const KINDS = ["SOURCE", "SINK", "OPIN", "IPIN", "CHANX", "CHANY"];
  const LABELS = ["Class", "Pin", "Pad", "Track"];
  const [, SINK, OPIN, IPIN, CHANX, CHANY] = KINDS.keys();
  const PAD = LABELS.indexOf("Pad");
  const MOST_ROWS = 400;
  // A full drawing that takes longer than QUICK milliseconds waits until the view rests.
  const QUICK = 12;
  const REST = 90;
  const LEAST_SCALE = 0.01;
  // The least font size, and the width of a character as a share of the font size.
  const LEAST_TEXT = 5;
  const CHARACTER = 0.58;
  const MOST_SCALE = 40;

  const element = (id) => document.getElementById(id);

  /** The numbers in a base64 text. */
  function unpack(text, Numbers) {
    const bytes = atob(text);
    const unpacked = new Uint8Array(bytes.length);
    for (let at = 0; at < bytes.length; at++) unpacked[at] = bytes.charCodeAt(at);
    return new Numbers(unpacked.buffer);
  }

  // ---- The device ------------------------------------------------------------------------------

  /** The nodes of the device, column by column. */
  class Nodes {
    constructor(packed) {
      for (const name of ["kind", "x", "y", "endX", "endY", "label", "number"]) {
        this[name] = unpack(packed[name], Uint8Array);
      }
      this.capacity = unpack(packed.capacity, Uint16Array);
      this.count = this.kind.length;
      this.byPlace = new Map();
      for (let node = 0; node < this.count; node++) this.index(node);
    }

    /** Makes `at` find a node by each of its places. */
    index(node) {
      for (const [x, y] of this.places(node)) {
        this.byPlace.set(Nodes.key(this.kind[node], x, y, this.number[node]), node);
      }
    }

    /** The places of a node, from its first to its last. */
    places(node) {
      const places = [];
      for (let x = this.x[node]; x <= this.endX[node]; x++) {
        for (let y = this.y[node]; y <= this.endY[node]; y++) places.push([x, y]);
      }
      return places;
    }

    static key(kind, x, y, number) {
      return ((kind * 128 + x) * 128 + y) * 256 + number;
    }

    /** The node of a kind at a place, or undefined. */
    at(kind, x, y, number) {
      return this.byPlace.get(Nodes.key(kind, x, y, number));
    }

    isWire(node) {
      return this.kind[node] >= CHANX;
    }

    /** The number of places that a wire passes. */
    length(node) {
      return this.endX[node] - this.x[node] + this.endY[node] - this.y[node] + 1;
    }

    /** A node as `pathfinder graph` lists it. */
    name(node) {
      const [x, y, endX, endY] = [this.x[node], this.y[node], this.endX[node], this.endY[node]];
      const end = x === endX && y === endY ? "" : ` to (${endX},${endY})`;
      const label = LABELS[this.label[node]];
      return `${KINDS[this.kind[node]]} (${x},${y})${end} ${label}: ${this.number[node]}`;
    }
  }

  /** Where two intervals are nearest to each other. */
  function nearest(low, high, otherLow, otherHigh) {
    if (high < otherLow) return [high, otherLow];
    if (otherHigh < low) return [low, otherHigh];
    const middle = Math.floor((Math.max(low, otherLow) + Math.min(high, otherHigh)) / 2);
    return [middle, middle];
  }

  /** The shortest line from one box to another: its first and its last point. */
  function join(box, other) {
    const [x, otherX] = nearest(box[0], box[2], other[0], other[2]);
    const [y, otherY] = nearest(box[1], box[3], other[1], other[3]);
    return [x, y, otherX, otherY];
  }

  /** Where blocks, channels, wires and pins are drawn. */
  class Layout {
    constructor(data, nodes) {
      Object.assign(this, data.layout);
      this.nodes = nodes;
      this.tile = this.side + this.channel;
      this.width = this.channelStart(this.nx) + this.channel + this.padDepth;
      this.height = this.channelStart(this.ny) + this.channel + this.padDepth;
    }

    channelStart(at) {
      return this.padDepth + at * this.tile;
    }

    blockStart(at) {
      return at ? this.channelStart(at - 1) + this.channel : 0;
    }

    blockEnd(at, most) {
      return this.blockStart(at) + (at >= 1 && at <= most ? this.side : this.padDepth);
    }

    /** The box of a place with all its blocks. */
    place(x, y) {
      return [
        this.blockStart(x),
        this.blockStart(y),
        this.blockEnd(x, this.nx),
        this.blockEnd(y, this.ny),
      ];
    }

    /** The box of a logic block or of a pad. */
    block(x, y, position) {
      const box = this.place(x, y);
      const low = Math.floor((this.side * position) / this.pads);
      const high = Math.floor((this.side * (position + 1)) / this.pads);
      if (x === 0 || x === this.nx + 1) return [box[0], box[1] + low, box[2], box[1] + high];
      if (y === 0 || y === this.ny + 1) return [box[0] + low, box[1], box[0] + high, box[3]];
      return box;
    }

    channelPlace(kind, x, y) {
      const box = this.place(x, y);
      const start = this.channelStart(kind === CHANX ? y : x);
      if (kind === CHANX) return [box[0], start, box[2], start + this.channel];
      return [start, box[1], start + this.channel, box[3]];
    }

    /** The line of a wire at this offset from where its channel begins. */
    wire(node, offset) {
      const { x, y, endX, endY, kind } = this.nodes;
      if (kind[node] === CHANX) {
        const across = this.channelStart(y[node]) + offset;
        return [this.blockStart(x[node]), across, this.blockEnd(endX[node], this.nx), across];
      }
      const along = this.channelStart(x[node]) + offset;
      return [along, this.blockStart(y[node]), along, this.blockEnd(endY[node], this.ny)];
    }

    /** How far a pin is from where the side of its block begins. */
    alongSide(label, number) {
      if (label === PAD) return Math.floor((this.side * (2 * number + 1)) / (2 * this.pads));
      return this.spacing * (number + 1);
    }

    /** The point where a pin is, or a source or a sink, seen from a wire. */
    pin(node, wire) {
      const { x, y, kind, label, number } = this.nodes;
      const box = this.place(x[node], y[node]);
      const along = this.alongSide(label[node], number[node]);
      if (kind[wire] === CHANX) {
        const edge = y[wire] < y[node] ? box[1] : box[3];
        return [box[0] + along, edge, box[0] + along, edge];
      }
      const edge = x[wire] < x[node] ? box[0] : box[2];
      return [edge, box[1] + along, edge, box[1] + along];
    }

    /**
     * Where a coordinate is: the column or row, or the channel after it, and the offset from where
     * that begins.
     */
    static part(layout, coordinate, most) {
      const inside = coordinate - layout.padDepth;
      if (inside < 0) return { isChannel: false, at: 0, offset: coordinate };
      const at = Math.min(Math.floor(inside / layout.tile), most);
      const offset = inside - at * layout.tile;
      if (offset < layout.channel) return { isChannel: true, at, offset };
      return { isChannel: false, at: at + 1, offset: offset - layout.channel };
    }
  }

  // ---- A routing -------------------------------------------------------------------------------

  /**
   * The trees of a routing, and which nets use each node: a net uses its source and each node that
   * a step leads to, as `pathfinder report` counts.
   */
  class Routing {
    constructor(nodes, nets, lists) {
      this.nodes = nodes;
      this.trees = [];
      const met = new Int32Array(nodes.count).fill(-1);
      lists.forEach((list, net) => {
        if (!list || !list.length) return;
        this.trees.push(Routing.tree(nodes, met, net, nets[net].source, list));
      });
      this.countUsers();
      this.treeOf = new Map(this.trees.map((tree) => [tree.net, tree]));
      this.overused = [];
      this.wires = 0;
      for (let node = 0; node < nodes.count; node++) {
        if (this.used(node) > nodes.capacity[node]) this.overused.push(node);
        if (nodes.isWire(node) && this.used(node)) this.wires++;
      }
    }

    /** The tree of a net from its list of nodes: its nodes, each once, and its steps. */
    static tree(nodes, met, net, source, list) {
      const own = [source];
      const steps = [];
      met[source] = net;
      for (let at = 1; at < list.length; at++) {
        if (nodes.kind[list[at - 1]] === SINK) continue;
        steps.push(list[at - 1], list[at]);
        if (met[list[at]] !== net) own.push(list[at]);
        met[list[at]] = net;
      }
      return { net, nodes: own, steps };
    }

    /** Makes one array of the users of all nodes, and one of where those of each node begin. */
    countUsers() {
      const { count } = this.nodes;
      const starts = new Uint32Array(count + 1);
      for (const tree of this.trees) for (const node of tree.nodes) starts[node + 1]++;
      for (let node = 0; node < count; node++) starts[node + 1] += starts[node];
      const next = starts.slice();
      const users = new Uint16Array(starts[count]);
      for (const tree of this.trees) for (const node of tree.nodes) users[next[node]++] = tree.net;
      Object.assign(this, { starts, users });
    }

    used(node) {
      return this.starts[node + 1] - this.starts[node];
    }

    /** The nets that use a node. */
    netsAt(node) {
      return [...this.users.subarray(this.starts[node], this.starts[node + 1])];
    }

    /** How many tracks are used at each place of a channel; in a global one each net uses one. */
    occupancy(isGlobal) {
      const taken = new Map();
      for (let node = 0; node < this.nodes.count; node++) {
        if (!this.nodes.isWire(node) || !this.used(node)) continue;
        const kind = this.nodes.kind[node];
        for (const [x, y] of this.nodes.places(node)) {
          const key = Nodes.key(kind, x, y, 0);
          if (!taken.has(key)) taken.set(key, { kind, x, y, many: 0 });
          taken.get(key).many += isGlobal ? this.used(node) : 1;
        }
      }
      return taken;
    }

    /** How many places the wires of a net pass. */
    wirelength(net) {
      const tree = this.treeOf.get(net);
      if (!tree) return 0;
      const wires = tree.nodes.filter((node) => this.nodes.isWire(node));
      return wires.reduce((sum, node) => sum + this.nodes.length(node), 0);
    }

    /** A node and its use, as `pathfinder report` prints an overused one. */
    inWords(node) {
      const used = `used ${this.used(node)} of ${this.nodes.capacity[node]}`;
      return `node ${node} ${this.nodes.name(node)} ${used}`;
    }
  }

  /** The lines of a routing as they are drawn, net by net. */
  class Sketch {
    constructor(layout, routing, isGlobal, wrong) {
      Object.assign(this, { layout, routing, isGlobal, wrong });
      this.nets = routing.trees.map((tree) => this.net(tree));
      this.netOf = new Map(this.nets.map((net) => [net.net, net]));
    }

    /** The offset of a net's wire from where its channel begins. */
    offset(node, net) {
      const { pitch, channel, tracks, nodes } = this.layout;
      if (!this.isGlobal) return pitch * (nodes.number[node] + 1);
      const nets = this.routing.netsAt(node);
      const rank = nets.includes(net) ? nets.indexOf(net) : nets.length;
      return Math.floor((channel * (rank + 1)) / (Math.max(nets.length, tracks) + 1));
    }

    /** The line of a wire of a net. */
    wire(node, net) {
      return this.layout.wire(node, this.offset(node, net));
    }

    /** The line of a step, or null if it stays within a block. */
    step(start, end, net) {
      const { nodes } = this.layout;
      const areWires = [nodes.isWire(start), nodes.isWire(end)];
      if (!areWires[0] && !areWires[1]) return null;
      return join(
        areWires[0] ? this.wire(start, net) : this.layout.pin(start, end),
        areWires[1] ? this.wire(end, net) : this.layout.pin(end, start),
      );
    }

    /** All lines of a net as flat lists: four numbers for a line, two for a dot. */
    net(tree) {
      const { nodes } = this.layout;
      const lines = { net: tree.net, wires: [], switches: [], wrong: [], taps: [], drivers: [] };
      for (const node of tree.nodes) {
        if (nodes.isWire(node)) lines.wires.push(...this.wire(node, tree.net));
      }
      for (let at = 0; at < tree.steps.length; at += 2) {
        this.addStep(lines, tree.steps[at], tree.steps[at + 1]);
      }
      lines.bounds = boundsOf([lines.wires, lines.switches, lines.wrong]);
      return lines;
    }

    addStep(lines, start, end) {
      const line = this.step(start, end, lines.net);
      if (!line) return;
      const isWrong = this.wrong.has(`${start} -> ${end}`);
      (isWrong ? lines.wrong : lines.switches).push(...line);
      if (!this.layout.nodes.isWire(start)) {
        lines.drivers.push(line[0], line[1]);
        lines.taps.push(line[2], line[3]);
      } else if (!this.layout.nodes.isWire(end)) {
        lines.taps.push(line[0], line[1]);
      }
    }

    /** The lines of a node: its wire, or the taps of its pin. A source and a sink have none. */
    linesOf(node) {
      const nets = this.routing.netsAt(node);
      if (this.layout.nodes.isWire(node)) {
        return (this.isGlobal && nets.length ? nets : [nets[0]]).map((net) => this.wire(node, net));
      }
      const lines = [];
      for (const net of nets) {
        const { steps } = this.routing.treeOf.get(net);
        for (let at = 0; at < steps.length; at += 2) {
          const [start, end] = [steps[at], steps[at + 1]];
          if (start !== node && end !== node) continue;
          const line = this.step(start, end, net);
          if (line) lines.push(line);
        }
      }
      return lines;
    }
  }

  /** The bounding box of lines, or null if there are none. */
  function boundsOf(lists) {
    const box = [Infinity, Infinity, -Infinity, -Infinity];
    for (const list of lists) {
      for (let at = 0; at < list.length; at += 2) {
        box[0] = Math.min(box[0], list[at]);
        box[1] = Math.min(box[1], list[at + 1]);
        box[2] = Math.max(box[2], list[at]);
        box[3] = Math.max(box[3], list[at + 1]);
      }
    }
    return box[0] <= box[2] ? box : null;
  }

  // ---- Drawing ---------------------------------------------------------------------------------

  /** Which part of the layout a canvas shows: the layout's point at its corner, and the scale. */
  class View {
    constructor(layout) {
      this.layout = layout;
      this.left = 0;
      this.top = layout.height;
      this.scale = 1;
    }

    toX(x) {
      return (x - this.left) * this.scale;
    }

    toY(y) {
      return (this.top - y) * this.scale;
    }

    /** The point of the layout at a point of the canvas. */
    from(x, y) {
      return [this.left + x / this.scale, this.top - y / this.scale];
    }

    /** Shows a box in a canvas of this size, with some room around it. */
    show(box, width, height, most = MOST_SCALE) {
      const [wide, high] = [box[2] - box[0] + 24, box[3] - box[1] + 24];
      this.scale = Math.min(Math.max(Math.min(width / wide, height / high), LEAST_SCALE), most);
      this.left = (box[0] + box[2]) / 2 - width / this.scale / 2;
      this.top = (box[1] + box[3]) / 2 + height / this.scale / 2;
    }

    /** Zooms so that the point of the canvas stays where it is. */
    zoom(factor, x, y) {
      const [oldX, oldY] = this.from(x, y);
      this.scale = Math.min(Math.max(this.scale * factor, LEAST_SCALE), MOST_SCALE);
      this.left = oldX - x / this.scale;
      this.top = oldY + y / this.scale;
    }

    move(x, y) {
      this.left -= x / this.scale;
      this.top += y / this.scale;
    }

    copy() {
      return Object.assign(new View(this.layout), this);
    }
  }

  /** Draws onto a canvas what a view shows. */
  class Painter {
    constructor(canvas, layout, data) {
      this.context = canvas.getContext("2d");
      Object.assign(this, { canvas, layout, data });
    }

    /** Begins a drawing on a canvas of this size, in points of the page. */
    begin(view, width, height, ratio) {
      this.view = view;
      this.visible = [...view.from(0, height), ...view.from(width, 0)];
      if (this.canvas.width !== width * ratio || this.canvas.height !== height * ratio) {
        this.canvas.width = width * ratio;
        this.canvas.height = height * ratio;
      }
      this.context.setTransform(ratio, 0, 0, ratio, 0, 0);
      this.context.clearRect(0, 0, width, height);
    }

    sees(left, low, right, high) {
      const [seenLeft, seenLow, seenRight, seenHigh] = this.visible;
      return right >= seenLeft && left <= seenRight && high >= seenLow && low <= seenHigh;
    }

    /** Where a box is on the canvas: its upper left corner and its size. */
    onCanvas([left, low, right, high]) {
      const { scale } = this.view;
      const corner = [this.view.toX(left), this.view.toY(high)];
      return [...corner, (right - left) * scale, (high - low) * scale];
    }

    fill(box, colour) {
      if (!this.sees(...box)) return;
      this.context.fillStyle = colour;
      this.context.fillRect(...this.onCanvas(box));
    }

    outline(box, colour, width = 1) {
      if (!this.sees(...box)) return;
      this.context.strokeStyle = colour;
      this.context.lineWidth = width;
      this.context.strokeRect(...this.onCanvas(box));
    }

    /** Draws lines along an axis as filled rectangles, which is faster than strokes. */
    straight(lines, thickness) {
      const { view, context } = this;
      const half = thickness / 2;
      for (let at = 0; at < lines.length; at += 4) {
        const [x, y, endX, endY] = [lines[at], lines[at + 1], lines[at + 2], lines[at + 3]];
        if (!this.sees(x, y, endX, endY)) continue;
        const [left, top] = [view.toX(x), view.toY(endY)];
        if (y === endY) context.fillRect(left, top - half, (endX - x) * view.scale, thickness);
        else context.fillRect(left - half, top, thickness, (endY - y) * view.scale);
      }
    }

    /** Adds lines to the path of the context. */
    trace(lines) {
      const { view, context } = this;
      for (let at = 0; at < lines.length; at += 4) {
        const [x, y, endX, endY] = [lines[at], lines[at + 1], lines[at + 2], lines[at + 3]];
        const [left, right] = x < endX ? [x, endX] : [endX, x];
        if (!this.sees(left, Math.min(y, endY), right, Math.max(y, endY))) continue;
        context.moveTo(view.toX(x), view.toY(y));
        context.lineTo(view.toX(endX), view.toY(endY));
      }
    }

    stroke(lists, colour, width, dash = []) {
      this.context.beginPath();
      for (const lines of lists) this.trace(lines);
      this.context.setLineDash(dash);
      this.context.lineWidth = width;
      this.context.strokeStyle = colour;
      this.context.stroke();
      this.context.setLineDash([]);
    }

    dots(points, size) {
      const { view, context } = this;
      for (let at = 0; at < points.length; at += 2) {
        const [x, y] = [points[at], points[at + 1]];
        if (this.sees(x, y, x, y)) {
          context.fillRect(view.toX(x) - size / 2, view.toY(y) - size / 2, size, size);
        }
      }
    }

    // ---- the array

    blocks(withNames) {
      const { layout, data, view } = this;
      const edge = Math.min(1, layout.side * view.scale * 0.04);
      for (const site of data.freeSites) this.outline(layout.block(...site), "#dcdcd4", edge);
      for (const block of data.blocks) {
        const box = layout.block(block.x, block.y, block.position);
        this.fill(box, block.isPad ? "#e9eef2" : "#f3f3ee");
        this.outline(box, "#8a8a80", edge);
        const isLarge = layout.side * view.scale > 24;
        if (withNames && isLarge && this.sees(...box)) this.name(block.name, box);
      }
    }

    /** Draws a name within a box, along its longer side, without its middle if it is too long. */
    name(name, box) {
      const { view, context } = this;
      const [wide, high] = [(box[2] - box[0]) * view.scale, (box[3] - box[1]) * view.scale];
      const room = Math.max(wide, high) - 6;
      const usual = Math.min(16 * Math.max(view.scale, 0.7), Math.min(wide, high) * 0.8);
      const size = Math.min(usual, room / (CHARACTER * name.length));
      const shown = size >= LEAST_TEXT ? name : shortened(name, room);
      context.save();
      context.translate(view.toX((box[0] + box[2]) / 2), view.toY((box[1] + box[3]) / 2));
      if (high > wide) context.rotate(-Math.PI / 2);
      context.font = `${Math.max(size, LEAST_TEXT)}px sans-serif`;
      context.textAlign = "center";
      context.textBaseline = "middle";
      context.fillStyle = "#222";
      context.fillText(shown, 0, 0);
      context.restore();
    }

    /** Draws the pins of the visible logic blocks. */
    pins() {
      const { layout, data, view, context } = this;
      if (layout.spacing * view.scale < 8) return;
      context.fillStyle = "#b9b9ae";
      for (const block of data.blocks) {
        if (block.isPad || !this.sees(...layout.place(block.x, block.y))) continue;
        for (const [x, y] of pinPoints(layout, data, block)) this.dots([x, y], 3);
      }
    }

    /** Draws the tracks, or the channels if the scale is small. */
    tracks(wires) {
      const { layout, view, context, data } = this;
      if (data.isGlobal || layout.pitch * view.scale < 2) {
        context.fillStyle = "#f4f4f4";
        for (let at = 0; at <= Math.max(layout.nx, layout.ny); at++) this.channels(at);
        return;
      }
      context.fillStyle = "#e3e3e3";
      this.straight(wires, 1);
    }

    /** Draws the two channels with this number, from one end to the other. */
    channels(at) {
      const { nx, ny, padDepth, channel, width, height } = this.layout;
      const start = this.layout.channelStart(at);
      const end = start + channel;
      if (at <= ny) this.fill([padDepth, start, width - padDepth, end], "#f4f4f4");
      if (at <= nx) this.fill([start, padDepth, end, height - padDepth], "#f4f4f4");
    }

    heat(taken) {
      const { layout, data } = this;
      const last = data.heatColours.length - 1;
      for (const { kind, x, y, many } of taken.values()) {
        const colour = data.heatColours[Math.min(Math.ceil((many * last) / layout.tracks), last)];
        this.fill(layout.channelPlace(kind, x, y), colour);
      }
    }

    /** Shades wires by their histories, darker for greater ones. */
    histories(histories, sketch) {
      let most = 1;
      for (const history of histories.values()) most = Math.max(most, history);
      const { context, view, layout, data } = this;
      context.fillStyle = data.historyColour;
      for (const [node, history] of histories) {
        if (!layout.nodes.isWire(node)) continue;
        context.globalAlpha = 0.2 + (0.6 * history) / most;
        for (const line of sketch.linesOf(node)) {
          this.straight(line, Math.max(layout.pitch * view.scale * 1.1, 3));
        }
      }
      context.globalAlpha = 1;
    }

    // ---- nets

    /** Draws nets of one colour. */
    nets(nets, colour, weight) {
      const { view, context } = this;
      const scale = Math.max(view.scale, 0.25);
      const seen = nets.filter((net) => net.bounds && this.sees(...net.bounds));
      context.fillStyle = colour;
      for (const net of seen) this.straight(net.wires, Math.max(2.4 * scale * weight, 0.8));
      const thin = Math.max(1.2 * scale * weight, 0.5);
      this.stroke(seen.map((net) => net.switches), colour, thin);
      this.stroke(seen.map((net) => net.wrong), colour, thin, [4, 4]);
      if (view.scale < 0.35) return;
      for (const net of seen) {
        this.dots(net.taps, 4 * scale);
        this.dots(net.drivers, 6 * scale);
      }
    }

    overused(sketch) {
      const { layout, view, data } = this;
      const scale = Math.max(view.scale, 0.5);
      for (const node of sketch.routing.overused) {
        const lines = sketch.linesOf(node);
        if (!lines.length) this.outline(boxOfNode(layout, node), data.overusedColour, 4 * scale);
        for (const [colour, width] of [["#fff", 8], [data.overusedColour, 5]]) {
          this.stroke(lines, colour, width * scale);
        }
      }
    }
  }

  /** A name without its middle, for this much room. */
  function shortened(name, room) {
    const many = Math.max(Math.floor(room / (CHARACTER * LEAST_TEXT)) - 1, 2);
    const head = Math.ceil(many / 2);
    return `${name.slice(0, head)}\u2026${name.slice(name.length - many + head)}`;
  }

  /** The points at which the pins of a logic block are. */
  function pinPoints(layout, data, block) {
    const [left, low, right, high] = layout.place(block.x, block.y);
    const points = [];
    data.pins.forEach((pin, number) => {
      const along = layout.spacing * (number + 1);
      if (pin.sides.includes("bottom")) points.push([left + along, low, number]);
      if (pin.sides.includes("top")) points.push([left + along, high, number]);
      if (pin.sides.includes("left")) points.push([left, low + along, number]);
      if (pin.sides.includes("right")) points.push([right, low + along, number]);
    });
    return points;
  }

  /** The box of the block or pad to which a node belongs. */
  function boxOfNode(layout, node) {
    const { x, y, label, number } = layout.nodes;
    return layout.block(x[node], y[node], label[node] === PAD ? number[node] : 0);
  }

  // ---- The page --------------------------------------------------------------------------------

  /** Joins the data, the canvases and the lists. */
  class Page {
    constructor(data) {
      this.data = data;
      this.nodes = new Nodes(data.nodes);
      this.layout = new Layout(data, this.nodes);
      this.wrong = new Set(data.wrong);
      this.view = new View(this.layout);
      this.chosen = new Set(data.chosen);
      this.ground = new Painter(document.createElement("canvas"), this.layout, data);
      this.over = new Painter(element("over"), this.layout, data);
      this.trackLines = this.allTracks();
      this.lists = this.unpackLists();
      this.overuses = [];
      this.fullCost = 0;
      element("heat").checked = data.heat;
      element("title").textContent = data.title;
      this.panel = new Panel(this);
      this.showShot(data.shots.length - 1);
      this.resize();
      this.showAll();
      this.pointer = new Pointer(this);
    }

    /** The lines of all wires. */
    allTracks() {
      const lines = [];
      if (this.data.isGlobal) return lines;
      for (let node = 0; node < this.nodes.count; node++) {
        if (!this.nodes.isWire(node)) continue;
        lines.push(...this.layout.wire(node, this.layout.pitch * (this.nodes.number[node] + 1)));
      }
      return new Float32Array(lines);
    }

    /** The lists of nodes that trees are made of. */
    unpackLists() {
      const starts = unpack(this.data.lists.starts, Uint32Array);
      const all = unpack(this.data.lists.nodes, Uint32Array);
      const lists = [];
      for (let at = 0; at + 1 < starts.length; at++) {
        lists.push(all.subarray(starts[at], starts[at + 1]));
      }
      return lists;
    }

    /** The routing of a shot: of the routing of the file, or of an iteration. */
    routingOf(shot) {
      const trees = unpack(this.data.shots[shot].trees, Int32Array);
      const lists = Array.from(trees, (at) => (at < 0 ? null : this.lists[at]));
      return new Routing(this.nodes, this.data.nets, lists);
    }

    showShot(shot) {
      this.shot = shot;
      this.routing = this.routingOf(shot);
      this.overuses[shot] = this.overuseOf(this.routing);
      this.sketch = new Sketch(this.layout, this.routing, this.data.isGlobal, this.wrong);
      this.taken = this.routing.occupancy(this.data.isGlobal);
      this.histories = this.historiesOf(shot);
      this.panel.showShot();
      this.redraw();
    }

    /** By how many nets each overused node is overused. */
    overuseOf(routing) {
      return routing.overused.map((node) => [node, routing.used(node) - this.nodes.capacity[node]]);
    }

    /** The history of each node after an iteration: the sum over all iterations up to it. */
    historiesOf(shot) {
      const histories = new Map();
      if (!this.data.acc || !this.data.shots[shot].row) return histories;
      for (let at = 0; at <= shot; at++) {
        this.overuses[at] = this.overuses[at] || this.overuseOf(this.routingOf(at));
        for (const [node, excess] of this.overuses[at]) {
          histories.set(node, (histories.get(node) || 0) + excess * this.data.acc);
        }
      }
      return histories;
    }

    // ---- views

    resize() {
      const { clientWidth, clientHeight } = element("over");
      this.width = Math.max(clientWidth, 1);
      this.height = Math.max(clientHeight, 1);
      this.ratio = window.devicePixelRatio || 1;
      this.redraw();
    }

    showAll() {
      this.view.show([0, 0, this.layout.width, this.layout.height], this.width, this.height, 6);
      this.redraw();
    }

    /** Brings a box into view, unless it is visible. */
    bring(box, isClose = false) {
      const [left, low] = this.view.from(0, this.height);
      const [right, high] = this.view.from(this.width, 0);
      const isSeen = box[0] >= left && box[1] >= low && box[2] <= right && box[3] <= high;
      if (!isSeen || isClose) this.view.show(box, this.width, this.height, 3);
      this.redraw();
    }

    /** Redraws everything in the next frame. */
    redraw() {
      this.isStale = true;
      this.present();
    }

    /** Shows the view: redraws everything if that is fast, else moves the last drawing. */
    present() {
      if (this.isAsked) return;
      this.isAsked = true;
      requestAnimationFrame(() => {
        this.isAsked = false;
        if (this.isStale || this.fullCost < QUICK) this.drawAll();
        else this.drawLater();
        this.drawGround();
      });
    }

    drawLater() {
      clearTimeout(this.timer);
      this.timer = setTimeout(() => this.redraw(), REST);
    }

    /** Shows the last drawing at its position in the view. */
    drawGround() {
      const canvas = element("ground");
      const context = canvas.getContext("2d");
      const drawn = this.ground.canvas;
      const { width, height } = drawn;
      if (canvas.width !== width || canvas.height !== height) {
        Object.assign(canvas, { width, height });
      }
      const old = this.ground.view;
      const factor = this.view.scale / old.scale;
      const left = this.view.toX(old.left) * this.ratio;
      const top = this.view.toY(old.top) * this.ratio;
      context.clearRect(0, 0, width, height);
      context.setTransform(factor, 0, 0, factor, left, top);
      context.drawImage(drawn, 0, 0);
      context.setTransform(1, 0, 0, 1, 0, 0);
      this.drawOver();
    }

    drawAll() {
      const began = performance.now();
      this.isStale = false;
      clearTimeout(this.timer);
      const painter = this.ground;
      painter.begin(this.view.copy(), this.width, this.height, this.ratio);
      painter.tracks(this.trackLines);
      if (element("heat").checked) painter.heat(this.taken);
      if (element("histories").checked) painter.histories(this.histories, this.sketch);
      painter.blocks(element("names").checked);
      painter.pins();
      this.drawNets(painter);
      this.fullCost = performance.now() - began;
    }

    drawNets(painter) {
      const isChosen = (net) => this.chosen.has(net.net);
      const faded = this.chosen.size ? 0.1 : element("heat").checked ? 0.45 : 1;
      painter.context.globalAlpha = faded;
      this.drawColours(painter, this.sketch.nets.filter((net) => !isChosen(net)), 1);
      if (this.chosen.size) painter.context.globalAlpha = 0.35;
      else painter.context.globalAlpha = 1;
      painter.overused(this.sketch);
      painter.context.globalAlpha = 1;
      this.drawColours(painter, this.sketch.nets.filter(isChosen), 1.6);
    }

    drawColours(painter, nets, weight) {
      this.data.netColours.forEach((colour, at) => {
        painter.nets(nets.filter((net) => this.data.nets[net.net].colour === at), colour, weight);
      });
    }

    /** Marks what is under the pointer. */
    drawOver() {
      this.over.begin(this.view, this.width, this.height, this.ratio);
      if (this.hit && this.hit.node !== undefined) {
        const lines = this.sketch.linesOf(this.hit.node);
        this.over.stroke(lines, "#222", Math.max(4 * this.view.scale, 3));
      }
    }

    // ---- what is where

    /** What is at a point of the layout: a node, a block, or nothing. */
    at(x, y) {
      const column = Layout.part(this.layout, x, this.layout.nx);
      const row = Layout.part(this.layout, y, this.layout.ny);
      if (column.isChannel && row.isChannel) return this.passing(column, row);
      if (row.isChannel) return this.wireAt(CHANX, column.at, row.at, row.offset);
      if (column.isChannel) return this.wireAt(CHANY, column.at, row.at, column.offset);
      return this.pinAt(column.at, row.at, x, y) || this.blockAt(column, row, x, y);
    }

    /** The wire at a place of a channel that is nearest to an offset. */
    wireAt(kind, x, y, offset) {
      const { tracks, pitch } = this.layout;
      if (this.data.isGlobal) return this.globalWireAt(kind, x, y, offset);
      const track = Math.min(Math.max(Math.round(offset / pitch) - 1, 0), tracks - 1);
      const node = this.nodes.at(kind, x, y, track);
      return node === undefined ? null : { node, nets: this.routing.netsAt(node) };
    }

    /** The place of a global channel, with the net whose line is nearest first. */
    globalWireAt(kind, x, y, offset) {
      const node = this.nodes.at(kind, x, y, 0);
      if (node === undefined) return null;
      const nets = this.routing.netsAt(node);
      const distance = (net) => Math.abs(this.sketch.offset(node, net) - offset);
      return { node, nets: nets.sort((net, other) => distance(net) - distance(other)) };
    }

    /** The wire that passes a switch block there. */
    passing(column, row) {
      for (const [kind, x, y, offset] of [
        [CHANX, column.at, row.at, row.offset], [CHANY, column.at, row.at, column.offset],
      ]) {
        const hit = this.wireAt(kind, x, y, offset);
        if (!hit || !hit.nets.length) continue;
        const [end, from] = kind === CHANX ? [this.nodes.endX, x] : [this.nodes.endY, y];
        if (end[hit.node] > from) return hit;
      }
      return null;
    }

    /** The pin of a logic block near a point. */
    pinAt(x, y, pointX, pointY) {
      const block = this.data.blocks.find((one) => one.x === x && one.y === y && !one.isPad);
      if (!block) return null;
      const reach = Math.min(this.layout.spacing / 2, Math.max(3, 5 / this.view.scale));
      for (const [pinX, pinY, number] of pinPoints(this.layout, this.data, block)) {
        if (Math.abs(pinX - pointX) > reach || Math.abs(pinY - pointY) > reach) continue;
        const node = this.nodes.at(this.data.pins[number].isInput ? IPIN : OPIN, x, y, number);
        return { node, nets: this.routing.netsAt(node) };
      }
      return null;
    }

    blockAt(column, row, x, y) {
      for (const block of this.data.blocks) {
        if (block.x !== column.at || block.y !== row.at) continue;
        const [left, low, right, high] = this.layout.block(block.x, block.y, block.position);
        if (x < left || x > right || y < low || y > high) continue;
        return block.isPad ? this.padHit(block) : { block, nets: [] };
      }
      return null;
    }

    /** A pad with the node of its pin. */
    padHit(block) {
      const node = this.nodes.at(block.isInput ? OPIN : IPIN, block.x, block.y, block.position);
      return { block, node, nets: this.routing.netsAt(node) };
    }

    /** The text for what is under the pointer. */
    inWords(hit) {
      const lines = [];
      if (hit.block) lines.push(`${hit.block.isPad ? "pad" : "logic block"} ${hit.block.name}`);
      if (hit.node !== undefined) {
        lines.push(this.routing.inWords(hit.node));
        const history = this.histories.get(hit.node);
        if (history) lines.push(`history ${history}`);
      }
      const names = hit.nets.map((net) => this.data.nets[net].name);
      if (names.length) lines.push(`nets ${names.join(" ")}`);
      return lines.join("\n");
    }

    // ---- highlighted nets

    /** Highlights one of these nets: the next one if one of them is highlighted already. */
    chooseOf(nets, isAdded) {
      const at = nets.findIndex((net) => this.chosen.has(net));
      this.choose(nets.length ? nets[(at + 1) % nets.length] : null, isAdded);
    }

    /** Highlights a net, alone or in addition to others; null clears the highlights. */
    choose(net, isAdded = false) {
      if (!isAdded) this.chosen.clear();
      if (net !== null) this.chosen.add(net);
      this.panel.showChosen();
      this.redraw();
    }

    /** Highlights a net, and brings it into view. */
    find(net, isAdded) {
      this.choose(net, isAdded);
      const lines = this.sketch.netOf.get(net);
      if (lines && lines.bounds) this.bring(lines.bounds);
    }

    /** Brings an overused node into view, and highlights its nets. */
    findNode(node) {
      this.chosen = new Set(this.routing.netsAt(node));
      this.panel.showChosen();
      const lines = this.sketch.linesOf(node);
      const box = lines.length ? boundsOf(lines) : boxOfNode(this.layout, node);
      const room = this.layout.tile;
      this.bring([box[0] - room, box[1] - room, box[2] + room, box[3] + room], true);
    }
  }

  /** The side of the page: figures, iterations, legend and lists. */
  class Panel {
    constructor(page) {
      this.page = page;
      this.legend();
      this.iterations();
      for (const id of ["heat", "names", "histories"]) {
        element(id).addEventListener("change", () => page.redraw());
      }
      element("search").addEventListener("input", () => this.showNets());
      const { wrong } = page.data;
      element("wrong").hidden = !wrong.length;
      element("wrong").textContent = `${wrong.length} steps aren't switches of the device (dashed)`;
    }

    /** The slider and the rows of the log. */
    iterations() {
      const { shots } = this.page.data;
      if (!shots[0].row) return;
      element("iterations").hidden = false;
      element("with-histories").hidden = false;
      const slider = element("slider");
      slider.max = shots.length;
      slider.addEventListener("input", () => this.page.showShot(slider.value - 1));
      const row = (names, cell) => {
        const line = document.createElement("tr");
        for (const name of names) line.append(withText(cell, name));
        return line;
      };
      const [head, body] = [document.querySelector("thead"), document.querySelector("tbody")];
      head.append(row(["", "present", "overused", "excess", "unrouted", "length"], "th"));
      shots.forEach((shot, at) => {
        const line = row(shot.row, "td");
        line.addEventListener("click", () => this.page.showShot(at));
        body.append(line);
      });
    }

    showShot() {
      const { data, routing, nodes, shot } = this.page;
      const wires = nodes.kind.reduce((sum, kind) => sum + (kind >= CHANX), 0);
      const toRoute = data.nets.filter((net) => net.isRouted).length;
      element("figures").textContent = [
        `trees ${routing.trees.length} of ${toRoute}`,
        `wires ${routing.wires} of ${wires}`,
        `overused nodes ${routing.overused.length}`,
      ].join(", ");
      if (data.shots[shot].row) this.showRow(shot);
      this.showOverused();
      this.showNets();
    }

    showRow(shot) {
      element("slider").value = shot + 1;
      element("iteration").textContent = `Iteration ${shot + 1} of ${this.page.data.shots.length}`;
      document.querySelectorAll("tbody tr").forEach((line, at) => {
        line.classList.toggle("is-shown", at === shot);
        if (at === shot) line.scrollIntoView({ block: "nearest" });
      });
    }

    showOverused() {
      const { routing, data } = this.page;
      element("many-overused").textContent = `Overused nodes: ${routing.overused.length}`;
      fillList(element("overused"), routing.overused, (node) => {
        const names = routing.netsAt(node).map((net) => data.nets[net].name);
        const line = withText("li", `${routing.inWords(node)} nets ${names.join(" ")}`);
        line.addEventListener("click", () => this.page.findNode(node));
        return line;
      });
      element("overused").hidden = !routing.overused.length;
    }

    showNets() {
      const { data } = this.page;
      const wanted = element("search").value.toLowerCase();
      const nets = [...data.nets.keys()].filter(
        (net) => data.nets[net].isRouted && data.nets[net].name.toLowerCase().includes(wanted),
      );
      element("many-nets").textContent = `Nets: ${nets.length}`;
      fillList(element("nets"), nets, (net) => this.netLine(net));
      this.showChosen();
    }

    netLine(net) {
      const { data, routing } = this.page;
      const line = document.createElement("li");
      line.dataset.net = net;
      const swatch = withText("span", "");
      swatch.className = "swatch";
      swatch.style.background = data.netColours[data.nets[net].colour];
      const tree = routing.treeOf.get(net);
      const length = tree ? `length ${routing.wirelength(net)}` : "no tree";
      const note = withText("small", `${length}, sinks ${data.nets[net].sinks}`);
      line.append(swatch, withText("bdi", data.nets[net].name), " ", note);
      line.addEventListener("click", (event) => this.page.find(net, event.shiftKey));
      return line;
    }

    /** Names the highlighted nets, and marks their lines. */
    showChosen() {
      const { chosen, data } = this.page;
      const names = [...chosen].map((net) => data.nets[net].name);
      element("chosen").textContent = names.length ? `highlighted: ${names.join(" ")}` : "";
      for (const line of element("nets").children) {
        line.classList.toggle("is-chosen", chosen.has(Number(line.dataset.net)));
      }
      const first = document.querySelector("#nets .is-chosen");
      if (first) first.scrollIntoView({ block: "nearest" });
    }

    /** Fills the legend: small drawings with their texts. */
    legend() {
      const { data } = this.page;
      const colour = data.netColours[0];
      const rect = (context, fill, box) => {
        context.fillStyle = fill;
        context.fillRect(...box);
      };
      const frame = (context, fill) => {
        rect(context, "#8a8a80", [6, 1, 22, 12]);
        rect(context, fill, [7, 2, 20, 10]);
      };
      const items = [
        ["unused track", (context) => rect(context, "#d3d3d3", [0, 6, 34, 1])],
        ["wire of a net", (context) => rect(context, colour, [0, 6, 34, 2.4])],
        ["driver's pin", (context) => {
          rect(context, colour, [16, 2, 1.5, 10]);
          rect(context, colour, [13.5, 7, 6, 6]);
        }],
        ["pin that takes", (context) => {
          rect(context, colour, [16, 2, 1.5, 12]);
          rect(context, colour, [14.5, 1, 4, 4]);
        }],
        ["overused", (context) => rect(context, data.overusedColour, [0, 4, 34, 5])],
        ["logic block", (context) => frame(context, "#f3f3ee")],
        ["pad", (context) => frame(context, "#e9eef2")],
        ["empty to full", (context) => {
          data.heatColours.forEach((fill, at) => rect(context, fill, [at * 5, 1, 5, 12]));
        }],
      ];
      if (data.shots[0].row) {
        items.push(["history", (context) => {
          context.globalAlpha = 0.7;
          rect(context, data.historyColour, [0, 3, 34, 8]);
        }]);
      }
      for (const [text, paint] of items) {
        const canvas = Object.assign(document.createElement("canvas"), { width: 68, height: 28 });
        const context = canvas.getContext("2d");
        context.scale(2, 2);
        paint(context);
        element("legend").append(canvas, withText("span", text));
      }
    }
  }

  function withText(tag, text) {
    return Object.assign(document.createElement(tag), { textContent: text });
  }

  /** Fills a list with lines for items, and adds how many more there are. */
  function fillList(list, items, lineOf) {
    list.replaceChildren(...items.slice(0, MOST_ROWS).map(lineOf));
    if (items.length <= MOST_ROWS) return;
    const note = withText("li", `and ${items.length - MOST_ROWS} more`);
    note.className = "is-note";
    list.append(note);
  }

  /** Handles the mouse, touches and keys. */
  class Pointer {
    constructor(page) {
      this.page = page;
      this.pressed = new Map();
      const canvas = element("over");
      canvas.addEventListener("pointerdown", (event) => this.press(event));
      canvas.addEventListener("pointermove", (event) => this.move(event));
      canvas.addEventListener("pointerup", (event) => this.release(event));
      canvas.addEventListener("pointercancel", (event) => this.pressed.delete(event.pointerId));
      canvas.addEventListener("pointerleave", () => this.point(null));
      canvas.addEventListener("wheel", (event) => this.wheel(event), { passive: false });
      document.addEventListener("keydown", (event) => this.key(event));
      window.addEventListener("resize", () => page.resize());
      const middle = (factor) => () => this.zoom(factor, page.width / 2, page.height / 2);
      element("closer").addEventListener("click", middle(1.5));
      element("farther").addEventListener("click", middle(1 / 1.5));
      element("whole").addEventListener("click", () => page.showAll());
    }

    zoom(factor, x, y) {
      this.page.view.zoom(factor, x, y);
      this.page.present();
    }

    press(event) {
      element("over").setPointerCapture(event.pointerId);
      element("over").focus();
      this.pressed.set(event.pointerId, [event.offsetX, event.offsetY]);
      this.began = [event.offsetX, event.offsetY];
      this.isDrag = false;
    }

    move(event) {
      const old = this.pressed.get(event.pointerId);
      const now = [event.offsetX, event.offsetY];
      if (!old) {
        this.point(now);
        return;
      }
      const far = Math.hypot(now[0] - this.began[0], now[1] - this.began[1]);
      this.isDrag = this.isDrag || far > 4 || this.pressed.size > 1;
      this.pressed.set(event.pointerId, now);
      if (this.isDrag) this.drag(event.pointerId, old, now);
    }

    /** Moves the view by one pointer, or zooms by two. */
    drag(id, old, now) {
      element("over").classList.add("is-dragged");
      element("tip").hidden = true;
      const other = [...this.pressed].find(([pointer]) => pointer !== id);
      if (other) {
        const distance = ([x, y]) => Math.hypot(x - other[1][0], y - other[1][1]);
        this.page.view.zoom(distance(now) / Math.max(distance(old), 1), ...other[1]);
      } else {
        this.page.view.move(now[0] - old[0], now[1] - old[1]);
      }
      this.page.present();
    }

    release(event) {
      this.pressed.delete(event.pointerId);
      element("over").classList.remove("is-dragged");
      if (this.isDrag) return;
      const hit = this.page.at(...this.page.view.from(event.offsetX, event.offsetY));
      this.page.chooseOf(hit ? hit.nets : [], event.shiftKey);
    }

    /** Shows what is at a point of the canvas. */
    point(where) {
      const { page } = this;
      const hit = where && page.at(...page.view.from(...where));
      const isSame = page.hit && hit ? page.hit.node === hit.node : !page.hit && !hit;
      page.hit = hit;
      element("tip").hidden = !hit;
      if (hit) this.showTip(page.inWords(hit), ...where);
      if (!isSame) page.drawOver();
    }

    /** Shows a text next to a point of the canvas. */
    showTip(text, x, y) {
      const tip = element("tip");
      tip.textContent = text;
      const [wide, high] = [tip.offsetWidth, tip.offsetHeight];
      const isLow = y + 18 + high > this.page.height;
      tip.style.left = `${Math.min(x + 14, Math.max(this.page.width - wide - 4, 0))}px`;
      tip.style.top = `${isLow ? y - high - 8 : y + 18}px`;
    }

    wheel(event) {
      event.preventDefault();
      const lines = event.deltaMode === 1 ? 16 : 1;
      this.zoom(Math.exp(-event.deltaY * lines * 0.0015), event.offsetX, event.offsetY);
    }

    key(event) {
      if (event.target.tagName === "INPUT" && event.key !== "Escape") return;
      const { page } = this;
      const zoom = (factor) => this.zoom(factor, page.width / 2, page.height / 2);
      const move = (x, y) => {
        page.view.move(60 * x, 60 * y);
        page.present();
      };
      const actions = {
        Escape: () => page.choose(null),
        0: () => page.showAll(),
        "+": () => zoom(1.25),
        "=": () => zoom(1.25),
        "-": () => zoom(0.8),
        ArrowLeft: () => move(1, 0),
        ArrowRight: () => move(-1, 0),
        ArrowUp: () => move(0, 1),
        ArrowDown: () => move(0, -1),
      };
      if (actions[event.key]) actions[event.key]();
    }
  }

  return new Page(JSON.parse(element("data").textContent));
})();
