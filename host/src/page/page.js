"use strict";
// The sections: the plane that the slider or the address names, in colours, with contours and as numbers, and the number under the pointer.
// A plane is the JSON that the page has of it, a list for each x of the numbers by y; nothing is computed of it but its colours and contours.

// Colours from zero to the greatest magnitude below and above it; blue and orange differ for the colour-blind, and each darkens evenly.
const BELOW = [[255, 255, 255], [209, 229, 240], [146, 197, 222], [67, 147, 195], [33, 102, 172]];
const ABOVE = [[255, 255, 255], [254, 224, 182], [253, 184, 99], [224, 130, 20], [179, 88, 6]];
// The longer side of a section in pixels, the colours of each sign, the most contours above zero, the pixels between two on average (where they
// would be closer there are none), as many numbers as are written out before they are asked for, and the most numbers at an axis.
const SIDE = 1200;
const SHADES = 500;
const LEVELS = 5;
const CLOSEST = 20;
const LISTED = 16384;
const TICKS = 6;

// ---- colours

function mixed(stops, share) {
  const at = Math.min(share, 1) * (stops.length - 1);
  const from = Math.min(Math.floor(at), stops.length - 2);
  return stops[from].map((start, part) => Math.round(start + (at - from) * (stops[from + 1][part] - start)));
}

// The colours from the one end to the other, zero in the middle: as many that no eye tells two neighbours apart.
const COLOURS = [...Array(2 * SHADES + 1).keys()].map((at) => mixed(at < SHADES ? BELOW : ABOVE, Math.abs(at - SHADES) / SHADES));

function colour(number, most) {
  return COLOURS[SHADES + (most > 0 ? Math.round((SHADES * Math.max(-most, Math.min(most, number))) / most) : 0)];
}

function gradient() {
  const stops = [...BELOW.slice(1).reverse(), ...ABOVE].map((stop) => `rgb(${stop.join(", ")})`);
  return `linear-gradient(to right, ${stops.join(", ")})`;
}

function greatest(rows) {
  return rows.reduce((most, row) => row.reduce((most, number) => Math.max(most, Math.abs(number)), most), 0);
}

// ---- contours

function roundStep(least) {
  const ten = 10 ** Math.floor(Math.log10(least));
  return Math.max(1, [1, 2, 5, 10].map((first) => first * ten).find((step) => step >= least));
}

// Where the plane, taken as straight between neighbouring points, has a level. The cell repeats: beyond its last points come the first again.
function contour(rows, level, size) {
  const path = new Path2D();
  const above = rows.map((row) => row.map((number) => number >= level));
  for (let x = -1; x < rows.length; x++) {
    for (let y = -1; y < rows[0].length; y++) crossed(path, rows, above, x, y, level, size);
  }
  return path;
}

function crossed(path, rows, above, x, y, level, size) {
  const [down, along] = [rows.length, rows[0].length];
  const [a, b, c, d] = [x < 0 ? down - 1 : x, x + 1 < down ? x + 1 : 0, y < 0 ? along - 1 : y, y + 1 < along ? y + 1 : 0];
  const first = above[a][c];
  if (above[a][d] === first && above[b][d] === first && above[b][c] === first) return;
  const corners = [[x, y, rows[a][c]], [x, y + 1, rows[a][d]], [x + 1, y + 1, rows[b][d]], [x + 1, y, rows[b][c]]];
  const ends = [];
  corners.forEach(([fromX, fromY, from], at) => {
    const [toX, toY, to] = corners[(at + 1) % 4];
    if ((from >= level) === (to >= level)) return;
    const share = (level - from) / (to - from);
    ends.push([(fromY + share * (toY - fromY) + 0.5) * size, (fromX + share * (toX - fromX) + 0.5) * size]);
  });
  for (let at = 0; at < ends.length; at += 2) {
    path.moveTo(...ends[at]);
    path.lineTo(...ends[at + 1]);
  }
}

// How many contours there are between two neighbours along y, on average.
function crossings(rows, step) {
  const band = (number) => Math.floor(number / step);
  const total = rows.reduce((sum, row) => row.reduce((sum, number, y) => sum + Math.abs(band(number) - band(row[(y + 1) % row.length])), sum), 0);
  return total / (rows.length * rows[0].length);
}

// ---- a section

class Panel {
  constructor(figure) {
    this.figure = figure;
    this.lengths = figure.dataset.lengths.split(" ").map(Number);
    this.most = Number(figure.dataset.most);
    this.planes = new Map();
    for (const script of document.querySelectorAll(`script[data-map="${figure.dataset.map}"]`)) this.planes.set(Number(script.dataset.z), script);
    this.rows = null;
    const longer = Math.max(this.lengths[0], this.lengths[1]);
    this.size = Math.max(1, Math.floor(SIDE / longer));
    this.canvas = this.part("canvas");
    this.canvas.width = this.size * this.lengths[1];
    this.canvas.height = this.size * this.lengths[0];
    this.part(".bar").style.background = gradient();
    this.ticks(".along", "y", this.lengths[1], "left");
    this.ticks(".down", "x", this.lengths[0], "top");
    this.part("details").addEventListener("toggle", () => this.list());
  }

  part(selector) {
    return this.figure.querySelector(selector);
  }

  ticks(selector, name, length, edge) {
    const step = length <= TICKS ? 1 : roundStep(length / TICKS);
    for (let at = 0; at < length; at += step) {
      const tick = document.createElement("span");
      tick.textContent = at === 0 ? `${name} 0` : at;
      tick.style[edge] = `${100 * (at + 0.5) / length}%`;
      this.part(selector).append(tick);
    }
  }

  // Shows plane z, if the page has it.
  show(z, contours, full) {
    const script = this.planes.get(z);
    this.z = z;
    this.rows = script ? JSON.parse(script.textContent) : null;
    this.part(".numbers").textContent = "";
    this.describe();
    if (!this.rows) {
      this.canvas.getContext("2d").clearRect(0, 0, this.canvas.width, this.canvas.height);
      return;
    }
    const most = full === "plane" ? greatest(this.rows) : full;
    this.paint(most);
    this.legend(most, contours ? this.draw(most) : "");
    this.list();
  }

  paint(most) {
    const [down, along] = this.lengths;
    const small = document.createElement("canvas");
    [small.width, small.height] = [along, down];
    const image = new ImageData(along, down);
    image.data.fill(255);
    this.rows.flat().forEach((number, at) => image.data.set(colour(number, most), 4 * at));
    small.getContext("2d").putImageData(image, 0, 0);
    const onto = this.canvas.getContext("2d");
    onto.imageSmoothingEnabled = false;
    onto.drawImage(small, 0, 0, this.canvas.width, this.canvas.height);
  }

  // Draws the contours, whole lines above zero and dashed ones below, and says where they are.
  draw(most) {
    if (most === 0) return "";
    const step = roundStep(most / LEVELS);
    if (crossings(this.rows, step) * CLOSEST > this.size) return "No contours here: neighbouring numbers differ by too much for lines between them. ";
    const onto = this.canvas.getContext("2d");
    onto.strokeStyle = "#1b1f24";
    onto.lineWidth = 2;
    for (let level = step; level < most; level += step) {
      onto.setLineDash([]);
      onto.stroke(contour(this.rows, level, this.size));
      onto.setLineDash([9, 7]);
      onto.stroke(contour(this.rows, -level, this.size));
    }
    return `Contours at multiples of ${step}: whole lines above zero, dashed below. `;
  }

  legend(most, contours) {
    this.part(".ends").replaceChildren(...[-most, 0, most].map((number) => {
      const end = document.createElement("span");
      end.textContent = number === 0 ? 0 : number;
      return end;
    }));
    this.part(".bar").setAttribute("aria-label", `Colours: blue to ${-most}, white at 0, orange to ${most}`);
    this.part(".levels").textContent = `${contours}x goes down, y to the right.`;
  }

  describe() {
    let said = `has no plane z = ${this.z} in this page`;
    if (this.rows) {
      const [least, most] = [Math.min, Math.max].map((end) => end(...this.rows.map((row) => end(...row))));
      said = `z = ${this.z}: from ${least} to ${most}`;
    }
    this.part(".plane").textContent = said;
    this.canvas.setAttribute("aria-label", `Section of ${this.figure.dataset.name}: ${said}`);
  }

  // The numbers as text: of a large plane when they are asked for.
  list() {
    const [down, along] = this.lengths;
    if (!this.rows || (down * along > LISTED && !this.part("details").open)) return;
    this.part(".numbers").textContent = this.rows.map((row, x) => `${this.z} ${x} ${row.join(" ")}\n`).join("");
  }

  // Marks a point and tells its number.
  mark(x, y) {
    const [down, along] = this.lengths;
    const inside = this.rows !== null && x < down && y < along;
    const marker = this.part(".marker");
    marker.hidden = !inside;
    Object.assign(marker.style, { left: `${100 * y / along}%`, top: `${100 * x / down}%`, width: `${100 / along}%`, height: `${100 / down}%` });
    this.part(".point").textContent = inside ? `x ${x}, y ${y}, z ${this.z}: ${this.rows[x][y]}` : "";
  }

  // The point under the pointer.
  under(event) {
    const box = this.canvas.getBoundingClientRect();
    const index = (part, length) => Math.max(0, Math.min(length - 1, Math.floor(part * length)));
    return [index((event.clientY - box.top) / box.height, this.lengths[0]), index((event.clientX - box.left) / box.width, this.lengths[1])];
  }
}

// ---- sections that show one plane and one point

class View {
  constructor(section) {
    this.panels = [...section.querySelectorAll("figure.section")].map((figure) => new Panel(figure));
    this.planes = [...new Set(this.panels.flatMap((panel) => [...panel.planes.keys()]))].sort((a, b) => a - b);
    this.at = { x: Number(section.dataset.x || 0), y: Number(section.dataset.y || 0), z: this.planes[0] };
    this.pointed = () => {};
    for (const panel of this.panels) this.listen(panel);
  }

  listen(panel) {
    const field = panel.part(".field");
    const point = (event) => this.point(...panel.under(event));
    field.addEventListener("pointermove", point);
    field.addEventListener("pointerdown", (event) => {
      point(event);
      this.pointed();
    });
    field.addEventListener("keydown", (event) => {
      const step = { ArrowUp: [-1, 0], ArrowDown: [1, 0], ArrowLeft: [0, -1], ArrowRight: [0, 1] }[event.key];
      if (!step) return;
      event.preventDefault();
      const moved = (at, by, length) => Math.max(0, Math.min(length - 1, at + by));
      this.point(moved(this.at.x, step[0], panel.lengths[0]), moved(this.at.y, step[1], panel.lengths[1]));
      this.pointed();
    });
  }

  point(x, y) {
    Object.assign(this.at, { x, y });
    for (const panel of this.panels) panel.mark(x, y);
  }

  show(contours, scale) {
    const both = Math.max(...this.panels.map((panel) => panel.most));
    for (const panel of this.panels) panel.show(this.at.z, contours, { map: panel.most, both, plane: "plane" }[scale]);
    this.point(this.at.x, this.at.y);
  }
}

// ---- the page

// The overlay has one plane alone.
function showOverlay() {
  const section = document.getElementById("overlay");
  if (section) new View(section).show(true, "map");
}

function showSections() {
  const part = (id) => document.getElementById(id);
  const [slider, plane, scale, contours] = ["z", "plane", "scale", "contours"].map(part);
  if (!slider) return;
  const view = new View(part("sections"));
  slider.max = view.planes.length - 1;
  slider.disabled = view.planes.length < 2;
  const show = () => {
    slider.value = view.planes.indexOf(view.at.z);
    slider.setAttribute("aria-valuetext", `z ${view.at.z}`);
    plane.textContent = `${view.at.z} (${view.planes.length > 1 ? `${view.planes[0]} to ${view.planes.at(-1)}` : "the only one"})`;
    view.show(contours.checked, scale.value);
  };
  const remember = () => history.replaceState(null, "", `#z=${view.at.z}&x=${view.at.x}&y=${view.at.y}`);
  const follow = () => {
    const asked = new URLSearchParams(location.hash.slice(1));
    for (const name of ["z", "x", "y"]) {
      const number = /^\d+$/.test(asked.get(name) ?? "") ? Number(asked.get(name)) : view.at[name];
      if (name !== "z" || view.planes.includes(number)) view.at[name] = number;
    }
    show();
  };
  view.pointed = remember;
  slider.addEventListener("input", () => {
    view.at.z = view.planes[slider.value];
    show();
    remember();
  });
  for (const choice of [scale, contours]) choice.addEventListener("change", show);
  part("sections").querySelector("form").addEventListener("submit", (event) => event.preventDefault());
  addEventListener("hashchange", follow);
  follow();
}

showSections();
showOverlay();
